//! Holds the proved library to the Rust crate iec104 0.6.0; see README.md.
mod asdu;
mod bench;
mod entries;
mod frames;
mod hex;
mod judge;
mod link;
mod numbers;
mod octets;
mod panics;
mod proved;
mod random;
mod refusals;
mod report;
mod rust;
mod sample;
mod show;
mod streams;

use std::{env, process::ExitCode, time::Instant};

use random::Random;
use report::Report;

const USAGE: &str = "grassglisten-host COMMAND
  compare [--quick | --full] [--seed N]   the proved library and the Rust on the same inputs; 1 where they differ
  bench                                   times the library, the Rust and a plain copy of the same octets
  show ENTRY                              an entry of docs/DIFFERENCES.md: both sides on its smallest inputs
  sample                                  the Rust's answers that crates/replay replays, to standard output
  rust frame HEX | rust asdu HEX          what the Rust reads, and writes again
  rust link WORD..                        what the Rust's link does, event by event: settings k=N w=N p=N t1=MS
                                          t2=MS t3=MS sent=N received=N unconfirmed=N, then recv=HEX send=HEX
                                          stop test end advance=MS skip=MS first=N";

const SEED: u64 = 104;
const QUICK_NUMBERS: u32 = 1_000_000;
const FULL_NUMBERS: u32 = 50_000_000;

fn main() -> ExitCode {
    let words: Vec<String> = env::args().skip(1).collect();
    let words: Vec<&str> = words.iter().map(String::as_str).collect();
    let done = match words.as_slice() {
        ["compare", options @ ..] => compare(options),
        ["bench"] => Ok(bench::bench()),
        ["show", entry] => show::show(entry),
        ["sample"] => Ok(sample::write()),
        ["rust", "frame", hex @ ..] => rust::frame(&hex.concat()),
        ["rust", "asdu", hex @ ..] => rust::asdu(&hex.concat()),
        ["rust", "link", words @ ..] => rust::link(words),
        _ => Err(USAGE.to_owned()),
    };
    match done {
        Ok(true) => ExitCode::SUCCESS,
        Ok(false) => ExitCode::FAILURE,
        Err(message) => {
            eprintln!("{message}");
            ExitCode::from(2)
        }
    }
}

fn compare(options: &[&str]) -> Result<bool, String> {
    let (mut full, mut seed) = (false, SEED);
    let mut options = options.iter();
    while let Some(&option) = options.next() {
        match option {
            "--quick" => full = false,
            "--full" => full = true,
            "--seed" => {
                let given = options.next().and_then(|word| word.parse().ok());
                seed = given.ok_or("--seed N")?;
            }
            _ => return Err(format!("{option}?\n{USAGE}")),
        }
    }
    let started = Instant::now();
    let (mut report, mut random) = (Report::default(), Random::from_seed(seed));
    show::compare(&mut report);
    octets::compare(&mut report);
    numbers::compare(&mut report, &mut random, if full { FULL_NUMBERS } else { QUICK_NUMBERS });
    let extent = if full { &asdu::compare::FULL } else { &asdu::compare::QUICK };
    asdu::compare::compare(&mut report, &mut random, extent);
    let extent = if full { &frames::compare::FULL } else { &frames::compare::QUICK };
    frames::compare::compare(&mut report, &mut random, extent);
    let extent = if full { &streams::compare::FULL } else { &streams::compare::QUICK };
    streams::compare::compare(&mut report, &mut random, extent);
    link::compare::compare(&mut report, seed, full);
    let same = report.close();
    println!("seed {seed}, {:.1} s", started.elapsed().as_secs_f64());
    Ok(same)
}
