//! Shows the frames of a log as the proved library reads them; see ../README.md.
mod explain;
mod line;
mod objects;
mod options;
mod paint;
mod proved;
// The record's layout is written down once, for the comparison with the Rust, which also writes records.
#[allow(dead_code)]
#[path = "../../src/asdu/record.rs"]
mod record;
mod rows;
mod summary;
mod table;
mod words;

use std::{
    env,
    ffi::OsStr,
    fs::File,
    io::{self, Read, Write},
    process::ExitCode,
};

use explain::{Explanation, Failure};
use options::{Ended, HELP, Options};
use paint::Paint;

const WRONG: u8 = 2;

fn main() -> ExitCode {
    match options::parse(env::args_os().skip(1)) {
        Ok(options) => run(&options),
        Err(Ended::Help) => ended(writeln!(io::stdout(), "{HELP}"), ExitCode::SUCCESS),
        Err(Ended::Wrong(message)) => {
            eprintln!("explain: {message} (--help says what there is)");
            ExitCode::from(WRONG)
        }
    }
}

fn run(options: &Options) -> ExitCode {
    let paint = Paint::for_standard_output(options.colour);
    let mut explanation = Explanation::new(io::stdout().lock(), paint);
    let mut unread = false;
    for name in &options.files {
        let title = (options.files.len() > 1).then(|| name.to_string_lossy());
        let done = opened(name)
            .map_err(Failure::Input)
            .and_then(|input| explanation.input(title.as_deref(), input));
        match done {
            Ok(()) => {}
            Err(Failure::Input(error)) => {
                eprintln!("explain: {}: {error}", name.to_string_lossy());
                unread = true;
            }
            Err(Failure::Output(error)) => return ended(Err(error), explanation.status()),
        }
    }
    let done = explanation.close();
    ended(done, if unread { ExitCode::from(WRONG) } else { explanation.status() })
}

fn opened(name: &OsStr) -> io::Result<Box<dyn Read>> {
    if name == "-" {
        return Ok(Box::new(io::stdin().lock()));
    }
    Ok(Box::new(File::open(name)?))
}

/// Who reads the output may stop before its end.
fn ended(written: io::Result<()>, status: ExitCode) -> ExitCode {
    match written {
        Err(error) if error.kind() != io::ErrorKind::BrokenPipe => {
            eprintln!("explain: standard output: {error}");
            ExitCode::from(WRONG)
        }
        _ => status,
    }
}
