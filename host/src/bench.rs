//! Times the proved library beside the Rust and beside a plain copy of the same octets, in one run. The three take turns
//! in short rounds, so that a slow moment of the machine falls on all of them, and the best round of each counts.
use std::{hint::black_box, time::Instant};

use iec104::apdu::Apdu;

use crate::streams;

/// The exported functions of crates/bench_bridge and crates/bench_walk. A slice goes over as its address and its length.
pub mod exported {
    unsafe extern "C" {
        pub fn gb_read(frame: *const u8, len: usize, place: usize) -> u32;
        pub fn gb_check(frame: *const u8, len: usize) -> u32;
        pub fn gb_plain(frame: *const u8, len: usize) -> u32;
        pub fn gb_walk(frame: *const u8, len: usize) -> u32;
        pub fn gb_write(
            frame: *const u8,
            len: usize,
            out: *mut u8,
            out_len: usize,
            times: u32,
        ) -> u32;
    }
}

const ROUNDS: u32 = 4_000;
const CALLS: u32 = 100;
const FIRST_ADDRESS: u32 = 10;

struct Case {
    name: &'static str,
    count: u8,
    frame: Vec<u8>,
}

/// The value of counter `i`.
fn value(i: u8) -> i32 {
    1000 * (i32::from(i) + 1) * if i % 2 == 0 { 1 } else { -1 }
}

/// An I frame with counters of type 15: send number 2, receive number 3, cause 3, common address 1, addresses from 10 on.
pub fn counters(count: u8, sequence: bool) -> Vec<u8> {
    let mut asdu = vec![15, count | u8::from(sequence) << 7, 3, 0, 1, 0];
    for i in 0..count {
        if i == 0 || !sequence {
            let address = FIRST_ADDRESS + u32::from(i);
            asdu.extend_from_slice(&address.to_le_bytes()[..3]);
        }
        asdu.extend_from_slice(&value(i).to_le_bytes());
        asdu.push(i % 32);
    }
    let length = u8::try_from(4 + asdu.len()).expect("at most 253");
    let mut frame = vec![0x68, length, 4, 0, 6, 0];
    frame.append(&mut asdu);
    frame
}

/// What one of the three does with a frame, so many times.
type Work<'a> = Box<dyn FnMut(u32) + 'a>;

struct Row<'a> {
    name: &'static str,
    ours: Work<'a>,
    rust: Work<'a>,
}

fn repeated<'a>(mut call: impl FnMut() + 'a) -> Work<'a> {
    Box::new(move |times| (0..times).for_each(|_| call()))
}

/// One call of the library, with the frame's address hidden from the optimiser. A number other than `right` is a fault.
fn asked<'a>(
    frame: &'a [u8],
    right: u32,
    call: unsafe extern "C" fn(*const u8, usize) -> u32,
) -> Work<'a> {
    repeated(move || {
        let frame = black_box(frame);
        assert_eq!(unsafe { call(frame.as_ptr(), frame.len()) }, right);
    })
}

fn read_by_us(frame: &[u8]) -> Work<'_> {
    repeated(move || {
        let frame = black_box(frame);
        let address = unsafe { exported::gb_read(frame.as_ptr(), frame.len(), black_box(0)) };
        assert_eq!(address, FIRST_ADDRESS);
    })
}

/// The library reads the frame once and then writes its record, `times` times.
fn written_by_us(frame: &[u8]) -> Work<'_> {
    Box::new(move |times| {
        let mut out = [0; 256];
        let written = unsafe {
            let (to, room) = (out.as_mut_ptr(), out.len());
            exported::gb_write(frame.as_ptr(), frame.len(), to, room, black_box(times))
        };
        black_box(&out);
        assert_eq!(written as usize, frame.len());
    })
}

fn read_by_rust(frame: &[u8]) -> Apdu {
    let read = Apdu::from_bytes(black_box(frame));
    black_box(read).expect("the Rust reads it")
}

/// What walking adds up to, by the octets: the addresses, the values and the sequence numbers of the counters.
fn sum_of(count: u8) -> u32 {
    let of = |i| FIRST_ADDRESS.wrapping_add_signed(i32::from(i) + value(i) + i32::from(i % 32));
    (0..count).map(of).fold(0, u32::wrapping_add)
}

fn rows(Case { frame, count, .. }: &Case) -> [Row<'_>; 5] {
    let apdu = read_by_rust(frame);
    [
        Row {
            name: "read to a record",
            ours: read_by_us(frame),
            rust: repeated(|| drop(read_by_rust(frame))),
        },
        Row {
            name: "check",
            ours: asked(frame, 0, exported::gb_check),
            rust: repeated(|| drop(read_by_rust(frame))),
        },
        Row {
            name: "walk the objects",
            ours: asked(frame, sum_of(*count), exported::gb_walk),
            rust: repeated(|| drop(read_by_rust(frame))),
        },
        Row {
            name: "plain form",
            ours: asked(frame, 0, exported::gb_plain),
            rust: repeated(move || {
                let again = read_by_rust(frame).to_bytes().expect("the Rust writes it");
                black_box(again == *frame);
            }),
        },
        Row {
            name: "write from a record",
            ours: written_by_us(frame),
            rust: repeated(move || drop(black_box(black_box(&apdu).to_bytes()))),
        },
    ]
}

fn copied(frame: &[u8]) -> Work<'_> {
    let mut out = [0; 256];
    repeated(move || {
        let frame = black_box(frame);
        black_box(&mut out)[..frame.len()].copy_from_slice(frame);
    })
}

/// Nanoseconds for a call, in one round.
fn timed(work: &mut Work) -> f64 {
    let started = Instant::now();
    work(CALLS);
    started.elapsed().as_nanos() as f64 / f64::from(CALLS)
}

/// The best round of each of the three.
fn best<'a>(row: &mut Row<'a>, frame: &'a [u8]) -> [f64; 3] {
    let mut copy = copied(frame);
    let mut best = [f64::INFINITY; 3];
    for _ in 0..ROUNDS {
        let works = [&mut row.ours, &mut row.rust, &mut copy];
        for (best, work) in best.iter_mut().zip(works) {
            *best = best.min(timed(work));
        }
    }
    best
}

pub fn bench() -> bool {
    println!("nanoseconds for a frame, the best of {ROUNDS} rounds of {CALLS} calls");
    println!(
        "{:<24} {:>6} {:<20} {:>8} {:>8} {:>8} {:>10} {:>10}",
        "frame", "octets", "what", "ours", "Rust", "copy", "ours/Rust", "ours/copy"
    );
    let cases = [
        Case { name: "1 counter", count: 1, frame: counters(1, false) },
        Case { name: "30 counters, plain", count: 30, frame: counters(30, false) },
        Case { name: "48 counters in sequence", count: 48, frame: counters(48, true) },
    ];
    for case @ Case { name, frame, .. } in &cases {
        for mut row in rows(case) {
            let [ours, rust, copy] = best(&mut row, frame);
            println!(
                "{name:<24} {:>6} {:<20} {ours:>8.1} {rust:>8.1} {copy:>8.1} {:>10.3} {:>10.1}",
                frame.len(),
                row.name,
                ours / rust,
                ours / copy
            );
        }
    }
    streams::bench::bench();
    crate::link::bench::bench();
    true
}
