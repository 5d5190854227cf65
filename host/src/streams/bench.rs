//! Times assembling beside the Rust's and beside a plain copy of the same chunks, in one run as `crate::bench` does.
use std::{collections::VecDeque, hint::black_box, time::Instant};

use iec104::receive_handler::opened;

use super::proved::{CARRY_SIZE, IN_CARRY, IN_CHUNK, MORE, step_number, taken_apart};
use crate::{
    bench::{counters, exported},
    frames::layout,
};

const ROUNDS: u32 = 40;
const CHUNKS: [usize; 3] = [1, 64, 1_460];

/// The stream is timed in pieces that are shorter than a turn of the processor: the best round of each counts.
const PIECES: usize = 57;
const BLOCKS_OF_A_PIECE: usize = 30;

/// An S frame, and I frames with 1, 30, 5 and 48 counters, over and over: a piece of the stream.
fn piece() -> Vec<u8> {
    let frames = [
        layout::frame(layout::s_control(3), &[]),
        counters(1, false),
        counters(30, false),
        counters(5, false),
        counters(48, true),
    ];
    frames.concat().repeat(BLOCKS_OF_A_PIECE)
}

/// The frames of the stream, each given to `take`; how many there are.
fn assembled(stream: &[u8], size: usize, mut take: impl FnMut(&[u8])) -> usize {
    let (mut carry, mut held, mut frames) = ([0; CARRY_SIZE], 0, 0);
    for chunk in stream.chunks(size) {
        let mut rest = black_box(chunk);
        while !rest.is_empty() {
            let (what, moved, size) = taken_apart(step_number(&mut carry, held, rest));
            match what {
                IN_CHUNK => {
                    take(&rest[..size]);
                    frames += 1;
                    rest = &rest[size..];
                }
                IN_CARRY => {
                    take(&carry[..size]);
                    frames += 1;
                    held = 0;
                    rest = &rest[moved..];
                }
                MORE => {
                    held += moved;
                    rest = &rest[moved..];
                }
                _ => panic!("a good stream is refused"),
            }
        }
    }
    frames
}

/// As the loop of `receive_task` does, which also reads each frame.
fn assembled_by_rust(stream: &[u8], size: usize) -> usize {
    let (mut buffer, mut frames) = (VecDeque::with_capacity(512), 0);
    for chunk in stream.chunks(size) {
        buffer.extend(black_box(chunk).iter());
        while let Some(apdu) = opened::pick(&mut buffer).expect("a good stream") {
            drop(black_box(apdu));
            frames += 1;
        }
    }
    frames
}

fn copied(stream: &[u8], size: usize, out: &mut [u8]) -> usize {
    for (from, to) in stream.chunks(size).zip(out.chunks_mut(size)) {
        black_box(to).copy_from_slice(black_box(from));
    }
    0
}

fn check(frame: &[u8]) {
    assert_eq!(unsafe { exported::gb_check(frame.as_ptr(), frame.len()) }, 0);
}

fn read(frame: &[u8]) {
    black_box(unsafe { exported::gb_read(frame.as_ptr(), frame.len(), black_box(0)) });
}

/// What is done with each frame that the library assembles.
const ROWS: [(&str, fn(&[u8])); 3] = [
    ("assemble", |frame| {
        black_box(frame);
    }),
    ("assemble, check", check),
    ("assemble, read to a record", read),
];

/// Milliseconds, and how many frames were had.
fn timed(work: impl FnOnce() -> usize) -> (f64, usize) {
    let started = Instant::now();
    let frames = work();
    (started.elapsed().as_secs_f64() * 1e3, frames)
}

/// The best round of each of the three on a piece.
fn best(piece: &[u8], out: &mut [u8], size: usize, take: fn(&[u8])) -> [f64; 3] {
    let mut best = [f64::INFINITY; 3];
    for _ in 0..ROUNDS {
        let (ours, frames) = timed(|| assembled(piece, size, take));
        let (rust, rust_frames) = timed(|| assembled_by_rust(piece, size));
        let (copy, _) = timed(|| copied(piece, size, out));
        assert_eq!(frames, rust_frames);
        best = [best[0].min(ours), best[1].min(rust), best[2].min(copy)];
    }
    best
}

pub fn bench() {
    let piece = piece();
    let stream = piece.repeat(PIECES);
    let mut out = vec![0; stream.len()];
    println!(
        "milliseconds for a stream of {} bytes, {} frames, in {PIECES} pieces, the best of {ROUNDS} rounds of each",
        stream.len(),
        assembled_by_rust(&stream, stream.len())
    );
    println!(
        "{:>8} {:<28} {:>8} {:>8} {:>8} {:>10} {:>10}",
        "chunk", "what", "ours", "Rust", "copy", "ours/Rust", "ours/copy"
    );
    for size in CHUNKS {
        for (name, take) in ROWS {
            let pieces = stream.chunks(piece.len()).zip(out.chunks_mut(piece.len()));
            let bests = pieces.map(|(piece, out)| best(piece, out, size, take));
            let [ours, rust, copy] = bests
                .fold([0.0; 3], |[a, b, c], [ours, rust, copy]| [a + ours, b + rust, c + copy]);
            println!(
                "{size:>8} {name:<28} {ours:>8.3} {rust:>8.3} {copy:>8.3} {:>10.3} {:>10.1}",
                ours / rust,
                ours / copy
            );
        }
    }
}
