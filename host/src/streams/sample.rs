//! The part of the stored sample that has streams.
use std::collections::VecDeque;

use super::{
    judge, make,
    proved::{IN_CARRY, IN_CHUNK, MORE},
};
use crate::{
    asdu::{answers::Refusal, sample::line},
    random::Random,
};

const STREAMS: usize = 12;
const FRAMES: usize = 4;

/// The most bytes on hand in a line.
const MAX_GIVEN: usize = 256;

/// `t` takes a step of assembling. Given is what is on hand; told is how much of it the carry holds, and then the number
/// that crates/bridge_streams has for a frame that the Rust cuts, for more, or for the Rust's refusal.
pub fn lines(random: &mut Random) -> String {
    let streams = (0..STREAMS).map(|_| {
        let octets = make::stream(random, FRAMES);
        let cuts = make::cuts(random, octets.len());
        steps(&octets, &cuts)
    });
    streams.collect()
}

/// The steps of a stream, up to a refusal, or to where the Rust waits in vain.
fn steps(octets: &[u8], cuts: &[usize]) -> String {
    let mut lines = String::new();
    let (mut at, mut held) = (0, 0);
    for &cut in cuts {
        while at + held < cut {
            let on_hand = &octets[at..cut];
            let taken = judge::taken(&mut VecDeque::from(on_hand.to_vec()));
            if judge::is_too_short(on_hand) && taken == Ok(None) {
                return lines;
            }
            if on_hand.len() <= MAX_GIVEN {
                lines += &line('t', on_hand, &told(held, on_hand.len(), &taken));
            }
            match taken {
                Ok(Some(frame)) => (at, held) = (at + frame.len(), 0),
                Ok(None) => held = on_hand.len(),
                Err(_) => return lines,
            }
        }
    }
    lines
}

fn told(held: usize, on_hand: usize, taken: &Result<Option<Vec<u8>>, Refusal>) -> Vec<u8> {
    let (what, moved, size) = match taken {
        Ok(Some(frame)) if held == 0 => (IN_CHUNK, 0, frame.len()),
        Ok(Some(frame)) => (IN_CARRY, frame.len() - held, frame.len()),
        Ok(None) => (MORE, on_hand - held, 0),
        Err(refusal) => (0, 0, usize::from(refusal.number().expect("a number"))),
    };
    let number = what << 24 | (moved << 12 | size) as u32;
    [&[held as u8], number.to_be_bytes().as_slice()].concat()
}
