//! Topping up and picking, written from the words of document 01.
use super::{
    answers::{Picked, Stepped},
    proved::CARRY_SIZE,
};
use crate::{
    asdu::answers::Refusal,
    frames::layout::{ASDU_AT, CONTROL_SIZE, MAX_LENGTH, START},
};

/// The most that a carry may hold.
const MAX_HELD: usize = 255;

/// "33: carry buffer under 255 or its count above 255".
fn carry_refused(carry: &[u8], held: usize) -> Result<(), Refusal> {
    if carry.len() < CARRY_SIZE || held > MAX_HELD { Err(Refusal::Number(33)) } else { Ok(()) }
}

/// "Once 3 bytes are on hand, 2, 3, 1".
fn start_refused(on_hand: &[u8]) -> Result<(), Refusal> {
    let &[first, length, _, ..] = on_hand else { return Ok(()) };
    let (first, length) = (first, usize::from(length));
    let numbers = [(first != START, 2), (length > MAX_LENGTH, 3), (length < CONTROL_SIZE, 1)];
    let refused = numbers.iter().find(|(is_so, _)| *is_so);
    refused.map_or(Ok(()), |(_, number)| Err(Refusal::Number(*number)))
}

/// The bytes of the frame at the start, once it is whole.
fn whole(octets: &[u8]) -> Option<usize> {
    let size = 2 + usize::from(*octets.get(1)?);
    (octets.len() >= ASDU_AT.max(size)).then_some(size)
}

/// "Topping up moves chunk bytes into the carry until it holds one whole frame or the chunk is used up; its answer tells
/// how many." On hand is the carry followed by the chunk.
pub fn top_up(carry: &mut [u8], held: usize, chunk: &[u8]) -> Result<usize, Refusal> {
    carry_refused(carry, held)?;
    start_refused(&[&carry[..held], chunk].concat())?;
    let mut moved = 0;
    while moved < chunk.len() && whole(&carry[..held + moved]).is_none() {
        carry[held + moved] = chunk[moved];
        moved += 1;
    }
    Ok(moved)
}

/// "The next frame is a part of the carry if the carry holds anything, else of the chunk, or the answer is more." On hand
/// is the one that it picks from.
pub fn which(carry: &[u8], held: usize, chunk: &[u8]) -> Result<Picked, Refusal> {
    carry_refused(carry, held)?;
    let from = if held > 0 { &carry[..held] } else { chunk };
    start_refused(from)?;
    Ok(match whole(from) {
        Some(size) if held > 0 => Picked::Carry(size),
        Some(size) => Picked::Chunk(size),
        None => Picked::More,
    })
}

/// "More and a refusal have the empty part."
pub fn part(carry: &[u8], held: usize, chunk: &[u8]) -> Vec<u8> {
    match which(carry, held, chunk) {
        Ok(Picked::Carry(size)) => carry[..size].to_vec(),
        Ok(Picked::Chunk(size)) => chunk[..size].to_vec(),
        Ok(Picked::More) | Err(_) => Vec::new(),
    }
}

pub fn step(carry: &mut [u8], held: usize, chunk: &[u8]) -> Result<Stepped, Refusal> {
    match which(carry, held, chunk)? {
        Picked::More => {
            let moved = top_up(carry, held, chunk)?;
            Ok(Stepped::after(moved, which(carry, held + moved, chunk)?))
        }
        picked => Ok(Stepped::after(0, picked)),
    }
}
