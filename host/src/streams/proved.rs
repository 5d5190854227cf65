//! The proved library's answers in assembling, through the exported functions of crates/bridge_streams_c. Each call is seen
//! to change only what it says.
use super::answers::{Fed, Picked, Stepped};
use crate::{
    asdu::{answers::Refusal, proved::refused},
    hex::Hex,
    proved::UNTOUCHED,
};

/// The exported functions. A slice goes over as its address and its length.
mod exported {
    unsafe extern "C" {
        pub fn gg_stream_top_up(
            carry: *mut u8,
            carry_len: usize,
            held: usize,
            chunk: *const u8,
            chunk_len: usize,
        ) -> u32;
        pub fn gg_stream_which(
            carry: *const u8,
            carry_len: usize,
            held: usize,
            chunk: *const u8,
            chunk_len: usize,
        ) -> u32;
        pub fn gg_stream_pick(
            carry: *const u8,
            carry_len: usize,
            held: usize,
            chunk: *const u8,
            chunk_len: usize,
            place: usize,
        ) -> u32;
        pub fn gg_stream_step(
            carry: *mut u8,
            carry_len: usize,
            held: usize,
            chunk: *const u8,
            chunk_len: usize,
        ) -> u32;
    }
}

/// The least room of a carry.
pub const CARRY_SIZE: usize = 255;

/// What an answer's number says that it is (crates/bridge_streams); 0 stands for a refusal.
pub const IN_CARRY: u32 = 1;
pub const IN_CHUNK: u32 = 2;
pub const MORE: u32 = 3;

/// An answer's number taken apart: what it is, how many bytes were moved, and how many the frame has.
#[inline]
pub fn taken_apart(number: u32) -> (u32, usize, usize) {
    (number >> 24, (number >> 12 & 0xFFF) as usize, (number & 0xFFF) as usize)
}

fn told(number: u32) -> Result<(u32, usize, usize), Refusal> {
    let parts = taken_apart(number);
    if parts.0 == 0 { Err(refused(number)) } else { Ok(parts) }
}

pub fn top_up(carry: &mut [u8], held: usize, chunk: &[u8]) -> Result<usize, Refusal> {
    let number = unsafe {
        let (to, room) = (carry.as_mut_ptr(), carry.len());
        exported::gg_stream_top_up(to, room, held, chunk.as_ptr(), chunk.len())
    };
    told(number).map(|(_, moved, _)| moved)
}

pub fn which(carry: &[u8], held: usize, chunk: &[u8]) -> Result<Picked, Refusal> {
    let number = unsafe {
        let (from, room) = (carry.as_ptr(), carry.len());
        exported::gg_stream_which(from, room, held, chunk.as_ptr(), chunk.len())
    };
    told(number).map(|(what, _, size)| match what {
        IN_CARRY => Picked::Carry(size),
        IN_CHUNK => Picked::Chunk(size),
        _ => Picked::More,
    })
}

/// The part that is picked, octet by octet.
pub fn pick(carry: &[u8], held: usize, chunk: &[u8]) -> Vec<u8> {
    let octet = |place| unsafe {
        let (from, room) = (carry.as_ptr(), carry.len());
        exported::gg_stream_pick(from, room, held, chunk.as_ptr(), chunk.len(), place)
    };
    (0..).map_while(|place| u8::try_from(octet(place)).ok()).collect()
}

/// The call alone, as it is timed.
#[inline]
pub fn step_number(carry: &mut [u8], held: usize, chunk: &[u8]) -> u32 {
    let (to, room) = (carry.as_mut_ptr(), carry.len());
    unsafe { exported::gg_stream_step(to, room, held, chunk.as_ptr(), chunk.len()) }
}

fn stepped(number: u32) -> Result<Stepped, Refusal> {
    told(number).map(|(what, moved, size)| match what {
        IN_CARRY => Stepped::Carry { moved, size },
        IN_CHUNK => Stepped::Chunk(size),
        _ => Stepped::More { moved },
    })
}

/// One step; its parts, called one by one, must answer and change the carry as it does.
pub fn step(carry: &mut [u8], held: usize, chunk: &[u8]) -> Result<Stepped, Refusal> {
    let mut again = carry.to_vec();
    let by_parts = step_by_parts(&mut again, held, chunk);
    let answer = stepped(step_number(carry, held, chunk));
    assert_eq!(answer, by_parts, "{:?}, {held}, {:?}: by its parts", Hex(carry), Hex(chunk));
    assert_eq!(carry, again, "{held}, {:?}: the carry by its parts", Hex(chunk));
    answer
}

fn step_by_parts(carry: &mut [u8], held: usize, chunk: &[u8]) -> Result<Stepped, Refusal> {
    let picked = which(carry, held, chunk)?;
    if picked != Picked::More {
        return Ok(Stepped::after(0, picked));
    }
    let moved = top_up(carry, held, chunk)?;
    Ok(Stepped::after(moved, which(carry, held + moved, chunk)?))
}

/// Assembles as a caller does, chunk by chunk.
pub struct Assembler {
    carry: [u8; CARRY_SIZE],
    held: usize,
    end: Option<Refusal>,
}

impl Assembler {
    pub fn new() -> Assembler {
        Assembler { carry: [UNTOUCHED; CARRY_SIZE], held: 0, end: None }
    }

    pub fn feed(&mut self, chunk: &[u8]) -> Fed {
        let mut frames = Vec::new();
        let mut rest = chunk;
        while self.end.is_none() {
            match step(&mut self.carry, self.held, rest) {
                Ok(Stepped::Chunk(size)) => {
                    frames.push(pick(&self.carry, self.held, rest));
                    rest = &rest[size..];
                }
                Ok(Stepped::Carry { moved, size }) => {
                    frames.push(pick(&self.carry, self.held + moved, rest));
                    assert_eq!(self.held + moved, size, "{:?}: past the frame", Hex(chunk));
                    self.held = 0;
                    rest = &rest[moved..];
                }
                Ok(Stepped::More { moved }) => {
                    assert_eq!(moved, rest.len(), "{:?}: left in the chunk", Hex(chunk));
                    self.held += moved;
                    break;
                }
                Err(refusal) => self.end = Some(refusal),
            }
        }
        Fed { frames, end: self.end.clone() }
    }
}
