//! The Rust's answers in assembling: its buffer, filled and taken from as its `receive_task` does.
use std::{collections::VecDeque, panic::AssertUnwindSafe};

use iec104::{errors, receive_handler::opened};

use super::answers::Fed;
use crate::{
    asdu::answers::Refusal,
    frames::layout::{ASDU_AT, START},
    panics, refusals,
};

/// More than any frame.
const LOOKED_AT: usize = 258;

/// The next frame of the buffer, if it is whole. The Rust also reads what it has cut: a frame that it does not read ends its
/// link, but it was cut, and here it counts.
pub fn taken(buffer: &mut VecDeque<u8>) -> Result<Option<Vec<u8>>, Refusal> {
    let start: Vec<u8> = buffer.iter().take(LOOKED_AT).copied().collect();
    let len = buffer.len();
    let answer = panics::caught(AssertUnwindSafe(|| opened::pick(buffer)));
    let cut = len - buffer.len();
    if cut >= ASDU_AT {
        return Ok(Some(start[..cut].to_vec()));
    }
    match answer {
        Some(Ok(None)) => Ok(None),
        Some(Err(error)) => Err(refusal(&errors::path(&error))),
        Some(Ok(Some(apdu))) => panic!("a frame of {cut} bytes: {apdu:?}"),
        None => Err(Refusal::Panic),
    }
}

fn refusal(path: &str) -> Refusal {
    refusals::number(path).map_or(Refusal::Error(path.to_owned()), Refusal::Number)
}

/// Whether a frame begins here that is too short to be one, for whose end the Rust waits (D13).
pub fn is_too_short(on_hand: &[u8]) -> bool {
    matches!(on_hand, [START, length @ 2..=3, _, ..] if on_hand.len() < 2 + usize::from(*length))
}

#[derive(Default)]
pub struct Reader {
    buffer: VecDeque<u8>,
    end: Option<Refusal>,
}

impl Reader {
    pub fn feed(&mut self, chunk: &[u8]) -> Fed {
        self.buffer.extend(chunk.iter());
        let mut frames = Vec::new();
        while self.end.is_none() {
            match taken(&mut self.buffer) {
                Ok(Some(frame)) => frames.push(frame),
                Ok(None) => break,
                Err(refusal) => self.end = Some(refusal),
            }
        }
        Fed { frames, end: self.end.clone() }
    }

    /// Whether it waits for the end of a frame that is too short (D13).
    pub fn waits_in_vain(&mut self) -> bool {
        self.end.is_none() && is_too_short(self.buffer.make_contiguous())
    }
}
