//! What a side answers about a frame.
use std::fmt;

use super::layout::{self, CONTROL_SIZE, MAX_LENGTH};
use crate::asdu::{self, answers::Refusal, record::Record};

/// Start, stop and test, each act and con: 0 or 1.
pub type Flags = [u8; 6];

#[derive(Clone, PartialEq)]
pub enum Frame {
    I { send: u16, receive: u16, record: Record },
    S { receive: u16 },
    U { flags: Flags },
}

pub const FIELDS_SIZE: usize = 11;

impl Frame {
    /// As crates/bridge_frames/src/fields.rt has them: kind, send number, receive number, flags.
    pub fn fields(&self) -> [u8; FIELDS_SIZE] {
        let (kind, send, receive, flags) = match self {
            Frame::I { send, receive, .. } => (1, *send, *receive, [0; 6]),
            Frame::S { receive } => (2, 0, *receive, [0; 6]),
            Frame::U { flags } => (3, 0, 0, *flags),
        };
        let ([a, b], [c, d], [e, f, g, h, i, j]) =
            (send.to_be_bytes(), receive.to_be_bytes(), flags);
        [kind, a, b, c, d, e, f, g, h, i, j]
    }
}

impl fmt::Debug for Frame {
    fn fmt(&self, f: &mut fmt::Formatter) -> fmt::Result {
        match self {
            Frame::I { send, receive, record } => write!(f, "I {send} {receive} {record:?}"),
            Frame::S { receive } => write!(f, "S {receive}"),
            Frame::U { flags: [a, b, c, d, e, g] } => write!(f, "U {a} {b} {c} {d} {e} {g}"),
        }
    }
}

#[derive(Clone, Debug, PartialEq)]
pub struct Answers {
    pub reading: Result<Frame, Refusal>,
    /// Whether it is plain.
    pub plain: Result<bool, Refusal>,
    /// The octets that its reading is written as.
    pub rewriting: Result<Vec<u8>, Refusal>,
    /// The same by the Rust's record of a frame, which has a length of its own (`Apdu::to_bytes`). We have no such
    /// record: of ours it is as rewriting.
    pub with_own_length: Result<Vec<u8>, Refusal>,
}

impl Answers {
    /// Plain form follows from rewriting.
    pub fn derived(
        octets: &[u8],
        reading: Result<Frame, Refusal>,
        rewriting: Result<Vec<u8>, Refusal>,
        with_own_length: Result<Vec<u8>, Refusal>,
    ) -> Answers {
        let plain = rewriting.as_ref().map(|again| again == octets).map_err(Refusal::clone);
        Answers { reading, plain, rewriting, with_own_length }
    }

    pub fn refused(refusal: &Refusal) -> Answers {
        Answers {
            reading: Err(refusal.clone()),
            plain: Err(refusal.clone()),
            rewriting: Err(refusal.clone()),
            with_own_length: Err(refusal.clone()),
        }
    }

    /// The answers about an I frame that follow from those about its ASDU.
    pub fn of_i_frame(octets: &[u8], asdu: asdu::answers::Answers) -> Answers {
        let control = layout::control_of(octets);
        let (send, receive) = layout::numbers_of(control);
        let reading = asdu.reading.map(|record| Frame::I { send, receive, record });
        let rewriting = asdu.rewriting.clone().and_then(|asdu| written(control, &asdu));
        let with_own_length =
            asdu.rewriting.map(|asdu| layout::with_length(octets[1], control, &asdu));
        Answers::derived(octets, reading, rewriting, with_own_length)
    }
}

/// An I frame, or the refusal of an ASDU that is too long for it.
pub fn written(control: [u8; CONTROL_SIZE], asdu: &[u8]) -> Result<Vec<u8>, Refusal> {
    if CONTROL_SIZE + asdu.len() > MAX_LENGTH {
        return Err(Refusal::Number(17));
    }
    Ok(layout::frame(control, asdu))
}
