//! What a side answers in assembling.
use std::fmt;

use crate::{asdu::answers::Refusal, hex::Hex};

/// Where the next frame is, and how many bytes it has.
#[derive(Clone, Copy, Debug, PartialEq)]
pub enum Picked {
    Carry(usize),
    Chunk(usize),
    More,
}

/// One step of assembling: where a frame is in the carry or more is needed, bytes were moved.
#[derive(Clone, Copy, Debug, PartialEq)]
pub enum Stepped {
    Carry { moved: usize, size: usize },
    Chunk(usize),
    More { moved: usize },
}

impl Stepped {
    pub fn after(moved: usize, picked: Picked) -> Stepped {
        match picked {
            Picked::Carry(size) => Stepped::Carry { moved, size },
            Picked::Chunk(size) => Stepped::Chunk(size),
            Picked::More => Stepped::More { moved },
        }
    }
}

/// What a chunk brings: frames in their order, and the refusal that ends them, here or before.
#[derive(PartialEq)]
pub struct Fed {
    pub frames: Vec<Vec<u8>>,
    pub end: Option<Refusal>,
}

impl fmt::Debug for Fed {
    fn fmt(&self, f: &mut fmt::Formatter) -> fmt::Result {
        self.frames.iter().try_for_each(|frame| write!(f, "frame {:?}, ", Hex(frame)))?;
        match &self.end {
            Some(refusal) => write!(f, "{refusal:?}"),
            None => f.write_str("needs more"),
        }
    }
}
