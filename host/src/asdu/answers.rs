//! What a side answers about an ASDU.
use std::fmt;

use super::record::Record;

#[derive(Clone, PartialEq)]
pub enum Refusal {
    /// A number of document 01.
    Number(u8),
    /// An error of the Rust that document 01 has no number for.
    Error(String),
    /// The Rust panicked.
    Panic,
}

#[derive(Clone, Debug, PartialEq)]
pub struct Answers {
    pub reading: Result<Record, Refusal>,
    pub checking: Result<(), Refusal>,
    /// Whether it is plain.
    pub plain: Result<bool, Refusal>,
    /// The octets that its reading is written as.
    pub rewriting: Result<Vec<u8>, Refusal>,
}

impl Answers {
    /// Checking and plain form follow from reading and rewriting.
    pub fn derived(
        octets: &[u8],
        reading: Result<Record, Refusal>,
        rewriting: Result<Vec<u8>, Refusal>,
    ) -> Answers {
        let checking = reading.as_ref().map(|_| ()).map_err(Refusal::clone);
        let plain = rewriting.as_ref().map(|again| again == octets).map_err(Refusal::clone);
        Answers { reading, checking, plain, rewriting }
    }

    pub fn refused(octets: &[u8], refusal: Refusal) -> Answers {
        Answers::derived(octets, Err(refusal.clone()), Err(refusal))
    }
}

impl Refusal {
    pub fn number(&self) -> Option<u8> {
        match self {
            Refusal::Number(number) => Some(*number),
            _ => None,
        }
    }
}

impl fmt::Debug for Refusal {
    fn fmt(&self, f: &mut fmt::Formatter) -> fmt::Result {
        match self {
            Refusal::Number(number) => write!(f, "refuses ({number})"),
            Refusal::Error(path) => write!(f, "refuses: {path}"),
            Refusal::Panic => f.write_str("panics"),
        }
    }
}
