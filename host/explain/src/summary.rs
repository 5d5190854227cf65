//! What came of all lines.
use std::fmt;

use crate::proved::{Frame, Kind};

#[derive(Default)]
pub struct Summary {
    lines: u64,
    skipped: u64,
    i: u64,
    s: u64,
    u: u64,
    plain: u64,
    reserved: u64,
    refused: u64,
    not_hex: u64,
}

impl Summary {
    pub fn line(&mut self) {
        self.lines += 1;
    }

    pub fn skipped(&mut self) {
        self.skipped += 1;
    }

    pub fn frame(&mut self, frame: &Frame) {
        match frame.kind {
            Kind::I { .. } => self.i += 1,
            Kind::S { .. } => self.s += 1,
            Kind::U { .. } => self.u += 1,
        }
        if frame.plain { self.plain += 1 } else { self.reserved += 1 }
    }

    pub fn refused(&mut self) {
        self.refused += 1;
    }

    pub fn not_hex(&mut self) {
        self.not_hex += 1;
    }

    pub fn bad(&self) -> u64 {
        self.refused + self.not_hex
    }
}

impl fmt::Display for Summary {
    fn fmt(&self, f: &mut fmt::Formatter) -> fmt::Result {
        let Summary { lines, skipped, i, s, u, plain, reserved, refused, not_hex } = self;
        write!(f, "lines {lines}, skipped {skipped}; frames I {i}, S {s}, U {u}; ")?;
        write!(f, "plain {plain}, with reserved bits {reserved}; ")?;
        write!(f, "bad {} (refused {refused}, not hex {not_hex})", self.bad())
    }
}
