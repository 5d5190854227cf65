//! An input of an entry, and both sides' answers to it.
use std::fmt;

use crate::{
    asdu::{
        self,
        answers::Refusal,
        proved::ROOM,
        record::{Object, Record},
    },
    frames, hex, link,
    report::Answer,
    streams::{judge::Reader, proved::Assembler},
};

/// An ASDU is octets in hexadecimal, and so many of 0 after them.
pub enum Given {
    Read(&'static str, usize),
    /// Written as it was read.
    Rewrite(&'static str),
    /// A record with cause 3 and common address 1.
    Write {
        type_id: u8,
        sequence: bool,
        objects: &'static [Object],
    },
    ReadFrame(&'static str),
    /// An S frame of this number.
    WriteS(u16),
    /// A U frame with no marks, in the Rust by a record with this length.
    WriteU {
        length: u8,
    },
    /// A stream of these bytes, and no more, in one chunk.
    Stream(&'static str),
    /// A history of a link.
    Link(&'static str),
}

pub struct Shown {
    pub entry: &'static str,
    pub given: Given,
    pub ours: &'static str,
    pub rust: &'static str,
}

/// A text that is shown as it is.
#[derive(PartialEq)]
pub struct Told(String);

impl fmt::Debug for Told {
    fn fmt(&self, f: &mut fmt::Formatter) -> fmt::Result {
        f.write_str(&self.0)
    }
}

/// What does not fit a line is cut.
const MAX_SHOWN: usize = 24;

fn in_a_line(octets: &[u8]) -> String {
    if octets.len() <= MAX_SHOWN {
        return hex::from_octets(octets);
    }
    format!("{}.. ({} octets)", hex::from_octets(&octets[..MAX_SHOWN]), octets.len())
}

fn octets_of(text: &str, zeros: usize) -> Vec<u8> {
    let octets = hex::to_octets(text).expect("octets in hexadecimal");
    [octets, vec![0; zeros]].concat()
}

fn record_of(type_id: u8, sequence: bool, objects: &[Object]) -> Record {
    let objects = objects.to_vec();
    Record { type_id, sequence, cause: 3, address: 1, objects, ..Record::default() }
}

impl Shown {
    pub fn input(&self) -> Told {
        Told(match self.given {
            Given::Read(text, zeros) => format!("reading {}", in_a_line(&octets_of(text, zeros))),
            Given::Rewrite(text) => format!("writing again {text}"),
            Given::Write { type_id, sequence, objects } => {
                format!("writing the record {:?}", record_of(type_id, sequence, objects))
            }
            Given::ReadFrame(text) => format!("reading the frame {text}"),
            Given::WriteS(number) => format!("writing the S frame of number {number}"),
            Given::Link(words) => format!("a link of {words}"),
            Given::WriteU { length } => {
                format!("writing the U frame with no marks, of a length given as {length}")
            }
            Given::Stream(text) => format!("assembling from the bytes {text}"),
        })
    }

    pub fn ours(&self) -> Answer<Told> {
        let given = match self.given {
            Given::Read(text, zeros) => {
                told_reading(asdu::proved::reading(&octets_of(text, zeros)))
            }
            Given::Rewrite(text) => {
                told_writing(asdu::proved::rewriting(&octets_of(text, 0), ROOM))
            }
            Given::Write { type_id, sequence, objects } => {
                told_writing(asdu::proved::writing(&record_of(type_id, sequence, objects), ROOM))
            }
            Given::ReadFrame(text) => told_reading(frames::proved::reading(&octets_of(text, 0))),
            Given::WriteS(number) => told_writing(frames::proved::writing_s(number, ROOM)),
            Given::WriteU { .. } => told_writing(frames::proved::writing_u([0; 6], ROOM)),
            Given::Stream(text) => format!("{:?}", Assembler::new().feed(&octets_of(text, 0))),
            Given::Link(words) => link::shown::ours(words),
        };
        Answer { given: Told(given), expected: Told(self.ours.to_owned()) }
    }

    pub fn rust(&self) -> Answer<Told> {
        let given = match self.given {
            Given::Read(text, zeros) => told_reading(asdu::judge::reading(&octets_of(text, zeros))),
            Given::Rewrite(text) => {
                told_writing(asdu::judge::answers(&octets_of(text, 0)).rewriting)
            }
            Given::ReadFrame(text) => {
                told_reading(frames::judge::answers(&octets_of(text, 0)).reading)
            }
            Given::WriteS(number) => told_writing(frames::judge::writing_s(number)),
            Given::Link(words) => link::shown::rust(words),
            Given::WriteU { length } => {
                told_writing(frames::judge::writing_u_with_length(length, [0; 6]))
            }
            Given::Stream(text) => format!("{:?}", Reader::default().feed(&octets_of(text, 0))),
            Given::Write { type_id, sequence, objects } => {
                let mut out = Vec::new();
                match asdu::judge::write_to(&record_of(type_id, sequence, objects), &mut out) {
                    Ok(()) => told_writing(Ok(out)),
                    Err(refusal) => format!("{refusal:?}, leaves {}", in_a_line(&out)),
                }
            }
        };
        Answer { given: Told(given), expected: Told(self.rust.to_owned()) }
    }
}

fn told_reading(reading: Result<impl fmt::Debug, Refusal>) -> String {
    reading.map_or_else(|refusal| format!("{refusal:?}"), |read| format!("reads {read:?}"))
}

fn told_writing(writing: Result<Vec<u8>, Refusal>) -> String {
    writing.map_or_else(
        |refusal| format!("{refusal:?}"),
        |octets| format!("writes {}", in_a_line(&octets)),
    )
}
