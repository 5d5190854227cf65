//! The proved library's answers about ASDUs, through the exported functions of crates/bridge_c. Each call is seen to
//! change only what it says: the rest of an output stays as it was.
use std::fmt::Debug;

use super::{
    answers::{Answers, Refusal},
    record::{HEADER_SIZE, MAX_OBJECTS, OBJECT_SIZE, Record},
};
use crate::{hex::Hex, proved::UNTOUCHED};

/// The exported functions. A slice goes over as its address and its length.
mod exported {
    unsafe extern "C" {
        pub fn gg_asdu_read(s: *const u8, len: usize, record: *mut u8, record_len: usize) -> u32;
        pub fn gg_asdu_walk(s: *const u8, len: usize, record: *mut u8, record_len: usize) -> u32;
        pub fn gg_asdu_check(s: *const u8, len: usize) -> u32;
        pub fn gg_asdu_plain(s: *const u8, len: usize) -> u32;
        pub fn gg_asdu_rewrite(s: *const u8, len: usize, out: *mut u8, out_len: usize) -> u32;
        pub fn gg_asdu_write(
            record: *const u8,
            record_len: usize,
            out: *mut u8,
            out_len: usize,
        ) -> u32;
    }
}

/// The answers besides a refusal's number (crates/bridge_records/src/answers.rt).
const RESERVED: u32 = 100;
const READING_REFUSED: u32 = 0x10000;
const WRITING_REFUSED: u32 = 0x20000;

const RECORD_SIZE: usize = HEADER_SIZE + MAX_OBJECTS * OBJECT_SIZE;

/// Room past what a call may write, to see that it is left alone.
pub const BEYOND: usize = 3;

/// More than any ASDU or frame that is written.
pub const ROOM: usize = 256;

/// Walking over the objects must find what reading gives, and is seen to here.
pub fn answers(octets: &[u8]) -> Answers {
    let reading = reading(octets);
    assert_eq!(filled(octets, exported::gg_asdu_walk), reading, "{:?}: walked over", Hex(octets));
    Answers {
        reading,
        checking: checking(octets),
        plain: plain(octets),
        rewriting: rewriting(octets, ROOM),
    }
}

pub fn refused(number: u32) -> Refusal {
    Refusal::Number(u8::try_from(number).expect("a number of refusal"))
}

pub fn reading(octets: &[u8]) -> Result<Record, Refusal> {
    filled(octets, exported::gg_asdu_read)
}

/// The record that a call fills from the octets; beside a refusal it must be all 0 and clear.
fn filled(
    octets: &[u8],
    call: unsafe extern "C" fn(*const u8, usize, *mut u8, usize) -> u32,
) -> Result<Record, Refusal> {
    let mut out = [UNTOUCHED; RECORD_SIZE + BEYOND];
    let number = unsafe { call(octets.as_ptr(), octets.len(), out.as_mut_ptr(), RECORD_SIZE) };
    let (written, beyond) = out.split_at(RECORD_SIZE);
    assert_eq!(beyond, [UNTOUCHED; BEYOND], "{:?}: past the record", Hex(octets));
    let record = Record::from_octets(written);
    if number == 0 {
        return Ok(record);
    }
    assert_eq!(record, Record::default(), "{:?}: beside a refusal", Hex(octets));
    Err(refused(number))
}

fn checking(octets: &[u8]) -> Result<(), Refusal> {
    match unsafe { exported::gg_asdu_check(octets.as_ptr(), octets.len()) } {
        0 => Ok(()),
        number => Err(refused(number)),
    }
}

fn plain(octets: &[u8]) -> Result<bool, Refusal> {
    told_plain(unsafe { exported::gg_asdu_plain(octets.as_ptr(), octets.len()) })
}

pub fn told_plain(answer: u32) -> Result<bool, Refusal> {
    match answer {
        0 => Ok(true),
        RESERVED => Ok(false),
        number => Err(refused(number)),
    }
}

/// The octets that the reading of `octets` is written as, in an output of `room` octets.
pub fn rewriting(octets: &[u8], room: usize) -> Result<Vec<u8>, Refusal> {
    written(Hex(octets), room, |out, len| unsafe {
        exported::gg_asdu_rewrite(octets.as_ptr(), octets.len(), out, len)
    })
}

pub fn writing(record: &Record, room: usize) -> Result<Vec<u8>, Refusal> {
    let octets = record.octets();
    written(record, room, |out, len| unsafe {
        exported::gg_asdu_write(octets.as_ptr(), octets.len(), out, len)
    })
}

/// Calls with an output of `room` octets; past what is reported written it must be as it was.
pub fn written(
    input: impl Debug,
    room: usize,
    call: impl FnOnce(*mut u8, usize) -> u32,
) -> Result<Vec<u8>, Refusal> {
    let mut out = [UNTOUCHED; ROOM + BEYOND];
    let answer = call(out.as_mut_ptr(), room);
    let len = if answer < READING_REFUSED { answer as usize } else { 0 };
    assert!(len <= room, "{input:?}: more than there is room for");
    let mut rest = out[len..].iter();
    assert!(rest.all(|&octet| octet == UNTOUCHED), "{input:?}: past what was written");
    match answer {
        WRITING_REFUSED.. => Err(refused(answer - WRITING_REFUSED)),
        READING_REFUSED.. => Err(refused(answer - READING_REFUSED)),
        _ => Ok(out[..len].to_vec()),
    }
}
