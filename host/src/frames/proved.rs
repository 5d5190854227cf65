//! The proved library's answers about frames, through the exported functions of crates/bridge_frames_c. Each call is
//! seen to change only what it says.
use super::{
    answers::{Answers, FIELDS_SIZE, Flags, Frame},
    layout::ASDU_AT,
};
use crate::{
    asdu::{
        self,
        answers::Refusal,
        proved::{BEYOND, ROOM, refused, told_plain, written},
        record::Record,
    },
    hex::Hex,
    proved::UNTOUCHED,
};

/// The exported functions. A slice goes over as its address and its length.
mod exported {
    unsafe extern "C" {
        pub fn gg_frame_read(f: *const u8, len: usize, fields: *mut u8, fields_len: usize) -> u32;
        pub fn gg_frame_asdu(f: *const u8, len: usize, out: *mut u8, out_len: usize) -> u32;
        pub fn gg_frame_plain(f: *const u8, len: usize) -> u32;
        pub fn gg_frame_rewrite(f: *const u8, len: usize, out: *mut u8, out_len: usize) -> u32;
        pub fn gg_frame_write_s(receive: u16, out: *mut u8, out_len: usize) -> u32;
        pub fn gg_frame_write_u(
            flags: *const u8,
            flags_len: usize,
            out: *mut u8,
            out_len: usize,
        ) -> u32;
        pub fn gg_frame_write_i(
            send: u16,
            receive: u16,
            record: *const u8,
            record_len: usize,
            out: *mut u8,
            out_len: usize,
        ) -> u32;
        pub fn gg_frame_write_i_octets(
            send: u16,
            receive: u16,
            asdu: *const u8,
            asdu_len: usize,
            out: *mut u8,
            out_len: usize,
        ) -> u32;
    }
}

pub fn answers(octets: &[u8]) -> Answers {
    let rewriting = rewriting(octets, ROOM);
    Answers {
        reading: reading(octets),
        plain: plain(octets),
        with_own_length: rewriting.clone(),
        rewriting,
    }
}

pub fn reading(octets: &[u8]) -> Result<Frame, Refusal> {
    let mut out = [UNTOUCHED; FIELDS_SIZE + BEYOND];
    let number = unsafe {
        exported::gg_frame_read(octets.as_ptr(), octets.len(), out.as_mut_ptr(), out.len())
    };
    if number != 0 {
        assert_eq!(out, [UNTOUCHED; FIELDS_SIZE + BEYOND], "{:?}: beside a refusal", Hex(octets));
        assert_eq!(asdu_of(octets), [], "{:?}: an ASDU beside a refusal", Hex(octets));
        return Err(refused(number));
    }
    let (fields, beyond) = out.split_at(FIELDS_SIZE);
    assert_eq!(beyond, [UNTOUCHED; BEYOND], "{:?}: past the fields", Hex(octets));
    let frame = frame(fields, &asdu_of(octets), octets);
    assert_eq!(frame.fields(), fields, "{:?}: fields that its kind does not have", Hex(octets));
    Ok(frame)
}

fn frame(fields: &[u8], asdu: &[u8], octets: &[u8]) -> Frame {
    let number = |at| u16::from_be_bytes([fields[at], fields[at + 1]]);
    if fields[0] == 1 {
        assert_eq!(asdu, &octets[ASDU_AT..], "{:?}: its ASDU", Hex(octets));
        let record = asdu::proved::reading(asdu).expect("the ASDU of a frame that reads");
        return Frame::I { send: number(1), receive: number(3), record };
    }
    assert_eq!(asdu, [], "{:?}: an ASDU", Hex(octets));
    match fields[0] {
        2 => Frame::S { receive: number(3) },
        3 => Frame::U { flags: fields[5..].try_into().expect("six flags") },
        kind => panic!("{:?}: of kind {kind}", Hex(octets)),
    }
}

/// The ASDU that is had as a part of the frame.
fn asdu_of(octets: &[u8]) -> Vec<u8> {
    let mut out = [UNTOUCHED; ROOM];
    let len = unsafe {
        exported::gg_frame_asdu(octets.as_ptr(), octets.len(), out.as_mut_ptr(), out.len())
    };
    out[..len as usize].to_vec()
}

fn plain(octets: &[u8]) -> Result<bool, Refusal> {
    told_plain(unsafe { exported::gg_frame_plain(octets.as_ptr(), octets.len()) })
}

/// The octets that the reading of `octets` is written as, in an output of `room` octets.
pub fn rewriting(octets: &[u8], room: usize) -> Result<Vec<u8>, Refusal> {
    written(Hex(octets), room, |out, len| unsafe {
        exported::gg_frame_rewrite(octets.as_ptr(), octets.len(), out, len)
    })
}

pub fn writing_s(receive: u16, room: usize) -> Result<Vec<u8>, Refusal> {
    written(receive, room, |out, len| unsafe { exported::gg_frame_write_s(receive, out, len) })
}

pub fn writing_u(flags: Flags, room: usize) -> Result<Vec<u8>, Refusal> {
    written(flags, room, |out, len| unsafe {
        exported::gg_frame_write_u(flags.as_ptr(), flags.len(), out, len)
    })
}

pub fn writing_i(
    (send, receive): (u16, u16),
    record: &Record,
    room: usize,
) -> Result<Vec<u8>, Refusal> {
    let octets = record.octets();
    written(record, room, |out, len| unsafe {
        exported::gg_frame_write_i(send, receive, octets.as_ptr(), octets.len(), out, len)
    })
}

/// An I frame from the octets of its ASDU.
pub fn relaying((send, receive): (u16, u16), asdu: &[u8], room: usize) -> Result<Vec<u8>, Refusal> {
    written(Hex(asdu), room, |out, len| unsafe {
        exported::gg_frame_write_i_octets(send, receive, asdu.as_ptr(), asdu.len(), out, len)
    })
}
