//! The Rust's answers about frames.
use iec104::{
    apdu::{Apdu, Frame as RustFrame, IFrame, SFrame, UFrame},
    error::Error,
    errors,
};

use super::answers::{Answers, Flags, Frame};
use crate::{
    asdu::{self, answers::Refusal, record::Record},
    panics, refusals,
};

pub fn answers(octets: &[u8]) -> Answers {
    match parsed(octets) {
        Ok(apdu) => {
            let (again, with_own_length) = (apdu.frame.to_apdu_bytes(), apdu.to_bytes());
            let reading = Ok(frame(&apdu.frame));
            Answers::derived(octets, reading, written(again), written(with_own_length))
        }
        Err(refusal) => Answers::refused(&refusal),
    }
}

fn parsed(octets: &[u8]) -> Result<Apdu, Refusal> {
    let answer = panics::caught(|| Apdu::from_bytes(octets)).ok_or(Refusal::Panic)?;
    answer.map_err(|error| {
        let path = errors::path(&error);
        let number = refusals::number(&path);
        // Without the frame around it, it is the ASDU's error.
        let path = path.trim_start_matches("InvalidAsdu>").to_owned();
        number.map_or(Refusal::Error(path), Refusal::Number)
    })
}

fn written(octets: Result<Vec<u8>, Error>) -> Result<Vec<u8>, Refusal> {
    octets.map_err(|error| {
        let path = errors::path(&error);
        refusals::number_in_writing(&path).map_or(Refusal::Error(path), Refusal::Number)
    })
}

fn frame(frame: &RustFrame) -> Frame {
    match frame {
        RustFrame::I(IFrame { send_sequence_number, receive_sequence_number, asdu }) => Frame::I {
            send: *send_sequence_number,
            receive: *receive_sequence_number,
            record: asdu::judge::record(asdu),
        },
        RustFrame::S(SFrame { receive_sequence_number }) => {
            Frame::S { receive: *receive_sequence_number }
        }
        RustFrame::U(u) => Frame::U { flags: flags(u) },
    }
}

fn flags(u: &UFrame) -> Flags {
    [
        u.start_dt_activation,
        u.start_dt_confirmation,
        u.stop_dt_activation,
        u.stop_dt_confirmation,
        u.test_fr_activation,
        u.test_fr_confirmation,
    ]
    .map(u8::from)
}

fn u_frame(flags: Flags) -> RustFrame {
    let [start_act, start_con, stop_act, stop_con, test_act, test_con] =
        flags.map(|flag| flag == 1);
    RustFrame::U(UFrame {
        start_dt_activation: start_act,
        start_dt_confirmation: start_con,
        stop_dt_activation: stop_act,
        stop_dt_confirmation: stop_con,
        test_fr_activation: test_act,
        test_fr_confirmation: test_con,
    })
}

pub fn writing_s(receive: u16) -> Result<Vec<u8>, Refusal> {
    let frame = RustFrame::S(SFrame { receive_sequence_number: receive });
    written(frame.to_apdu_bytes())
}

pub fn writing_u(flags: Flags) -> Result<Vec<u8>, Refusal> {
    written(u_frame(flags).to_apdu_bytes())
}

/// A U frame by the record that has a length of its own.
pub fn writing_u_with_length(length: u8, flags: Flags) -> Result<Vec<u8>, Refusal> {
    written(Apdu { length, frame: u_frame(flags) }.to_bytes())
}

pub fn writing_i((send, receive): (u16, u16), record: &Record) -> Result<Vec<u8>, Refusal> {
    let frame = RustFrame::I(IFrame {
        send_sequence_number: send,
        receive_sequence_number: receive,
        asdu: asdu::judge::asdu(record),
    });
    written(frame.to_apdu_bytes())
}
