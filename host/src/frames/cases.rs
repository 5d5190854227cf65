//! What both sides must answer about a frame: the same, or what an entry of docs/DIFFERENCES.md says of each.
use super::{
    answers::Answers,
    judge,
    layout::{ASDU_AT, CONTROL_SIZE, MAX_LENGTH, START},
    proved,
};
use crate::{
    asdu::{self, answers::Refusal},
    entries,
    hex::Hex,
    report::{Listed, Report},
};

#[derive(Clone, Copy, PartialEq)]
pub enum Case {
    Same,
    /// The length octet is not that of the frame.
    WrongLength,
    /// As its ASDU's.
    IFrame,
}

/// Finds the case as document 01 orders the checks of reading.
pub fn case_of(octets: &[u8]) -> Case {
    let &[START, length, _, _, _, _, ..] = octets else { return Case::Same };
    let length = usize::from(length);
    if length > MAX_LENGTH {
        return Case::Same;
    }
    if octets.len() != 2 + length {
        return Case::WrongLength;
    }
    if length == CONTROL_SIZE || !has_i_control(octets) { Case::Same } else { Case::IFrame }
}

fn has_i_control(octets: &[u8]) -> bool {
    octets[2] % 2 == 0 && octets[4] % 2 == 0
}

/// Compares both sides on one frame.
pub fn compare(report: &mut Report, octets: &[u8]) {
    let (ours, rust) = (proved::answers(octets), judge::answers(octets));
    match listed(octets, &ours, &rust) {
        Some(listed) => report.held(listed, Hex(octets), ours, rust),
        None => report.same(Hex(octets), ours, rust),
    }
}

/// How the answers stand to the entry of the case; nothing where they must be the same.
fn listed(octets: &[u8], ours: &Answers, rust: &Answers) -> Option<Listed> {
    match case_of(octets) {
        Case::Same => None,
        Case::WrongLength => Some(Listed {
            entry: entries::LENGTH_NOT_COMPARED,
            ours: *ours == Answers::refused(&Refusal::Number(4)),
            rust: *rust == with_any_length(octets),
        }),
        Case::IFrame => of_its_asdu(octets, ours, rust),
    }
}

/// D3: the Rust looks only whether the length octet is 4. Then it takes no octet after the six, and else all of them.
fn with_any_length(octets: &[u8]) -> Answers {
    if usize::from(octets[1]) == CONTROL_SIZE {
        let short = proved::answers(&octets[..ASDU_AT]);
        return Answers::derived(octets, short.reading, short.rewriting, short.with_own_length);
    }
    if !has_i_control(octets) {
        return Answers::refused(&Refusal::Number(8));
    }
    Answers::of_i_frame(octets, asdu::judge::answers(&octets[ASDU_AT..]))
}

/// Both sides must answer about the ASDU as its entry says, and about the frame as about its ASDU.
fn of_its_asdu(octets: &[u8], ours: &Answers, rust: &Answers) -> Option<Listed> {
    let asdu = &octets[ASDU_AT..];
    if asdu::cases::case_of(asdu) == asdu::cases::Case::Same {
        return None;
    }
    let (our_asdu, rust_asdu) = (asdu::proved::answers(asdu), asdu::judge::answers(asdu));
    let listed = asdu::cases::listed(asdu, &our_asdu, &rust_asdu)?;
    Some(Listed {
        entry: listed.entry,
        ours: listed.ours && *ours == Answers::of_i_frame(octets, our_asdu),
        rust: listed.rust && *rust == Answers::of_i_frame(octets, rust_asdu),
    })
}
