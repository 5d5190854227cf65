//! What both sides must answer about an ASDU: the same, or what an entry of docs/DIFFERENCES.md says of each.
use iec104::types_id::TypeId;

use super::{
    answers::{Answers, Refusal},
    judge, layout,
    layout::{ADDRESS_SIZE, HEADER_SIZE, MAX_ADDRESS, MAX_SIZE},
    proved,
    record::{Object, Record},
};
use crate::{
    entries,
    hex::Hex,
    judge::read_coi,
    report::{Answer, Listed, Report},
};

#[derive(Clone, Copy, PartialEq)]
pub enum Case {
    Same,
    /// Only we refuse, or for another reason.
    Refused {
        entry: &'static str,
        number: u8,
    },
    /// A sequence whose addresses the Rust lets run past three octets.
    RunsPast,
    /// Both read it, to other fields or with another writing.
    Read {
        entry: &'static str,
    },
}

/// Finds the case as document 01 orders the checks of reading.
pub fn case_of(octets: &[u8]) -> Case {
    if octets.len() > MAX_SIZE {
        return Case::Refused { entry: entries::NO_LIMIT, number: 17 };
    }
    let Some(&cause) = octets.get(2) else { return Case::Same };
    if !layout::is_listed(cause & 0x3f) {
        return Case::Refused { entry: entries::ANY_CAUSE, number: 10 };
    }
    if octets.len() < HEADER_SIZE {
        return Case::Same;
    }
    let Some(carried) = layout::carried(octets[0]) else {
        return Case::Refused { entry: entries::ANY_TYPE, number: 11 };
    };
    let (sequence, count) = layout_of(octets);
    if octets.len() != layout::needed(carried.size(), sequence, count) {
        return Case::Same;
    }
    if sequence {
        return case_of_sequence(octets, carried.size(), count);
    }
    if has_change_mark(octets) {
        Case::Read { entry: entries::CAUSE_WITH_MARK }
    } else {
        Case::Same
    }
}

fn case_of_sequence(octets: &[u8], size: usize, count: usize) -> Case {
    if size == 0 {
        return Case::Refused { entry: entries::EMPTY_ELEMENTS, number: 13 };
    }
    if count == 0 {
        return Case::Same;
    }
    if first_address(octets) + count as u32 - 1 > MAX_ADDRESS {
        return Case::RunsPast;
    }
    if has_change_mark(octets) {
        return Case::Read { entry: entries::CAUSE_WITH_MARK };
    }
    if count > 1 { Case::Read { entry: entries::SEQUENCE_WRITTEN } } else { Case::Same }
}

fn layout_of(octets: &[u8]) -> (bool, usize) {
    (octets[1] >= 0x80, usize::from(octets[1] & 0x7f))
}

fn first_address(octets: &[u8]) -> u32 {
    u32::from_le_bytes([octets[6], octets[7], octets[8], 0])
}

/// Whether it is of type 70, with bit 7 of an element set.
fn has_change_mark(octets: &[u8]) -> bool {
    let (sequence, _) = layout_of(octets);
    let step = if sequence { 1 } else { ADDRESS_SIZE + 1 };
    let elements = octets.get(HEADER_SIZE + ADDRESS_SIZE..).unwrap_or_default();
    octets[0] == 70 && elements.iter().step_by(step).any(|&octet| octet >= 0x80)
}

/// Compares both sides on one ASDU.
pub fn compare(report: &mut Report, octets: &[u8]) {
    let (ours, rust) = (proved::answers(octets), judge::answers(octets));
    match listed(octets, &ours, &rust) {
        Some(listed) => report.held(listed, Hex(octets), ours, rust),
        None => report.same(Hex(octets), ours, rust),
    }
}

/// How the answers stand to the entry of the case; nothing where they must be the same.
pub fn listed(octets: &[u8], ours: &Answers, rust: &Answers) -> Option<Listed> {
    match case_of(octets) {
        Case::Same => None,
        Case::Refused { entry, number } => {
            let expected = Answers::refused(octets, Refusal::Number(number));
            let rust = Answer { given: Outcome::of(rust), expected: outcome(octets, rust) };
            Some(Listed::of(entry, &Answer { given: ours, expected: &expected }, &rust))
        }
        Case::RunsPast => {
            let expected = Answers::refused(octets, Refusal::Number(14));
            let rust = Answer { given: rust, expected: &run_past(octets) };
            let entry = entries::ADDRESSES_RUN_PAST;
            Some(Listed::of(entry, &Answer { given: ours, expected: &expected }, &rust))
        }
        Case::Read { entry } => Some(read_by_both(entry, octets, ours, rust)),
    }
}

/// Ours must agree with itself, and the Rust's answers must follow from ours. The Rust reads what it writes again,
/// but for a sequence of several objects (D1).
fn read_by_both(entry: &'static str, octets: &[u8], ours: &Answers, rust: &Answers) -> Listed {
    let expected = Answers::derived(octets, ours.reading.clone(), ours.rewriting.clone());
    let reading = ours.reading.clone().map(as_the_rust_reads);
    let rewriting = ours.rewriting.as_ref().map(|again| as_the_rust_writes(again));
    let rust_expected = Answers::derived(octets, reading, rewriting.map_err(Refusal::clone));
    let ours_fits = ours.rewriting.as_ref().is_ok_and(|again| again.len() == octets.len());
    let rust_reads = rust.rewriting.as_ref().map(|again| judge::reading(again).is_ok());
    let rust_reads = rust_reads.map_err(Refusal::clone);
    let reads_back = !matches!(layout_of(octets), (true, 2..));
    let ours = Answer { given: (ours, ours_fits), expected: (&expected, true) };
    let rust = Answer { given: (rust, rust_reads), expected: (&rust_expected, Ok(reads_back)) };
    Listed::of(entry, &ours, &rust)
}

/// D8: bit 7 of a cause of initialisation is a mark of its own.
fn as_the_rust_reads(mut record: Record) -> Record {
    for Object { kind, fields, .. } in &mut record.objects {
        if *kind == 70 && fields[1] >= 0x80 {
            let [which, cause] = read_coi(fields[1] - 0x80);
            fields[..3].copy_from_slice(&[which, cause, 1]);
        }
    }
    record
}

/// D1: what we write of a sequence, with an address for every object.
fn as_the_rust_writes(written: &[u8]) -> Vec<u8> {
    let (sequence, count) = layout_of(written);
    if !sequence {
        return written.to_vec();
    }
    let (header, elements) = written.split_at(HEADER_SIZE + ADDRESS_SIZE);
    let mut all = header[..HEADER_SIZE].to_vec();
    for (address, element) in
        (first_address(written)..).zip(elements.chunks_exact(elements.len() / count))
    {
        all.extend(&address.to_le_bytes()[..ADDRESS_SIZE]);
        all.extend(element);
    }
    all
}

/// D4: the addresses go on past three octets, and are cut in writing (D6). The rest is as with addresses that fit.
fn run_past(octets: &[u8]) -> Answers {
    let first = first_address(octets);
    let mut fitting = octets.to_vec();
    fitting[HEADER_SIZE..HEADER_SIZE + ADDRESS_SIZE].fill(0);
    let ours = proved::answers(&fitting);
    let reading = ours.reading.map(|record| moved(as_the_rust_reads(record), first));
    let rewriting = ours.rewriting.map(|mut again| {
        let address = HEADER_SIZE..HEADER_SIZE + ADDRESS_SIZE;
        again[address.clone()].copy_from_slice(&octets[address]);
        as_the_rust_writes(&again)
    });
    Answers::derived(octets, reading, rewriting)
}

fn moved(mut record: Record, by: u32) -> Record {
    for object in &mut record.objects {
        object.address += by;
    }
    record
}

/// The Rust's answer where we refuse what it does not look at.
#[derive(Debug, PartialEq)]
enum Outcome {
    /// To a record that is written again in so many octets.
    Reads {
        cause: u8,
        count: usize,
        written: Option<usize>,
    },
    Refuses(Refusal),
}

impl Outcome {
    fn of(answers: &Answers) -> Outcome {
        match &answers.reading {
            Ok(record) => {
                let written = answers.rewriting.as_ref().ok().map(Vec::len);
                Outcome::Reads { cause: record.cause, count: record.objects.len(), written }
            }
            Err(refusal) => Outcome::Refuses(refusal.clone()),
        }
    }

    fn refuses(number: u8) -> Outcome {
        Outcome::Refuses(Refusal::Number(number))
    }
}

/// D2, D5, D9 and D10: the Rust goes by the size of a type that it knows, with any cause and up to any length, and
/// writes an address for every object. In types that we do not carry it may find a time that is none.
fn outcome(octets: &[u8], rust: &Answers) -> Outcome {
    if octets.len() < HEADER_SIZE {
        return Outcome::refuses(9);
    }
    let (type_id, cause) = (TypeId::from(octets[0]), octets[2] & 0x3f);
    if !type_id.is_standard() {
        let whole = Outcome::Reads { cause, count: 1, written: Some(octets.len()) };
        let has_address = octets.len() >= HEADER_SIZE + ADDRESS_SIZE;
        return if has_address { whole } else { Outcome::refuses(13) };
    }
    let ((sequence, count), size) = (layout_of(octets), type_id.size());
    if octets.len() != layout::needed(size, sequence, count) {
        return Outcome::refuses(12);
    }
    match (octets[0], sequence, &rust.reading) {
        (FIRST_FILE_TYPE..=LAST_FILE_TYPE, _, _) => Outcome::refuses(11),
        (_, true, _) if size == 0 => Outcome::Refuses(Refusal::Panic),
        (_, true, _) if count == 0 => Outcome::refuses(13),
        (_, _, Err(Refusal::Error(path))) if path.contains(">ParseTimeTag>") => Outcome::of(rust),
        _ => Outcome::Reads { cause, count, written: Some(layout::needed(size, false, count)) },
    }
}

const FIRST_FILE_TYPE: u8 = 120;
const LAST_FILE_TYPE: u8 = 126;
