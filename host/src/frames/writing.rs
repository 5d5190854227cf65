//! Frames written by both sides: from numbers, flags, records, and the octets of an ASDU.
use std::fmt::Debug;

use super::{
    answers::{Flags, Frame, written},
    judge,
    layout::{self, MAX_NUMBER},
    make, proved,
};
use crate::{
    asdu::{self, answers::Refusal, cases::Case, proved::ROOM, record::Record},
    entries,
    hex::Hex,
    random::Random,
    report::{Answer, Report},
};

/// A send and a receive number.
type Numbers = (u16, u16);

const OUT_OF_RANGE: Refusal = Refusal::Number(15);
const TOO_SHORT: Refusal = Refusal::Number(18);

pub fn compare(report: &mut Report, random: &mut Random, count: u32) {
    report.level("frames written");
    s_frames(report);
    u_frames(report);
    records(report, random, count);
    relayed(report, random, count);
    rooms(report);
    rooms_of_i_frames(report, random);
}

fn s_frames(report: &mut Report) {
    report.group("S frames: every number of 0 to 65,535");
    for number in 0..=u16::MAX {
        let (ours, rust) = (proved::writing_s(number, ROOM), judge::writing_s(number));
        if number <= MAX_NUMBER {
            report.same(number, ours, rust);
            continue;
        }
        let ours = Answer { given: ours, expected: Err(OUT_OF_RANGE) };
        let cut = layout::frame(layout::s_control(number), &[]);
        report.listed(
            entries::WRITING_CUTS,
            number,
            ours,
            Answer { given: rust, expected: Ok(cut) },
        );
    }
}

fn every_u() -> impl Iterator<Item = Flags> {
    (0..64).map(|flags: u8| [0, 1, 2, 3, 4, 5].map(|place| flags >> place & 1))
}

fn u_frames(report: &mut Report) {
    report.group("U frames: every set of flags");
    for flags in every_u() {
        report.same(flags, proved::writing_u(flags, ROOM), judge::writing_u(flags));
    }
}

fn fit((send, receive): Numbers) -> bool {
    send <= MAX_NUMBER && receive <= MAX_NUMBER
}

fn numbers(random: &mut Random) -> Numbers {
    (make::number(random), make::number(random))
}

fn records(report: &mut Report, random: &mut Random, count: u32) {
    report.group("I frames from records: good ones with up to two changes that may make them bad");
    for _ in 0..count {
        let (numbers, record) = (numbers(random), asdu::writing::any_changed(random));
        written_by_both(report, numbers, &record);
    }
}

fn written_by_both(report: &mut Report, numbers: Numbers, record: &Record) {
    let ours = proved::writing_i(numbers, record, ROOM);
    let control = layout::i_control(numbers.0, numbers.1);
    let (answer, octets) = asdu::writing::as_the_rust_writes(record);
    let expected = answer.and_then(|()| written(control, &octets));
    let rust = Answer { given: judge::writing_i(numbers, record), expected };
    if let Some((refusal, entry)) = refusal(numbers, record) {
        let ours = Answer { given: ours, expected: Err(refusal) };
        return refused(report, entry, (numbers, record), ours, rust);
    }
    let (send, receive) = numbers;
    let back = ours.as_ref().ok().map(|octets| proved::reading(octets));
    let read = Some(Ok(Frame::I { send, receive, record: record.clone() }));
    let one_address = written(control, &asdu::writing::with_one_address(record, &octets));
    let ours = Answer { given: (ours, back), expected: (one_address, read) };
    if record.sequence && record.objects.len() > 1 {
        report.listed(entries::SEQUENCE_WRITTEN, (numbers, record), ours, rust);
    } else {
        let expected = (rust.given, ours.expected.1);
        report.same((numbers, record), ours.given, expected);
    }
}

/// The Rust's writer of frames refuses an ASDU of more than 127 objects (12) or 249 octets (17) as we do.
fn refused(
    report: &mut Report,
    entry: &'static str,
    input: impl Debug,
    ours: Answer<Result<Vec<u8>, Refusal>>,
    rust: Answer<Result<Vec<u8>, Refusal>>,
) {
    if rust.expected == ours.expected {
        report.same(input, ours.given, rust.given);
    } else {
        report.listed(entry, input, ours, rust);
    }
}

/// What refuses an I frame from a record, and the entry that says what the Rust does instead.
fn refusal(numbers: Numbers, record: &Record) -> Option<(Refusal, &'static str)> {
    if !fit(numbers) {
        return Some((OUT_OF_RANGE, entries::WRITING_CUTS));
    }
    asdu::writing::refusal(record).map(|(number, entry)| (Refusal::Number(number), entry))
}

fn relayed(report: &mut Report, random: &mut Random, count: u32) {
    report.group("I frames from the octets of an ASDU, and of a damaged copy");
    for _ in 0..count / 2 {
        let octets = asdu::make::any_good(random);
        let copies = asdu::make::damaged(random, &octets);
        for octets in [&octets, random.pick(&copies)] {
            let numbers = numbers(random);
            let ours = proved::relaying(numbers, octets, ROOM);
            report.same((numbers, Hex(octets)), ours, as_relayed(numbers, octets));
        }
    }
}

/// The octets go over as they are, if they read.
fn as_relayed(numbers: Numbers, asdu: &[u8]) -> Result<Vec<u8>, Refusal> {
    if !fit(numbers) {
        return Err(OUT_OF_RANGE);
    }
    match asdu::cases::case_of(asdu) {
        Case::Refused { number, .. } => Err(Refusal::Number(number)),
        Case::RunsPast => Err(Refusal::Number(14)),
        Case::Same | Case::Read { .. } => {
            let control = layout::i_control(numbers.0, numbers.1);
            asdu::judge::reading(asdu).map(|_| layout::frame(control, asdu))
        }
    }
}

/// What is written where there is room for it.
fn in_room(room: usize, whole: Result<Vec<u8>, Refusal>) -> Result<Vec<u8>, Refusal> {
    whole.and_then(|octets| if room < octets.len() { Err(TOO_SHORT) } else { Ok(octets) })
}

fn rooms(report: &mut Report) {
    report.group("S and U frames to outputs of 0 to 8 octets");
    for room in 0..=8 {
        for number in make::EDGES {
            let whole = if fit((0, number)) { judge::writing_s(number) } else { Err(OUT_OF_RANGE) };
            report.same((room, number), proved::writing_s(number, room), in_room(room, whole));
        }
        for flags in every_u() {
            let whole = judge::writing_u(flags);
            report.same((room, flags), proved::writing_u(flags, room), in_room(room, whole));
        }
    }
}

fn rooms_of_i_frames(report: &mut Report, random: &mut Random) {
    report.group("I frames to outputs from 0 octets to two more than they need");
    for (carried, sequence) in asdu::inputs::types_and_layouts() {
        for count in [0, 1, 2, asdu::make::most_objects(carried, sequence), 127] {
            let octets = asdu::make::good(random, carried, sequence, count);
            rooms_of(report, numbers(random), &octets);
        }
    }
}

/// The refusals of an ASDU come before an output that is too short.
fn rooms_of(report: &mut Report, numbers: Numbers, asdu: &[u8]) {
    let relayed = as_relayed(numbers, asdu);
    let Ok(record) = asdu::judge::reading(asdu) else { return };
    let whole = proved::writing_i(numbers, &record, ROOM);
    for room in 0..=asdu.len().min(asdu::layout::MAX_SIZE) + layout::ASDU_AT + 2 {
        let input = (room, numbers, Hex(asdu));
        report.same(&input, proved::relaying(numbers, asdu, room), in_room(room, relayed.clone()));
        let ours = proved::writing_i(numbers, &record, room);
        report.same(&input, ours, in_room(room, whole.clone()));
    }
}
