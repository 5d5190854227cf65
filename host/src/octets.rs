//! Octets of marks and small fields, read and written by both sides on all their values.
use crate::{
    entries::{CAUSE_WITH_MARK, OTHER_NAMED_CAUSE, WRITING_CUTS},
    judge,
    proved::{self, Written},
    report::{Answer, Report},
};

const OUT_OF_RANGE: u8 = 15;

pub fn compare(report: &mut Report) {
    report.level("octets");
    quality_descriptors(report);
    points(report);
    counter_octet(report);
    cause_of_initialisation(report);
    step_position(report);
    commands(report);
}

pub fn octets() -> impl Iterator<Item = u8> {
    0..=u8::MAX
}

/// Every set of four marks, with each number below `states` as the last field.
pub fn marks_and_state(states: u8) -> impl Iterator<Item = [u8; 5]> + Clone {
    let bit = |marks: u8, place: u8| marks >> place & 1;
    (0..16).flat_map(move |marks| {
        (0..states)
            .map(move |state| [bit(marks, 3), bit(marks, 2), bit(marks, 1), bit(marks, 0), state])
    })
}

fn quality_descriptors(report: &mut Report) {
    report.group("QDS: every octet read, every field written");
    for octet in octets() {
        report.same(octet, proved::read_qds(octet), judge::read_qds(octet));
    }
    for fields in marks_and_state(2) {
        report.same(fields, proved::write_qds(fields), judge::write_qds(fields));
    }
}

fn points(report: &mut Report) {
    report.group("SIQ: every octet read, every field written");
    for octet in octets() {
        report.same(octet, proved::read_siq(octet), judge::read_siq(octet));
    }
    for fields in marks_and_state(2) {
        report.same(fields, proved::write_siq(fields), judge::write_siq(fields));
    }
    report.group("DIQ: every octet read, every field written");
    for octet in octets() {
        report.same(octet, proved::read_diq(octet), judge::read_diq(octet));
    }
    for fields in marks_and_state(4) {
        report.same(fields, proved::write_diq(fields), judge::write_diq(fields));
    }
}

/// The marks of the counter octet, with each sequence number in rising order.
pub fn counter_fields() -> impl Iterator<Item = [u8; 4]> {
    octets().flat_map(|seq| {
        (0..8).map(move |marks: u8| [marks >> 2 & 1, marks >> 1 & 1, marks & 1, seq])
    })
}

fn counter_octet(report: &mut Report) {
    report.group("counter octet: every octet read, every mark with every seq of 0 to 255 written");
    for octet in octets() {
        report.same(octet, proved::read_seq_qd(octet), judge::read_seq_qd(octet));
    }
    for fields in counter_fields() {
        let (ours, rust) = (proved::write_seq_qd(fields), Ok([judge::write_seq_qd(fields)]));
        let [iv, ca, cy, seq] = fields;
        if seq <= 31 {
            report.same(fields, ours, rust);
        } else {
            let cut = judge::write_seq_qd([iv, ca, cy, seq % 32]);
            cuts(report, WRITING_CUTS, fields, ours, Answer { given: rust, expected: Ok([cut]) });
        }
    }
}

/// A listed case where we refuse what does not fit, and the Rust writes something else.
fn cuts<const N: usize>(
    report: &mut Report,
    entry: &'static str,
    input: impl std::fmt::Debug,
    ours: Written<N>,
    rust: Answer<Written<N>>,
) {
    report.listed(entry, input, Answer { given: ours, expected: Err(OUT_OF_RANGE) }, rust);
}

fn cause_of_initialisation(report: &mut Report) {
    report.group("cause of initialisation: every octet read, every cause written");
    for octet in octets() {
        report.same(octet, proved::read_coi(octet), judge::read_coi(octet));
    }
    for named in 0..3 {
        report.same(named, proved::write_coi([named, 0]), Ok([judge::write_coi([named, 0])]));
    }
    for cause in octets() {
        let other = [3, cause];
        let (ours, rust) = (proved::write_coi(other), Ok([judge::write_coi(other)]));
        if cause <= 2 {
            let rust = Answer { given: rust, expected: Ok([cause]) };
            cuts(report, OTHER_NAMED_CAUSE, other, ours, rust);
        } else {
            report.same(other, ours, rust);
        }
    }
    report.group("element of type 70: every octet read");
    for octet in octets() {
        end_of_initialisation(report, octet);
    }
}

fn end_of_initialisation(report: &mut Report, octet: u8) {
    let ours = (0, proved::read_coi(octet));
    let rust = judge::read_end_of_initialisation(octet);
    if octet < 0x80 {
        report.same(octet, ours, rust);
        return;
    }
    let ours = Answer { given: ours, expected: (0, [3, octet]) };
    let rust = Answer { given: rust, expected: (1, judge::read_coi(octet - 0x80)) };
    report.listed(CAUSE_WITH_MARK, octet, ours, rust);
}

/// Whether a step position is transient, with every quality.
pub fn step_fields() -> impl Iterator<Item = [u8; 6]> + Clone {
    (0..2).flat_map(|transient| {
        let quality = marks_and_state(2);
        quality.map(move |[iv, nt, sb, bl, ov]| [transient, iv, nt, sb, bl, ov])
    })
}

fn step_position(report: &mut Report) {
    report.group("VTI: every pair of octets read");
    for pair in 0..=u16::MAX {
        let octets = pair.to_be_bytes();
        report.same(octets, proved::read_vti(octets), judge::read_vti(octets));
    }
    report.group("VTI: every i8 with transient and every quality written");
    for value in i8::MIN..=i8::MAX {
        for fields in step_fields() {
            write_step_position(report, value, fields);
        }
    }
}

fn write_step_position(report: &mut Report, value: i8, fields: [u8; 6]) {
    let (ours, rust) = (proved::write_vti(value, fields), Ok(judge::write_vti(value, fields)));
    if (-64..=63).contains(&value) {
        report.same((value, fields), ours, rust);
        return;
    }
    let wrapped = if value < 0 { value + 127 + 1 } else { value - 127 - 1 };
    let rust = Answer { given: rust, expected: Ok(judge::write_vti(wrapped, fields)) };
    cuts(report, WRITING_CUTS, (value, fields), ours, rust);
}

/// We carry the qualifier as the octet that it is: the Rust must keep all of it.
fn commands(report: &mut Report) {
    report.group("elements of types 100 and 101: every octet read and written");
    for octet in octets() {
        report.same((100, octet), octet, judge::read_interrogation(octet));
        report.same((100, octet), [octet], judge::write_interrogation(octet));
        report.same((101, octet), octet, judge::read_counter_interrogation(octet));
        report.same((101, octet), [octet], judge::write_counter_interrogation(octet));
    }
}
