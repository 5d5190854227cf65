//! The stored sample: answers of the Rust, which the program crates/replay holds the proved library to where no Rust is
//! at hand. A line has a letter for the kind, octets given and octets that the Rust answers, in hexadecimal: of an
//! element or a number eight of each, filled up with zeros; of an ASDU see `asdu::sample`, of a frame `frames::sample`, of a
//! stream `streams::sample`.
//! A small letter reads, a capital writes. Fields are those of `judge`. A number has its high octet first, and a signed
//! one is moved up by half its range, so that it does not look like its octets on the wire.
use iec104::types::{MBoNa1, MItNa1, MMeNb1, MMeNc1};

use crate::{
    asdu::{
        self,
        record::{raised_i8, raised_i16, raised_i32},
    },
    frames, hex, judge,
    numbers::edges,
    octets::{counter_fields, marks_and_state, octets, step_fields},
    random::Random,
    streams,
};

const SEED: u64 = 104;
const RANDOM_NUMBERS: usize = 100;
const WIDTH: usize = 8;

pub fn write() -> bool {
    let mut lines = Vec::new();
    marks(&mut lines);
    counter_octet_and_cause(&mut lines);
    step_position(&mut lines);
    let mut random = Random::from_seed(SEED);
    let drawn: Vec<u32> = (0..RANDOM_NUMBERS).map(|_| random.next_u32()).collect();
    for bits in edges().chain(drawn) {
        sixteen_bits(&mut lines, bits as u16);
        thirty_two_bits(&mut lines, bits);
    }
    lines.push(asdu::sample::lines(&mut random));
    lines.push(frames::sample::lines(&mut random));
    lines.push(streams::sample::lines(&mut random));
    print!("{}", lines.concat());
    true
}

fn line(kind: char, given: &[u8], answer: &[u8]) -> String {
    let filled = |octets: &[u8]| {
        let mut all = [0; WIDTH];
        all[..octets.len()].copy_from_slice(octets);
        hex::from_octets(&all)
    };
    format!("{kind} {} {}\n", filled(given), filled(answer))
}

fn marks(lines: &mut Vec<String>) {
    for octet in octets() {
        lines.push(line('q', &[octet], &judge::read_qds(octet)));
        lines.push(line('s', &[octet], &judge::read_siq(octet)));
        lines.push(line('d', &[octet], &judge::read_diq(octet)));
    }
    for fields in marks_and_state(2) {
        lines.push(line('Q', &fields, &[judge::write_qds(fields)]));
        lines.push(line('S', &fields, &[judge::write_siq(fields)]));
    }
    for fields in marks_and_state(4) {
        lines.push(line('D', &fields, &[judge::write_diq(fields)]));
    }
}

fn counter_octet_and_cause(lines: &mut Vec<String>) {
    for octet in octets() {
        lines.push(line('c', &[octet], &judge::read_seq_qd(octet)));
        lines.push(line('i', &[octet], &judge::read_coi(octet)));
        // What is read is in range, so that both sides write it.
        let fields = judge::read_coi(octet);
        lines.push(line('I', &fields, &[judge::write_coi(fields)]));
    }
    for fields in counter_fields().filter(|[_, _, _, seq]| *seq <= 31) {
        lines.push(line('C', &fields, &[judge::write_seq_qd(fields)]));
    }
}

fn step_position(lines: &mut Vec<String>) {
    for octet in octets() {
        for octets in [[octet, 0], [0x40, octet]] {
            let (value, fields) = judge::read_vti(octets);
            lines.push(line('v', &octets, &step_octets(value, fields)));
        }
    }
    for (value, fields) in (-64..=63).zip(step_fields().cycle()) {
        lines.push(line('V', &step_octets(value, fields), &judge::write_vti(value, fields)));
    }
}

fn step_octets(value: i8, [transient, iv, nt, sb, bl, ov]: [u8; 6]) -> [u8; 7] {
    [transient, iv, nt, sb, bl, ov, raised_i8(value)]
}

fn sixteen_bits(lines: &mut Vec<String>, bits: u16) {
    let [low, high] = bits.to_le_bytes();
    let read: MMeNb1 = judge::read(&[low, high, 0]);
    lines.push(line('h', &[low, high], &raised_i16(read.sva)));

    let sva = bits.cast_signed();
    let [low, high, _] = judge::written(&MMeNb1 { sva, ..Default::default() });
    lines.push(line('H', &raised_i16(sva), &[low, high]));
}

fn thirty_two_bits(lines: &mut Vec<String>, bits: u32) {
    let [a, b, c, d] = bits.to_le_bytes();
    let octets = [a, b, c, d, 0];
    let wire = &octets[..4];
    let counter: MItNa1 = judge::read(&octets);
    lines.push(line('w', wire, &raised_i32(counter.bcr)));
    let string: MBoNa1 = judge::read(&octets);
    lines.push(line('b', wire, &string.bsi.to_be_bytes()));
    let float: MMeNc1 = judge::read(&octets);
    lines.push(line('b', wire, &float.value.to_bits().to_be_bytes()));

    let bcr = bits.cast_signed();
    let counter: [u8; 5] = judge::written(&MItNa1 { bcr, ..Default::default() });
    lines.push(line('W', &raised_i32(bcr), &counter[..4]));
    let string: [u8; 5] = judge::written(&MBoNa1 { bsi: bits, ..Default::default() });
    lines.push(line('B', &bits.to_be_bytes(), &string[..4]));
    let value = f32::from_bits(bits);
    let float: [u8; 5] = judge::written(&MMeNc1 { value, ..Default::default() });
    lines.push(line('B', &bits.to_be_bytes(), &float[..4]));
}
