//! Numbers of two and four octets with the octet that follows them, as the carried types have them.
use iec104::types::{MBoNa1, MItNa1, MMeNa1, MMeNb1, MMeNc1, MMeNd1};

use crate::{judge, proved, random::Random, report::Report};

pub fn compare(report: &mut Report, random: &mut Random, random_numbers: u32) {
    report.group("i16 of types 9, 11 and 21: every value read and written");
    for value in i16::MIN..=i16::MAX {
        write_sixteen_bits(report, value, random.next_u8());
        read_sixteen_bits(report, value.to_le_bytes(), random.next_u8());
    }
    report.group("32 bits of types 7, 13 and 15: the limits read and written");
    for bits in edges().chain(octets_in_place()) {
        thirty_two_bits(report, bits, random.next_u8());
    }
    report.group("32 bits of types 7, 13 and 15: random ones read and written");
    for _ in 0..random_numbers {
        thirty_two_bits(report, random.next_u32(), random.next_u8());
    }
}

/// Floats at the edges of their kinds.
const FLOATS: [u32; 10] = [
    0x0000_0001, // subnormal
    0x007f_ffff,
    0x0080_0000, // normal
    0x7f7f_ffff,
    0x7f80_0000, // infinite
    0xff80_0000,
    0x7f80_0001, // signalling NaN
    0x7fbf_ffff,
    0x7fc0_0000, // quiet NaN
    0xffc1_2345,
];

/// Each bit alone, all bits below it, and the opposites of both; then `FLOATS`.
pub fn edges() -> impl Iterator<Item = u32> {
    let bits = (0..32).map(|place| 1 << place);
    bits.flat_map(|bit: u32| [bit, bit - 1, !bit, !(bit - 1)]).chain(FLOATS)
}

/// Each octet in each place.
fn octets_in_place() -> impl Iterator<Item = u32> {
    (0..4).flat_map(|place| (0..=255).map(move |octet: u32| octet << (8 * place)))
}

fn write_sixteen_bits(report: &mut Report, value: i16, quality: u8) {
    let qds = judge::qds_of(judge::read_qds(quality));
    let [low, high] = proved::write_i16(value);
    let ours = [low, high, proved::write_qds(judge::qds_fields(&qds))];
    report.same(value, ours, judge::written(&MMeNa1 { nva: value, qds: qds.clone() }));
    report.same(value, ours, judge::written(&MMeNb1 { sva: value, qds }));
    report.same(value, [low, high], judge::written(&MMeNd1 { nva: value }));
}

fn read_sixteen_bits(report: &mut Report, [low, high]: [u8; 2], quality: u8) {
    let octets = [low, high, quality];
    let ours = (proved::read_i16([low, high]), proved::read_qds(quality));
    let element: MMeNa1 = judge::read(&octets);
    report.same(octets, ours, (element.nva, judge::qds_fields(&element.qds)));
    let element: MMeNb1 = judge::read(&octets);
    report.same(octets, ours, (element.sva, judge::qds_fields(&element.qds)));
    let element: MMeNd1 = judge::read(&[low, high]);
    report.same([low, high], ours.0, element.nva);
}

fn thirty_two_bits(report: &mut Report, bits: u32, last: u8) {
    write_thirty_two_bits(report, bits, last);
    read_thirty_two_bits(report, bits.to_le_bytes(), last);
}

fn write_thirty_two_bits(report: &mut Report, bits: u32, last: u8) {
    let qds = judge::qds_of(judge::read_qds(last));
    let quality = proved::write_qds(judge::qds_fields(&qds));
    let ours = followed_by(proved::write_u32(bits), quality);
    report.same(bits, ours, judge::written(&MBoNa1 { bsi: bits, qds: qds.clone() }));
    report.same(bits, ours, judge::written(&MMeNc1 { value: f32::from_bits(bits), qds }));

    let (bcr, sqd) = (bits.cast_signed(), judge::seq_qd_of(judge::read_seq_qd(last)));
    let ours = proved::write_seq_qd(judge::seq_qd_fields(&sqd));
    let ours = ours.map(|[octet]| followed_by(proved::write_i32(bcr), octet));
    report.same(bits, ours, Ok(judge::written(&MItNa1 { bcr, sqd })));
}

fn read_thirty_two_bits(report: &mut Report, number: [u8; 4], last: u8) {
    let octets = followed_by(number, last);
    let ours = (proved::read_u32(number), proved::read_qds(last));
    let element: MBoNa1 = judge::read(&octets);
    report.same(octets, ours, (element.bsi, judge::qds_fields(&element.qds)));
    let element: MMeNc1 = judge::read(&octets);
    report.same(octets, ours, (element.value.to_bits(), judge::qds_fields(&element.qds)));

    let ours = (proved::read_i32(number), proved::read_seq_qd(last));
    let element: MItNa1 = judge::read(&octets);
    report.same(octets, ours, (element.bcr, judge::seq_qd_fields(&element.sqd)));
}

fn followed_by([a, b, c, d]: [u8; 4], last: u8) -> [u8; 5] {
    [a, b, c, d, last]
}
