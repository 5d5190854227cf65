//! The smallest inputs of the entries, with what each side must answer.
use super::given::{Given, Shown};
use crate::asdu::record::{FIELDS_SIZE, Object};

const fn shown(entry: &'static str, given: Given, ours: &'static str, rust: &'static str) -> Shown {
    Shown { entry, given, ours, rust }
}

const fn plain(type_id: u8, objects: &'static [Object]) -> Given {
    Given::Write { type_id, sequence: false, objects }
}

const fn sequence(type_id: u8, objects: &'static [Object]) -> Given {
    Given::Write { type_id, sequence: true, objects }
}

/// The fields of a value are 0 but for the one at `place`.
const fn object(address: u32, kind: u8, place: usize, field: u8) -> Object {
    let mut fields = [0; FIELDS_SIZE];
    fields[place] = field;
    Object { address, kind, fields }
}

const fn single_point(address: u32) -> Object {
    object(address, 1, 0, 0)
}

/// A value moved up by 128.
const fn step(raised: u8) -> Object {
    object(10, 5, 0, raised)
}

/// Of 0, with the given place in its sequence.
const fn counter(seq: u8) -> Object {
    Object { fields: [0x80, 0, 0, 0, 0, 0, 0, seq, 0, 0, 0], ..object(10, 15, 0, 0) }
}

/// The cause 0 as one that has no name.
const OTHER_CAUSE: Object = object(0, 70, 0, 3);

pub const SHOWN: [Shown; 28] = [
    shown(
        "D1",
        Given::Rewrite("0182030001000a00000000"),
        "writes 0182030001000a00000000",
        "writes 0182030001000a0000000b000000",
    ),
    shown("D1", sequence(1, &[]), "refuses (13)", "writes 018003000100"),
    shown(
        "D1",
        sequence(1, &[single_point(10), single_point(12)]),
        "refuses (14)",
        "writes 0182030001000a0000000c000000",
    ),
    shown("D2", Given::Read("668003000100000000", 0), "refuses (13)", "panics"),
    shown("D3", Given::ReadFrame("68040300000000"), "refuses (4)", "reads U 0 0 0 0 0 0"),
    shown("D3", Given::ReadFrame("680301000200"), "refuses (4)", "refuses (8)"),
    shown("D3", Given::ReadFrame("680000000000"), "refuses (4)", "refuses (9)"),
    shown(
        "D4",
        Given::Read("018203000100ffffff0000", 0),
        "refuses (14)",
        "reads 1 1 0 0 3 0 1 2 16777215:iv=0,nt=0,sb=0,bl=0,spi=0 16777216:iv=0,nt=0,sb=0,bl=0,spi=0",
    ),
    shown(
        "D5",
        Given::Read("013d03000100", 244),
        "refuses (17)",
        "reads 1 0 0 0 3 0 1 61 0:iv=0,nt=0,sb=0,bl=0,spi=0 0:iv=0,nt=0,sb=0,bl=0,spi=0 ..",
    ),
    shown("D6", plain(15, &[counter(32)]), "refuses (15)", "writes 0f01030001000a00000000000000"),
    shown("D6", plain(5, &[step(128 + 64)]), "refuses (15)", "writes 0501030001000a00004000"),
    shown("D6", plain(5, &[step(128 - 65)]), "refuses (15)", "writes 0501030001000a00003f00"),
    shown("D6", plain(1, &[single_point(1 << 24)]), "refuses (14)", "writes 01010300010000000000"),
    shown("D6", Given::WriteS(32_768), "refuses (15)", "writes 680401000000"),
    shown("D7", plain(70, &[OTHER_CAUSE]), "refuses (15)", "writes 46010300010000000000"),
    shown(
        "D8",
        Given::Read("46010400010000000080", 0),
        "reads 70 0 0 0 4 0 1 1 0:which=3,cause=128,changed=0",
        "reads 70 0 0 0 4 0 1 1 0:which=0,cause=0,changed=1",
    ),
    shown("D9", Given::Read("010000000100", 0), "refuses (10)", "reads 1 0 0 0 0 0 1 0"),
    shown("D9", Given::Read("010100", 0), "refuses (10)", "refuses (9)"),
    shown("D10", Given::Read("020003000100", 0), "refuses (11)", "reads 2 0 0 0 3 0 1 0"),
    shown(
        "D10",
        Given::Read("ff0003000100000000", 0),
        "refuses (11)",
        "reads 255 0 0 0 3 0 1 1 0:",
    ),
    shown("D10", Given::Rewrite("ff0003000100000000"), "refuses (11)", "writes ff0103000100000000"),
    shown("D11", plain(15, &[single_point(10)]), "refuses (16)", "writes 0f01030001000a000000"),
    shown("D11", plain(3, &[single_point(10)]), "refuses (16)", "writes 0301030001000a000000"),
    shown("D12", plain(1, &[single_point(0); 128]), "refuses (12)", "refuses (12), leaves 01"),
    shown("D12", Given::WriteU { length: 99 }, "writes 680403000000", "writes 686303000000"),
    shown("D13", Given::Stream("680200"), "refuses (1)", "needs more"),
    shown("D13", Given::Stream("680300"), "refuses (1)", "needs more"),
    shown("D13", Given::Stream("68030000"), "refuses (1)", "needs more"),
];
