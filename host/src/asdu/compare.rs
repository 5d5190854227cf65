//! What ASDUs are compared: each in its reading (all fields, or the refusal), the check, plain form and rewriting.
use super::{
    answers::Refusal,
    cases::compare as asdu,
    inputs,
    inputs::Comparison,
    judge,
    layout::{COUNTER, Carried, MAX_SIZE, SINGLE_POINT},
    make, proved,
    proved::ROOM,
    writing,
};
use crate::{hex::Hex, random::Random, report::Report};

/// How much is compared.
pub struct Extent {
    inputs: inputs::Extent,
    records: u32,
}

pub const QUICK: Extent = Extent { inputs: inputs::QUICK, records: 10_000 };
pub const FULL: Extent = Extent { inputs: inputs::FULL, records: 500_000 };

struct Asdus<'a>(&'a mut Report);

impl Comparison for Asdus<'_> {
    fn group(&mut self, name: &'static str) {
        self.0.group(name);
    }

    fn asdu(&mut self, octets: &[u8]) {
        asdu(self.0, octets);
    }
}

pub fn compare(report: &mut Report, random: &mut Random, extent: &Extent) {
    report.level("ASDUs");
    limits(report, random);
    inputs::give(&mut Asdus(report), random, &extent.inputs);
    rooms(report, random);
    writing::compare(report, random, extent.records);
}

struct Limit {
    name: &'static str,
    carried: &'static Carried,
    sequence: bool,
    count: usize,
    /// The length of the frame that it fills, or the refusal.
    answer: Result<usize, u8>,
}

const LIMITS: [Limit; 4] = [
    Limit {
        name: "48 counters in sequence give L 253",
        carried: COUNTER,
        sequence: true,
        count: 48,
        answer: Ok(253),
    },
    Limit {
        name: "49 counters in sequence give 17",
        carried: COUNTER,
        sequence: true,
        count: 49,
        answer: Err(17),
    },
    Limit {
        name: "60 single points fit, with L 250",
        carried: SINGLE_POINT,
        sequence: false,
        count: 60,
        answer: Ok(250),
    },
    Limit {
        name: "61 single points give 17",
        carried: SINGLE_POINT,
        sequence: false,
        count: 61,
        answer: Err(17),
    },
];

/// The octets of a frame after its length and before its ASDU.
const CONTROL_SIZE: usize = 4;

fn limits(report: &mut Report, random: &mut Random) {
    for Limit { name, carried, sequence, count, answer } in LIMITS {
        report.group(name);
        let octets = make::good(random, carried, sequence, count);
        let expected = answer.map_err(Refusal::Number);
        let read = proved::reading(&octets).map(|_| CONTROL_SIZE + octets.len());
        report.same("reading", read, expected.clone());
        let record = judge::reading(&octets).expect("the Rust has no limit");
        let written = proved::writing(&record, ROOM).map(|octets| CONTROL_SIZE + octets.len());
        report.same("writing", written, expected);
        asdu(report, &octets);
    }
}

fn rooms(report: &mut Report, random: &mut Random) {
    report.group("written again to outputs from 0 octets to two more than it needs");
    for (carried, sequence) in inputs::types_and_layouts() {
        for count in [0, 1, 2, make::most_objects(carried, sequence)] {
            let octets = make::good(random, carried, sequence, count);
            let Ok(whole) = proved::rewriting(&octets, MAX_SIZE) else { continue };
            for room in 0..=whole.len() + 2 {
                let fits =
                    if room < whole.len() { Err(Refusal::Number(18)) } else { Ok(whole.clone()) };
                report.same((room, Hex(&octets)), proved::rewriting(&octets, room), fits);
            }
        }
    }
}
