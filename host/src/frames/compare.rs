//! What frames are compared: each in its reading (numbers and flags, its ASDU with all fields, or the refusal), plain
//! form and rewriting.
use super::{
    cases::compare as frame,
    layout::{self, MAX_NUMBER, START},
    make, writing,
};
use crate::{
    asdu::{self, inputs, inputs::Comparison},
    random::Random,
    report::Report,
};

/// How much is compared.
pub struct Extent {
    /// The second to fourth control octets of the frames of six and seven bytes.
    grid: &'static [u8],
    /// How often a frame of each length is filled at random.
    fills: u32,
    /// Copies that are damaged.
    copies: u32,
    asdus: inputs::Extent,
    written: u32,
}

pub const QUICK: Extent = Extent {
    grid: &[0x00, 0x01, 0x02, 0xFF],
    fills: 8,
    copies: 10_000,
    asdus: inputs::QUICK,
    written: 10_000,
};

pub const FULL: Extent = Extent {
    grid: &[0x00, 0x01, 0x02, 0x03, 0x04, 0x10, 0x40, 0x7F, 0x80, 0x81, 0xFE, 0xFF],
    fills: 400,
    copies: 150_000,
    asdus: inputs::FULL,
    written: 150_000,
};

pub fn compare(report: &mut Report, random: &mut Random, extent: &Extent) {
    report.level("frames");
    short(report, random);
    control_octets(report, extent.grid);
    u_frames(report);
    s_frames(report);
    i_numbers(report, random);
    lengths(report, random, extent.fills);
    damaged(report, random, extent.copies);
    report.level("I frames with these ASDUs");
    let mut framed = Framed { random: Random::from_seed(random.next_u64()), report };
    inputs::give(&mut framed, random, &extent.asdus);
    writing::compare(report, random, extent.written);
}

fn short(report: &mut Report, random: &mut Random) {
    report.group("every one of up to two bytes; three to five bytes; every first byte of six");
    frame(report, &[]);
    for first in 0..=u8::MAX {
        frame(report, &[first]);
        let whole = layout::frame(make::control(random), &[]);
        frame(report, &asdu::make::with_octet(&whole, 0, first));
        for second in 0..=u8::MAX {
            frame(report, &[first, second]);
        }
        let begun = layout::with_length(first, make::control(random), &[]);
        (3..=5).for_each(|len| frame(report, &begun[..len]));
    }
}

/// Lengths about that of six and seven bytes, and one that is too great.
const LENGTHS: [u8; 4] = [3, 4, 5, 254];

fn control_octets(report: &mut Report, grid: &[u8]) {
    report.group("six and seven bytes: every first control octet, the others over a grid, by L");
    let rest = grid.iter().flat_map(|&b| grid.iter().map(move |&c| (b, c)));
    for (b, c) in rest {
        for &d in grid {
            for a in 0..=u8::MAX {
                for length in LENGTHS {
                    let octets = [START, length, a, b, c, d, c];
                    frame(report, &octets[..6]);
                    frame(report, &octets);
                }
            }
        }
    }
}

fn u_frames(report: &mut Report) {
    report.group("six bytes: every first control octet, the others 0 or one of them any octet");
    for first in 0..=u8::MAX {
        frame(report, &layout::frame([first, 0, 0, 0], &[]));
        for other in 1..=u8::MAX {
            for place in 1..4 {
                let mut control = [first, 0, 0, 0];
                control[place] = other;
                frame(report, &layout::frame(control, &[]));
            }
        }
    }
}

fn s_frames(report: &mut Report) {
    report.group("S frames: every number, the reserved bit clear and set");
    for number in 0..=MAX_NUMBER {
        let [a, b, c, d] = layout::s_control(number);
        frame(report, &layout::frame([a, b, c, d], &[]));
        frame(report, &layout::frame([a, b, c | 1, d], &[]));
    }
}

fn i_numbers(report: &mut Report, random: &mut Random) {
    report.group("I frames: every send and receive number, bit 0 of both octets clear and set");
    let asdu = asdu::make::good(random, asdu::layout::COUNTER, false, 1);
    for number in 0..=MAX_NUMBER {
        let [a, b, c, d] = layout::i_control(number, MAX_NUMBER - number);
        for (first, third) in [(0, 0), (0, 1), (1, 0), (1, 1)] {
            frame(report, &layout::frame([a | first, b, c | third, d], &asdu));
        }
    }
}

fn lengths(report: &mut Report, random: &mut Random, fills: u32) {
    report.group("every L of 0 to 255, frames of two bytes fewer to two more than it says");
    for length in 0..=u8::MAX {
        for size in usize::from(length)..=usize::from(length) + 4 {
            for _ in 0..fills {
                frame(report, &make::sized(random, length, size));
            }
        }
    }
}

fn damaged(report: &mut Report, random: &mut Random, copies: u32) {
    report.group("any that is good, and four damaged copies of it");
    for _ in 0..copies {
        let octets = make::any_good(random);
        frame(report, &octets);
        asdu::make::damaged(random, &octets).iter().for_each(|octets| frame(report, octets));
    }
}

/// Compares each ASDU in an I frame.
struct Framed<'a> {
    report: &'a mut Report,
    random: Random,
}

impl Comparison for Framed<'_> {
    fn group(&mut self, name: &'static str) {
        self.report.group(name);
    }

    fn asdu(&mut self, octets: &[u8]) {
        frame(self.report, &layout::frame(make::i_control(&mut self.random), octets));
    }
}
