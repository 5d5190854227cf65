//! ASDUs to compare on, by what they are to show; `make` makes each.
use iec104::types_id::TypeId;

use super::{
    layout,
    layout::{CARRIED, Carried, MAX_ADDRESS},
    make,
};
use crate::random::Random;

/// What takes the ASDUs.
pub trait Comparison {
    /// Those that follow belong to this group.
    fn group(&mut self, name: &'static str);
    fn asdu(&mut self, octets: &[u8]);
}

/// How many there are.
pub struct Extent {
    /// How often each shape is filled at random.
    pub fills: u32,
    /// Every so many pairs of octets are read.
    pub stride: usize,
    /// Copies that are damaged.
    pub copies: u32,
    /// Whether each octet of a short ASDU is set to every value.
    pub every_octet: bool,
    pub random: u32,
}

pub const QUICK: Extent =
    Extent { fills: 4, stride: 61, copies: 10_000, every_octet: false, random: 20_000 };

pub const FULL: Extent =
    Extent { fills: 60, stride: 1, copies: 150_000, every_octet: true, random: 400_000 };

pub fn give(comparison: &mut impl Comparison, random: &mut Random, extent: &Extent) {
    short(comparison, random);
    shapes(comparison, random, extent.fills);
    causes(comparison, random);
    values(comparison, random, extent.stride);
    addresses(comparison, random);
    types(comparison, random);
    short_damaged(comparison, random, extent.every_octet);
    damaged(comparison, random, extent.copies);
    at_random(comparison, random, extent.random);
}

fn short(comparison: &mut impl Comparison, random: &mut Random) {
    comparison.group("every one of up to two octets; three to five of every type and cause octet");
    comparison.asdu(&[]);
    for first in 0..=u8::MAX {
        comparison.asdu(&[first]);
        for second in 0..=u8::MAX {
            comparison.asdu(&[first, second]);
            let more = [first, random.next_u8(), second, random.next_u8(), random.next_u8()];
            (3..=5).for_each(|len| comparison.asdu(&more[..len]));
        }
    }
}

/// Every carried type in both layouts.
pub fn types_and_layouts() -> impl Iterator<Item = (&'static Carried, bool)> {
    CARRIED.iter().flat_map(|carried| [false, true].map(|sequence| (carried, sequence)))
}

fn shapes(comparison: &mut impl Comparison, random: &mut Random, fills: u32) {
    comparison.group("every type, layout and count, one octet short, as it is and one octet long");
    for (carried, sequence) in types_and_layouts() {
        for count in 0..=127 {
            for _ in 0..fills {
                let octets = make::good(random, carried, sequence, count);
                make::lengths(&octets).iter().for_each(|octets| comparison.asdu(octets));
            }
        }
    }
}

fn causes(comparison: &mut impl Comparison, random: &mut Random) {
    comparison.group("every octet of cause, for every type and layout with 0 to 2 objects");
    for (carried, sequence) in types_and_layouts() {
        for count in 0..=2 {
            let octets = make::good(random, carried, sequence, count);
            (0..=u8::MAX).for_each(|cause| comparison.asdu(&make::with_octet(&octets, 2, cause)));
        }
    }
}

fn values(comparison: &mut impl Comparison, random: &mut Random, stride: usize) {
    comparison.group("one object, every value of its first octet or of its first two octets");
    for (carried, sequence) in types_and_layouts().filter(|(carried, _)| carried.size() > 0) {
        let octets = make::good(random, carried, sequence, 1);
        let firsts = 1 << (8 * carried.size().min(2));
        for first in (0..firsts).step_by(if firsts > 256 { stride } else { 1 }) {
            let [low, high] = (first as u16).to_le_bytes();
            let mut octets = make::with_octet(&octets, 9, low);
            if carried.size() > 1 {
                octets[10] = high;
            }
            comparison.asdu(&octets);
        }
    }
}

fn addresses(comparison: &mut impl Comparison, random: &mut Random) {
    comparison.group("addresses about the last one of three octets, with every count");
    for (carried, sequence) in types_and_layouts() {
        for count in 1..=make::most_objects(carried, sequence) {
            let mut octets = make::good(random, carried, sequence, count);
            for last in MAX_ADDRESS - 2..=MAX_ADDRESS + 2 {
                let first = if sequence { last + 1 - count as u32 } else { last };
                make::set_first_address(&mut octets, first.min(MAX_ADDRESS));
                comparison.asdu(&octets);
            }
        }
    }
}

fn types(comparison: &mut impl Comparison, random: &mut Random) {
    comparison
        .group("every type of 0 to 255, up to three objects of the size that the Rust gives it");
    for number in 0..=u8::MAX {
        let size = TypeId::from(number).size();
        for (sequence, count) in layout::layouts_with_up_to(3) {
            let octets = make::of_any_type(random, number, size, sequence, count);
            make::lengths(&octets).iter().for_each(|octets| comparison.asdu(octets));
        }
    }
}

fn short_damaged(comparison: &mut impl Comparison, random: &mut Random, every_octet: bool) {
    comparison.group(
        "up to two objects, every bit flipped, every cut; in a full run every octet changed",
    );
    for (carried, sequence) in types_and_layouts() {
        for count in 0..=2 {
            let octets = make::good(random, carried, sequence, count);
            (0..octets.len()).for_each(|len| comparison.asdu(&octets[..len]));
            for bit in 0..8 * octets.len() {
                comparison.asdu(&make::with_bit_flipped(&octets, bit));
            }
            for place in 0..if every_octet { octets.len() } else { 0 } {
                for octet in 0..=u8::MAX {
                    comparison.asdu(&make::with_octet(&octets, place, octet));
                }
            }
        }
    }
}

fn damaged(comparison: &mut impl Comparison, random: &mut Random, copies: u32) {
    comparison.group("any that is good, and four damaged copies of it");
    for _ in 0..copies {
        let octets = make::any_good(random);
        comparison.asdu(&octets);
        make::damaged(random, &octets).iter().for_each(|octets| comparison.asdu(octets));
    }
}

fn at_random(comparison: &mut impl Comparison, random: &mut Random, count: u32) {
    comparison.group("random octets, in half of the cases after a carried type and a listed cause");
    for _ in 0..count / 2 {
        comparison.asdu(&make::random_octets(random));
        comparison.asdu(&make::random_after_header(random));
    }
}
