//! Frames to compare on.
use super::layout::{self, CONTROL_SIZE, MAX_NUMBER};
use crate::{
    asdu::{
        self,
        layout::{CARRIED, HEADER_SIZE, MAX_SIZE, needed},
    },
    random::Random,
};

/// Numbers at the limits of their octets and of their 15 bits, the last three of them above.
pub const EDGES: [u16; 12] =
    [0, 1, 127, 128, 255, 256, 16_384, 32_766, MAX_NUMBER, 32_768, 32_769, u16::MAX];

/// A frame number: in half of the cases one of the `EDGES`.
pub fn number(random: &mut Random) -> u16 {
    if random.once_in(2) { *random.pick(&EDGES) } else { random.next_u32() as u16 & MAX_NUMBER }
}

/// The control octets of an I frame with any numbers.
pub fn i_control(random: &mut Random) -> [u8; CONTROL_SIZE] {
    layout::i_control(number(random), number(random))
}

/// The control octets of any kind: I in half of the cases.
pub fn control(random: &mut Random) -> [u8; CONTROL_SIZE] {
    match random.below(6) {
        0 => layout::s_control(number(random)),
        1 => [random.next_u8() | 3, 0, 0, 0],
        2 => random.next_u32().to_le_bytes(),
        _ => i_control(random),
    }
}

/// An I frame with any ASDU that is good.
pub fn good(random: &mut Random) -> Vec<u8> {
    let asdu = asdu::make::any_good(random);
    layout::frame(i_control(random), &asdu)
}

/// A frame of any kind: in half of the cases an I frame with an ASDU.
pub fn any_good(random: &mut Random) -> Vec<u8> {
    if random.once_in(2) { good(random) } else { layout::frame(control(random), &[]) }
}

/// So many octets that begin as a frame with the given length octet. What stands where its ASDU does is a good one,
/// if there is one of that size.
pub fn sized(random: &mut Random, length: u8, size: usize) -> Vec<u8> {
    let asdu = asdu_sized(random, size.saturating_sub(layout::ASDU_AT));
    let mut octets = layout::with_length(length, control(random), &asdu);
    octets.truncate(size);
    octets
}

fn asdu_sized(random: &mut Random, size: usize) -> Vec<u8> {
    let (carried, sequence) = (random.pick(&CARRIED), random.once_in(2));
    let fits = |count: &usize| needed(carried.size(), sequence, *count) == size;
    if let Some(count) = (0..=127).find(fits) {
        return asdu::make::good(random, carried, sequence, count);
    }
    let mut octets = asdu::make::good(random, carried, sequence, MAX_SIZE / HEADER_SIZE);
    octets.resize_with(size, || random.next_u8());
    octets
}
