//! ASDUs to compare on: good ones, and what is made of them by damage.
use super::layout::{
    ADDRESS_SIZE, CARRIED, Carried, HEADER_SIZE, MAX_ADDRESS, MAX_SIZE, is_listed, needed,
};
use crate::random::Random;

pub fn listed_causes() -> Vec<u8> {
    (0..64).filter(|&cause| is_listed(cause)).collect()
}

/// The most objects that fit an ASDU.
pub fn most_objects(carried: &Carried, sequence: bool) -> usize {
    let fits = |count: &usize| needed(carried.size(), sequence, *count) <= MAX_SIZE;
    (0..=127).rev().find(fits).expect("no object fits always")
}

/// A header with any marks, a listed cause, any originator and any common address.
fn header(random: &mut Random, number: u8, sequence: bool, count: usize) -> Vec<u8> {
    let size = count as u8 | u8::from(sequence) << 7;
    let why = *random.pick(&listed_causes()) | random.next_u8() & 0xc0;
    vec![number, size, why, random.next_u8(), random.next_u8(), random.next_u8()]
}

/// Half of the ASDUs carry reserved bits. Three of four of type 70 have no bit 7 (D8).
fn mask(random: &mut Random, carried: &Carried) -> Vec<u8> {
    if carried.number == 70 && !random.once_in(4) {
        return vec![0x7F];
    }
    if random.once_in(2) { carried.kept.to_vec() } else { vec![0xFF; carried.size()] }
}

fn element(random: &mut Random, mask: &[u8]) -> Vec<u8> {
    mask.iter().map(|bits| random.next_u8() & bits).collect()
}

fn address(random: &mut Random, count: usize) -> u32 {
    random.next_u32() % (MAX_ADDRESS + 2 - count.max(1) as u32)
}

/// An ASDU of the given shape, longer than 249 octets where the count makes it so.
pub fn good(random: &mut Random, carried: &Carried, sequence: bool, count: usize) -> Vec<u8> {
    let mask = mask(random, carried);
    let mut octets = header(random, carried.number, sequence, count);
    for index in 0..count {
        if !sequence || index == 0 {
            let address = address(random, if sequence { count } else { 1 });
            octets.extend(&address.to_le_bytes()[..ADDRESS_SIZE]);
        }
        octets.extend(element(random, &mask));
    }
    if sequence && count == 0 {
        octets.extend(&address(random, 1).to_le_bytes()[..ADDRESS_SIZE]);
    }
    octets
}

/// Random octets in the layout of any type.
pub fn of_any_type(
    random: &mut Random,
    number: u8,
    size: usize,
    sequence: bool,
    count: usize,
) -> Vec<u8> {
    let mut octets = header(random, number, sequence, count);
    octets.resize_with(needed(size, sequence, count), || random.next_u8());
    octets
}

/// An ASDU of any type and layout, with a count that fits: a small one in half of the cases.
pub fn any_good(random: &mut Random) -> Vec<u8> {
    let most = if random.once_in(2) { SMALL } else { MAX_SIZE };
    good_up_to(random, most)
}

/// At most so many objects are few.
const SMALL: usize = 3;

pub fn small_good(random: &mut Random) -> Vec<u8> {
    good_up_to(random, SMALL)
}

fn good_up_to(random: &mut Random, most: usize) -> Vec<u8> {
    let (carried, sequence) = (random.pick(&CARRIED), random.once_in(2));
    let most = most_objects(carried, sequence).min(most);
    let count = random.below(most + 1);
    good(random, carried, sequence, count)
}

pub fn set_first_address(octets: &mut [u8], address: u32) {
    octets[HEADER_SIZE..HEADER_SIZE + ADDRESS_SIZE]
        .copy_from_slice(&address.to_le_bytes()[..ADDRESS_SIZE]);
}

/// One octet shorter, as it is, one octet longer.
pub fn lengths(octets: &[u8]) -> [Vec<u8>; 3] {
    let longer = [octets, &[0]].concat();
    [octets[..octets.len() - 1].to_vec(), octets.to_vec(), longer]
}

pub fn with_octet(octets: &[u8], place: usize, octet: u8) -> Vec<u8> {
    let mut changed = octets.to_vec();
    changed[place] = octet;
    changed
}

pub fn with_bit_flipped(octets: &[u8], bit: usize) -> Vec<u8> {
    with_octet(octets, bit / 8, octets[bit / 8] ^ 1 << (bit % 8))
}

/// One octet changed, one bit flipped, cut, extended.
pub fn damaged(random: &mut Random, octets: &[u8]) -> [Vec<u8>; 4] {
    let place = random.below(octets.len());
    let changed = with_octet(octets, place, random.next_u8());
    let flipped = with_bit_flipped(octets, random.below(8 * octets.len()));
    let cut = octets[..random.below(octets.len())].to_vec();
    let more: Vec<u8> = (0..=random.below(8)).map(|_| random.next_u8()).collect();
    [changed, flipped, cut, [octets, &more].concat()]
}

pub fn random_octets(random: &mut Random) -> Vec<u8> {
    let len = random.below(MAX_SIZE + 12);
    (0..len).map(|_| random.next_u8()).collect()
}

/// Random octets that begin like an ASDU, so that they are not refused at the cause or the type.
pub fn random_after_header(random: &mut Random) -> Vec<u8> {
    let (carried, sequence) = (random.pick(&CARRIED), random.once_in(2));
    let count = random.below(128);
    let len = random.below(MAX_SIZE - HEADER_SIZE + 1);
    let mut octets = header(random, carried.number, sequence, count);
    octets.extend((0..len).map(|_| random.next_u8()));
    octets
}
