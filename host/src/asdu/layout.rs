//! Document 01's carried types, their layouts and its limits.
pub const HEADER_SIZE: usize = 6;
pub const ADDRESS_SIZE: usize = 3;
pub const MAX_SIZE: usize = 249;
pub const MAX_ADDRESS: u32 = 0xFF_FFFF;

pub struct Carried {
    pub number: u8,
    /// The bits of each octet of an element that are not reserved.
    pub kept: &'static [u8],
}

const SIQ: u8 = 0xF1;
const DIQ: u8 = 0xF3;
const QDS: u8 = 0xF1;

pub const CARRIED: [Carried; 13] = [
    Carried { number: 1, kept: &[SIQ] },
    Carried { number: 3, kept: &[DIQ] },
    Carried { number: 5, kept: &[0xFF, QDS] },
    Carried { number: 7, kept: &[0xFF, 0xFF, 0xFF, 0xFF, QDS] },
    Carried { number: 9, kept: &[0xFF, 0xFF, QDS] },
    Carried { number: 11, kept: &[0xFF, 0xFF, QDS] },
    Carried { number: 13, kept: &[0xFF, 0xFF, 0xFF, 0xFF, QDS] },
    Carried { number: 15, kept: &[0xFF; 5] },
    Carried { number: 21, kept: &[0xFF; 2] },
    Carried { number: 70, kept: &[0xFF] },
    Carried { number: 100, kept: &[0xFF] },
    Carried { number: 101, kept: &[0xFF] },
    Carried { number: 102, kept: &[] },
];

pub const SINGLE_POINT: &Carried = &CARRIED[0];
pub const COUNTER: &Carried = &CARRIED[7];
pub const READ_COMMAND: &Carried = &CARRIED[12];

impl Carried {
    pub fn size(&self) -> usize {
        self.kept.len()
    }
}

pub fn carried(number: u8) -> Option<&'static Carried> {
    CARRIED.iter().find(|carried| carried.number == number)
}

pub fn is_listed(cause: u8) -> bool {
    matches!(cause, 1..=13 | 20..=41 | 44..=47)
}

/// The octets of an ASDU with `count` elements of `size` octets.
pub fn needed(size: usize, sequence: bool, count: usize) -> usize {
    if sequence {
        return HEADER_SIZE + ADDRESS_SIZE + count * size;
    }
    HEADER_SIZE + count * (ADDRESS_SIZE + size)
}

/// Plain and sequence, each with every count up to `most`.
pub fn layouts_with_up_to(most: usize) -> impl Iterator<Item = (bool, usize)> {
    [false, true]
        .into_iter()
        .flat_map(move |sequence| (0..=most).map(move |count| (sequence, count)))
}
