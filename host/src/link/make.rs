//! Histories at random.
use super::{
    cases::PLAIN,
    events::Opening,
    record,
    run::{Ack, Incoming, Run},
};
use crate::{
    asdu::{
        self,
        layout::{CARRIED, HEADER_SIZE},
    },
    random::Random,
};

const MAX_TIME: u64 = 172_800_000;
/// The most octets of a chunk that the Rust takes in one read.
const CHUNK_SIZE: usize = 255;

fn time(random: &mut Random) -> u64 {
    match random.below(8) {
        0 => MAX_TIME - random.below(3) as u64,
        1 => 1 + random.below(MAX_TIME as usize) as u64,
        2 | 3 => 1 + random.below(4) as u64,
        _ => 1 + random.below(40) as u64,
    }
}

/// A frame number: in half of the cases 0, and else often one from which the numbers soon start again.
fn number(random: &mut Random) -> u16 {
    match random.below(8) {
        0 => random.below(32_768) as u16,
        1..=3 => 32_767 - random.below(40) as u16,
        _ => 0,
    }
}

fn clock(random: &mut Random) -> u64 {
    match random.below(4) {
        0 => random.next_u64() & record::MAX_CLOCK,
        1 => record::MAX_CLOCK - random.below(100_000) as u64,
        _ => 0,
    }
}

pub fn opening(random: &mut Random) -> Opening {
    let few = random.once_in(2);
    Opening {
        k: 1 + random.below(if few { 4 } else { 32 }) as u16,
        w: if random.once_in(16) {
            32_767
        } else {
            1 + random.below(if few { 4 } else { 24 }) as u16
        },
        p: 1 + random.below(if few { 3 } else { 16 }) as u32,
        t1: time(random),
        t2: time(random),
        t3: time(random),
        sent: number(random),
        received: number(random),
        unconfirmed: 0,
        clock: clock(random),
    }
}

/// An ASDU that both send as it is: no reserved bits, and no sequence of several.
pub fn plain_asdu(random: &mut Random) -> Vec<u8> {
    if random.once_in(4) {
        return PLAIN.to_vec();
    }
    let sequence = random.once_in(8);
    let carried = random.pick(if sequence { &CARRIED[..12] } else { &CARRIED });
    let most = asdu::make::most_objects(carried, false);
    let most = if random.once_in(12) { most } else { most.min(4) };
    let count = if sequence { 1 } else { random.below(most + 1) };
    let mut octets = asdu::make::good(random, carried, sequence, count);
    let step = 3 + carried.size();
    for at in (0..count).map(|index| HEADER_SIZE + 3 + index * step) {
        let element = octets[at..].iter_mut().zip(carried.kept);
        element.for_each(|(octet, kept)| *octet &= kept);
    }
    octets
}

fn ack(random: &mut Random) -> Ack {
    match random.below(64) {
        0 => Ack::Some(random.below(40) as u16),
        1..=28 => Ack::Oldest,
        29..=44 => Ack::Newest,
        _ => Ack::Some(random.below(3) as u16),
    }
}

/// One that a sound peer may send: a count that there is.
fn right_ack(random: &mut Random, run: &Run) -> Ack {
    match ack(random) {
        Ack::Some(count) if u64::from(count) > run.cells().at(record::HELD) => Ack::Newest,
        ack => ack,
    }
}

const TEST_ACT: u8 = 0x43;
const TEST_CON: u8 = 0x83;
const STOP: [u8; 2] = [0x13, 0x23];

fn right_frame(random: &mut Random, run: &Run) -> Incoming {
    match random.below(16) {
        0..=8 => {
            let ack = right_ack(random, run);
            Incoming::I { ack, ahead: 0, asdu: plain_asdu(random) }
        }
        9..=12 => Incoming::S { ack: right_ack(random, run) },
        13 => Incoming::U(TEST_ACT),
        _ => Incoming::U(TEST_CON),
    }
}

/// A frame that most often ends the link.
fn last_frame(random: &mut Random) -> Incoming {
    match random.below(8) {
        0 => Incoming::I {
            ack: ack(random),
            ahead: 1 + random.below(3) as u16,
            asdu: PLAIN.to_vec(),
        },
        1 => Incoming::I { ack: ack(random), ahead: 32_767, asdu: PLAIN.to_vec() },
        2 => Incoming::S { ack: Ack::Some(32_767 - random.below(3) as u16) },
        3 => Incoming::S { ack: Ack::Some(1 + random.below(40) as u16) },
        4 => {
            Incoming::I { ack: Ack::Some(random.below(40) as u16), ahead: 0, asdu: PLAIN.to_vec() }
        }
        5 => Incoming::U(*random.pick(&STOP)),
        6 => Incoming::U(random.next_u8() | 3),
        _ => Incoming::Octets(broken(random)),
    }
}

/// Octets that are no frame, in a way that both tell by the same number.
fn broken(random: &mut Random) -> Vec<u8> {
    match random.below(6) {
        0 => vec![random.next_u8() & 0x7F | 0x80, 4, 0x43, 0, 0, 0],
        1 => vec![0x68, 254 + random.below(2) as u8, 0, 0, 0, 0],
        2 => vec![0x68, 2, 1, 0],
        3 => vec![0x68, 3, 1, 0, 2],
        4 => vec![0x68, 4, random.next_u8(), 1, random.next_u8(), 0],
        _ => vec![0x68, 6, random.next_u8() | 1, 0, random.next_u8(), 0, 1, 0],
    }
}

fn size(frame: &Incoming) -> usize {
    match frame {
        Incoming::I { asdu, .. } => 6 + asdu.len(),
        Incoming::Octets(octets) => octets.len(),
        _ => 6,
    }
}

/// As many of the frames as the Rust takes in one read.
fn fitting(frames: Vec<Incoming>) -> Vec<Incoming> {
    let mut left = CHUNK_SIZE;
    let fits = |frame: &Incoming| {
        let fits = size(frame) <= left;
        left = left.saturating_sub(size(frame));
        fits
    };
    frames.into_iter().take_while(fits).collect()
}

fn chunk(random: &mut Random, run: &Run) -> Vec<Incoming> {
    let most = if random.once_in(8) { 24 } else { 3 };
    let count = 1 + random.below(most);
    // A count that was there when the chunk was made may be gone by the time its frame comes.
    let mut frames: Vec<Incoming> = (0..count).map(|_| right_frame(random, run)).collect();
    if frames.len() > 1 {
        frames = frames.into_iter().map(certain).collect();
    }
    if random.once_in(48) {
        frames.truncate(random.below(3));
        frames.push(last_frame(random));
    }
    fitting(frames)
}

/// With a receive number that is right whatever came before it in the chunk.
fn certain(frame: Incoming) -> Incoming {
    match frame {
        Incoming::I { ack: Ack::Some(_), ahead: 0, asdu } => {
            Incoming::I { ack: Ack::Newest, ahead: 0, asdu }
        }
        Incoming::S { ack: Ack::Some(1 | 2) } => Incoming::S { ack: Ack::Oldest },
        frame => frame,
    }
}

/// To the next deadline, just before it, or anywhere.
fn jump(random: &mut Random, run: &Run) -> u64 {
    let next = run.cells().next_deadline().map_or(1, |at| at.saturating_sub(run.now()));
    let jump = match random.below(8) {
        0 | 1 => next,
        2 => next.saturating_sub(1),
        3 => next + 1,
        4 => next / 2,
        5 => random.below(MAX_TIME as usize) as u64 * u64::from(random.once_in(16)),
        _ => random.below(4) as u64,
    };
    jump.max(1).min(run.time_left())
}

pub fn event(random: &mut Random, run: &mut Run) {
    if random.once_in(6) {
        let jump = jump(random, run);
        run.skip(jump);
    }
    match random.below(32) {
        0..=11 => {
            let chunk = chunk(random, run);
            run.receive(&chunk);
        }
        12..=22 => {
            let asdu = plain_asdu(random);
            run.send_plain(&asdu);
        }
        23 => {
            let asdu = any_asdu(random);
            run.send(&asdu);
        }
        24 if random.once_in(8) => {
            let asdu = any_asdu(random);
            run.receive_asdu(&asdu);
        }
        25 if random.once_in(2) => run.test(),
        26 if random.once_in(2) => run.stop(),
        _ => {
            let jump = jump(random, run);
            run.advance(jump);
        }
    }
}

/// A good one, or a damaged copy of one.
fn any_asdu(random: &mut Random) -> Vec<u8> {
    let octets = asdu::make::small_good(random);
    if random.once_in(2) {
        return octets;
    }
    let damaged = asdu::make::damaged(random, &octets);
    random.pick(&damaged).clone()
}
