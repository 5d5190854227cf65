//! Topping up, picking and a step called directly, at the edges of carry and chunk, and held to `model`.
use std::fmt;

use super::{
    answers::{Picked, Stepped},
    model, proved,
};
use crate::{
    asdu::answers::Refusal, frames::layout::START, hex::Hex, random::Random, report::Report,
};

/// Bytes of the carry's buffer.
const ROOMS: [usize; 5] = [0, 254, 255, 256, 300];

/// More than any room and any frame.
const ON_HAND: usize = 600;

/// The first byte and the length octet, where they are not random.
const STARTS: [(u8, u8); 12] = [
    (START, 0),
    (START, 1),
    (START, 2),
    (START, 3),
    (START, 4),
    (START, 5),
    (START, 100),
    (START, 252),
    (START, 253),
    (START, 254),
    (START, 255),
    (START - 1, 4),
];

/// A call: what is in the carry's buffer, how much of it is held, and the chunk.
#[derive(Clone, Copy)]
struct Call<'a> {
    carry: &'a [u8],
    held: usize,
    chunk: &'a [u8],
}

impl fmt::Debug for Call<'_> {
    fn fmt(&self, f: &mut fmt::Formatter) -> fmt::Result {
        let Call { carry, held, chunk } = self;
        write!(f, "carry {:?}, {held} held, chunk {:?}", Hex(carry), Hex(chunk))
    }
}

/// What the three answer, and the carry after topping up and after a step.
#[derive(Debug, PartialEq)]
struct Answers {
    topped: (Result<usize, Refusal>, Vec<u8>),
    picked: (Result<Picked, Refusal>, Vec<u8>),
    stepped: (Result<Stepped, Refusal>, Vec<u8>),
}

pub fn compare(report: &mut Report, random: &mut Random) {
    report.group("topping up, picking and a step, at the edges of carry and chunk");
    for room in ROOMS {
        for held in (0..=256).chain([257, 300, 4_096, usize::MAX]) {
            for (first, length) in starts(random) {
                on_hand(report, random, room, held, &[first, length]);
            }
        }
    }
}

fn starts(random: &mut Random) -> Vec<(u8, u8)> {
    let mut starts = STARTS.to_vec();
    starts.extend([(START, random.next_u8()), (random.next_u8(), random.next_u8())]);
    starts
}

/// Bytes that begin with the given ones stand in the carry as far as it is held, and then in the chunk, of all lengths about
/// what is missing of a frame. In the carry there are others after them.
fn on_hand(report: &mut Report, random: &mut Random, room: usize, held: usize, start: &[u8; 2]) {
    let mut octets: Vec<u8> = (0..ON_HAND).map(|_| random.next_u8()).collect();
    octets[..2].copy_from_slice(start);
    let mut carry: Vec<u8> = (0..room).map(|_| random.next_u8()).collect();
    let there = held.min(room);
    carry[..there].copy_from_slice(&octets[..there]);
    let missing = (2 + usize::from(start[1])).saturating_sub(there);
    let lengths = [0, 1, 2, 3, missing.saturating_sub(1), missing, missing + 1, 300];
    for len in lengths {
        let call = Call { carry: &carry, held, chunk: &octets[there..there + len] };
        report.same(call, ours(call), by_model(call));
    }
}

fn ours(Call { carry, held, chunk }: Call) -> Answers {
    let (mut topped, mut stepped) = (carry.to_vec(), carry.to_vec());
    Answers {
        topped: (proved::top_up(&mut topped, held, chunk), topped),
        picked: (proved::which(carry, held, chunk), proved::pick(carry, held, chunk)),
        stepped: (proved::step(&mut stepped, held, chunk), stepped),
    }
}

fn by_model(Call { carry, held, chunk }: Call) -> Answers {
    let (mut topped, mut stepped) = (carry.to_vec(), carry.to_vec());
    Answers {
        topped: (model::top_up(&mut topped, held, chunk), topped),
        picked: (model::which(carry, held, chunk), model::part(carry, held, chunk)),
        stepped: (model::step(&mut stepped, held, chunk), stepped),
    }
}
