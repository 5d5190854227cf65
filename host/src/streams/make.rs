//! Streams to compare on.
use crate::{
    asdu,
    frames::{
        layout::{CONTROL_SIZE, MAX_LENGTH},
        make,
    },
    random::Random,
};

/// Lengths that no frame has.
const BAD_LENGTHS: [u8; 6] = [0, 1, 2, 3, 254, 255];

/// The most bytes of a chunk.
const CHUNKS: [usize; 8] = [0, 1, 2, 3, 8, 64, 300, 1_460];

/// A frame that is good, or one of any length that is at least cut out.
fn frame(random: &mut Random) -> Vec<u8> {
    if random.once_in(2) {
        return make::any_good(random);
    }
    let length = CONTROL_SIZE + random.below(MAX_LENGTH - CONTROL_SIZE + 1);
    make::sized(random, length as u8, 2 + length)
}

/// A frame with an octet changed or a bit flipped, cut, extended, or of a length that no frame has.
fn damaged(random: &mut Random) -> Vec<u8> {
    if random.once_in(2) {
        let length = *random.pick(&BAD_LENGTHS);
        return make::sized(random, length, 2 + usize::from(length));
    }
    let octets = frame(random);
    let copies = asdu::make::damaged(random, &octets);
    random.pick(&copies).clone()
}

/// So many frames; in half of the streams about one of them is damaged.
pub fn stream(random: &mut Random, frames: usize) -> Vec<u8> {
    let good = random.once_in(2);
    let frames = (0..frames)
        .map(|_| if good || !random.once_in(frames) { frame(random) } else { damaged(random) });
    frames.collect::<Vec<_>>().concat()
}

/// Places in their order, with chunks of all sizes between them, empty ones too.
pub fn cuts(random: &mut Random, len: usize) -> Vec<usize> {
    let (mut cuts, mut at) = (Vec::new(), 0);
    while at < len {
        let most = *random.pick(&CHUNKS);
        at += random.below(most + 1);
        cuts.push(at.min(len));
    }
    cuts
}
