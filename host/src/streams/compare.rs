//! What streams are compared: after each chunk the frames that it brought, with their bytes, and the refusal that ends them.
use std::fmt;

use super::{answers::Fed, edges, judge::Reader, make, proved::Assembler};
use crate::{
    asdu::answers::Refusal,
    entries,
    hex::Hex,
    random::Random,
    report::{Listed, Report},
};

/// How many streams are compared.
pub struct Extent {
    cut_once: u32,
    cut_twice: u32,
    cut_at_random: u32,
}

pub const QUICK: Extent = Extent { cut_once: 40, cut_twice: 4, cut_at_random: 2_000 };

pub const FULL: Extent = Extent { cut_once: 1_000, cut_twice: 100, cut_at_random: 100_000 };

/// Frames of the streams that are cut at every place, and of those that are cut at random.
const FEW: usize = 3;
const MANY: usize = 30;

/// The longest stream that is cut at every two places.
const SHORT: usize = 60;

pub fn compare(report: &mut Report, random: &mut Random, extent: &Extent) {
    report.level("chunks of streams");
    starts(report);
    cut_once(report, random, extent.cut_once);
    cut_twice(report, random, extent.cut_twice);
    cut_at_random(report, random, extent.cut_at_random);
    report.level("calls in assembling, held to a model");
    edges::compare(report, random);
}

struct Given<'a> {
    before: &'a [u8],
    chunk: &'a [u8],
}

impl fmt::Debug for Given<'_> {
    fn fmt(&self, f: &mut fmt::Formatter) -> fmt::Result {
        write!(f, "after {:?} the chunk {:?}", Hex(self.before), Hex(self.chunk))
    }
}

/// One stream, cut at these places, up to the refusal that ends it.
fn stream(report: &mut Report, octets: &[u8], cuts: &[usize]) {
    let (mut ours, mut rust) = (Assembler::new(), Reader::default());
    let mut at = 0;
    for &cut in cuts.iter().chain([&octets.len()]) {
        let given = Given { before: &octets[..at], chunk: &octets[at..cut] };
        if is_ended_by(report, &mut ours, &mut rust, given) {
            return;
        }
        at = cut;
    }
}

/// Gives the chunk to both sides; whether both have refused then.
fn is_ended_by(report: &mut Report, ours: &mut Assembler, rust: &mut Reader, given: Given) -> bool {
    let (our_fed, rust_fed) = (ours.feed(given.chunk), rust.feed(given.chunk));
    let ended = our_fed.end.is_some() && rust_fed.end.is_some();
    if !rust.waits_in_vain() {
        report.same(given, our_fed, rust_fed);
        return ended;
    }
    let expected = Fed { frames: rust_fed.frames.clone(), end: Some(Refusal::Number(1)) };
    let listed = Listed {
        entry: entries::REFUSED_LATE,
        ours: our_fed == expected,
        rust: rust_fed.end.is_none(),
    };
    report.held(listed, given, our_fed, rust_fed);
    ended
}

fn starts(report: &mut Report) {
    report.group("every two bytes and 0, each a chunk and in one chunk; then six more one by one");
    for first in 0..=u8::MAX {
        for length in 0..=u8::MAX {
            let octets = [first, length, 0, 0, 0, 0, 0, 0, 0];
            stream(report, &octets, &[1, 2, 3]);
            stream(report, &octets, &[3, 4, 5, 6, 7, 8]);
        }
    }
}

fn cut_once(report: &mut Report, random: &mut Random, streams: u32) {
    report.group("good and damaged frames, cut once at every place, and after every byte");
    for _ in 0..streams {
        let octets = make::stream(random, FEW);
        (0..=octets.len()).for_each(|cut| stream(report, &octets, &[cut]));
        stream(report, &octets, &(0..octets.len()).collect::<Vec<_>>());
    }
}

fn cut_twice(report: &mut Report, random: &mut Random, streams: u32) {
    report.group("the same, short, cut at every two places");
    for _ in 0..streams {
        let mut octets = make::stream(random, FEW);
        octets.truncate(SHORT);
        for first in 0..=octets.len() {
            (first..=octets.len()).for_each(|second| stream(report, &octets, &[first, second]));
        }
    }
}

fn cut_at_random(report: &mut Report, random: &mut Random, streams: u32) {
    report.group("good and damaged frames, cut at random");
    for _ in 0..streams {
        let octets = make::stream(random, MANY);
        let cuts = make::cuts(random, octets.len());
        stream(report, &octets, &cuts);
    }
}
