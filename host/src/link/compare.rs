//! What links are compared on: bytes handed out, how each call is answered, and how the link stands, after every event.
use super::{directed, make, run::Run};
use crate::{random::Random, report::Report};

const QUICK_EVENTS: u32 = 4_000;
const FULL_EVENTS: u32 = 1_000_000;

/// The most events of a history, and how many come after its end.
const MOST: u32 = 250;
const AFTER: u32 = 2;

/// The histories depend on the seed alone, not on what was compared before.
pub fn compare(report: &mut Report, seed: u64, full: bool) {
    let random = &mut Random::from_seed(seed);
    report.level("links, event by event");
    directed::compare(report, full);
    report.group("at random");
    let mut left = if full { FULL_EVENTS } else { QUICK_EVENTS };
    while left > 0 {
        left = left.saturating_sub(history(report, random));
    }
}

/// One history; how many events it had.
fn history(report: &mut Report, random: &mut Random) -> u32 {
    let mut run = Run::open(report, make::opening(random));
    let mut count = 0;
    while count < MOST && run.is_open() && run.time_left() > 0 {
        make::event(random, &mut run);
        count += 1;
    }
    if !run.cells().is_open() && !run.is_apart() {
        (0..AFTER).for_each(|_| make::event(random, &mut run));
    }
    count
}
