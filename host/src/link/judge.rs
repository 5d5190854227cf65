//! The Rust's link.
use std::panic::AssertUnwindSafe;

use iec104::{
    asdu::Asdu,
    link::{self, Step},
};

use super::{
    events::{Event, Opening},
    proved::{Seen, State},
};
use crate::{panics, refusals};

/// The sender is told that as many wait as may.
const WAITING_FULL: u8 = 25;

/// In the path of an error of writing.
const WRITING: &str = "Error converting frame to APDU and encoding";

pub struct Link(link::Link);

impl Link {
    pub fn open(opening: &Opening) -> Link {
        Link(link::Link::open(&opening.config(), opening.start()))
    }

    /// An ASDU to send must be one that the Rust reads.
    pub fn step(&mut self, event: &Event) -> Seen {
        let event = match event {
            Event::Receive(octets) => link::Event::Receive(octets.clone()),
            Event::Send(octets) => {
                link::Event::Send(Asdu::parse(octets).expect("an ASDU that the Rust reads"))
            }
            Event::Stop => link::Event::Stop,
            Event::Test => link::Event::Test,
            Event::Advance(milliseconds) => link::Event::Advance(*milliseconds),
            Event::Skip(milliseconds) => link::Event::Skip(*milliseconds),
            Event::First(branch) => link::Event::PollFirst(*branch),
        };
        // A panic of the handler ends its task; here it is only not to be shown.
        let step = panics::caught(AssertUnwindSafe(|| self.0.step(event)));
        seen(step.expect("a driver that does not panic"))
    }
}

fn seen(Step { written, came, taken, window_full, state }: Step) -> Seen {
    let refused = (taken == Some(false)).then_some(WAITING_FULL);
    let state = match state {
        link::State::Open => State::Open,
        link::State::Ended => State::Closed(0),
        link::State::Failed(path) => {
            let number = if path.contains(WRITING) {
                refusals::number_in_writing(&path)
            } else {
                refusals::number(&path)
            };
            number.map_or(State::Failed(path), State::Closed)
        }
        link::State::Panicked => State::Panicked,
    };
    Seen { written, came, full: window_full, refused, state }
}
