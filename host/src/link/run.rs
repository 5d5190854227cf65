//! One history on both sides.
use super::{
    cases,
    events::{Event, History, Opening},
    judge,
    proved::{Link, Seen},
    record,
    record::Cells,
};
use crate::{frames::layout, report::Report};

/// Which of the outstanding frames a receive number confirms.
#[derive(Clone, Copy)]
pub enum Ack {
    /// None of them.
    Oldest,
    /// All of them.
    Newest,
    /// As many of them, or more than there are, which is wrong.
    Some(u16),
}

/// A frame from the peer. Its numbers are set when it comes.
#[derive(Clone)]
pub enum Incoming {
    /// The send number is so much above the right one.
    I {
        ack: Ack,
        ahead: u16,
        asdu: Vec<u8>,
    },
    S {
        ack: Ack,
    },
    U(u8),
    /// Anything.
    Octets(Vec<u8>),
}

const READ_BRANCH: u32 = 0;
const COMMAND_BRANCH: u32 = 1;

/// An unset timer of the Rust fires after 2,600,000,000 ms (D14), and one that is set takes at most 172,800,000.
const LAST: u64 = 2_400_000_000;

pub struct Run<'a> {
    pub report: &'a mut Report,
    pub history: History,
    pub ours: Link,
    rust: judge::Link,
    now: u64,
    /// The clock is to move by so much before the next event, with no tick between.
    late: u64,
    is_apart: bool,
}

/// An event on our side: what it brought about, and what the Rust is to be given.
pub struct Done {
    pub seen: Seen,
    pub event: Event,
}

impl<'a> Run<'a> {
    pub fn open(report: &'a mut Report, opening: Opening) -> Run<'a> {
        let ours = Link::open(&opening).expect("settings within the limits");
        let rust = judge::Link::open(&opening);
        let history = History { opening, events: Vec::new() };
        Run { report, history, ours, rust, now: opening.clock, late: 0, is_apart: false }
    }

    pub fn cells(&self) -> &Cells {
        &self.ours.cells
    }

    pub fn is_open(&self) -> bool {
        self.cells().is_open() && !self.is_apart
    }

    /// The two go apart by an entry of docs/DIFFERENCES.md.
    pub fn part(&mut self) {
        self.is_apart = true;
    }

    pub fn is_apart(&self) -> bool {
        self.is_apart
    }

    pub fn now(&self) -> u64 {
        self.now
    }

    /// How far the clock may still go.
    pub fn time_left(&self) -> u64 {
        (self.history.opening.clock + LAST).min(record::MAX_CLOCK) - self.now - self.late
    }

    /// The Rust's side of an event.
    pub fn give(&mut self, event: Event) -> Seen {
        let seen = self.rust.step(&event);
        self.history.events.push(event);
        seen
    }

    pub fn compare(&mut self, ours: Seen, rust: Seen) {
        self.report.same(&self.history, ours, rust);
    }

    /// The clock moves, and what is then due happens.
    pub fn advance(&mut self, milliseconds: u64) {
        self.now += milliseconds;
        let branch = self.cells().first_branch(self.now);
        self.give(Event::First(branch));
        let rust = self.give(Event::Advance(milliseconds));
        let ours = self.ours.tick(self.now);
        self.compare(ours, rust);
    }

    /// The clock moves, and the next event comes before what is then due. Where several deadlines would be due after it,
    /// the clock moves as by `advance`: the Rust takes them by chance (D17).
    pub fn skip(&mut self, milliseconds: u64) {
        self.late = milliseconds;
    }

    pub fn stop(&mut self) {
        self.event(COMMAND_BRANCH, |ours, now| Done { seen: ours.stop(now), event: Event::Stop });
    }

    pub fn test(&mut self) {
        self.event(COMMAND_BRANCH, |ours, now| Done { seen: ours.test(now), event: Event::Test });
    }

    /// An ASDU that both sides send as it is.
    pub fn send_plain(&mut self, asdu: &[u8]) {
        self.event(COMMAND_BRANCH, |ours, now| Done {
            seen: ours.send(asdu, now),
            event: Event::Send(asdu.to_vec()),
        });
    }

    /// Any ASDU.
    pub fn send(&mut self, asdu: &[u8]) {
        self.settle();
        if self.is_open() {
            cases::send(self, asdu);
        }
    }

    /// A chunk, of at most 255 octets.
    pub fn receive(&mut self, frames: &[Incoming]) {
        self.event(READ_BRANCH, |ours, now| received(ours, frames, now));
    }

    /// An I frame with any ASDU.
    pub fn receive_asdu(&mut self, asdu: &[u8]) {
        self.settle();
        if self.is_open() {
            cases::receive(self, asdu);
        }
    }

    /// A clock that was to move without a tick moves with one.
    fn settle(&mut self) {
        let late = std::mem::take(&mut self.late);
        if late > 0 {
            self.advance(late);
        }
    }

    fn event(&mut self, branch: u32, call: impl Fn(&mut Link, u64) -> Done) {
        if self.late == 0 || !self.is_open() {
            self.late = 0;
            let Done { seen, event } = call(&mut self.ours, self.now);
            let rust = self.give(event);
            return self.compare(seen, rust);
        }
        let (now, mut after) = (self.now + self.late, self.ours.clone());
        let Done { mut seen, event } = call(&mut after, now);
        if after.cells.is_open() && after.cells.count_due(now) > 1 {
            self.settle();
            return self.event(branch, call);
        }
        if after.cells.is_open() {
            let refused = seen.refused;
            seen = Seen { refused, ..seen.then(after.tick(now)) };
        }
        self.give(Event::First(branch));
        self.give(Event::Skip(self.late));
        let rust = self.give(event);
        (self.ours, self.now, self.late) = (after, now, 0);
        self.compare(seen, rust);
    }
}

/// The frames one by one, each but the last marked "more to come". None comes after the link's end.
fn received(ours: &mut Link, frames: &[Incoming], now: u64) -> Done {
    let mut octets = Vec::new();
    let mut whole: Option<Seen> = None;
    for (place, frame) in frames.iter().enumerate() {
        let frame = frame_of(&ours.cells, frame);
        octets.extend_from_slice(&frame);
        if place == 0 || ours.cells.is_open() {
            let seen = ours.receive(&frame, place + 1 < frames.len(), now);
            whole = Some(whole.map_or(seen.clone(), |before| before.then(seen)));
        }
    }
    Done { seen: whole.expect("a frame"), event: Event::Receive(octets) }
}

fn number(cells: &Cells, ack: Ack) -> u16 {
    let (next, held) = (cells.at(record::SENT), cells.at(record::HELD));
    let confirmed = match ack {
        Ack::Oldest => 0,
        Ack::Newest => held,
        Ack::Some(count) => u64::from(count),
    };
    ((next + 32_768 - held + confirmed) % 32_768) as u16
}

pub fn frame_of(cells: &Cells, frame: &Incoming) -> Vec<u8> {
    match frame {
        Incoming::I { ack, ahead, asdu } => {
            let sent = (cells.number(record::RECEIVED) + ahead) % 32_768;
            layout::frame(layout::i_control(sent, number(cells, *ack)), asdu)
        }
        Incoming::S { ack } => layout::frame(layout::s_control(number(cells, *ack)), &[]),
        Incoming::U(octet) => layout::frame([*octet, 0, 0, 0], &[]),
        Incoming::Octets(octets) => octets.clone(),
    }
}
