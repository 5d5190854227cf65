//! Histories of a link, in the words of `tools/differential rust link`.
use std::{fmt, time::Duration};

use iec104::{config::ProtocolConfig, link::Start};

use crate::hex;

#[derive(Clone)]
pub enum Event {
    /// A chunk of whole frames.
    Receive(Vec<u8>),
    Send(Vec<u8>),
    Stop,
    Test,
    Advance(u64),
    Skip(u64),
    /// Which branch of its `select!` the Rust polls first.
    First(u32),
}

impl fmt::Debug for Event {
    fn fmt(&self, f: &mut fmt::Formatter) -> fmt::Result {
        match self {
            Event::Receive(octets) => write!(f, "recv={}", hex::from_octets(octets)),
            Event::Send(octets) => write!(f, "send={}", hex::from_octets(octets)),
            Event::Stop => f.write_str("stop"),
            Event::Test => f.write_str("test"),
            Event::Advance(milliseconds) => write!(f, "advance={milliseconds}"),
            Event::Skip(milliseconds) => write!(f, "skip={milliseconds}"),
            Event::First(branch) => write!(f, "first={branch}"),
        }
    }
}

/// How a link is opened.
#[derive(Clone, Copy)]
pub struct Opening {
    pub k: u16,
    pub w: u16,
    pub p: u32,
    pub t1: u64,
    pub t2: u64,
    pub t3: u64,
    /// Of frames that went and came before, all confirmed but the last `unconfirmed` of those that came.
    pub sent: u16,
    pub received: u16,
    pub unconfirmed: u16,
    /// Our clock. The Rust has its own.
    pub clock: u64,
}

/// As the Rust's.
pub const DEFAULT: Opening = Opening {
    k: 12,
    w: 8,
    p: 16,
    t1: 15_000,
    t2: 10_000,
    t3: 20_000,
    sent: 0,
    received: 0,
    unconfirmed: 0,
    clock: 0,
};

impl Opening {
    pub fn config(&self) -> ProtocolConfig {
        ProtocolConfig {
            k: self.k,
            w: self.w,
            max_pending_outgoing_asdu: self.p,
            t1: Duration::from_millis(self.t1),
            t2: Duration::from_millis(self.t2),
            t3: Duration::from_millis(self.t3),
            ..ProtocolConfig::default()
        }
    }

    pub fn start(&self) -> Start {
        Start { sent: self.sent, received: self.received, unconfirmed: self.unconfirmed }
    }
}

impl fmt::Debug for Opening {
    fn fmt(&self, f: &mut fmt::Formatter) -> fmt::Result {
        let Opening { k, w, p, t1, t2, t3, sent, received, unconfirmed, .. } = self;
        write!(f, "k={k} w={w} p={p} t1={t1} t2={t2} t3={t3}")?;
        write!(f, " sent={sent} received={received} unconfirmed={unconfirmed}")
    }
}

/// What a link was opened with, and the events since.
pub struct History {
    pub opening: Opening,
    pub events: Vec<Event>,
}

impl fmt::Debug for History {
    fn fmt(&self, f: &mut fmt::Formatter) -> fmt::Result {
        write!(f, "{:?}", self.opening)?;
        self.events.iter().try_for_each(|event| write!(f, " {event:?}"))
    }
}
