//! The proved library's link, through the exported functions of crates/bridge_link_c. Each call is seen to change only what
//! it says.
use std::fmt;

use super::{events::Opening, record, record::Cells};
use crate::{hex::Hex, proved::UNTOUCHED};

/// The exported functions. A slice goes over as its address and its length.
mod exported {
    unsafe extern "C" {
        pub fn gg_link_open(list: *mut u64, list_len: usize, moment: u64) -> u32;
        pub fn gg_link_receive(
            list: *mut u64,
            list_len: usize,
            pool: *const u8,
            pool_len: usize,
            out: *mut u8,
            out_len: usize,
            frame: *const u8,
            frame_len: usize,
            more: bool,
            moment: u64,
        ) -> u32;
        pub fn gg_link_send(
            list: *mut u64,
            list_len: usize,
            pool: *mut u8,
            pool_len: usize,
            out: *mut u8,
            out_len: usize,
            asdu: *const u8,
            asdu_len: usize,
            moment: u64,
        ) -> u32;
    }

    /// What the last three take.
    pub type Timed =
        unsafe extern "C" fn(*mut u64, usize, *const u8, usize, *mut u8, usize, u64) -> u32;

    macro_rules! timed {
        ($($name:ident),*) => {
            unsafe extern "C" {
                $(pub fn $name(
                    list: *mut u64,
                    list_len: usize,
                    pool: *const u8,
                    pool_len: usize,
                    out: *mut u8,
                    out_len: usize,
                    moment: u64,
                ) -> u32;)*
            }
        };
    }

    timed!(gg_link_stop, gg_link_test, gg_link_tick);
}

const POOL_SIZE: usize = 3984;
const SLOT_SIZE: usize = 249;
const OUTPUT_SIZE: usize = 4096;
const CLOSED: u32 = 20;

/// How a link stands.
#[derive(Clone, PartialEq)]
pub enum State {
    Open,
    /// By a number of document 01: 0 for a stop.
    Closed(u8),
    /// An error of the Rust that document 01 has no number for.
    Failed(String),
    Panicked,
}

impl fmt::Debug for State {
    fn fmt(&self, f: &mut fmt::Formatter) -> fmt::Result {
        match self {
            State::Open => f.write_str("open"),
            State::Closed(0) => f.write_str("ended"),
            State::Closed(number) => write!(f, "closed ({number})"),
            State::Failed(path) => write!(f, "failed: {path}"),
            State::Panicked => f.write_str("panicked"),
        }
    }
}

/// What an event brought about, on either side.
#[derive(Clone, PartialEq)]
pub struct Seen {
    pub written: Vec<u8>,
    /// How many ASDUs came.
    pub came: usize,
    pub full: bool,
    /// The number of a refusal that does not close the link. A closed link's 20 is not told here.
    pub refused: Option<u8>,
    pub state: State,
}

impl Seen {
    pub fn then(mut self, next: Seen) -> Seen {
        self.written.extend(next.written);
        Seen { written: self.written, came: self.came + next.came, ..next }
    }
}

impl fmt::Debug for Seen {
    fn fmt(&self, f: &mut fmt::Formatter) -> fmt::Result {
        let Seen { written, came, full, refused, state } = self;
        let refused = refused.map_or(String::new(), |number| format!("refused {number}, "));
        write!(f, "{refused}wrote {:?}, came {came}, full {full}, {state:?}", Hex(written))
    }
}

#[derive(Clone)]
pub struct Link {
    pub cells: Cells,
    pool: [u8; POOL_SIZE],
}

/// What a call is lent, as addresses and lengths.
struct Lent {
    list: (*mut u64, usize),
    pool: (*mut u8, usize),
    out: (*mut u8, usize),
}

impl Link {
    pub fn open(opening: &Opening) -> Result<Link, u8> {
        let mut cells = [0; record::SIZE];
        let Opening { k, w, p, t1, t2, t3, .. } = *opening;
        let settings = [u64::from(k), u64::from(w), u64::from(p), t1, t2, t3];
        cells[record::SETTINGS..][..6].copy_from_slice(&settings);
        let number =
            unsafe { exported::gg_link_open(cells.as_mut_ptr(), cells.len(), opening.clock) };
        if number != 0 {
            assert_eq!(cells, [0; record::SIZE], "{opening:?}: a link beside a refusal");
            return Err(number as u8);
        }
        cells[record::SENT] = u64::from(opening.sent);
        cells[record::RECEIVED] = u64::from(opening.received);
        cells[record::UNCONFIRMED] = u64::from(opening.unconfirmed);
        Ok(Link { cells: Cells(cells), pool: [UNTOUCHED; POOL_SIZE] })
    }

    /// A call that brings this ASDU, if any.
    fn call(&mut self, asdu: &[u8], now: u64, call: impl FnOnce(Lent) -> u32) -> Seen {
        let (before, pool_before) = (self.cells, self.pool);
        let mut out = [UNTOUCHED; OUTPUT_SIZE];
        let number = call(Lent {
            list: (self.cells.0.as_mut_ptr(), record::SIZE),
            pool: (self.pool.as_mut_ptr(), POOL_SIZE),
            out: (out.as_mut_ptr(), OUTPUT_SIZE),
        });
        let written = self.cells.at(record::WRITTEN) as usize;
        assert!(out[written..].iter().all(|&octet| octet == UNTOUCHED), "past what was written");
        self.see_pool(&before, pool_before, asdu);
        self.see_record(&before, number, now);
        Seen {
            written: out[..written].to_vec(),
            came: self.cells.at(record::CAME) as usize,
            full: self.cells.at(record::FULL) == 1,
            refused: self.refused(number),
            state: self.state(),
        }
    }

    /// The pool is as it was, but where one more waits: there the ASDU stands at the start of its slot.
    fn see_pool(&self, before: &Cells, mut expected: [u8; POOL_SIZE], asdu: &[u8]) {
        if self.cells.at(record::WAITING) > before.at(record::WAITING) {
            let count = before.at(record::PLACE) + before.at(record::WAITING);
            expected[count as usize % 16 * SLOT_SIZE..][..asdu.len()].copy_from_slice(asdu);
        }
        assert!(self.pool == expected, "the pool");
    }

    /// A refusal changes nothing but that it may close the link; an accepted call takes the clock.
    fn see_record(&self, before: &Cells, number: u32, now: u64) {
        assert_eq!(self.cells.at(record::FULL) == 1, self.is_full(), "whether the window is full");
        if number == 0 {
            assert_eq!(self.cells.at(record::CLOCK), now, "the clock");
            return;
        }
        let mut expected = before.0;
        if before.is_open() && !self.cells.is_open() {
            expected[record::CLOSED] = 1;
            expected[record::REASON] = u64::from(number);
        }
        let link = ..record::WRITTEN;
        assert_eq!(self.cells.0[link], expected[link], "the record beside refusal {number}");
        let told = [self.cells.at(record::WRITTEN), self.cells.at(record::CAME)];
        assert_eq!(told, [0, 0], "what is told beside refusal {number}");
    }

    fn is_full(&self) -> bool {
        self.cells.at(record::HELD) >= self.cells.at(record::K)
    }

    fn refused(&self, number: u32) -> Option<u8> {
        if number == 0 {
            return None;
        }
        assert_eq!(number == CLOSED, self.was_closed(number), "{number} of a link that is closed");
        (number != CLOSED && self.cells.is_open()).then_some(number as u8)
    }

    /// Whether the link was closed before the call that answered so.
    fn was_closed(&self, number: u32) -> bool {
        !self.cells.is_open() && self.cells.at(record::REASON) != u64::from(number)
    }

    fn state(&self) -> State {
        if self.cells.is_open() {
            return State::Open;
        }
        State::Closed(self.cells.at(record::REASON) as u8)
    }

    /// Whole frames, each but the last marked "more to come". None comes after the link's end.
    pub fn receive_chunk(&mut self, octets: &[u8], now: u64) -> Seen {
        let (frame, rest) = octets.split_at(2 + usize::from(octets[1]));
        let seen = self.receive(frame, !rest.is_empty(), now);
        if rest.is_empty() || !self.cells.is_open() {
            return seen;
        }
        seen.then(self.receive_chunk(rest, now))
    }

    pub fn receive(&mut self, frame: &[u8], more: bool, now: u64) -> Seen {
        self.call(&[], now, |Lent { list, pool, out }| unsafe {
            let (frame, len) = (frame.as_ptr(), frame.len());
            exported::gg_link_receive(
                list.0, list.1, pool.0, pool.1, out.0, out.1, frame, len, more, now,
            )
        })
    }

    pub fn send(&mut self, asdu: &[u8], now: u64) -> Seen {
        self.call(asdu, now, |Lent { list, pool, out }| unsafe {
            let (asdu, len) = (asdu.as_ptr(), asdu.len());
            exported::gg_link_send(list.0, list.1, pool.0, pool.1, out.0, out.1, asdu, len, now)
        })
    }

    fn timed(&mut self, now: u64, event: exported::Timed) -> Seen {
        self.call(&[], now, |Lent { list, pool, out }| unsafe {
            event(list.0, list.1, pool.0, pool.1, out.0, out.1, now)
        })
    }

    pub fn stop(&mut self, now: u64) -> Seen {
        self.timed(now, exported::gg_link_stop)
    }

    pub fn test(&mut self, now: u64) -> Seen {
        self.timed(now, exported::gg_link_test)
    }

    pub fn tick(&mut self, now: u64) -> Seen {
        self.timed(now, exported::gg_link_tick)
    }
}

/// A link with its output, called with nothing looked at, to be timed.
pub struct Bare {
    link: Link,
    out: [u8; OUTPUT_SIZE],
}

impl Bare {
    pub fn new(link: Link) -> Bare {
        Bare { link, out: [0; OUTPUT_SIZE] }
    }

    /// Back to these numbers.
    pub fn set(&mut self, cells: &Cells) {
        self.link.cells = *cells;
    }

    fn call(&mut self, call: impl FnOnce(Lent) -> u32) {
        let number = call(Lent {
            list: (self.link.cells.0.as_mut_ptr(), record::SIZE),
            pool: (self.link.pool.as_mut_ptr(), POOL_SIZE),
            out: (self.out.as_mut_ptr(), OUTPUT_SIZE),
        });
        assert_eq!(number, 0, "an event that is accepted");
    }

    pub fn receive(&mut self, frame: &[u8], now: u64) {
        self.call(|Lent { list, pool, out }| unsafe {
            let (frame, len) = (frame.as_ptr(), frame.len());
            exported::gg_link_receive(
                list.0, list.1, pool.0, pool.1, out.0, out.1, frame, len, false, now,
            )
        });
    }

    pub fn send(&mut self, asdu: &[u8], now: u64) {
        self.call(|Lent { list, pool, out }| unsafe {
            let (asdu, len) = (asdu.as_ptr(), asdu.len());
            exported::gg_link_send(list.0, list.1, pool.0, pool.1, out.0, out.1, asdu, len, now)
        });
    }

    pub fn tick(&mut self, now: u64) {
        self.call(|Lent { list, pool, out }| unsafe {
            exported::gg_link_tick(list.0, list.1, pool.0, pool.1, out.0, out.1, now)
        });
    }
}
