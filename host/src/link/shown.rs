//! Entries of docs/DIFFERENCES.md that a history of a link shows.
use super::{
    events::{DEFAULT, Event, Opening},
    judge,
    proved::Link,
};
use crate::{
    hex,
    show::given::{Given, Shown},
};

const fn shown(
    entry: &'static str,
    words: &'static str,
    ours: &'static str,
    rust: &'static str,
) -> Shown {
    Shown { entry, given: Given::Link(words), ours, rust }
}

/// The words are those of `tools/differential rust link`; `3*a,b` stands for `a b a b a b`, and `+3` after octets for
/// three more that are 0. What is told is the last event.
pub const SHOWN: [Shown; 21] = [
    shown(
        "D1",
        "send=0182030001000a00000000",
        "wrote 680f000000000182030001000a00000000, came 0, full false, open",
        "wrote 6812000000000182030001000a0000000b000000, came 0, full false, open",
    ),
    shown(
        "D2",
        "recv=680d00000000668003000100000000",
        "wrote , came 0, full false, closed (13)",
        "wrote , came 0, full false, panicked",
    ),
    shown(
        "D9",
        "recv=680a00000000010000000100",
        "wrote , came 0, full false, closed (10)",
        "wrote , came 1, full false, open",
    ),
    shown(
        "D14",
        "t3=172800000 15*advance=172799999,recv=680443000000 first=4 advance=8000014 advance=1",
        "wrote , came 0, full false, open",
        "wrote , came 0, full false, closed (30)",
    ),
    shown(
        "D14",
        "t3=172800000 15*advance=172799999,recv=680443000000 first=3 advance=8000015",
        "wrote , came 0, full false, open",
        "wrote 680401000000, came 0, full false, closed (30)",
    ),
    shown(
        "D15",
        "w=1 recv=680a00000000010003000100",
        "wrote , came 1, full false, open",
        "wrote , came 1, full false, open",
    ),
    shown(
        "D15",
        "w=1 recv=680a00000000010003000100 recv=680a02000000010003000100",
        "wrote 680401000400, came 1, full false, open",
        "wrote 680401000400, came 1, full false, open",
    ),
    shown(
        "D16",
        "w=32767 received=32766 unconfirmed=32766 \
         recv=680afcff0000010003000100680afeff0000010003000100680a00000000010003000100",
        "wrote 680401000000, came 3, full false, open",
        "wrote 680401000200, came 3, full false, open",
    ),
    shown(
        "D17",
        "t1=10 t2=10 recv=680a00000000010003000100 test first=3 advance=10",
        "wrote , came 0, full false, closed (30)",
        "wrote 680401000200, came 0, full false, closed (30)",
    ),
    shown(
        "D17",
        "t1=10 t2=10 recv=680a00000000010003000100 test first=4 advance=10",
        "wrote , came 0, full false, closed (30)",
        "wrote , came 0, full false, closed (30)",
    ),
    shown(
        "D18",
        "k=1 send=010003000100 send=013d03000100+244",
        "refused 17, wrote , came 0, full true, open",
        "wrote , came 0, full true, open",
    ),
    shown(
        "D18",
        "k=1 send=010003000100 send=013d03000100+244 recv=680401000200",
        "wrote , came 0, full false, open",
        "wrote , came 0, full false, closed (17)",
    ),
    shown(
        "D19",
        "send=0101030001000a00000e",
        "refused 26, wrote , came 0, full false, open",
        "wrote 680e000000000101030001000a000000, came 0, full false, open",
    ),
    shown(
        "D20",
        "k=33 33*send=010003000100",
        "refuses to open (19)",
        "wrote 680a40000000010003000100, came 0, full true, open",
    ),
    shown(
        "D20",
        "k=0 send=010003000100",
        "refuses to open (19)",
        "wrote , came 0, full false, open",
    ),
    shown(
        "D20",
        "w=0 recv=680a00000000010003000100",
        "refuses to open (19)",
        "wrote 680401000200, came 1, full false, open",
    ),
    shown(
        "D20",
        "k=1 p=0 18*send=010003000100",
        "refuses to open (19)",
        "wrote , came 0, full true, open",
    ),
    shown(
        "D21",
        "recv=680413000000",
        "wrote 680423000000, came 0, full false, ended",
        "wrote 680423000000, came 0, full false, ended",
    ),
    shown(
        "D21",
        "recv=680413000000 recv=680407000000",
        "wrote , came 0, full false, ended",
        "wrote , came 0, full false, ended",
    ),
    shown(
        "D22",
        "t1=10 t3=5 3*advance=5",
        "wrote 680443000000, came 0, full false, open",
        "wrote 680443000000, came 0, full false, open",
    ),
    shown(
        "D22",
        "t1=10 t3=5 4*advance=5",
        "wrote , came 0, full false, closed (32)",
        "wrote , came 0, full false, closed (32)",
    ),
];

fn parsed(text: &str) -> (Opening, Vec<Event>) {
    let (mut opening, mut events) = (DEFAULT, Vec::new());
    for word in text.split_whitespace() {
        let (times, words) = word.split_once('*').unwrap_or(("1", word));
        for _ in 0..times.parse().expect("a count") {
            for word in words.split(',') {
                match event(word) {
                    Some(event) => events.push(event),
                    None => set(&mut opening, word),
                }
            }
        }
    }
    (opening, events)
}

fn set(opening: &mut Opening, word: &str) {
    let (name, value) = word.split_once('=').expect("a setting");
    let value: u64 = value.parse().expect("a number");
    match name {
        "k" => opening.k = value as u16,
        "w" => opening.w = value as u16,
        "p" => opening.p = value as u32,
        "t1" => opening.t1 = value,
        "t2" => opening.t2 = value,
        "t3" => opening.t3 = value,
        "received" => opening.received = value as u16,
        "unconfirmed" => opening.unconfirmed = value as u16,
        _ => panic!("{word}?"),
    }
}

fn event(word: &str) -> Option<Event> {
    let (name, value) = word.split_once('=').unwrap_or((word, ""));
    let number = || value.parse().expect("a number");
    Some(match name {
        "recv" => Event::Receive(octets(value)),
        "send" => Event::Send(octets(value)),
        "test" => Event::Test,
        "advance" => Event::Advance(number()),
        "first" => Event::First(number() as u32),
        _ => return None,
    })
}

fn octets(text: &str) -> Vec<u8> {
    let (text, zeros) = text.split_once('+').unwrap_or((text, "0"));
    let mut octets = hex::to_octets(text).expect("octets in hexadecimal");
    octets.resize(octets.len() + zeros.parse::<usize>().expect("a count"), 0);
    octets
}

pub fn ours(text: &str) -> String {
    let (opening, events) = parsed(text);
    let mut link = match Link::open(&opening) {
        Ok(link) => link,
        Err(number) => return format!("refuses to open ({number})"),
    };
    let (mut now, mut told) = (opening.clock, String::new());
    for event in events {
        let seen = match event {
            Event::Receive(octets) => link.receive_chunk(&octets, now),
            Event::Send(octets) => link.send(&octets, now),
            Event::Stop => link.stop(now),
            Event::Test => link.test(now),
            Event::Advance(milliseconds) => {
                now += milliseconds;
                link.tick(now)
            }
            Event::Skip(_) | Event::First(_) => continue,
        };
        told = format!("{seen:?}");
    }
    told
}

pub fn rust(text: &str) -> String {
    let (opening, events) = parsed(text);
    let mut link = judge::Link::open(&opening);
    events
        .iter()
        .map(|event| link.step(event))
        .last()
        .map_or(String::new(), |seen| format!("{seen:?}"))
}
