//! Times events of both links, and a plain copy of the octets that an event takes or hands out. Ours is called by
//! crates/bridge_link, so that the record's way from a list of numbers and back is in the time. The Rust's handler is driven
//! as in the comparison; what the driver takes for an event that nothing comes of is told, and not in the time.
use std::{hint::black_box, time::Instant};

use super::{
    events::{DEFAULT, Event, Opening},
    judge,
    proved::{Bare, Link},
    record,
};
use crate::frames::layout;

const ROUNDS: usize = 400;
const CALLS: u16 = 50;

/// w is so great that nothing is confirmed.
const OPENING: Opening = Opening { k: 32, w: 32_767, ..DEFAULT };

/// An ASDU with one counter.
const ASDU: [u8; 14] = [15, 1, 3, 0, 1, 0, 10, 0, 0, 0xE8, 3, 0, 0, 5];

const SEND: usize = 0;
const S_FRAME: usize = 1;
const I_FRAME: usize = 2;
const TICK: usize = 3;
const NAMES: [&str; 4] =
    ["send, window open", "S frame that frees one", "I frame received", "tick, nothing due"];

type Times = [f64; 4];

/// Nanoseconds for each of the calls, in one round.
fn timed(mut call: impl FnMut()) -> f64 {
    let started = Instant::now();
    (0..CALLS).for_each(|_| call());
    started.elapsed().as_nanos() as f64 / f64::from(CALLS)
}

fn i_frame(sent: u16) -> Vec<u8> {
    layout::frame(layout::i_control(sent, 0), &ASDU)
}

/// Each event on the same record, which is set back every time.
fn ours() -> Times {
    let open = Link::open(&OPENING).expect("settings within the limits");
    let mut sent = open.clone();
    sent.send(&ASDU, 0);
    let (open_cells, sent_cells) = (open.cells, sent.cells);
    assert_eq!(sent_cells.at(record::HELD), 1);
    let mut link = Bare::new(open);
    let (s_frame, i_frame) = (layout::frame(layout::s_control(1), &[]), i_frame(0));
    [
        timed(|| {
            link.set(black_box(&open_cells));
            link.send(black_box(&ASDU), 0);
        }),
        timed(|| {
            link.set(black_box(&sent_cells));
            link.receive(black_box(&s_frame), 0);
        }),
        timed(|| {
            link.set(black_box(&open_cells));
            link.receive(black_box(&i_frame), 0);
        }),
        timed(|| {
            link.set(black_box(&open_cells));
            link.tick(black_box(0));
        }),
    ]
}

/// One link: an ASDU goes out and is confirmed, by turns, then I frames come.
fn rust() -> Times {
    let mut link = judge::Link::open(&OPENING);
    let mut times = [0.0; 4];
    let mut step = |place: usize, event: Event| {
        let started = Instant::now();
        let seen = link.step(&event);
        times[place] += started.elapsed().as_nanos() as f64 / f64::from(CALLS);
        black_box(seen);
    };
    for number in 1..=CALLS {
        step(SEND, Event::Send(ASDU.to_vec()));
        step(S_FRAME, Event::Receive(layout::frame(layout::s_control(number), &[])));
    }
    for number in 0..CALLS {
        let control = layout::i_control(number, CALLS);
        step(I_FRAME, Event::Receive(layout::frame(control, &ASDU)));
    }
    (0..CALLS).for_each(|_| step(TICK, Event::Advance(0)));
    times
}

fn copied() -> Times {
    let mut out = [0; 256];
    let (frame, s_frame) = (i_frame(0), layout::frame(layout::s_control(1), &[]));
    [&frame, &s_frame, &frame, &vec![]].map(|octets| {
        timed(|| {
            let octets = black_box(octets);
            black_box(&mut out)[..octets.len()].copy_from_slice(octets);
        })
    })
}

pub fn bench() {
    let mut best = [[f64::INFINITY; 4]; 3];
    for _ in 0..ROUNDS {
        for (best, times) in best.iter_mut().zip([ours(), rust(), copied()]) {
            for (best, time) in best.iter_mut().zip(times) {
                *best = best.min(time);
            }
        }
    }
    let [ours, rust, copy] = best;
    println!("nanoseconds for an event of a link, the best of {ROUNDS} rounds of {CALLS} events");
    println!("{:<24} {:>10} {:>16} {:>10} {:>8}", "event", "ours", "ours a second", "Rust", "copy");
    for (place, name) in NAMES.iter().enumerate() {
        let driven = rust[place] - rust[TICK];
        let driven = if place == TICK { "-".to_owned() } else { format!("{driven:.1}") };
        let (ours, copy) = (ours[place], copy[place]);
        println!("{name:<24} {ours:>10.1} {:>16.0} {driven:>10} {copy:>8.1}", 1e9 / ours);
    }
    println!("an event that nothing comes of takes the Rust's driver {:.1}", rust[TICK]);
}
