//! Histories that are made for one rule each.
use super::{
    cases::PLAIN,
    events::{DEFAULT, Opening},
    run::{Ack, Incoming, Run},
};
use crate::report::Report;

const MAX_NUMBER: u16 = 32_767;

pub fn compare(report: &mut Report, full: bool) {
    windows(report, if full { &ALL_WINDOWS } else { &[1, 2, 3, 8] });
    waiting(report, if full { &ALL_WINDOWS[..16] } else { &[1, 3, 16] });
    confirming(report, if full { 40 } else { 6 });
    timers(report, if full { &[1, 2, 3, 5] } else { &[1, 3] });
    u_frames(report);
    numbers(report);
}

const ALL_WINDOWS: [u16; 32] = {
    let mut all = [0; 32];
    let mut i = 0;
    while i < 32 {
        all[i] = i as u16 + 1;
        i += 1;
    }
    all
};

fn with_asdu(ack: Ack) -> Incoming {
    Incoming::I { ack, ahead: 0, asdu: PLAIN.to_vec() }
}

/// An ASDU of type 15 that tells which one it is.
fn counter(number: u8) -> Vec<u8> {
    vec![15, 1, 3, 0, 1, 0, number, 0, 0, number, 0, 0, 0, 0]
}

/// The window fills, so many wait, one more is refused; then a receive number confirms as many as there are, none, more
/// than there are, or the one before the oldest.
fn windows(report: &mut Report, windows: &[u16]) {
    report.group("windows of every k, filled and then confirmed in every way, also where numbers start again");
    for &k in windows {
        for sent in [0, MAX_NUMBER - k / 2, MAX_NUMBER] {
            for confirmed in (0..=k + 2).chain([MAX_NUMBER]) {
                let p = 1 + u32::from(k) % 16;
                let mut run = Run::open(report, Opening { k, p, sent, ..DEFAULT });
                for number in 0..=k + p as u16 {
                    run.send_plain(&counter(number as u8));
                }
                let ack = Ack::Some(confirmed);
                let frame = if k % 2 == 0 { Incoming::S { ack } } else { with_asdu(ack) };
                run.receive(&[frame]);
                run.receive(&[Incoming::S { ack: Ack::Newest }]);
                run.send_plain(&PLAIN);
            }
        }
    }
}

/// So many wait, and one goes out and one more is put there, until the slots were used several times.
fn waiting(report: &mut Report, limits: &[u16]) {
    report
        .group("ASDUs that wait, of every p, until the slots of the pool were used several times");
    for &p in limits {
        for k in [1, 3] {
            let mut run = Run::open(report, Opening { k, p: u32::from(p), ..DEFAULT });
            for number in 0..k + p {
                run.send_plain(&counter(number as u8));
            }
            for number in 0..40 {
                let ack = Ack::Some(1 + u16::from(k > 1 && number % 7 == 6));
                run.receive(&[Incoming::S { ack }]);
                run.send_plain(&counter(100 + number));
            }
        }
    }
}

/// More than w frames come, one by one and in chunks; one goes out between.
fn confirming(report: &mut Report, most: u16) {
    report
        .group("confirming above w, frames one by one and in chunks, and after one that went out");
    for w in 1..=most {
        for chunk in [1, 2, 3, 7, 20] {
            let mut run = Run::open(report, Opening { w, received: MAX_NUMBER - w, ..DEFAULT });
            for turn in 0..=2 * usize::from(w) / chunk + 2 {
                run.receive(&vec![with_asdu(Ack::Newest); chunk]);
                if turn == usize::from(w) / chunk {
                    run.send_plain(&PLAIN);
                }
            }
        }
    }
}

/// What is done before the clock runs.
const BEFORE: [fn(&mut Run); 8] = [
    |_| {},
    |run| run.send_plain(&PLAIN),
    |run| run.receive(&[with_asdu(Ack::Oldest)]),
    |run| run.test(),
    |run| run.stop(),
    |run| {
        run.receive(&[with_asdu(Ack::Oldest)]);
        run.test();
    },
    |run| {
        run.test();
        run.test();
        run.test();
        run.receive(&[with_asdu(Ack::Oldest)]);
    },
    |run| {
        run.send_plain(&PLAIN);
        run.advance(1);
        run.send_plain(&PLAIN);
        run.receive(&[with_asdu(Ack::Some(1))]);
    },
];

/// The clock runs by one millisecond at a time until the link ends or some time is over; once with the peer's answers.
fn timers(report: &mut Report, times: &[u64]) {
    report.group("t1, t2 and t3 over a grid, due alone and together, millisecond by millisecond");
    let grid = times.iter().flat_map(|&t1| times.iter().map(move |&t2| (t1, t2)));
    for (t1, t2) in grid {
        for &t3 in times {
            for before in BEFORE {
                for answers in [false, true] {
                    let mut run = Run::open(report, Opening { t1, t2, t3, ..DEFAULT });
                    before(&mut run);
                    run_on(&mut run, answers);
                }
            }
        }
    }
}

fn run_on(run: &mut Run, answers: bool) {
    for turn in 0..12 {
        if run.is_open() {
            run.advance(1);
            if answers && turn % 3 == 2 {
                run.receive(&[Incoming::U(0x83), Incoming::S { ack: Ack::Newest }]);
            }
        }
    }
}

fn u_frames(report: &mut Report) {
    report.group("every first control octet of a U frame, alone and after an I frame");
    for flags in 0..64 {
        let frame = Incoming::U(flags << 2 | 3);
        let mut run = Run::open(report, DEFAULT);
        run.test();
        run.receive(&[frame.clone()]);
        run.advance(DEFAULT.t2);
        let mut run = Run::open(report, Opening { w: 1, ..DEFAULT });
        run.receive(&[with_asdu(Ack::Newest), with_asdu(Ack::Newest), frame]);
        run.receive(&[Incoming::S { ack: Ack::Newest }]);
    }
}

fn numbers(report: &mut Report) {
    report.group("send and receive numbers past 32,767, and numbers that are off by one");
    for off in [0, 1, MAX_NUMBER] {
        for sent in MAX_NUMBER - 4..=MAX_NUMBER {
            let received = MAX_NUMBER - (sent - (MAX_NUMBER - 4));
            let mut run = Run::open(report, Opening { k: 3, sent, received, ..DEFAULT });
            for turn in 0..8 {
                run.send_plain(&PLAIN);
                let ahead = if turn == 5 { off } else { 0 };
                run.receive(&[Incoming::I { ack: Ack::Newest, ahead, asdu: PLAIN.to_vec() }]);
                run.send_plain(&PLAIN);
                run.receive(&[Incoming::S { ack: Ack::Oldest }]);
            }
        }
    }
}
