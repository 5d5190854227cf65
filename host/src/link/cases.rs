//! ASDUs that the two take differently, in a frame received and sent: what each side must do is told by the entry of
//! docs/DIFFERENCES.md that the ASDU has.
use super::{
    events::Event,
    proved::{Seen, State},
    run::{Ack, Incoming, Run, frame_of},
};
use crate::{
    asdu::{self, answers::Refusal, cases::Case, layout::MAX_SIZE},
    entries,
    frames::layout,
    hex::Hex,
    report::Listed,
};

/// An ASDU that both take as it is: type 1, no objects.
pub const PLAIN: [u8; 6] = [1, 0, 3, 0, 1, 0];

/// The entry of an ASDU, and the number by which we refuse it where we do.
fn entry_of(octets: &[u8]) -> Option<(&'static str, Option<u8>)> {
    match asdu::cases::case_of(octets) {
        Case::Same => None,
        Case::Refused { entry, number } => Some((entry, Some(number))),
        Case::RunsPast => Some((entries::ADDRESSES_RUN_PAST, Some(14))),
        Case::Read { entry } => Some((entry, None)),
    }
}

/// A frame that the Rust reads and we do not: we close the link, and the Rust goes on as with any other ASDU.
pub fn receive(run: &mut Run, octets: &[u8]) {
    let Some((entry, Some(number))) = entry_of(octets) else {
        return run.receive(&[with_asdu(octets)]);
    };
    let frame = frame_of(run.cells(), &with_asdu(octets));
    let mut followed = run.ours.clone();
    let ours = run.ours.receive(&frame, false, run.now());
    let closed = Seen { state: State::Closed(number), written: vec![], came: 0, ..ours.clone() };
    let expected = match asdu::judge::reading(octets) {
        Ok(_) => followed.receive(&frame_of(&followed.cells, &with_asdu(&PLAIN)), false, run.now()),
        Err(Refusal::Number(number)) => Seen { state: State::Closed(number), ..closed.clone() },
        Err(Refusal::Panic) => Seen { state: State::Panicked, ..closed.clone() },
        Err(Refusal::Error(_)) => Seen { state: State::Failed(String::new()), ..closed.clone() },
    };
    let rust = run.give(Event::Receive(frame));
    let listed = Listed { entry, ours: ours == closed, rust: is_as(&rust, &expected) };
    run.report.held(listed, &run.history, ours, rust);
    run.part();
}

/// The same, where errors of the Rust that have no number count as one.
fn is_as(rust: &Seen, expected: &Seen) -> bool {
    match (&rust.state, &expected.state) {
        (State::Failed(_), State::Failed(_)) => rust.written == expected.written,
        _ => rust == expected,
    }
}

fn with_asdu(octets: &[u8]) -> Incoming {
    Incoming::I { ack: Ack::Oldest, ahead: 0, asdu: octets.to_vec() }
}

/// The Rust sends records: what goes out is its own writing of what it read.
pub fn send(run: &mut Run, octets: &[u8]) {
    let rust = asdu::judge::answers(octets);
    match (rust.reading, rust.rewriting) {
        (Err(refusal), _) => refused(run, octets, &refusal),
        (Ok(_), Ok(again)) if again == octets && entry_of(octets).is_none_or(is_plain) => {
            run.send_plain(octets);
        }
        (Ok(_), Ok(again)) => rewritten(run, octets, &again),
        (Ok(_), Err(_)) => {}
    }
}

fn is_plain((_, number): (&'static str, Option<u8>)) -> bool {
    number.is_none()
}

/// What the Rust does not read it cannot be told to send. We refuse it, by the number that both have or the entry's.
fn refused(run: &mut Run, octets: &[u8], refusal: &Refusal) {
    let number = entry_of(octets).map_or(refusal.number(), |(_, number)| number);
    let ours = run.ours.send(octets, run.now());
    run.report.same((&run.history, Hex(octets)), ours.refused, number);
}

/// While the window is open the two stay in step: as many frames have gone. Our link goes on as if it had sent an ASDU
/// that both take.
fn rewritten(run: &mut Run, octets: &[u8], again: &[u8]) {
    let mut followed = run.ours.clone();
    let plain = followed.send(&PLAIN, run.now());
    if plain.written.is_empty() || again.len() > MAX_SIZE {
        return;
    }
    let with = |asdu: &[u8]| {
        let control = layout::control_of(&plain.written);
        Seen { written: layout::frame(control, asdu), ..plain.clone() }
    };
    let ours = run.ours.send(octets, run.now());
    let (entry, is_right) = ours_sending(octets, &ours, &with(octets));
    let rust = run.give(Event::Send(octets.to_vec()));
    let listed = Listed { entry, ours: is_right, rust: rust == with(again) };
    run.report.held(listed, &run.history, ours, rust);
    run.ours = followed;
}

fn ours_sending(octets: &[u8], ours: &Seen, sent: &Seen) -> (&'static str, bool) {
    let refused = |number| ours.refused == Some(number) && ours.written.is_empty();
    match entry_of(octets) {
        Some((entry, Some(number))) => (entry, refused(number)),
        _ if is_reserved(octets) => (entries::SENT_WITHOUT_RESERVED, refused(26)),
        _ => (entries::SEQUENCE_WRITTEN, ours == sent),
    }
}

fn is_reserved(octets: &[u8]) -> bool {
    asdu::proved::answers(octets).plain == Ok(false)
}
