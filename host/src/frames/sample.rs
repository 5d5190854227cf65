//! The part of the stored sample that has frames.
use super::{
    answers::Frame,
    cases::{Case, case_of},
    judge,
    layout::{self, ASDU_AT},
    make,
};
use crate::{
    asdu::{
        self,
        layout::{CARRIED, COUNTER, SINGLE_POINT},
        sample::line,
    },
    random::Random,
};

/// So many frames have damaged copies here: four, and four with a damaged ASDU.
const DAMAGED: usize = 30;

/// `f` reads a frame: told is 0, its fields (`Frame::fields`) and of an I frame what `a` has told about its ASDU; or
/// the refusal's number. `F` writes it as it was read: told is what the Rust writes.
pub fn lines(random: &mut Random) -> String {
    let frames = frames(random);
    let read = frames.iter().filter(|octets| both_read_alike(octets)).map(|octets| {
        let told = match judge::answers(octets).reading {
            Ok(frame) => [vec![0], frame.fields().to_vec(), told_asdu(&frame)].concat(),
            Err(refusal) => vec![refusal.number().expect("a refusal of both sides")],
        };
        line('f', octets, &told)
    });
    let written = frames.iter().filter(|octets| both_write_alike(octets)).filter_map(|octets| {
        let again = judge::answers(octets).rewriting.ok()?;
        Some(line('F', octets, &again))
    });
    read.chain(written).collect()
}

fn told_asdu(frame: &Frame) -> Vec<u8> {
    match frame {
        Frame::I { record, .. } => [vec![0], record.octets()].concat(),
        _ => Vec::new(),
    }
}

fn both_read_alike(octets: &[u8]) -> bool {
    match case_of(octets) {
        Case::Same => true,
        Case::WrongLength => false,
        Case::IFrame => asdu::sample::both_read_alike(&octets[ASDU_AT..]),
    }
}

fn both_write_alike(octets: &[u8]) -> bool {
    match case_of(octets) {
        Case::Same => true,
        Case::WrongLength => false,
        Case::IFrame => asdu::cases::case_of(&octets[ASDU_AT..]) == asdu::cases::Case::Same,
    }
}

fn frames(random: &mut Random) -> Vec<Vec<u8>> {
    let mut frames = without_asdu();
    for carried in &CARRIED {
        for (sequence, count) in asdu::layout::layouts_with_up_to(2) {
            let asdu = asdu::make::good(random, carried, sequence, count);
            frames.push(layout::frame(make::i_control(random), &asdu));
        }
    }
    for (carried, sequence) in [(SINGLE_POINT, false), (COUNTER, true)] {
        let count = asdu::make::most_objects(carried, sequence);
        let asdu = asdu::make::good(random, carried, sequence, count);
        frames.push(layout::frame(make::i_control(random), &asdu));
    }
    let header = asdu::make::good(random, SINGLE_POINT, false, 0);
    frames.extend((0..header.len()).map(|len| layout::frame([0; 4], &header[..len])));
    let bad_control = [[1, 0, 0, 0], [3, 0, 0, 0], [0, 0, 1, 0], [2, 0, 3, 0], [1, 0, 1, 0]];
    frames.extend(bad_control.map(|control| layout::frame(control, &header)));
    for _ in 0..DAMAGED {
        let (control, asdu) = (make::i_control(random), asdu::make::small_good(random));
        frames.extend(asdu::make::damaged(random, &layout::frame(control, &asdu)));
        frames.extend(asdu::make::damaged(random, &asdu).map(|asdu| layout::frame(control, &asdu)));
    }
    frames
}

/// Every U frame, S frames with the numbers at their limits, each kind's wrong control octets, and frames that are cut.
fn without_asdu() -> Vec<Vec<u8>> {
    let mut frames: Vec<Vec<u8>> =
        (0..64).map(|flags| layout::frame([flags << 2 | 3, 0, 0, 0], &[])).collect();
    for number in make::EDGES {
        let [a, b, c, d] = layout::s_control(number);
        frames.push(layout::frame([a, b, c, d], &[]));
        frames.push(layout::frame([a, b, c | 1, d], &[]));
    }
    for first in [0x00, 0x01, 0x02, 0x03, 0x05, 0x43] {
        for place in 1..4 {
            let mut control = [first, 0, 0, 0];
            control[place] = 0x80;
            frames.push(layout::frame(control, &[]));
        }
    }
    let whole = layout::frame([3, 0, 0, 0], &[]);
    frames.extend((0..whole.len()).map(|len| whole[..len].to_vec()));
    frames.extend([0x00, 0x67, 0xE8].map(|start| asdu::make::with_octet(&whole, 0, start)));
    frames.extend([254, 255].map(|length| asdu::make::with_octet(&whole, 1, length)));
    frames
}
