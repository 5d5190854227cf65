//! The part of the stored sample that has ASDUs.
use super::{
    cases::{Case, case_of},
    judge, layout,
    layout::{CARRIED, COUNTER, Carried, MAX_ADDRESS, READ_COMMAND, SINGLE_POINT},
    make,
};
use crate::{entries, hex, random::Random};

/// So many ASDUs have four damaged copies here.
const DAMAGED: usize = 60;
const RANDOM: usize = 40;

/// A line is a letter, the numbers of octets given and told, and these octets. `a` reads an ASDU: told is 0 and its
/// record, or the refusal's number. `A` writes it as it was read: told is what the Rust writes.
pub fn lines(random: &mut Random) -> String {
    let asdus = asdus(random);
    let read = asdus.iter().filter(|octets| both_read_alike(octets)).map(|octets| {
        let told = match judge::reading(octets) {
            Ok(record) => [vec![0], record.octets()].concat(),
            Err(refusal) => vec![refusal.number().expect("a refusal of both sides")],
        };
        line('a', octets, &told)
    });
    let same = asdus.iter().filter(|octets| case_of(octets) == Case::Same);
    let written = same.filter_map(|octets| {
        let again = judge::answers(octets).rewriting.ok()?;
        Some(line('A', octets, &again))
    });
    read.chain(written).collect()
}

pub fn line(kind: char, given: &[u8], told: &[u8]) -> String {
    let (given_len, told_len) = (given.len(), told.len());
    let (given, told) = (hex::from_octets(given), hex::from_octets(told));
    format!("{kind} {given_len:04x} {told_len:04x} {given} {told}\n")
}

/// Where only writing differs (D1), reading is compared.
pub fn both_read_alike(octets: &[u8]) -> bool {
    let only_writing = Case::Read { entry: entries::SEQUENCE_WRITTEN };
    [Case::Same, only_writing].contains(&case_of(octets))
}

fn asdus(random: &mut Random) -> Vec<Vec<u8>> {
    let mut asdus = shapes(random);
    for cause in make::listed_causes() {
        for marks in 0..4 {
            let carried = random.pick(&CARRIED);
            let octets = make::good(random, carried, false, 1);
            asdus.push(make::with_octet(&octets, 2, cause | marks << 6));
        }
    }
    for _ in 0..DAMAGED {
        let octets = make::small_good(random);
        asdus.extend(make::damaged(random, &octets));
    }
    asdus.extend((0..RANDOM).map(|_| make::random_after_header(random)));
    asdus
}

/// Every type and layout with up to three objects in three lengths and up to the last address, short ones, and four
/// that are full.
fn shapes(random: &mut Random) -> Vec<Vec<u8>> {
    let mut asdus = Vec::new();
    for carried in &CARRIED {
        for (sequence, count) in layout::layouts_with_up_to(3) {
            let mut octets = make::good(random, carried, sequence, count);
            asdus.extend(make::lengths(&octets));
            if sequence && count > 0 {
                make::set_first_address(&mut octets, MAX_ADDRESS + 1 - count as u32);
                asdus.push(octets);
            }
        }
    }
    let header = make::good(random, SINGLE_POINT, false, 0);
    asdus.extend((0..header.len()).map(|len| header[..len].to_vec()));
    for (carried, sequence) in FULL {
        let count = make::most_objects(carried, sequence);
        asdus.push(make::good(random, carried, sequence, count));
    }
    asdus
}

const FULL: [(&Carried, bool); 4] =
    [(SINGLE_POINT, false), (SINGLE_POINT, true), (COUNTER, true), (READ_COMMAND, false)];
