//! Records written by both sides: those that octets read as, and those that none do.
use super::{
    answers::Refusal,
    judge, layout,
    layout::{ADDRESS_SIZE, CARRIED, HEADER_SIZE, MAX_ADDRESS, MAX_SIZE},
    make, proved,
    proved::ROOM,
    record::{Fields, MAX_OBJECTS, Object, Record, lowered_i8, raised_i8},
};
use crate::{
    entries,
    random::Random,
    report::{Answer, Report},
};

pub fn compare(report: &mut Report, random: &mut Random, records: u32) {
    report.level("records");
    report.group("any that is good, with up to two changes that may make it bad, written");
    for _ in 0..records {
        written_by_both(report, &any_changed(random));
    }
}

/// Any that is good, with up to two changes that may make it bad.
pub fn any_changed(random: &mut Random) -> Record {
    let mut record = any_good(random);
    for _ in 0..random.below(3) {
        change(random, &mut record);
    }
    record
}

fn any_good(random: &mut Random) -> Record {
    loop {
        if let Ok(mut record) = judge::reading(&make::any_good(random)) {
            // Only the Rust has a mark of a change there (D8).
            record.objects.iter_mut().filter(|o| o.kind == 70).for_each(|o| o.fields[2] = 0);
            return record;
        }
    }
}

fn change(random: &mut Random, record: &mut Record) {
    match random.below(8) {
        0 => record.cause = random.next_u8() & 0x3f,
        1 => record.type_id = random.next_u8(),
        2 => record.type_id = random.pick(&CARRIED).number,
        3 => record.sequence = !record.sequence,
        4 => {
            let most = *random.pick(&[0, 1, 61, 127, 128, 200]);
            record.objects = record.objects.iter().copied().cycle().take(most).collect();
        }
        _ => change_object(random, record),
    }
}

fn change_object(random: &mut Random, record: &mut Record) {
    if record.objects.is_empty() {
        return;
    }
    let place = random.below(record.objects.len());
    let object = &mut record.objects[place];
    match (object.kind, random.below(4)) {
        (_, 0) => object.address = random.next_u32(),
        (_, 1) => object.address = MAX_ADDRESS + random.below(2) as u32,
        (5, _) => object.fields[0] = random.next_u8(),
        (15, _) => object.fields[7] = random.next_u8(),
        (70, _) => object.fields[..2].copy_from_slice(&[3, random.below(4) as u8]),
        _ => object.address ^= 1 << 24,
    }
}

/// What refuses a record, as document 01 orders it, and the entry that says what the Rust does instead.
pub fn refusal(record: &Record) -> Option<(u8, &'static str)> {
    if !layout::is_listed(record.cause) {
        return Some((10, entries::ANY_CAUSE));
    }
    let Some(carried) = layout::carried(record.type_id) else {
        return Some((11, entries::ANY_TYPE));
    };
    let count = record.objects.len();
    if count > MAX_OBJECTS {
        return Some((12, entries::LEFT_BEHIND));
    }
    if record.sequence && (count == 0 || carried.size() == 0) {
        return Some((13, entries::SEQUENCE_WRITTEN));
    }
    let first = record.objects.first().map_or(0, |object| u64::from(object.address));
    let mut objects = (first..).zip(&record.objects);
    let too_long = layout::needed(carried.size(), record.sequence, count) > MAX_SIZE;
    objects
        .find_map(|(place, object)| object_refusal(record, place, object))
        .or(too_long.then_some((17, entries::NO_LIMIT)))
}

fn object_refusal(record: &Record, place: u64, object: &Object) -> Option<(u8, &'static str)> {
    if object.kind != record.type_id {
        return Some((16, entries::ANY_KIND));
    }
    if object.address > MAX_ADDRESS {
        return Some((14, entries::WRITING_CUTS));
    }
    if record.sequence && u64::from(object.address) != place {
        return Some((14, entries::SEQUENCE_WRITTEN));
    }
    let fits = object.fields == cut(object);
    let entry = if object.kind == 70 { entries::OTHER_NAMED_CAUSE } else { entries::WRITING_CUTS };
    (!fits).then_some((15, entry))
}

/// The fields that the octets which the Rust writes read as: the low bits of those that do not fit.
fn cut(object: &Object) -> Fields {
    let mut fields = object.fields;
    match object.kind {
        5 => fields[0] = raised_i8(lowered_i8(fields[0]) << 1 >> 1),
        15 => fields[7] %= 32,
        70 if matches!(fields[..2], [3, 0..=2]) => fields[0] = fields[1],
        _ => {}
    }
    fields
}

/// The Rust writes what it is given, with an address for every object.
pub fn as_the_rust_writes(record: &Record) -> (Result<(), Refusal>, Vec<u8>) {
    let count = record.objects.len();
    if count > MAX_OBJECTS {
        return (Err(Refusal::Number(12)), vec![record.type_id]);
    }
    let [test, negative] = [record.test, record.negative].map(u8::from);
    let mut octets = vec![
        record.type_id,
        count as u8 | u8::from(record.sequence) << 7,
        record.cause | negative << 6 | test << 7,
        record.originator,
    ];
    octets.extend(record.address.to_le_bytes());
    for object in &record.objects {
        octets.extend(&object.address.to_le_bytes()[..ADDRESS_SIZE]);
        octets.extend(element(object));
    }
    (Ok(()), octets)
}

/// The octets of an object's element as we write them, of what is left of it by `cut`.
fn element(object: &Object) -> Vec<u8> {
    let object = Object { address: 0, fields: cut(object), ..*object };
    let alone =
        Record { type_id: object.kind, cause: 3, objects: vec![object], ..Record::default() };
    let octets = proved::writing(&alone, ROOM).expect("an object that fits");
    octets[HEADER_SIZE + ADDRESS_SIZE..].to_vec()
}

fn written_by_both(report: &mut Report, record: &Record) {
    let ours = proved::writing(record, ROOM);
    let mut octets = Vec::new();
    let answer = judge::write_to(record, &mut octets);
    let rust = Answer { given: (answer, octets), expected: as_the_rust_writes(record) };
    let Some((number, entry)) = refusal(record) else {
        return accepted(report, record, ours, rust);
    };
    report.listed(
        entry,
        record,
        Answer { given: ours, expected: Err(Refusal::Number(number)) },
        rust,
    );
}

/// What we write must be what the Rust writes, but for the addresses of a sequence, and must read back.
fn accepted(
    report: &mut Report,
    record: &Record,
    ours: Result<Vec<u8>, Refusal>,
    rust: Answer<(Result<(), Refusal>, Vec<u8>)>,
) {
    let back = ours.as_ref().map(|octets| proved::reading(octets).as_ref() == Ok(record));
    let back = back.map_err(Refusal::clone);
    let octets = with_one_address(record, &rust.given.1);
    let ours = Answer { given: (ours, back), expected: (Ok(octets), Ok(true)) };
    if record.sequence && record.objects.len() > 1 {
        report.listed(entries::SEQUENCE_WRITTEN, record, ours, rust);
    } else {
        report.same(record, ours.given, ours.expected);
    }
}

/// What the Rust writes, without the addresses after the first of a sequence.
pub fn with_one_address(record: &Record, octets: &[u8]) -> Vec<u8> {
    if !record.sequence {
        return octets.to_vec();
    }
    let (header, objects) = octets.split_at(HEADER_SIZE);
    let mut left = [header, &objects[..ADDRESS_SIZE]].concat();
    for object in objects.chunks_exact(objects.len() / record.objects.len()) {
        left.extend(&object[ADDRESS_SIZE..]);
    }
    left
}
