//! The value of an object and its other fields, in words.
use crate::{
    paint::Style,
    record::{Object, lowered_i8, lowered_i16, lowered_i32},
    words,
};

pub struct Note {
    pub text: String,
    pub style: Style,
}

pub struct Shown {
    pub value: String,
    pub notes: Vec<Note>,
}

/// In the order of the record's marks; the first one is told even where it is clear.
const QUALITY: [&str; 5] = ["invalid", "not topical", "substituted", "blocked", "overflow"];

/// The range of a normalised value is -1 to 1, in steps of one of these parts.
const PARTS: f64 = 32_768.0;

/// By the number of the type whose value the object has (host/src/asdu/record.rs names the fields of each).
pub fn shown(object: &Object) -> Shown {
    let f = &object.fields;
    let (first_2, first_4) = ([f[0], f[1]], [f[0], f[1], f[2], f[3]]);
    let bits = u32::from_be_bytes(first_4);
    match object.kind {
        1 => Shown { value: if f[4] == 1 { "on" } else { "off" }.into(), notes: quality(&f[..4]) },
        3 => Shown { value: words::double_point(f[4]).into(), notes: quality(&f[..4]) },
        5 => step(lowered_i8(f[0]), f[1] == 1, quality(&f[2..7])),
        7 => Shown { value: format!("{bits:08X}"), notes: quality(&f[4..9]) },
        9 => normalised(lowered_i16(first_2), quality(&f[2..7])),
        11 => Shown { value: lowered_i16(first_2).to_string(), notes: quality(&f[2..7]) },
        13 => floating_point(bits, quality(&f[4..9])),
        15 => counter(lowered_i32(first_4), [f[4], f[5], f[6]], f[7]),
        21 => normalised(lowered_i16(first_2), Vec::new()),
        70 => Shown { value: f[1].to_string(), notes: vec![bare(words::initialisation(f[1]))] },
        100 => Shown { value: f[0].to_string(), notes: vec![bare(words::interrogation(f[0]))] },
        101 => Shown { value: f[0].to_string(), notes: vec![bare(words::counter_request(f[0]))] },
        _ => Shown { value: String::new(), notes: Vec::new() },
    }
}

fn bare(text: impl Into<String>) -> Note {
    Note { text: text.into(), style: Style::Bare }
}

fn warning(text: impl Into<String>) -> Note {
    Note { text: text.into(), style: Style::Warning }
}

fn validity(invalid: bool) -> Note {
    if invalid { warning("invalid") } else { bare("valid") }
}

/// From a mark for each of the words, or for the first four.
fn quality(marks: &[u8]) -> Vec<Note> {
    let others = marks.iter().zip(QUALITY).skip(1);
    let set = others.filter(|(mark, _)| **mark == 1).map(|(_, word)| warning(word));
    std::iter::once(validity(marks[0] == 1)).chain(set).collect()
}

fn step(value: i8, transient: bool, mut notes: Vec<Note>) -> Shown {
    if transient {
        notes.push(bare("transient"));
    }
    Shown { value: value.to_string(), notes }
}

fn normalised(value: i16, mut notes: Vec<Note>) -> Shown {
    notes.push(bare(format!("{value} of 32768 parts")));
    Shown { value: format!("{:.5}", f64::from(value) / PARTS), notes }
}

/// A NaN is one of many: its bits are shown.
fn floating_point(bits: u32, mut notes: Vec<Note>) -> Shown {
    let value = f32::from_bits(bits);
    if value.is_nan() {
        notes.push(warning(format!("bits {bits:08X}")));
    }
    Shown { value: format!("{value:?}"), notes }
}

fn counter(value: i32, [invalid, adjusted, carry]: [u8; 3], sequence: u8) -> Shown {
    let mut notes = vec![validity(invalid == 1), bare(format!("sequence number {sequence}"))];
    if adjusted == 1 {
        notes.push(warning("adjusted"));
    }
    if carry == 1 {
        notes.push(warning("carry"));
    }
    Shown { value: value.to_string(), notes }
}

#[cfg(test)]
mod tests {
    use super::*;
    use crate::{
        line,
        proved::{self, Kind},
    };

    /// The one object of a frame with this type and element, as its value and its notes.
    fn object(type_id: u8, element: &str) -> (String, String) {
        let size = element.split_whitespace().count();
        let hex =
            format!("68 {:02X} 00000000 {type_id:02X} 010300 0100 0A0000{element}", 13 + size);
        let mut octets = Vec::new();
        line::read(hex.as_bytes(), 0, &mut octets).expect("hexadecimal");
        let frame = proved::read(&octets).unwrap_or_else(|number| panic!("{hex}: {number}"));
        let Kind::I { record, .. } = frame.kind else { panic!("{hex}: not an I frame") };
        let Shown { value, notes } = shown(&record.objects[0]);
        let notes: Vec<String> = notes.into_iter().map(|note| note.text).collect();
        (value, notes.join(", "))
    }

    #[test]
    fn each_type() {
        for (type_id, element, value, notes) in [
            (1, "01", "on", "valid"),
            (1, "B0", "off", "invalid, substituted, blocked"),
            (3, "00", "intermediate", "valid"),
            (3, "41", "off", "valid, not topical"),
            (3, "02", "on", "valid"),
            (3, "03", "indeterminate", "valid"),
            (5, "40 00", "-64", "valid"),
            (5, "FF 01", "-1", "valid, overflow, transient"),
            (7, "0F F0 00 80 00", "8000F00F", "valid"),
            (9, "00 40 00", "0.50000", "valid, 16384 of 32768 parts"),
            (11, "F4 FF 41", "-12", "valid, not topical, overflow"),
            (13, "00 80 66 43 10", "230.5", "valid, blocked"),
            (13, "01 00 C0 7F 80", "NaN", "invalid, bits 7FC00001"),
            (13, "00 00 80 FF 00", "-inf", "valid"),
            (15, "E8 03 00 00 05", "1000", "valid, sequence number 5"),
            (15, "FF FF FF FF E0", "-1", "invalid, sequence number 0, adjusted, carry"),
            (21, "00 80", "-1.00000", "-32768 of 32768 parts"),
            (70, "01", "1", "local manual reset"),
            (70, "81", "129", "a cause with no name"),
            (100, "14", "20", "station"),
            (101, "45", "69", "all counters, freeze"),
            (102, "", "", ""),
        ] {
            let expected = (value.to_owned(), notes.to_owned());
            assert_eq!(object(type_id, element), expected, "type {type_id}, {element}");
        }
    }

    #[test]
    fn each_mark_alone() {
        for (octet, notes) in [
            ("80", "invalid"),
            ("40", "valid, not topical"),
            ("20", "valid, substituted"),
            ("10", "valid, blocked"),
            ("01", "valid, overflow"),
        ] {
            for (type_id, value) in
                [(5, "00"), (7, "00 00 00 00"), (11, "00 00"), (13, "00 00 00 00")]
            {
                assert_eq!(object(type_id, &format!("{value} {octet}")).1, notes, "{type_id}");
            }
            let parts = format!("{notes}, 0 of 32768 parts");
            assert_eq!(object(9, &format!("00 00 {octet}")).1, parts);
            let notes = notes.replace(", overflow", "");
            assert_eq!((object(1, octet).1, object(3, octet).1), (notes.clone(), notes));
        }
        for (octet, notes) in [
            ("80", "invalid, sequence number 0"),
            ("40", "valid, sequence number 0, adjusted"),
            ("20", "valid, sequence number 0, carry"),
            ("1F", "valid, sequence number 31"),
        ] {
            assert_eq!(object(15, &format!("00 00 00 00 {octet}")).1, notes);
        }
    }
}
