//! Names and words for the numbers of the standard and of document 01.

pub struct Type {
    number: u8,
    pub name: &'static str,
    /// What one object of the type is.
    pub object: &'static str,
}

const TYPES: [Type; 13] = [
    Type { number: 1, name: "M_SP_NA_1", object: "single point" },
    Type { number: 3, name: "M_DP_NA_1", object: "double point" },
    Type { number: 5, name: "M_ST_NA_1", object: "step position" },
    Type { number: 7, name: "M_BO_NA_1", object: "bit string" },
    Type { number: 9, name: "M_ME_NA_1", object: "normalised value" },
    Type { number: 11, name: "M_ME_NB_1", object: "scaled value" },
    Type { number: 13, name: "M_ME_NC_1", object: "floating point" },
    Type { number: 15, name: "M_IT_NA_1", object: "counter" },
    Type { number: 21, name: "M_ME_ND_1", object: "normalised value" },
    Type { number: 70, name: "M_EI_NA_1", object: "initialisation" },
    Type { number: 100, name: "C_IC_NA_1", object: "interrogation" },
    Type { number: 101, name: "C_CI_NA_1", object: "counter request" },
    Type { number: 102, name: "C_RD_NA_1", object: "read request" },
];

/// A type that the library reads and this table does not have.
const UNNAMED: Type = Type { number: 0, name: "?", object: "object" };

pub fn type_of(number: u8) -> &'static Type {
    TYPES.iter().find(|known| known.number == number).unwrap_or(&UNNAMED)
}

/// To the control centre or from it. Commands come back as the station's answer, which the cause tells.
pub fn direction(of: &Type, cause: u8) -> &'static str {
    let is_answer = matches!(cause, 7 | 9 | 10 | 44..=47);
    if of.name.starts_with("C_") && !is_answer { "control" } else { "monitor" }
}

pub fn cause(number: u8) -> String {
    let words = match number {
        1 => "periodic, cyclic",
        2 => "background scan",
        3 => "spontaneous",
        4 => "initialised",
        5 => "request",
        6 => "activation",
        7 => "activation confirmation",
        8 => "deactivation",
        9 => "deactivation confirmation",
        10 => "activation termination",
        11 => "after a remote command",
        12 => "after a local command",
        13 => "file transfer",
        20 => "interrogated by station",
        21..=36 => return format!("interrogated by group {}", number - 20),
        37 => "counters, general request",
        38..=41 => return format!("counters, group {}", number - 37),
        44 => "unknown type",
        45 => "unknown cause",
        46 => "unknown common address",
        47 => "unknown object address",
        _ => "?",
    };
    words.to_owned()
}

/// The functions of a U frame, in the order of its flags.
pub const FUNCTIONS: [&str; 6] =
    ["STARTDT act", "STARTDT con", "STOPDT act", "STOPDT con", "TESTFR act", "TESTFR con"];

pub fn double_point(state: u8) -> &'static str {
    match state {
        0 => "intermediate",
        1 => "off",
        2 => "on",
        _ => "indeterminate",
    }
}

pub fn initialisation(cause: u8) -> &'static str {
    match cause {
        0 => "local power on",
        1 => "local manual reset",
        2 => "remote reset",
        _ => "a cause with no name",
    }
}

pub fn interrogation(qualifier: u8) -> String {
    match qualifier {
        20 => "station".to_owned(),
        21..=36 => format!("group {}", qualifier - 20),
        _ => "a qualifier with no name".to_owned(),
    }
}

/// Which counters (bits 0 to 5 of the qualifier), and what is done with them (bits 6 and 7).
pub fn counter_request(qualifier: u8) -> String {
    let which = match qualifier % 64 {
        0 => "no counters".to_owned(),
        group @ 1..=4 => format!("group {group}"),
        5 => "all counters".to_owned(),
        other => format!("request {other}, with no name"),
    };
    let done = ["read", "freeze", "freeze and reset", "reset"][usize::from(qualifier / 64)];
    format!("{which}, {done}")
}

/// The rows of docs/REFUSALS.md that reading gives.
const REFUSALS: [(u32, &str); 15] = [
    (1, "the frame has fewer than 6 octets"),
    (2, "the first octet is not 68"),
    (3, "the length octet is above 253"),
    (4, "the frame is not 2 octets longer than its length octet says"),
    (5, "the length octet is 4, but the control octets are an I frame's: no ASDU"),
    (6, "a U frame whose second, third or fourth control octet is not 0"),
    (7, "an S frame whose first control octet is not 01 or whose second is not 0"),
    (8, "the length octet is not 4, and bit 0 of the first or third control octet is set"),
    (9, "the ASDU ends before its header does"),
    (10, "the cause is not one of 1 to 13, 20 to 41, 44 to 47"),
    (11, "the type is not carried"),
    (12, "more or fewer octets after the header than type, sequence bit and count ask for"),
    (13, "a sequence with no object, or of a type with no element octets"),
    (14, "a sequence that counts past the last address, 16777215"),
    (17, "the ASDU has more than 249 octets"),
];

pub fn refusal(number: u32) -> Option<&'static str> {
    REFUSALS.iter().find(|(row, _)| *row == number).map(|(_, words)| *words)
}

#[cfg(test)]
mod tests {
    use std::collections::BTreeSet;

    use super::*;
    use crate::{line, proved};

    /// A frame for each number that reading a frame can give (docs/REFUSALS.md, `read_frame`).
    const REFUSED: [(u32, &str); 14] = [
        (1, "68 04 01 00 02"),
        (2, "69 04 01 00 02 00"),
        (3, "68 FE 01 00 02 00"),
        (4, "68 03 01 00 02 00"),
        (5, "68 04 02 00 02 00"),
        (6, "68 04 03 00 01 00"),
        (7, "68 04 05 00 02 00"),
        (8, "68 05 01 00 02 00 0F"),
        (9, "68 06 00 00 00 00 01 01"),
        (10, "68 07 00 00 00 00 01 01 00"),
        (11, "68 0A 00 00 00 00 2D 01 06 00 01 00"),
        (12, "68 0A 00 00 00 00 01 01 03 00 01 00"),
        (13, "68 0D 00 00 00 00 0F 80 03 00 01 00 0A 00 00"),
        (14, "68 0F 00 00 00 00 01 82 03 00 01 00 FF FF FF 00 00"),
    ];

    fn octets(hex: &str) -> Vec<u8> {
        let mut octets = Vec::new();
        line::read(hex.as_bytes(), 0, &mut octets).expect("hexadecimal");
        octets
    }

    #[test]
    fn refusals_have_words() {
        for (number, hex) in REFUSED {
            assert_eq!(proved::read(&octets(hex)).err(), Some(number), "{hex}");
            assert!(refusal(number).is_some(), "{number} has no words");
        }
        assert!(refusal(17).is_some(), "an ASDU alone can be too long");
    }

    /// The frames above with any one octet changed: no refusal comes that has no words.
    #[test]
    fn no_other_refusal_comes() {
        let mut came = BTreeSet::new();
        for (_, hex) in REFUSED {
            let mut octets = octets(hex);
            for at in 0..octets.len() {
                let kept = octets[at];
                for octet in 0..=255 {
                    octets[at] = octet;
                    came.extend(proved::read(&octets).err());
                }
                octets[at] = kept;
            }
        }
        assert_eq!(came, (1..=14).collect());
        assert!(came.into_iter().all(|number| refusal(number).is_some()));
    }

    /// Whatever type and cause the library reads has a name and words here.
    #[test]
    fn types_and_causes_have_words() {
        let (mut types, mut causes) = (0, 0);
        for number in 0..=255 {
            for size in 0..=32 {
                let mut frame = vec![0x68, 13 + size, 0, 0, 0, 0, number, 1, 3, 0, 1, 0, 0, 0, 0];
                frame.resize(15 + usize::from(size), 0);
                if proved::read(&frame).is_ok() {
                    types += 1;
                    assert_ne!(type_of(number).name, "?", "type {number}");
                }
            }
        }
        for number in 0..64 {
            if proved::read(&[0x68, 10, 0, 0, 0, 0, 1, 0, number, 0, 1, 0]).is_ok() {
                causes += 1;
                assert_ne!(cause(number), "?", "cause {number}");
            }
        }
        assert_eq!((types, causes), (13, 39));
    }

    #[test]
    fn commands_and_their_answers() {
        for (number, cause, expected) in [
            (15, 3, "monitor"),
            (100, 6, "control"),
            (100, 7, "monitor"),
            (100, 10, "monitor"),
            (101, 47, "monitor"),
            (102, 5, "control"),
        ] {
            assert_eq!(direction(type_of(number), cause), expected, "{number}, {cause}");
        }
    }

    #[test]
    fn qualifiers() {
        assert_eq!(interrogation(20), "station");
        assert_eq!(interrogation(36), "group 16");
        assert_eq!(counter_request(5), "all counters, read");
        assert_eq!(counter_request(0x81), "group 1, freeze and reset");
        assert_eq!(counter_request(0xFF), "request 63, with no name, reset");
    }
}
