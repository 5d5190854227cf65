//! Document 01's numbers of refusal for the errors of the Rust. Numbers that are not here have no error there: the
//! Rust does not check the case, or tells it otherwise (25 is an answer to the sender, 20 an ended task).

/// The innermost variants of an error as `errors::path` names them, or how its message begins.
const NUMBERS: [(&str, u8); 24] = [
    ("ApduTooShort", 1),
    ("InvalidTelegramHeader", 2),
    ("\"Invalid header", 2),
    ("InvalidLength", 3),
    ("\"Invalid length", 3),
    ("InvalidControlField", 5),
    ("InvalidUFrameControlFields", 6),
    ("InvalidSFrameControlFields", 7),
    ("InvalidIFrameControlFields", 8),
    // After the layout has passed, octets are missing only where a sequence has no element.
    ("InvalidInformationObject>NotEnoughBytes", 13),
    ("NotEnoughBytes", 9),
    ("InvalidCot", 10),
    ("InvalidInformationObject>NotImplemented", 11),
    ("NumberOfObjects", 12),
    ("TooManyObjects", 12),
    ("\"Received frame with invalid sequence number", 27),
    ("\"Received frame with sequence number that is not in", 27),
    ("\"Received I frame with wrong sequence number", 28),
    ("\"Received StartDT activation", 29),
    ("\"Received unsolicited StartDT confirmation", 29),
    ("\"Invalid U-frame", 29),
    ("\"t1 for u frames timeout", 30),
    ("\"t1 for i frames timeout", 31),
    ("\"Outstanding test frame confirmation messages", 32),
];

/// The number for an error of reading, or of the link.
pub fn number(path: &str) -> Option<u8> {
    let found = NUMBERS.iter().find(|(error, _)| is_innermost(path, error));
    found.map(|(_, number)| *number)
}

/// The number for an error of writing, where a length above the limit is that of the ASDU written.
pub fn number_in_writing(path: &str) -> Option<u8> {
    if is_innermost(path, "InvalidLength") { Some(17) } else { number(path) }
}

fn is_innermost(path: &str, error: &str) -> bool {
    if error.starts_with('"') {
        let innermost = path.rsplit('>').next();
        return innermost.is_some_and(|message| message.starts_with(error));
    }
    let outer = path.strip_suffix(error);
    outer.is_some_and(|outer| outer.is_empty() || outer.ends_with('>'))
}
