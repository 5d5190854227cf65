//! The record of an ASDU, and the list of octets that the exported functions have for it
//! (crates/bridge_records/src/records.rt). Fields stand in the order of `names`, in an octet each, numbers with their
//! high octet first and signed ones moved up by half their range: so they do not look like their octets on the wire.
use std::fmt;

pub const HEADER_SIZE: usize = 9;
pub const OBJECT_SIZE: usize = 16;
pub const FIELDS_SIZE: usize = 11;
/// What a record of the library has room for.
pub const MAX_OBJECTS: usize = 127;

pub type Fields = [u8; FIELDS_SIZE];

/// Address 0 and a clear SIQ: what stands past the count.
const BLANK: Object = Object { address: 0, kind: 1, fields: [0; FIELDS_SIZE] };

/// How many objects are shown of a record.
const SHOWN: usize = 2;

#[derive(Clone, Copy, PartialEq)]
pub struct Object {
    pub address: u32,
    /// The number of the type whose value it has.
    pub kind: u8,
    pub fields: Fields,
}

#[derive(Clone, Default, PartialEq)]
pub struct Record {
    pub type_id: u8,
    pub sequence: bool,
    pub test: bool,
    pub negative: bool,
    pub cause: u8,
    pub originator: u8,
    pub address: u16,
    pub objects: Vec<Object>,
}

impl Object {
    fn octets(&self) -> [u8; OBJECT_SIZE] {
        let mut octets = [0; OBJECT_SIZE];
        octets[..4].copy_from_slice(&self.address.to_be_bytes());
        octets[4] = self.kind;
        octets[5..].copy_from_slice(&self.fields);
        octets
    }

    fn from_octets(octets: &[u8]) -> Object {
        let address = octets[..4].try_into().expect("four octets");
        let fields = octets[5..].try_into().expect("as many octets as an object has");
        Object { address: u32::from_be_bytes(address), kind: octets[4], fields }
    }
}

impl Record {
    pub fn octets(&self) -> Vec<u8> {
        let [high, low] = self.address.to_be_bytes();
        let [sequence, test, negative] = [self.sequence, self.test, self.negative].map(u8::from);
        let count = u8::try_from(self.objects.len()).expect("a count of an octet");
        let (type_id, cause, originator) = (self.type_id, self.cause, self.originator);
        let mut octets =
            vec![type_id, sequence, test, negative, cause, originator, high, low, count];
        octets.extend(self.objects.iter().flat_map(Object::octets));
        octets
    }

    /// From the octets of a whole record; past its count all objects must be blank.
    pub fn from_octets(octets: &[u8]) -> Record {
        let (header, objects) = octets.split_at(HEADER_SIZE);
        let (objects, rest) = objects.split_at(usize::from(header[8]) * OBJECT_SIZE);
        let blank = BLANK.octets();
        let mut rest = rest.chunks_exact(OBJECT_SIZE);
        assert!(rest.all(|object| object == blank), "an object past the count that is not blank");
        Record {
            type_id: header[0],
            sequence: header[1] == 1,
            test: header[2] == 1,
            negative: header[3] == 1,
            cause: header[4],
            originator: header[5],
            address: u16::from_be_bytes([header[6], header[7]]),
            objects: objects.chunks_exact(OBJECT_SIZE).map(Object::from_octets).collect(),
        }
    }
}

pub fn raised_i8(value: i8) -> u8 {
    value.cast_unsigned() ^ 0x80
}

pub fn lowered_i8(raised: u8) -> i8 {
    (raised ^ 0x80).cast_signed()
}

pub fn raised_i16(value: i16) -> [u8; 2] {
    (value.cast_unsigned() ^ 0x8000).to_be_bytes()
}

pub fn lowered_i16(raised: [u8; 2]) -> i16 {
    (u16::from_be_bytes(raised) ^ 0x8000).cast_signed()
}

pub fn raised_i32(value: i32) -> [u8; 4] {
    (value.cast_unsigned() ^ 0x8000_0000).to_be_bytes()
}

pub fn lowered_i32(raised: [u8; 4]) -> i32 {
    (u32::from_be_bytes(raised) ^ 0x8000_0000).cast_signed()
}

/// The fields of a type's value. A cause of initialisation is 0 to 2 for a named one or 3 for another, then the cause,
/// then the mark of a change that only the Rust has.
fn names(kind: u8) -> &'static str {
    match kind {
        1 => "iv nt sb bl spi",
        3 => "iv nt sb bl dpi",
        5 => "value transient iv nt sb bl ov",
        7 | 13 => "bits iv nt sb bl ov",
        9 | 11 => "value iv nt sb bl ov",
        15 => "value iv ca cy seq",
        21 => "value",
        70 => "which cause changed",
        100 | 101 => "qualifier",
        _ => "",
    }
}

/// How many octets the first field takes; the others take one.
fn first_width(kind: u8) -> usize {
    match kind {
        7 | 13 | 15 => 4,
        9 | 11 | 21 => 2,
        _ => 1,
    }
}

impl fmt::Debug for Object {
    fn fmt(&self, f: &mut fmt::Formatter) -> fmt::Result {
        write!(f, "{}:", self.address)?;
        let (mut at, mut width, mut comma) = (0, first_width(self.kind), "");
        for name in names(self.kind).split_whitespace() {
            let octets = &self.fields[at..at + width];
            let number = octets.iter().fold(0, |number, &octet| number << 8 | i64::from(octet));
            let half = if name == "value" { 1 << (8 * width - 1) } else { 0 };
            write!(f, "{comma}{name}={}", number - half)?;
            (at, width, comma) = (at + width, 1, ",");
        }
        Ok(())
    }
}

impl fmt::Debug for Record {
    fn fmt(&self, f: &mut fmt::Formatter) -> fmt::Result {
        let [sequence, test, negative] = [self.sequence, self.test, self.negative].map(u8::from);
        let (type_id, count) = (self.type_id, self.objects.len());
        let (cause, originator, address) = (self.cause, self.originator, self.address);
        write!(f, "{type_id} {sequence} {test} {negative} {cause} {originator} {address} {count}")?;
        for object in self.objects.iter().take(SHOWN) {
            write!(f, " {object:?}")?;
        }
        f.write_str(if count > SHOWN { " .." } else { "" })
    }
}
