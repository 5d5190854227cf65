//! What the proved library says of a frame, through the exported functions of crates/bridge_c and crates/bridge_frames_c.
//! Nothing else here looks into a frame's octets.
use crate::record::{HEADER_SIZE, MAX_OBJECTS, OBJECT_SIZE, Record};

/// The exported functions. A slice goes over as its address and its length.
mod exported {
    unsafe extern "C" {
        pub fn gg_frame_read(f: *const u8, len: usize, fields: *mut u8, fields_len: usize) -> u32;
        pub fn gg_frame_asdu(f: *const u8, len: usize, out: *mut u8, out_len: usize) -> u32;
        pub fn gg_frame_plain(f: *const u8, len: usize) -> u32;
        pub fn gg_frame_rewrite(f: *const u8, len: usize, out: *mut u8, out_len: usize) -> u32;
        pub fn gg_asdu_read(s: *const u8, len: usize, record: *mut u8, record_len: usize) -> u32;
    }
}

/// Kind, two numbers of two octets, six flags (crates/bridge_frames/src/fields.rt).
const FIELDS_SIZE: usize = 11;
const RECORD_SIZE: usize = HEADER_SIZE + MAX_OBJECTS * OBJECT_SIZE;
/// More than any ASDU or frame that reads.
const ROOM: usize = 256;

pub enum Kind {
    I { send: u16, receive: u16, record: Record },
    S { receive: u16 },
    U { flags: [bool; 6] },
}

pub struct Frame {
    pub kind: Kind,
    pub plain: bool,
    /// The octets that its reading is written as: as many as came, without the reserved bits.
    pub written: Vec<u8>,
}

/// The frame, or the number of the refusal.
pub fn read(octets: &[u8]) -> Result<Frame, u32> {
    let mut fields = [0; FIELDS_SIZE];
    let refusal = unsafe {
        exported::gg_frame_read(octets.as_ptr(), octets.len(), fields.as_mut_ptr(), FIELDS_SIZE)
    };
    if refusal != 0 {
        return Err(refusal);
    }
    let plain = unsafe { exported::gg_frame_plain(octets.as_ptr(), octets.len()) } == 0;
    Ok(Frame { kind: kind(fields, octets)?, plain, written: written(octets) })
}

fn kind(fields: [u8; FIELDS_SIZE], octets: &[u8]) -> Result<Kind, u32> {
    let [kind, send_high, send_low, receive_high, receive_low, flags @ ..] = fields;
    let receive = u16::from_be_bytes([receive_high, receive_low]);
    Ok(match kind {
        1 => {
            let send = u16::from_be_bytes([send_high, send_low]);
            Kind::I { send, receive, record: record(octets)? }
        }
        2 => Kind::S { receive },
        _ => Kind::U { flags: flags.map(|flag| flag == 1) },
    })
}

fn record(frame: &[u8]) -> Result<Record, u32> {
    let (mut asdu, mut record) = ([0; ROOM], [0; RECORD_SIZE]);
    let refusal = unsafe {
        let len = exported::gg_frame_asdu(frame.as_ptr(), frame.len(), asdu.as_mut_ptr(), ROOM);
        exported::gg_asdu_read(asdu.as_ptr(), len as usize, record.as_mut_ptr(), RECORD_SIZE)
    };
    if refusal == 0 { Ok(Record::from_octets(&record)) } else { Err(refusal) }
}

fn written(frame: &[u8]) -> Vec<u8> {
    let mut out = [0; ROOM];
    let len =
        unsafe { exported::gg_frame_rewrite(frame.as_ptr(), frame.len(), out.as_mut_ptr(), ROOM) };
    out[..len as usize].to_vec()
}

#[cfg(test)]
mod tests {
    use super::*;
    use crate::line;

    fn frame(hex: &str) -> (Vec<u8>, Frame) {
        let mut octets = Vec::new();
        line::read(hex.as_bytes(), 0, &mut octets).expect("hexadecimal");
        let frame = read(&octets).unwrap_or_else(|number| panic!("{hex}: refused, {number}"));
        (octets, frame)
    }

    #[test]
    fn a_counter() {
        let (octets, frame) = frame("68 12 04 00 06 00 0F 01 03 00 01 00 0A 00 00 E8 03 00 00 05");
        let Kind::I { send: 2, receive: 3, record } = frame.kind else { panic!("not I, 2 and 3") };
        assert_eq!((record.type_id, record.cause, record.address), (15, 3, 1));
        assert_eq!(format!("{:?}", record.objects), "[10:value=1000,iv=0,ca=0,cy=0,seq=5]");
        assert!(frame.plain);
        assert_eq!(frame.written, octets);
    }

    #[test]
    fn plain_exactly_if_written_as_it_came() {
        for octet in 0..=255 {
            let (octets, frame) = frame(&format!("680E020002000101030001001400 00{octet:02X}"));
            assert_eq!(frame.written.len(), octets.len());
            assert_eq!(frame.plain, frame.written == octets, "{octet:02X}");
            assert_eq!(frame.plain, octet & 0x0E == 0, "{octet:02X}");
        }
    }

    #[test]
    fn flags_in_their_order() {
        for place in 0..6 {
            let (_, frame) = frame(&format!("6804{:02X}000000", 3 + (4 << place)));
            let Kind::U { flags } = frame.kind else { panic!("not U") };
            let mut expected = [false; 6];
            expected[place] = true;
            assert_eq!(flags, expected);
        }
    }
}
