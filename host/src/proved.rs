//! The proved library's answers, through the exported functions of crates/bridge_c; fields as in `judge`.

/// The exported functions. A slice goes over as its address and its length.
mod exported {
    unsafe extern "C" {
        pub fn gg_read_qds(octet: u8, fields: *mut u8, len: usize);
        pub fn gg_write_qds(fields: *const u8, len: usize) -> u8;
        pub fn gg_read_siq(octet: u8, fields: *mut u8, len: usize);
        pub fn gg_write_siq(fields: *const u8, len: usize) -> u8;
        pub fn gg_read_diq(octet: u8, fields: *mut u8, len: usize);
        pub fn gg_write_diq(fields: *const u8, len: usize) -> u8;
        pub fn gg_read_seq_qd(octet: u8, fields: *mut u8, len: usize);
        pub fn gg_write_seq_qd(fields: *const u8, len: usize, out: *mut u8, out_len: usize) -> u8;
        pub fn gg_read_coi(octet: u8, fields: *mut u8, len: usize);
        pub fn gg_write_coi(fields: *const u8, len: usize, out: *mut u8, out_len: usize) -> u8;
        pub fn gg_read_vti(octets: *const u8, len: usize, fields: *mut u8, fields_len: usize)
        -> i8;
        pub fn gg_write_vti(
            value: i8,
            fields: *const u8,
            len: usize,
            out: *mut u8,
            out_len: usize,
        ) -> u8;
        pub fn gg_read_i16(octets: *const u8, len: usize) -> i16;
        pub fn gg_write_i16(value: i16, out: *mut u8, len: usize);
        pub fn gg_read_i32(octets: *const u8, len: usize) -> i32;
        pub fn gg_write_i32(value: i32, out: *mut u8, len: usize);
        pub fn gg_read_u32(octets: *const u8, len: usize) -> u32;
        pub fn gg_write_u32(value: u32, out: *mut u8, len: usize);
    }
}

/// The octets written, or the number of the refusal.
pub type Written<const N: usize> = Result<[u8; N], u8>;

/// What stands in an output before a call: where it is still there, nothing was written.
pub const UNTOUCHED: u8 = 0xA5;

/// Room past what a call may write, to see that it is left alone.
const BEYOND: usize = 3;

/// Calls with an output of `BEYOND` octets more than the `N` that the call is to write.
fn filled<const N: usize, R>(call: impl FnOnce(*mut u8, usize) -> R) -> ([u8; N], R) {
    let mut out = [UNTOUCHED; 16];
    let answer = call(out.as_mut_ptr(), N + BEYOND);
    assert!(out[N..].iter().all(|&octet| octet == UNTOUCHED), "an octet past the last was written");
    (out[..N].try_into().expect("N is below 16"), answer)
}

/// Calls a writer that may refuse, and then must leave the output as it was.
fn writing<const N: usize>(call: impl FnOnce(*mut u8, usize) -> u8) -> Written<N> {
    let (out, refusal) = filled(call);
    if refusal == 0 {
        return Ok(out);
    }
    assert_eq!(out, [UNTOUCHED; N], "a refusal changed the output");
    Err(refusal)
}

macro_rules! octet_with_a_mark_each {
    ($read:ident, $write:ident, $exported_read:ident, $exported_write:ident) => {
        pub fn $read(octet: u8) -> [u8; 5] {
            filled(|out, len| unsafe { exported::$exported_read(octet, out, len) }).0
        }

        pub fn $write(fields: [u8; 5]) -> u8 {
            unsafe { exported::$exported_write(fields.as_ptr(), fields.len()) }
        }
    };
}

octet_with_a_mark_each!(read_qds, write_qds, gg_read_qds, gg_write_qds);
octet_with_a_mark_each!(read_siq, write_siq, gg_read_siq, gg_write_siq);
octet_with_a_mark_each!(read_diq, write_diq, gg_read_diq, gg_write_diq);

pub fn read_seq_qd(octet: u8) -> [u8; 4] {
    filled(|out, len| unsafe { exported::gg_read_seq_qd(octet, out, len) }).0
}

pub fn write_seq_qd(fields: [u8; 4]) -> Written<1> {
    writing(|out, len| unsafe {
        exported::gg_write_seq_qd(fields.as_ptr(), fields.len(), out, len)
    })
}

pub fn read_coi(octet: u8) -> [u8; 2] {
    filled(|out, len| unsafe { exported::gg_read_coi(octet, out, len) }).0
}

pub fn write_coi(fields: [u8; 2]) -> Written<1> {
    writing(|out, len| unsafe { exported::gg_write_coi(fields.as_ptr(), fields.len(), out, len) })
}

pub fn read_vti(octets: [u8; 2]) -> (i8, [u8; 6]) {
    let (fields, value) = filled(|out, len| unsafe {
        exported::gg_read_vti(octets.as_ptr(), octets.len(), out, len)
    });
    (value, fields)
}

pub fn write_vti(value: i8, fields: [u8; 6]) -> Written<2> {
    writing(|out, len| unsafe {
        exported::gg_write_vti(value, fields.as_ptr(), fields.len(), out, len)
    })
}

macro_rules! number {
    ($type:ty, $octets:literal, $read:ident, $write:ident, $exported_read:ident, $exported_write:ident) => {
        pub fn $read(octets: [u8; $octets]) -> $type {
            unsafe { exported::$exported_read(octets.as_ptr(), octets.len()) }
        }

        pub fn $write(value: $type) -> [u8; $octets] {
            filled(|out, len| unsafe { exported::$exported_write(value, out, len) }).0
        }
    };
}

number!(i16, 2, read_i16, write_i16, gg_read_i16, gg_write_i16);
number!(i32, 4, read_i32, write_i32, gg_read_i32, gg_write_i32);
number!(u32, 4, read_u32, write_u32, gg_read_u32, gg_write_u32);
