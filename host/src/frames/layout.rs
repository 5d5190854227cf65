//! The octets of a frame before its ASDU.
pub const START: u8 = 0x68;
/// Start, length, and the control octets.
pub const ASDU_AT: usize = 6;
pub const MAX_LENGTH: usize = 253;
pub const MAX_NUMBER: u16 = 32_767;
/// The length octet of a frame with no ASDU.
pub const CONTROL_SIZE: usize = 4;

/// A frame with the length that it has, or 253 where that is more than an octet.
pub fn frame(control: [u8; CONTROL_SIZE], asdu: &[u8]) -> Vec<u8> {
    let length = u8::try_from(CONTROL_SIZE + asdu.len()).unwrap_or(MAX_LENGTH as u8);
    with_length(length, control, asdu)
}

pub fn with_length(length: u8, control: [u8; CONTROL_SIZE], asdu: &[u8]) -> Vec<u8> {
    [&[START, length], control.as_slice(), asdu].concat()
}

/// The control octets of an I frame, with numbers of 15 bits: a higher bit is lost.
pub fn i_control(send: u16, receive: u16) -> [u8; CONTROL_SIZE] {
    let [a, b] = (send << 1).to_le_bytes();
    let [c, d] = (receive << 1).to_le_bytes();
    [a, b, c, d]
}

pub fn s_control(receive: u16) -> [u8; CONTROL_SIZE] {
    let [_, _, c, d] = i_control(0, receive);
    [1, 0, c, d]
}

pub fn control_of(frame: &[u8]) -> [u8; CONTROL_SIZE] {
    frame[2..ASDU_AT].try_into().expect("four octets")
}

/// The numbers of an I frame.
pub fn numbers_of([a, b, c, d]: [u8; CONTROL_SIZE]) -> (u16, u16) {
    (u16::from_le_bytes([a, b]) >> 1, u16::from_le_bytes([c, d]) >> 1)
}
