//! The Rust's answers on octets, with an element as the list of its fields: 0 or 1 for a mark, the number of a state,
//! and 0 to 2 for the named causes of initialisation, 3 for another, then the cause.
use iec104::types::{
    CCiNa1, CIcNa1, FromBytes, MEiNa1, ToBytes,
    commands::{Frz, Qoi, Rqt},
    information_elements::{Coi, Diq, Dpi, Lpc, Siq, Spi, Vti},
    quality_descriptors::{Qds, SeqQd},
};

pub fn read<T: FromBytes>(octets: &[u8]) -> T {
    T::from_bytes(octets).expect("as many octets as the element has")
}

pub fn written<const N: usize>(element: &impl ToBytes) -> [u8; N] {
    let mut octets = Vec::new();
    element.to_bytes(&mut octets).expect("an element that is always written");
    octets.try_into().expect("as many octets as the element has")
}

pub fn qds_fields(qds: &Qds) -> [u8; 5] {
    [qds.iv, qds.nt, qds.sb, qds.bl, qds.ov].map(u8::from)
}

pub fn qds_of(fields: [u8; 5]) -> Qds {
    let [iv, nt, sb, bl, ov] = fields.map(|mark| mark == 1);
    Qds { iv, nt, sb, bl, ov }
}

pub fn read_qds(octet: u8) -> [u8; 5] {
    qds_fields(&Qds::from_byte(octet))
}

pub fn write_qds(fields: [u8; 5]) -> u8 {
    qds_of(fields).to_byte()
}

pub fn siq_fields(siq: &Siq) -> [u8; 5] {
    [siq.iv as u8, siq.nt as u8, siq.sb as u8, siq.bl as u8, siq.spi as u8]
}

pub fn siq_of([iv, nt, sb, bl, spi]: [u8; 5]) -> Siq {
    let [iv, nt, sb, bl] = [iv, nt, sb, bl].map(|mark| mark == 1);
    Siq { iv, nt, sb, bl, spi: Spi::from_byte(spi) }
}

pub fn read_siq(octet: u8) -> [u8; 5] {
    siq_fields(&Siq::from_byte(octet))
}

pub fn write_siq(fields: [u8; 5]) -> u8 {
    siq_of(fields).to_byte()
}

pub fn diq_fields(diq: &Diq) -> [u8; 5] {
    [diq.iv as u8, diq.nt as u8, diq.sb as u8, diq.bl as u8, diq.dpi as u8]
}

pub fn diq_of([iv, nt, sb, bl, dpi]: [u8; 5]) -> Diq {
    let [iv, nt, sb, bl] = [iv, nt, sb, bl].map(|mark| mark == 1);
    Diq { iv, nt, sb, bl, dpi: Dpi::from_byte(dpi) }
}

pub fn read_diq(octet: u8) -> [u8; 5] {
    diq_fields(&Diq::from_byte(octet))
}

pub fn write_diq(fields: [u8; 5]) -> u8 {
    diq_of(fields).to_byte()
}

pub fn seq_qd_fields(sqd: &SeqQd) -> [u8; 4] {
    [sqd.iv as u8, sqd.ca as u8, sqd.cy as u8, sqd.seq]
}

pub fn seq_qd_of([iv, ca, cy, seq]: [u8; 4]) -> SeqQd {
    let [iv, ca, cy] = [iv, ca, cy].map(|mark| mark == 1);
    SeqQd { iv, ca, cy, seq }
}

pub fn read_seq_qd(octet: u8) -> [u8; 4] {
    seq_qd_fields(&SeqQd::from_byte(octet))
}

pub fn write_seq_qd(fields: [u8; 4]) -> u8 {
    seq_qd_of(fields).to_byte()
}

pub fn coi_fields(coi: &Coi) -> [u8; 2] {
    let which = match coi {
        Coi::LocalPowerOn => 0,
        Coi::LocalManualReset => 1,
        Coi::RemoteReset => 2,
        Coi::Other(_) => 3,
    };
    [which, coi.to_byte()]
}

pub fn read_coi(octet: u8) -> [u8; 2] {
    coi_fields(&Coi::from_byte(octet))
}

pub fn coi_of([which, cause]: [u8; 2]) -> Coi {
    match which {
        0 => Coi::LocalPowerOn,
        1 => Coi::LocalManualReset,
        2 => Coi::RemoteReset,
        _ => Coi::Other(cause),
    }
}

pub fn write_coi(fields: [u8; 2]) -> u8 {
    coi_of(fields).to_byte()
}

/// The element of type 70: its mark of a local change, and its cause.
pub fn read_end_of_initialisation(octet: u8) -> (u8, [u8; 2]) {
    let element: MEiNa1 = read(&[octet]);
    ((element.lpc == Lpc::Changed) as u8, coi_fields(&element.coi))
}

/// The value, then whether it is transient and the quality.
pub fn read_vti(octets: [u8; 2]) -> (i8, [u8; 6]) {
    let vti = Vti::from_byte(octets);
    let [iv, nt, sb, bl, ov] = qds_fields(&vti.qds);
    (vti.value, [vti.transient as u8, iv, nt, sb, bl, ov])
}

pub fn write_vti(value: i8, [transient, iv, nt, sb, bl, ov]: [u8; 6]) -> [u8; 2] {
    Vti { value, transient: transient == 1, qds: qds_of([iv, nt, sb, bl, ov]) }.to_bytes()
}

/// The qualifier of an interrogation, type 100.
pub fn read_interrogation(octet: u8) -> u8 {
    read::<CIcNa1>(&[octet]).qoi.to_byte()
}

pub fn write_interrogation(qualifier: u8) -> [u8; 1] {
    written(&CIcNa1 { qoi: Qoi::from_byte(qualifier) })
}

/// The qualifier of a counter interrogation, type 101: the request in its low six bits, the freeze above.
pub fn read_counter_interrogation(octet: u8) -> u8 {
    let CCiNa1 { rqt, frz } = read(&[octet]);
    rqt.to_byte() | (frz as u8) << 6
}

pub fn write_counter_interrogation(qualifier: u8) -> [u8; 1] {
    let (rqt, frz) = (Rqt::from_byte(qualifier & 0x3f), Frz::from_byte(qualifier >> 6));
    written(&CCiNa1 { rqt, frz })
}
