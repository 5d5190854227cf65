//! The Rust's elements of the carried types as the fields of a record's object.
use iec104::types::{
    CCiNa1, CIcNa1, CRdNa1, MBoNa1, MDpNa1, MEiNa1, MItNa1, MMeNa1, MMeNb1, MMeNc1, MMeNd1, MSpNa1,
    MStNa1,
    commands::{Frz, Qoi, Rqt},
    information_elements::{Lpc, Vti},
};

use super::record::{
    FIELDS_SIZE, Fields, lowered_i8, lowered_i16, lowered_i32, raised_i8, raised_i16, raised_i32,
};
use crate::judge;

pub trait Payload {
    const TYPE: u8;
    fn fields(&self) -> Fields;
    fn of(fields: &Fields) -> Self;
}

fn joined(parts: &[&[u8]]) -> Fields {
    let mut fields = [0; FIELDS_SIZE];
    let octets = parts.concat();
    fields[..octets.len()].copy_from_slice(&octets);
    fields
}

fn part<const N: usize>(fields: &Fields, at: usize) -> [u8; N] {
    fields[at..at + N].try_into().expect("a part of the fields")
}

impl Payload for MSpNa1 {
    const TYPE: u8 = 1;

    fn fields(&self) -> Fields {
        joined(&[&judge::siq_fields(&self.siq)])
    }

    fn of(fields: &Fields) -> Self {
        MSpNa1 { siq: judge::siq_of(part(fields, 0)) }
    }
}

impl Payload for MDpNa1 {
    const TYPE: u8 = 3;

    fn fields(&self) -> Fields {
        joined(&[&judge::diq_fields(&self.diq)])
    }

    fn of(fields: &Fields) -> Self {
        MDpNa1 { diq: judge::diq_of(part(fields, 0)) }
    }
}

impl Payload for MStNa1 {
    const TYPE: u8 = 5;

    fn fields(&self) -> Fields {
        let Vti { value, transient, qds } = &self.vti;
        joined(&[&[raised_i8(*value), u8::from(*transient)], &judge::qds_fields(qds)])
    }

    fn of(fields: &Fields) -> Self {
        let [raised, transient] = part(fields, 0);
        let qds = judge::qds_of(part(fields, 2));
        MStNa1 { vti: Vti { value: lowered_i8(raised), transient: transient == 1, qds } }
    }
}

impl Payload for MBoNa1 {
    const TYPE: u8 = 7;

    fn fields(&self) -> Fields {
        joined(&[&self.bsi.to_be_bytes(), &judge::qds_fields(&self.qds)])
    }

    fn of(fields: &Fields) -> Self {
        MBoNa1 { bsi: u32::from_be_bytes(part(fields, 0)), qds: judge::qds_of(part(fields, 4)) }
    }
}

impl Payload for MMeNa1 {
    const TYPE: u8 = 9;

    fn fields(&self) -> Fields {
        joined(&[&raised_i16(self.nva), &judge::qds_fields(&self.qds)])
    }

    fn of(fields: &Fields) -> Self {
        MMeNa1 { nva: lowered_i16(part(fields, 0)), qds: judge::qds_of(part(fields, 2)) }
    }
}

impl Payload for MMeNb1 {
    const TYPE: u8 = 11;

    fn fields(&self) -> Fields {
        joined(&[&raised_i16(self.sva), &judge::qds_fields(&self.qds)])
    }

    fn of(fields: &Fields) -> Self {
        MMeNb1 { sva: lowered_i16(part(fields, 0)), qds: judge::qds_of(part(fields, 2)) }
    }
}

impl Payload for MMeNc1 {
    const TYPE: u8 = 13;

    fn fields(&self) -> Fields {
        joined(&[&self.value.to_bits().to_be_bytes(), &judge::qds_fields(&self.qds)])
    }

    fn of(fields: &Fields) -> Self {
        let value = f32::from_bits(u32::from_be_bytes(part(fields, 0)));
        MMeNc1 { value, qds: judge::qds_of(part(fields, 4)) }
    }
}

impl Payload for MItNa1 {
    const TYPE: u8 = 15;

    fn fields(&self) -> Fields {
        joined(&[&raised_i32(self.bcr), &judge::seq_qd_fields(&self.sqd)])
    }

    fn of(fields: &Fields) -> Self {
        MItNa1 { bcr: lowered_i32(part(fields, 0)), sqd: judge::seq_qd_of(part(fields, 4)) }
    }
}

impl Payload for MMeNd1 {
    const TYPE: u8 = 21;

    fn fields(&self) -> Fields {
        joined(&[&raised_i16(self.nva)])
    }

    fn of(fields: &Fields) -> Self {
        MMeNd1 { nva: lowered_i16(part(fields, 0)) }
    }
}

impl Payload for MEiNa1 {
    const TYPE: u8 = 70;

    fn fields(&self) -> Fields {
        joined(&[&judge::coi_fields(&self.coi), &[self.lpc as u8]])
    }

    fn of(fields: &Fields) -> Self {
        let [which, cause, changed] = part(fields, 0);
        MEiNa1 { lpc: Lpc::from_bool(changed == 1), coi: judge::coi_of([which, cause]) }
    }
}

impl Payload for CIcNa1 {
    const TYPE: u8 = 100;

    fn fields(&self) -> Fields {
        joined(&[&[self.qoi.to_byte()]])
    }

    fn of(fields: &Fields) -> Self {
        CIcNa1 { qoi: Qoi::from_byte(fields[0]) }
    }
}

impl Payload for CCiNa1 {
    const TYPE: u8 = 101;

    fn fields(&self) -> Fields {
        joined(&[&[self.rqt.to_byte() | (self.frz as u8) << 6]])
    }

    fn of(fields: &Fields) -> Self {
        let (rqt, frz) = (Rqt::from_byte(fields[0] & 0x3f), Frz::from_byte(fields[0] >> 6));
        CCiNa1 { rqt, frz }
    }
}

impl Payload for CRdNa1 {
    const TYPE: u8 = 102;

    fn fields(&self) -> Fields {
        joined(&[])
    }

    fn of(_: &Fields) -> Self {
        CRdNa1 {}
    }
}
