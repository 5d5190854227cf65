//! The Rust's answers about ASDUs.
use iec104::{
    asdu::Asdu,
    cot::Cot,
    errors,
    types::{
        CCiNa1, CIcNa1, CRdNa1, FromBytes, GenericObject, InformationObjects, MBoNa1, MDpNa1,
        MEiNa1, MItNa1, MMeNa1, MMeNb1, MMeNc1, MMeNd1, MSpNa1, MStNa1, ToBytes,
    },
    types_id::TypeId,
};

use super::{
    answers::{Answers, Refusal},
    payloads::Payload,
    record::{FIELDS_SIZE, Object, Record},
};
use crate::{panics, refusals};

pub fn answers(octets: &[u8]) -> Answers {
    match parsed(octets) {
        Ok(asdu) => Answers::derived(octets, Ok(record(&asdu)), written(&asdu)),
        Err(refusal) => Answers::refused(octets, refusal),
    }
}

pub fn reading(octets: &[u8]) -> Result<Record, Refusal> {
    parsed(octets).map(|asdu| record(&asdu))
}

fn parsed(octets: &[u8]) -> Result<Asdu, Refusal> {
    let answer = panics::caught(|| Asdu::parse(octets)).ok_or(Refusal::Panic)?;
    answer.map_err(|error| {
        let path = errors::path(&error);
        refusals::number(&path).map_or(Refusal::Error(path), Refusal::Number)
    })
}

fn written(asdu: &Asdu) -> Result<Vec<u8>, Refusal> {
    let mut out = Vec::new();
    written_to(asdu, &mut out).map(|()| out)
}

fn written_to(asdu: &Asdu, out: &mut Vec<u8>) -> Result<(), Refusal> {
    asdu.to_bytes(out).map_err(|error| {
        let path = errors::path(&error);
        refusals::number_in_writing(&path).map_or(Refusal::Error(path), Refusal::Number)
    })
}

/// Writes a record to the end of `out`; a refusal may leave octets there.
pub fn write_to(record: &Record, out: &mut Vec<u8>) -> Result<(), Refusal> {
    written_to(&asdu(record), out)
}

pub fn record(asdu: &Asdu) -> Record {
    Record {
        type_id: asdu.type_id as u8,
        sequence: asdu.sequence,
        test: asdu.test,
        negative: asdu.negative,
        cause: asdu.cot as u8,
        originator: asdu.originator_address,
        address: asdu.address_field,
        objects: objects(&asdu.information_objects),
    }
}

/// The objects of a record are of one kind in the Rust: that of the first, or the type's where there is none.
pub fn asdu(record: &Record) -> Asdu {
    let kind = record.objects.first().map_or(record.type_id, |first| first.kind);
    Asdu {
        type_id: TypeId::from(record.type_id),
        cot: Cot::try_from(record.cause).expect("a cause of six bits"),
        originator_address: record.originator,
        address_field: record.address,
        sequence: record.sequence,
        test: record.test,
        negative: record.negative,
        information_objects: information_objects(kind, &record.objects),
    }
}

fn object<T: Payload + FromBytes + ToBytes + Default>(generic: &GenericObject<T>) -> Object {
    Object { address: generic.address, kind: T::TYPE, fields: generic.object.fields() }
}

fn generic<T: Payload + FromBytes + ToBytes + Default>(object: &Object) -> GenericObject<T> {
    GenericObject { address: object.address, object: T::of(&object.fields) }
}

macro_rules! carried {
    ($($payload:ident),*) => {
        /// Of types that we do not carry only how many there are.
        fn objects(all: &InformationObjects) -> Vec<Object> {
            match all {
                $(InformationObjects::$payload(list) => list.iter().map(object).collect(),)*
                other => {
                    let unknown = Object { address: 0, kind: 0, fields: [0; FIELDS_SIZE] };
                    vec![unknown; other.len()]
                }
            }
        }

        fn information_objects(kind: u8, objects: &[Object]) -> InformationObjects {
            match kind {
                $(<$payload as Payload>::TYPE => {
                    InformationObjects::$payload(objects.iter().map(generic).collect())
                })*
                _ => InformationObjects::Raw(Vec::new()),
            }
        }
    };
}

carried!(
    MSpNa1, MDpNa1, MStNa1, MBoNa1, MMeNa1, MMeNb1, MMeNc1, MItNa1, MMeNd1, MEiNa1, CIcNa1, CCiNa1,
    CRdNa1
);
