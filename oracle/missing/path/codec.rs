//! Stands for data-model/src/path/codec.rs of the repository, which is not among the customer's files: the wire codec.
//! It decides nothing: no call of the driver runs it, and every body traps, so that a run proves it.
use super::Path;
use ufotofu::{BulkConsumer, BulkProducer};
use ufotofu_codec::*;

macro_rules! trap {
    () => {
        unreachable!("stand-in: the wire codec is not run")
    };
}

impl<const MCL: usize, const MCC: usize, const MPL: usize> Encodable for Path<MCL, MCC, MPL> {
    async fn encode<C>(&self, _: &mut C) -> Result<(), C::Error>
    where
        C: BulkConsumer<Item = u8>,
    {
        trap!()
    }
}
impl<const MCL: usize, const MCC: usize, const MPL: usize> EncodableKnownSize for Path<MCL, MCC, MPL> {
    fn len_of_encoding(&self) -> usize {
        trap!()
    }
}
impl<const MCL: usize, const MCC: usize, const MPL: usize> Decodable for Path<MCL, MCC, MPL> {
    type ErrorReason = Blame;
    async fn decode<P>(_: &mut P) -> Result<Self, DecodeError<P::Final, P::Error, Blame>>
    where
        P: BulkProducer<Item = u8>,
    {
        trap!()
    }
}
impl<const MCL: usize, const MCC: usize, const MPL: usize> DecodableCanonic for Path<MCL, MCC, MPL> {
    type ErrorCanonic = Blame;
    async fn decode_canonic<P>(_: &mut P) -> Result<Self, DecodeError<P::Final, P::Error, Blame>>
    where
        P: BulkProducer<Item = u8>,
    {
        trap!()
    }
}
pub fn decode_path_extends_path() {
    trap!()
}
pub fn decode_path_extends_path_canonic() {
    trap!()
}
pub fn encode_path_extends_path() {
    trap!()
}
pub fn path_extends_path_encoding_len() {
    trap!()
}
