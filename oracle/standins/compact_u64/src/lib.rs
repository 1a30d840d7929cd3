//! Stands for the crate `compact_u64`. It decides nothing: only `Entry`'s wire codec names it, which no call of the driver
//! runs, and every body traps, so that a run proves it.
use ufotofu::{BulkConsumer, BulkProducer};
use ufotofu_codec::*;

pub struct CompactU64(pub u64);

impl Encodable for CompactU64 {
    async fn encode<C>(&self, _: &mut C) -> Result<(), C::Error>
    where
        C: BulkConsumer<Item = u8>,
    {
        unreachable!("stand-in: the wire codec is not run")
    }
}
impl EncodableKnownSize for CompactU64 {
    fn len_of_encoding(&self) -> usize {
        unreachable!("stand-in: the wire codec is not run")
    }
}
impl Decodable for CompactU64 {
    type ErrorReason = Blame;
    async fn decode<P>(_: &mut P) -> Result<Self, DecodeError<P::Final, P::Error, Blame>>
    where
        P: BulkProducer<Item = u8>,
    {
        unreachable!("stand-in: the wire codec is not run")
    }
}
impl DecodableCanonic for CompactU64 {
    type ErrorCanonic = Blame;
    async fn decode_canonic<P>(_: &mut P) -> Result<Self, DecodeError<P::Final, P::Error, Blame>>
    where
        P: BulkProducer<Item = u8>,
    {
        unreachable!("stand-in: the wire codec is not run")
    }
}
