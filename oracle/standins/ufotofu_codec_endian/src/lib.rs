//! Stands for the crate `ufotofu_codec_endian`: `U64BE` alone. It decides nothing but what that name says (and document
//! 01 says too): eight bytes, most significant first.
use std::convert::Infallible;
use ufotofu::{BulkConsumer, BulkProducer};
use ufotofu_codec::{take_bytes, Decodable, DecodeError, Encodable};

#[derive(Clone, Copy, Debug, PartialEq, Eq)]
pub struct U64BE(pub u64);

impl Encodable for U64BE {
    async fn encode<C>(&self, c: &mut C) -> Result<(), C::Error>
    where
        C: BulkConsumer<Item = u8>,
    {
        c.bulk_consume_full_slice(&self.0.to_be_bytes()).await
    }
}
impl Decodable for U64BE {
    type ErrorReason = Infallible;
    async fn decode<P>(p: &mut P) -> Result<Self, DecodeError<P::Final, P::Error, Infallible>>
    where
        P: BulkProducer<Item = u8>,
    {
        Ok(U64BE(u64::from_be_bytes(take_bytes(p).await?)))
    }
}
