//! Stands for the crate `ufotofu_codec`: the traits, the error, and a `block_on` for futures that never wait. It decides
//! nothing: an input that ends too early is an error, as the error's name says.
#![allow(async_fn_in_trait)]
use either::Either;
use std::convert::Infallible;
use std::future::Future;
use std::task::{Context, Poll, Waker};
use ufotofu::{consumer::IntoVec, producer::FromSlice, BulkConsumer, BulkProducer};

#[derive(Clone, Copy, Debug, PartialEq, Eq)]
pub enum Blame {
    OurFault,
    TheirFault,
}

#[derive(Clone, Debug, PartialEq, Eq)]
pub enum DecodeError<F, E, O> {
    Producer(E),
    UnexpectedEndOfInput(F),
    Other(O),
}
impl<F, E, O> DecodeError<F, E, O> {
    pub fn map_other_from<P: From<O>>(self) -> DecodeError<F, E, P> {
        match self {
            DecodeError::Producer(e) => DecodeError::Producer(e),
            DecodeError::UnexpectedEndOfInput(f) => DecodeError::UnexpectedEndOfInput(f),
            DecodeError::Other(o) => DecodeError::Other(o.into()),
        }
    }
}

pub trait Encodable {
    async fn encode<C>(&self, consumer: &mut C) -> Result<(), C::Error>
    where
        C: BulkConsumer<Item = u8>;
}
pub trait EncodableKnownSize: Encodable {
    fn len_of_encoding(&self) -> usize;
}
pub trait EncodableSync: Encodable {
    fn sync_encode_into_vec(&self) -> Vec<u8> {
        let mut c = IntoVec::new();
        match block_on(self.encode(&mut c)) {
            Ok(()) => c.into_vec(),
            Err(never) => match never {},
        }
    }
}
pub trait Decodable: Sized {
    type ErrorReason;
    async fn decode<P>(
        producer: &mut P,
    ) -> Result<Self, DecodeError<P::Final, P::Error, Self::ErrorReason>>
    where
        P: BulkProducer<Item = u8>,
        Self: Sized;
}
pub trait DecodableCanonic: Decodable {
    type ErrorCanonic;
    async fn decode_canonic<P>(
        producer: &mut P,
    ) -> Result<Self, DecodeError<P::Final, P::Error, Self::ErrorCanonic>>
    where
        P: BulkProducer<Item = u8>,
        Self: Sized;
}
pub trait DecodableSync: Decodable {
    fn sync_decode_from_slice(
        s: &[u8],
    ) -> Result<Self, DecodeError<(), Infallible, Self::ErrorReason>> {
        block_on(Self::decode(&mut FromSlice::new(s)))
    }
}

/// The next N bytes, or "unexpected end" (plumbing for the fixed-width values of the driver and `U64BE`).
pub async fn take_bytes<const N: usize, P, O>(
    p: &mut P,
) -> Result<[u8; N], DecodeError<P::Final, P::Error, O>>
where
    P: BulkProducer<Item = u8>,
{
    let mut out = [0; N];
    for b in out.iter_mut() {
        match p.produce().await {
            Ok(Either::Left(x)) => *b = x,
            Ok(Either::Right(f)) => return Err(DecodeError::UnexpectedEndOfInput(f)),
            Err(e) => return Err(DecodeError::Producer(e)),
        }
    }
    Ok(out)
}

/// Runs a future to its end; nothing here ever waits.
pub fn block_on<F: Future>(f: F) -> F::Output {
    let mut f = std::pin::pin!(f);
    match f.as_mut().poll(&mut Context::from_waker(Waker::noop())) {
        Poll::Ready(x) => x,
        Poll::Pending => panic!("stand-in: a future would wait for ever"),
    }
}
