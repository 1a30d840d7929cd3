//! The parameters as document 01 fixes them: namespace 16 bytes, subspace 16, digest 32, token 64. These are plain
//! bytes; orders are byte orders. A subspace's successor is one more as a number of 128 bits, its maximum is all ff.
//! Every token authorises (but for the call `deny`).
use std::cell::Cell;
use std::convert::Infallible;
use ufotofu::{BulkConsumer, BulkProducer};
use ufotofu_codec::*;
use willow_data_model as w;

macro_rules! bytes_type {
    ($name:ident, $n:literal, $seen:expr) => {
        #[derive(Clone, Copy, PartialEq, Eq, PartialOrd, Ord, Hash)]
        pub struct $name(pub [u8; $n]);

        impl std::fmt::Debug for $name {
            fn fmt(&self, f: &mut std::fmt::Formatter<'_>) -> std::fmt::Result {
                self.0.iter().try_for_each(|b| write!(f, "{b:02x}"))
            }
        }
        impl Default for $name {
            fn default() -> Self {
                $name([0; $n])
            }
        }
        impl Encodable for $name {
            async fn encode<C>(&self, c: &mut C) -> Result<(), C::Error>
            where
                C: BulkConsumer<Item = u8>,
            {
                c.bulk_consume_full_slice(&self.0).await
            }
        }
        impl EncodableKnownSize for $name {
            fn len_of_encoding(&self) -> usize {
                $n
            }
        }
        impl EncodableSync for $name {}
        impl Decodable for $name {
            type ErrorReason = Infallible;
            async fn decode<P>(p: &mut P) -> Result<Self, DecodeError<P::Final, P::Error, Infallible>>
            where
                P: BulkProducer<Item = u8>,
            {
                let bytes = take_bytes(p).await?;
                $seen(&bytes);
                Ok($name(bytes))
            }
        }
        impl DecodableSync for $name {}
    };
}
bytes_type!(Ns, 16, |_: &[u8; 16]| ());
bytes_type!(Sub, 16, |b: &[u8; 16]| SEEN.with(|s| s.set(Some(Sub(*b)))));
bytes_type!(Dig, 32, |_: &[u8; 32]| ());
bytes_type!(Tok, 64, |_: &[u8; 64]| ());

thread_local! {
    /// A window for probe.rs: the subspace that was decoded last.
    pub static SEEN: Cell<Option<Sub>> = const { Cell::new(None) };
    /// How often a token is yet to say yes; at the maximum, always.
    pub static YES: Cell<u64> = const { Cell::new(u64::MAX) };
}

impl w::NamespaceId for Ns {}

impl w::SubspaceId for Sub {
    fn successor(&self) -> Option<Self> {
        u128::from_be_bytes(self.0).checked_add(1).map(|n| Sub(n.to_be_bytes()))
    }
}
impl willow_store_simple_sled::SledSubspaceId for Sub {
    fn max_id() -> Self {
        Sub([255; 16])
    }
}
/// The digest of a payload, here: 32 times its first byte (0 if empty), so that a line can name a payload that fits.
impl w::PayloadDigest for Dig {
    type Hasher = Option<u8>;
    fn hasher() -> Option<u8> {
        None
    }
    fn finish(h: &Option<u8>) -> Self {
        Dig([h.unwrap_or(0); 32])
    }
    fn write(h: &mut Option<u8>, bytes: &[u8]) {
        *h = h.or(bytes.first().copied());
    }
}
impl<const MCL: usize, const MCC: usize, const MPL: usize>
    w::AuthorisationToken<MCL, MCC, MPL, Ns, Sub, Dig> for Tok
{
    fn is_authorised_write(&self, _: &w::Entry<MCL, MCC, MPL, Ns, Sub, Dig>) -> bool {
        YES.with(|y| match y.get() {
            u64::MAX => true,
            n => {
                y.set(n.saturating_sub(1));
                n > 0
            }
        })
    }
}
impl w::TrustedDecodable for Tok {
    async unsafe fn trusted_decode<P>(p: &mut P) -> Result<Self, DecodeError<P::Final, P::Error, Blame>>
    where
        P: BulkProducer<Item = u8>,
    {
        Ok(Tok(take_bytes(p).await?))
    }
}
/// Fingerprints are left out of the port; `summarise` is run for its size.
#[derive(Clone)]
pub struct NoPrint;
impl<const MCL: usize, const MCC: usize, const MPL: usize>
    wgps::parameters::Fingerprint<MCL, MCC, MPL, Ns, Sub, Dig, Tok> for NoPrint
{
    const NEUTRAL: Self = NoPrint;
    fn singleton(_: w::LengthyAuthorisedEntry<MCL, MCC, MPL, Ns, Sub, Dig, Tok>) -> Self {
        NoPrint
    }
    fn combine(self, _: Self) -> Self {
        NoPrint
    }
}
