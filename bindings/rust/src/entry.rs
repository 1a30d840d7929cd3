//! Entries, with their token, with how much of their payload is there and where they came from.
use crate::{raw, Path};

/// 16 bytes that name a namespace.
pub type NamespaceId = [u8; 16];
/// 32 bytes that stand for a payload.
pub type PayloadDigest = [u8; 32];
/// 64 bytes that authorise an entry; carried and not judged here.
pub type AuthorisationToken = [u8; 64];
/// A time in microseconds since the Unix epoch.
pub type Timestamp = u64;
pub use raw::Subspace as SubspaceId;

impl From<[u8; 16]> for SubspaceId {
    fn from(bytes: [u8; 16]) -> SubspaceId {
        let number = u128::from_be_bytes(bytes);
        SubspaceId { high: (number >> 64) as u64, low: number as u64 }
    }
}

impl From<SubspaceId> for [u8; 16] {
    fn from(subspace: SubspaceId) -> [u8; 16] {
        (u128::from(subspace.high) << 64 | u128::from(subspace.low)).to_be_bytes()
    }
}

/// How recent an entry is beside another: by timestamp, then digest as bytes, then payload length.
#[derive(Clone, Copy, Debug, PartialEq, Eq, Hash)]
pub enum Recency {
    /// It is newer.
    Newer,
    /// It is older.
    Older,
    /// Neither: timestamp, digest and payload length are the same. Where the two entries stand plays no part.
    Same,
}

/// What is known of a payload: where it was written, when, how long it is, and its digest.
#[derive(Clone, Copy, Debug, PartialEq, Eq, Hash)]
pub struct Entry {
    namespace_id: NamespaceId,
    subspace_id: SubspaceId,
    path: Path,
    timestamp: Timestamp,
    payload_length: u64,
    payload_digest: PayloadDigest,
}

impl Entry {
    /// An entry of these values.
    pub fn new(
        namespace_id: NamespaceId,
        subspace_id: SubspaceId,
        path: Path,
        timestamp: Timestamp,
        payload_length: u64,
        payload_digest: PayloadDigest,
    ) -> Entry {
        Entry { namespace_id, subspace_id, path, timestamp, payload_length, payload_digest }
    }

    /// The namespace.
    pub fn namespace_id(&self) -> &NamespaceId {
        &self.namespace_id
    }

    /// The subspace.
    pub fn subspace_id(&self) -> &SubspaceId {
        &self.subspace_id
    }

    /// The path.
    pub fn path(&self) -> &Path {
        &self.path
    }

    /// The timestamp.
    pub fn timestamp(&self) -> Timestamp {
        self.timestamp
    }

    /// How many bytes the payload has.
    pub fn payload_length(&self) -> u64 {
        self.payload_length
    }

    /// The payload's digest.
    pub fn payload_digest(&self) -> &PayloadDigest {
        &self.payload_digest
    }

    /// Whether this entry is newer than `other`, older or the same: by timestamp, then digest as bytes, then payload length.
    pub fn compare(&self, other: &Entry) -> Recency {
        let answer = raw::entry_compare(self.to_raw(), other.to_raw());
        match (answer.newer, answer.older) {
            (0, 0) => Recency::Same,
            (0, _) => Recency::Older,
            _ => Recency::Newer,
        }
    }

    /// Whether this entry prunes `other`: of one namespace and subspace, its path is the other's or prefixes it, and it is newer.
    pub fn prunes(&self, other: &Entry) -> bool {
        raw::entry_prunes(self.to_raw(), other.to_raw()).yes != 0
    }

    /// Whether `other` prunes this entry.
    pub fn is_pruned_by(&self, other: &Entry) -> bool {
        raw::entry_is_pruned_by(self.to_raw(), other.to_raw()).yes != 0
    }

    /// As it lies in memory.
    pub fn to_raw(&self) -> raw::Entry {
        let Entry { namespace_id, subspace_id, path, timestamp, payload_length, payload_digest } = *self;
        raw::Entry { namespace_id, subspace_id, path: *path.as_raw(), timestamp, payload_length, payload_digest }
    }

    pub(crate) fn of_answer(entry: raw::Entry) -> Entry {
        let raw::Entry { namespace_id, subspace_id, path, timestamp, payload_length, payload_digest } = entry;
        Entry { namespace_id, subspace_id, path: Path::of_answer(path), timestamp, payload_length, payload_digest }
    }
}

/// An entry and its token. The token is carried and not judged: whoever makes this value answers for it.
#[derive(Clone, Copy, Debug, PartialEq, Eq, Hash)]
pub struct AuthorisedEntry {
    entry: Entry,
    token: AuthorisationToken,
}

impl AuthorisedEntry {
    /// An entry with its token.
    pub fn new(entry: Entry, token: AuthorisationToken) -> AuthorisedEntry {
        AuthorisedEntry { entry, token }
    }

    /// The entry.
    pub fn entry(&self) -> &Entry {
        &self.entry
    }

    /// The token.
    pub fn token(&self) -> &AuthorisationToken {
        &self.token
    }

    /// The entry and the token.
    pub fn into_parts(self) -> (Entry, AuthorisationToken) {
        (self.entry, self.token)
    }
}

/// Where an entry came from. A store keeps the origin that an entry was filed with; it plays no part in which entries are newer, pruned, held or listed.
#[derive(Clone, Copy, Debug, PartialEq, Eq, PartialOrd, Ord, Hash)]
pub enum EntryOrigin {
    /// It was filed here.
    Local,
    /// It came from another source, in the session with this number, which may be any, 0 too.
    Remote(u64),
}

impl EntryOrigin {
    /// As it lies in memory.
    pub fn to_raw(self) -> raw::Origin {
        match self {
            EntryOrigin::Local => raw::Origin { remote: 0, session: 0 },
            EntryOrigin::Remote(session) => raw::Origin { remote: 1, session },
        }
    }

    pub(crate) fn of_answer(origin: raw::Origin) -> EntryOrigin {
        match origin.remote {
            0 => EntryOrigin::Local,
            _ => EntryOrigin::Remote(origin.session),
        }
    }
}

/// An entry as it is stored: with its token, how much of its payload is available, and where it came from.
#[derive(Clone, Copy, Debug, PartialEq, Eq, Hash)]
pub struct LengthyAuthorisedEntry {
    entry: AuthorisedEntry,
    available: u64,
    origin: EntryOrigin,
}

impl LengthyAuthorisedEntry {
    /// An entry with its token, available length and origin.
    pub fn new(entry: AuthorisedEntry, available: u64, origin: EntryOrigin) -> LengthyAuthorisedEntry {
        LengthyAuthorisedEntry { entry, available, origin }
    }

    /// The entry with its token.
    pub fn entry(&self) -> &AuthorisedEntry {
        &self.entry
    }

    /// How many bytes of the payload are available. Of an entry that a store answers: at most the payload's length, as
    /// [`Store::record_available_length`](crate::Store::record_available_length) and [`Store::forget_payload`](crate::Store::forget_payload) left it since it
    /// was filed, and 0 if neither did.
    pub fn available(&self) -> u64 {
        self.available
    }

    /// Where the entry came from. Of an entry that a store answers: the origin that it was filed with; one that came again later, and was held, changed
    /// nothing.
    pub fn origin(&self) -> EntryOrigin {
        self.origin
    }

    /// The entry with its token.
    pub fn into_authorised_entry(self) -> AuthorisedEntry {
        self.entry
    }
}
