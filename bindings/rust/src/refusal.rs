//! Why a call was refused.
use std::fmt;

/// Why a call was refused. A call answers the first reason that applies, in the order of these numbers but for 10, which is tested right after 3, and 11,
/// which is tested before 9; and a refused call has changed nothing.
///
/// ```
/// use virebony::{Refusal, Store};
/// let refused = Store::open([0; 16], 1025).unwrap_err();
/// assert_eq!(refused, Refusal::BadLimit);
/// assert_eq!(refused.number(), 1);
/// assert_eq!(refused.to_string(), "the limit is not 1 to 1024");
/// ```
#[derive(Clone, Copy, Debug, PartialEq, Eq, PartialOrd, Ord, Hash)]
#[repr(u8)]
pub enum Refusal {
    /// The limit is not 1 to 1,024.
    BadLimit = 1,
    /// A lent buffer is shorter than the limit asks, or a key's buffer than 298 bytes.
    ShortBuffer = 2,
    /// The state and the buffers are not a well-formed store.
    NotWellFormed = 3,
    /// A path has over 8 components, a component over 64 bytes, over 128 bytes in all, or ends that descend.
    IllegalPath = 4,
    /// The bytes are no key that the encoder of that order writes: for a listing, the subspace-first one.
    NoKey = 5,
    /// The entry names another namespace than the store's.
    OtherNamespace = 6,
    /// Pruning is prevented, and an entry would be removed.
    PruningPrevented = 7,
    /// The entries that would be left already number the limit.
    Full = 8,
    /// The stored entry's digest is not the one expected.
    OtherDigest = 9,
    /// The tally is not the one that the store gives. A [`Store`](crate::Store) keeps its own, and never answers this.
    WrongTally = 10,
    /// No entry stands at the subspace and path.
    AbsentEntry = 11,
    /// The available length is above the payload length.
    TooMuchAvailable = 12,
}

use Refusal::*;

impl Refusal {
    /// All of them, by number.
    pub const ALL: [Refusal; 12] = [
        BadLimit,
        ShortBuffer,
        NotWellFormed,
        IllegalPath,
        NoKey,
        OtherNamespace,
        PruningPrevented,
        Full,
        OtherDigest,
        WrongTally,
        AbsentEntry,
        TooMuchAvailable,
    ];

    /// The number that [`crate::raw`] answers.
    pub fn number(self) -> u8 {
        self as u8
    }

    /// The refusal of a number; none for 0, which says that a call was not refused, and for numbers from 13 on, which no call answers.
    pub fn from_number(number: u8) -> Option<Refusal> {
        Refusal::ALL.into_iter().find(|refusal| refusal.number() == number)
    }

    /// Passes an answer on, unless its number says that the call was refused.
    pub(crate) fn check<T>(number: u8, answer: T) -> Result<T, Refusal> {
        match Refusal::from_number(number) {
            Some(refusal) => Err(refusal),
            None => {
                assert_eq!(number, 0, "a refusal that this crate does not know");
                Ok(answer)
            }
        }
    }
}

impl fmt::Display for Refusal {
    fn fmt(&self, f: &mut fmt::Formatter<'_>) -> fmt::Result {
        f.write_str(match self {
            BadLimit => "the limit is not 1 to 1024",
            ShortBuffer => "a lent buffer is too short",
            NotWellFormed => "the state and the buffers are not a well-formed store",
            IllegalPath => "a path is illegal",
            NoKey => "the bytes are no key that the encoder writes",
            OtherNamespace => "the entry names another namespace",
            PruningPrevented => "pruning is prevented, and an entry would be removed",
            Full => "the store is full",
            OtherDigest => "the stored entry's digest is not the one expected",
            WrongTally => "the tally is not the one that the store gives",
            AbsentEntry => "no entry stands at the subspace and path",
            TooMuchAvailable => "the available length is above the payload length",
        })
    }
}

impl std::error::Error for Refusal {}
