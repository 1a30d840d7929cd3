//! What a call answers, as values: the customer's Rust, the model and the port are compared by these, before anything is
//! printed.
use model::*;
use std::cmp::Ordering;

/// A tree's records, key and value.
pub type Records = Vec<(Vec<u8>, Vec<u8>)>;

/// A stored entry as it is shown. The Rust's has no origin (cuts.rs).
#[derive(Clone, Debug, PartialEq)]
pub struct Shown {
    pub entry: Entry,
    pub token: Token,
    pub available: u64,
    pub origin: Option<EntryOrigin>,
}

impl From<Stored> for Shown {
    fn from(x: Stored) -> Shown {
        Shown { entry: x.entry, token: x.token, available: x.available, origin: Some(x.origin) }
    }
}

#[derive(Clone, Debug, PartialEq)]
pub enum Answer {
    Refused(u8),
    Opened,
    /// Taken, with the pruned records' places.
    Taken(Vec<Pair>),
    /// A newer stored entry, with its token.
    Obsolete(Entry, Token),
    /// The very entry is stored already.
    Held,
    Done,
    /// There is no such entry to poke, or no such listing open.
    Absent,
    Forgot(u64),
    Found(Option<Shown>),
    List(Vec<Shown>),
    /// A listing has begun.
    Begun,
    /// What a step of a listing gives, and its key as bytes; or finished.
    Next(Option<(Shown, Vec<u8>)>),
    Count(u64),
    Size(u64),
    Range(Range3d),
    Above(Option<Path>),
    /// How two paths compare, and whether the first prefixes the second.
    Order(Ordering, bool),
    /// Whether the first of two entries is newer, older or the same, and whether it prunes the second.
    Newer(Recency, bool),
    Included(bool),
    /// Subspace-first and time-first.
    Keys(Vec<u8>, Vec<u8>),
    Triple(Subspace, Path, u64),
    /// Both trees, and the items of the tally.
    Dump(Records, Records, Vec<Item>),
    /// The Rust would answer for another area or sum than 01's, and is not asked.
    Unlike,
    /// Anything else, in words: a panic, an error, what the port does not have.
    Said(String),
}

impl From<Result<Verdict, Refusal>> for Answer {
    fn from(r: Result<Verdict, Refusal>) -> Answer {
        match r {
            Ok(Verdict::Taken(pairs)) => Answer::Taken(pairs),
            Ok(Verdict::Obsolete(e, k)) => Answer::Obsolete(e, k),
            Ok(Verdict::Held) => Answer::Held,
            Err(n) => Answer::Refused(n),
        }
    }
}

/// An answer made of what a call that was not refused gave.
pub fn either<T>(r: Result<T, Refusal>, f: impl Fn(T) -> Answer) -> Answer {
    r.map_or_else(Answer::Refused, f)
}
