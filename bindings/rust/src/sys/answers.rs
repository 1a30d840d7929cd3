//! What the door answers. A yes or no is a byte, 0 or 1; a refusal is 0 or one of the numbers of [`crate::Refusal`].
use super::{layout, Entry, Origin, Pair, Path, Range, State, Subspace, LIMIT_MOST, MCL};

/// What opening answers.
#[repr(C)]
#[derive(Clone, Copy, Debug, PartialEq, Eq)]
pub struct Opened {
    /// 0, 1 or 2.
    pub refusal: u8,
    /// The state to hand in next; all 0 if refused.
    pub state: State,
}

/// Refused; or `obsolete`, with a stored entry that is newer and its token; or `held`, the very entry being stored already; or, if all three are 0, taken, with
/// how many entries were pruned. Only an entry that is taken changes anything.
#[repr(C)]
#[derive(Clone, Copy, Debug, PartialEq, Eq)]
pub struct Ingested {
    /// 0, or 1, 2, 3, 10, 4, 6, 7, 8.
    pub refusal: u8,
    /// 1: a stored entry is newer, and nothing changed.
    pub obsolete: u8,
    /// 1: an entry of the same subspace, path, timestamp, digest and length is stored, and nothing changed, its token and origin included.
    pub held: u8,
    /// How many entries were pruned.
    pub pruned: usize,
    /// The state to hand in next.
    pub state: State,
    /// With `obsolete`, a stored entry that is newer; else all 0.
    pub newer: Entry,
    /// With `obsolete`, that entry's token; else all 0.
    pub token: [u8; 64],
}

/// What an ingestion over pairs by value answers.
#[repr(C)]
#[derive(Clone, Copy, Debug, PartialEq, Eq)]
pub struct PairsIngested {
    /// The answer of the ingestion.
    pub ingested: Ingested,
    /// The prune list, as it then stands.
    pub pairs: [Pair; LIMIT_MOST],
}

/// What forgetting an entry answers.
#[repr(C)]
#[derive(Clone, Copy, Debug, PartialEq, Eq)]
pub struct EntryForgotten {
    /// 0, or 1, 2, 3, 10, 4, 9.
    pub refusal: u8,
    /// The state to hand in next.
    pub state: State,
}

/// What forgetting an area answers.
#[repr(C)]
#[derive(Clone, Copy, Debug, PartialEq, Eq)]
pub struct AreaForgotten {
    /// 0, or 1, 2, 3, 10, 4.
    pub refusal: u8,
    /// The state to hand in next.
    pub state: State,
    /// How many entries were dropped.
    pub forgotten: usize,
}

/// What recording or forgetting an available length answers.
#[repr(C)]
#[derive(Clone, Copy, Debug, PartialEq, Eq)]
pub struct AvailableRecorded {
    /// 0, or 1, 2, 3, 4, 11, 9; of a recording also 12.
    pub refusal: u8,
    /// The state that was handed in.
    pub state: State,
}

/// An entry as it is stored: with its token, how much of its payload is available, and where it came from.
#[repr(C)]
#[derive(Clone, Copy, Debug, PartialEq, Eq)]
pub struct LengthyEntry {
    /// The entry.
    pub entry: Entry,
    /// Its token.
    pub token: [u8; 64],
    /// How many bytes of its payload are available, as [`record_available_length`](super::record_available_length) and
    /// [`forget_payload`](super::forget_payload) left it since the entry was filed; 0 if neither did.
    pub available: u64,
    /// The origin that it was filed with.
    pub origin: Origin,
}

/// What a lookup answers.
#[repr(C)]
#[derive(Clone, Copy, Debug, PartialEq, Eq)]
pub struct EntryFound {
    /// 0, or 1, 2, 3, 4.
    pub refusal: u8,
    /// 1: there is one.
    pub found: u8,
    /// The entry; all 0 if there is none.
    pub lengthy: LengthyEntry,
}

/// What a step of a listing says: refused; or a record was found; or, if both are 0, the listing is finished.
#[repr(C)]
#[derive(Clone, Copy, Debug, PartialEq, Eq)]
pub struct Listed {
    /// 0, or 1, 2, 3, 4, 5.
    pub refusal: u8,
    /// 1: there is a record.
    pub found: u8,
}

/// A part of what was lent: `lent[offset..offset + length]`, where `lent` is the subspace-first tree or, of [`record_key`](super::record_key), the record.
#[repr(C)]
#[derive(Clone, Copy, Debug, PartialEq, Eq)]
pub struct Part {
    /// Where it begins.
    pub offset: usize,
    /// How many bytes it has; 0: the listing is finished, or the call was refused, or the record has no key.
    pub length: usize,
}

/// How many entries there are.
#[repr(C)]
#[derive(Clone, Copy, Debug, PartialEq, Eq)]
pub struct Counted {
    /// 0, or 1, 2, 3, 4.
    pub refusal: u8,
    /// How many.
    pub count: usize,
}

/// The 3d range of an area. Refused, the range is one that includes nothing.
#[repr(C)]
#[derive(Clone, Copy, Debug, PartialEq, Eq)]
pub struct AreaRange {
    /// 0, or 4; of an area of interest also 1, 2, 3.
    pub refusal: u8,
    /// The range.
    pub range: Range,
}

/// Yes or no.
#[repr(C)]
#[derive(Clone, Copy, Debug, PartialEq, Eq)]
pub struct Answer {
    /// 0 or 4.
    pub refusal: u8,
    /// 1: yes.
    pub yes: u8,
}

/// How two paths compare; equal if neither.
#[repr(C)]
#[derive(Clone, Copy, Debug, PartialEq, Eq)]
pub struct Compared {
    /// 0 or 4.
    pub refusal: u8,
    /// 1: the first is less.
    pub less: u8,
    /// 1: the first is greater.
    pub greater: u8,
}

/// How two entries compare; the same if all three are 0.
#[repr(C)]
#[derive(Clone, Copy, Debug, PartialEq, Eq)]
pub struct EntriesCompared {
    /// 0 or 4.
    pub refusal: u8,
    /// 1: the first is newer.
    pub newer: u8,
    /// 1: the first is older.
    pub older: u8,
}

/// The least path above another that this one does not prefix.
#[repr(C)]
#[derive(Clone, Copy, Debug, PartialEq, Eq)]
pub struct Above {
    /// 0 or 4.
    pub refusal: u8,
    /// 1: there is one.
    pub found: u8,
    /// The path; empty if there is none.
    pub path: Path,
}

/// What an encoder answers.
#[repr(C)]
#[derive(Clone, Copy, Debug, PartialEq, Eq)]
pub struct Encoded {
    /// 0, 2 or 4.
    pub refusal: u8,
    /// How many bytes the key has.
    pub length: usize,
}

/// The triple that a key stands for.
#[repr(C)]
#[derive(Clone, Copy, Debug, PartialEq, Eq)]
pub struct Decoded {
    /// 0 or 5.
    pub refusal: u8,
    /// The subspace.
    pub subspace: Subspace,
    /// The path.
    pub path: Path,
    /// The timestamp.
    pub timestamp: u64,
}

/// A path taken out of a key.
#[repr(C)]
#[derive(Clone, Copy, Debug, PartialEq, Eq)]
pub struct PathRead {
    /// 0 or 5.
    pub refusal: u8,
    /// The path.
    pub path: Path,
    /// The position behind it.
    pub next: usize,
}

/// What a reader takes at a position of a key's path: a component, or the path's end.
#[repr(C)]
#[derive(Clone, Copy, Debug, PartialEq, Eq)]
pub struct Stepped {
    /// 0 or 5.
    pub refusal: u8,
    /// 1: a component; 0: the path's end.
    pub component: u8,
    /// How many bytes the component has.
    pub length: usize,
    /// The component's bytes, then zeros.
    pub bytes: [u8; MCL],
    /// Where the reader then stands.
    pub position: usize,
    /// How many bytes are left there.
    pub left: usize,
}

layout! {
    Opened: 40, refusal 0, state 8;
    Ingested: 392, refusal 0, obsolete 1, held 2, pruned 8, state 16, newer 48, token 328;
    PairsIngested: 8584, ingested 0, pairs 392;
    EntryForgotten: 40, refusal 0, state 8;
    AreaForgotten: 48, refusal 0, state 8, forgotten 40;
    AvailableRecorded: 40, refusal 0, state 8;
    LengthyEntry: 368, entry 0, token 280, available 344, origin 352;
    EntryFound: 376, refusal 0, found 1, lengthy 8;
    Listed: 2, refusal 0, found 1;
    Part: 16, offset 0, length 8;
    Counted: 16, refusal 0, count 8;
    AreaRange: 480, refusal 0, range 8;
    Answer: 2, refusal 0, yes 1;
    Compared: 3, refusal 0, less 1, greater 2;
    EntriesCompared: 3, refusal 0, newer 1, older 2;
    Above: 208, refusal 0, found 1, path 8;
    Encoded: 16, refusal 0, length 8;
    Decoded: 232, refusal 0, subspace 8, path 24, timestamp 224;
    PathRead: 216, refusal 0, path 8, next 208;
    Stepped: 96, refusal 0, component 1, length 8, bytes 16, position 80, left 88;
}
