//! What is handed to the door, and what a store is kept in.
use super::layout;

/// The edition of `virebony.h` that this crate is written for; compare [`edition`](super::edition).
pub const EDITION: u32 = 7;
/// Entries that a store may be opened for.
pub const LIMIT_MOST: usize = 1024;
/// Bytes of a record: a tree has so many for each entry of the limit.
pub const RECORD_MOST: usize = 419;
/// Bytes of a key: what a buffer for a key must have.
pub const KEY_MOST: usize = 298;
/// Bytes of a record's value, its last ones: payload length 8, digest 32, token 64, available length 8, origin 9.
pub const VALUE: usize = 121;
/// Where the payload length begins in a value: 8 bytes, big-endian.
pub const VALUE_PAYLOAD_LENGTH: usize = 0;
/// Where the digest begins in a value: 32 bytes.
pub const VALUE_DIGEST: usize = 8;
/// Where the token begins in a value: 64 bytes.
pub const VALUE_TOKEN: usize = 40;
/// Where the available length begins in a value: 8 bytes, big-endian.
pub const VALUE_AVAILABLE: usize = 104;
/// Where the kind of the origin stands in a value: 1 byte, 0 for local and 1 for remote.
pub const VALUE_ORIGIN: usize = 112;
/// Where the session of the origin begins in a value: 8 bytes, big-endian, all 0 for local.
pub const VALUE_SESSION: usize = 113;
/// Bytes of a tally's item: subspace 16, count 4, newest timestamp 8, each big-endian. A tally has so many for each entry of the limit.
pub const ITEM: usize = 28;
/// Bytes of a component.
pub const MCL: usize = 64;
/// Components of a path.
pub const MCC: usize = 8;
/// Bytes of a path.
pub const MPL: usize = 128;

/// 16 bytes as two numbers, the high half first.
#[repr(C)]
#[derive(Clone, Copy, Debug, Default, PartialEq, Eq, PartialOrd, Ord, Hash)]
pub struct Subspace {
    /// The first 8 bytes, big-endian.
    pub high: u64,
    /// The last 8 bytes, big-endian.
    pub low: u64,
}

/// A path as it lies in memory, legal or not. Component i is `bytes[ends[i - 1]..ends[i]]`, the first from 0. Ends from `count` on, and bytes from the
/// last end on, are not looked at; in a path that is answered they are 0.
#[repr(C)]
#[derive(Clone, Copy, Debug, PartialEq, Eq, Hash)]
pub struct Path {
    /// The components' bytes, one after another.
    pub bytes: [u8; MPL],
    /// Where each component ends.
    pub ends: [usize; MCC],
    /// How many components there are.
    pub count: usize,
}

impl Default for Path {
    /// The empty path.
    fn default() -> Path {
        Path { bytes: [0; MPL], ends: [0; MCC], count: 0 }
    }
}

/// An entry.
#[repr(C)]
#[derive(Clone, Copy, Debug, Default, PartialEq, Eq, Hash)]
pub struct Entry {
    /// The namespace.
    pub namespace_id: [u8; 16],
    /// The subspace.
    pub subspace_id: Subspace,
    /// The path.
    pub path: Path,
    /// The timestamp.
    pub timestamp: u64,
    /// How many bytes the payload has.
    pub payload_length: u64,
    /// The payload's digest.
    pub payload_digest: [u8; 32],
}

/// From `start` up to `end`, which is outside; if `open` is not 0 there is no end, and `end` is not looked at.
#[repr(C)]
#[derive(Clone, Copy, Debug, Default, PartialEq, Eq, Hash)]
pub struct Times {
    /// The first timestamp inside.
    pub start: u64,
    /// The first outside.
    pub end: u64,
    /// Not 0: there is no end.
    pub open: u8,
}

/// As [`Times`], of subspaces.
#[repr(C)]
#[derive(Clone, Copy, Debug, Default, PartialEq, Eq, Hash)]
pub struct Subspaces {
    /// The first subspace inside.
    pub start: Subspace,
    /// The first outside.
    pub end: Subspace,
    /// Not 0: there is no end.
    pub open: u8,
}

/// As [`Times`], of paths.
#[repr(C)]
#[derive(Clone, Copy, Debug, Default, PartialEq, Eq, Hash)]
pub struct Paths {
    /// The first path inside.
    pub start: Path,
    /// The first outside.
    pub end: Path,
    /// Not 0: there is no end.
    pub open: u8,
}

/// One subspace, or any; all paths that `path` prefixes; a range of times.
#[repr(C)]
#[derive(Clone, Copy, Debug, Default, PartialEq, Eq, Hash)]
pub struct Area {
    /// Not 0: any subspace, and `subspace` is not looked at.
    pub any_subspace: u8,
    /// The one subspace.
    pub subspace: Subspace,
    /// The path that prefixes all paths inside.
    pub path: Path,
    /// The times.
    pub times: Times,
}

/// A 3d range.
#[repr(C)]
#[derive(Clone, Copy, Debug, Default, PartialEq, Eq, Hash)]
pub struct Range {
    /// The subspaces.
    pub subspaces: Subspaces,
    /// The paths.
    pub paths: Paths,
    /// The times.
    pub times: Times,
}

/// The newest entries of an area: at most so many, and so many bytes of payload; `u64::MAX` means no limit.
#[repr(C)]
#[derive(Clone, Copy, Debug, Default, PartialEq, Eq, Hash)]
pub struct Interest {
    /// The area.
    pub area: Area,
    /// At most so many entries.
    pub max_count: u64,
    /// At most so many bytes of payload.
    pub max_size: u64,
}

/// Which entries a query passes over.
#[repr(C)]
#[derive(Clone, Copy, Debug, Default, PartialEq, Eq, Hash)]
pub struct Ignore {
    /// Not 0: those whose payload is not all there, their available length being another than their payload length.
    pub incomplete_payloads: u8,
    /// Not 0: those of an empty payload, whose length is 0.
    pub empty_payloads: u8,
}

/// Where an entry came from: from another source, in the session with this number, or else it is local. In an origin that is answered `remote` is 0 or 1, and
/// `session` is 0 for local.
#[repr(C)]
#[derive(Clone, Copy, Debug, Default, PartialEq, Eq, Hash)]
pub struct Origin {
    /// Not 0: from another source. 0: local, and `session` is not looked at.
    pub remote: u8,
    /// The number of the session; any will do.
    pub session: u64,
}

/// Kept by the caller from one call to the next, beside the buffers; hand in the one that the last call answered.
#[repr(C)]
#[derive(Clone, Copy, Debug, Default, PartialEq, Eq, Hash)]
pub struct State {
    /// The namespace of every entry in the store.
    pub namespace_id: [u8; 16],
    /// How many entries there are.
    pub count: usize,
    /// How many there may be.
    pub limit: usize,
}

/// Offset and length of a record in the subspace-first tree.
#[repr(C)]
#[derive(Clone, Copy, Debug, Default, PartialEq, Eq, Hash)]
pub struct Pair {
    /// Where the record begins.
    pub offset: u32,
    /// How many bytes it has.
    pub length: u32,
}

/// A prune list by value.
#[repr(C)]
#[derive(Clone, Copy, Debug, PartialEq, Eq, Hash)]
pub struct Pairs {
    /// The pairs.
    pub pairs: [Pair; LIMIT_MOST],
}

impl Default for Pairs {
    fn default() -> Pairs {
        Pairs { pairs: [Pair::default(); LIMIT_MOST] }
    }
}

/// The four buffers of a store that are lent to a call that reads: slices of any length. The limit asks for 419 × limit bytes of a tree and 2 × limit
/// numbers of a directory; what lies beyond is not read. No call that reads takes the tally.
#[derive(Clone, Copy, Debug)]
pub struct Buffers<'a> {
    /// The subspace-first tree.
    pub spt: &'a [u8],
    /// Its directory.
    pub spt_dir: &'a [u32],
    /// The time-first tree.
    pub tsp: &'a [u8],
    /// Its directory.
    pub tsp_dir: &'a [u32],
}

/// The buffers of a store, lent to a call that opens it or files or drops entries: slices of any length. What lies beyond the limit's room is neither
/// read nor written.
#[derive(Debug)]
pub struct BuffersMut<'a> {
    /// The subspace-first tree.
    pub spt: &'a mut [u8],
    /// Its directory.
    pub spt_dir: &'a mut [u32],
    /// The time-first tree.
    pub tsp: &'a mut [u8],
    /// Its directory.
    pub tsp_dir: &'a mut [u32],
    /// The tally, of at least 28 × limit bytes: for each subspace with entries, in ascending order, an item of 28 bytes ([`ITEM`]); zeros behind.
    pub tally: &'a mut [u8],
}

/// The four buffers of a store that are lent to a call that writes how much of a payload has arrived: it writes in the trees alone, and takes no tally.
/// Slices of any length; what lies beyond the limit's room is neither read nor written.
#[derive(Debug)]
pub struct Trees<'a> {
    /// The subspace-first tree.
    pub spt: &'a mut [u8],
    /// Its directory.
    pub spt_dir: &'a [u32],
    /// The time-first tree.
    pub tsp: &'a mut [u8],
    /// Its directory.
    pub tsp_dir: &'a [u32],
}

impl BuffersMut<'_> {
    /// The same buffers without the tally, for a call that reads.
    pub fn as_buffers(&self) -> Buffers<'_> {
        Buffers { spt: self.spt, spt_dir: self.spt_dir, tsp: self.tsp, tsp_dir: self.tsp_dir }
    }

    /// The same buffers without the tally, for a call that writes in the trees alone.
    pub fn as_trees(&mut self) -> Trees<'_> {
        Trees { spt: self.spt, spt_dir: self.spt_dir, tsp: self.tsp, tsp_dir: self.tsp_dir }
    }
}

const _: () = assert!(std::mem::size_of::<usize>() == 8, "x86-64 only");
layout! {
    Subspace: 16, high 0, low 8;
    Path: 200, bytes 0, ends 128, count 192;
    Entry: 280, namespace_id 0, subspace_id 16, path 32, timestamp 232, payload_length 240, payload_digest 248;
    Times: 24, start 0, end 8, open 16;
    Subspaces: 40, start 0, end 16, open 32;
    Paths: 408, start 0, end 200, open 400;
    Area: 248, any_subspace 0, subspace 8, path 24, times 224;
    Range: 472, subspaces 0, paths 40, times 448;
    Interest: 264, area 0, max_count 248, max_size 256;
    Ignore: 2, incomplete_payloads 0, empty_payloads 1;
    Origin: 16, remote 0, session 8;
    State: 32, namespace_id 0, count 16, limit 24;
    Pair: 8, offset 0, length 4;
    Pairs: 8192, pairs 0;
}
