//! The exports. Each macro below declares symbols of one shape and calls them, so that what is lent is spelled once a shape and not once a call.
use super::*;

/// Calls over values alone.
macro_rules! over_values {
    ($($(#[$doc:meta])* $name:ident = $symbol:ident($($arg:ident: $type:ty),*) -> $answer:ty;)*) => {
        extern "C" { $(fn $symbol($($arg: $type),*) -> $answer;)* }
        $($(#[$doc])* pub fn $name($($arg: $type),*) -> $answer {
            unsafe { $symbol($($arg),*) }
        })*
    };
}

/// Calls over the bytes of a key or of a record: pointer and count, then values.
macro_rules! over_bytes {
    ($bytes:ident; $($(#[$doc:meta])* $name:ident = $symbol:ident($($arg:ident: $type:ty),*) -> $answer:ty;)*) => {
        extern "C" { $(fn $symbol($bytes: *const u8, len: usize, $($arg: $type),*) -> $answer;)* }
        $($(#[$doc])* pub fn $name($bytes: &[u8], $($arg: $type),*) -> $answer {
            unsafe { $symbol($bytes.as_ptr(), $bytes.len(), $($arg),*) }
        })*
    };
}

/// Calls that write a key: values, then pointer and count.
macro_rules! into_key {
    ($($(#[$doc:meta])* $name:ident = $symbol:ident($($arg:ident: $type:ty),*) -> $answer:ty;)*) => {
        extern "C" { $(fn $symbol($($arg: $type,)* out: *mut u8, out_len: usize) -> $answer;)* }
        $($(#[$doc])* pub fn $name($($arg: $type,)* out: &mut [u8]) -> $answer {
            unsafe { $symbol($($arg,)* out.as_mut_ptr(), out.len()) }
        })*
    };
}

/// Calls that read a store: `VB_CONST_BUFFERS`, values, then a lent slice if there is one.
macro_rules! over_store {
    ($($(#[$doc:meta])* $name:ident = $symbol:ident($($arg:ident: $type:ty),* $(; $lent:ident: [$element:ty])?) -> $answer:ty;)*) => {
        extern "C" {
            $(fn $symbol(state: State, spt: *const u8, spt_len: usize, spt_dir: *const u32, spt_dir_len: usize,
                tsp: *const u8, tsp_len: usize, tsp_dir: *const u32, tsp_dir_len: usize,
                $($arg: $type,)* $($lent: *const $element, lent_len: usize)?) -> $answer;)*
        }
        $($(#[$doc])* pub fn $name(state: State, store: Buffers<'_>, $($arg: $type,)* $($lent: &[$element])?) -> $answer {
            let Buffers { spt, spt_dir, tsp, tsp_dir } = store;
            unsafe {
                $symbol(state, spt.as_ptr(), spt.len(), spt_dir.as_ptr(), spt_dir.len(), tsp.as_ptr(), tsp.len(), tsp_dir.as_ptr(), tsp_dir.len(),
                    $($arg,)* $($lent.as_ptr(), $lent.len())?)
            }
        })*
    };
}

/// Calls that write in a store's trees alone: `VB_TREES`.
macro_rules! into_trees {
    ($($(#[$doc:meta])* $name:ident = $symbol:ident($($arg:ident: $type:ty),*) -> $answer:ty;)*) => {
        extern "C" {
            $(fn $symbol(state: State, spt: *mut u8, spt_len: usize, spt_dir: *const u32, spt_dir_len: usize,
                tsp: *mut u8, tsp_len: usize, tsp_dir: *const u32, tsp_dir_len: usize, $($arg: $type),*) -> $answer;)*
        }
        $($(#[$doc])* pub fn $name(state: State, store: &mut Trees<'_>, $($arg: $type),*) -> $answer {
            let Trees { spt, spt_dir, tsp, tsp_dir } = store;
            unsafe {
                $symbol(state, spt.as_mut_ptr(), spt.len(), spt_dir.as_ptr(), spt_dir.len(),
                    tsp.as_mut_ptr(), tsp.len(), tsp_dir.as_ptr(), tsp_dir.len(), $($arg),*)
            }
        })*
    };
}

/// Calls that file and drop entries: what goes before the buffers, `VB_BUFFERS`, a lent slice if there is one, then values.
macro_rules! into_store {
    ($($(#[$doc:meta])* $name:ident = $symbol:ident($($first:ident: $kind:ty),*; $($lent:ident: [$element:ty])?; $($arg:ident: $type:ty),*) -> $answer:ty;)*) => {
        extern "C" {
            $(fn $symbol($($first: $kind,)* spt: *mut u8, spt_len: usize, spt_dir: *mut u32, spt_dir_len: usize,
                tsp: *mut u8, tsp_len: usize, tsp_dir: *mut u32, tsp_dir_len: usize, tally: *mut u8, tally_len: usize,
                $($lent: *mut $element, lent_len: usize,)? $($arg: $type),*) -> $answer;)*
        }
        $($(#[$doc])* pub fn $name($($first: $kind,)* store: &mut BuffersMut<'_>, $($lent: &mut [$element],)? $($arg: $type),*) -> $answer {
            let BuffersMut { spt, spt_dir, tsp, tsp_dir, tally } = store;
            unsafe {
                $symbol($($first,)* spt.as_mut_ptr(), spt.len(), spt_dir.as_mut_ptr(), spt_dir.len(),
                    tsp.as_mut_ptr(), tsp.len(), tsp_dir.as_mut_ptr(), tsp_dir.len(), tally.as_mut_ptr(), tally.len(),
                    $($lent.as_mut_ptr(), $lent.len(),)? $($arg),*)
            }
        })*
    };
}

over_values! {
    /// The edition that the archive was made with; [`EDITION`] is this crate's.
    edition = vb_edition() -> u32;
}

into_store! {
    /// Opens a store of no entries, for at most `limit` of them: writes zeros up to the limit's room, in the tally too. Refused: 1, 2.
    open = vb_open(namespace_id: &[u8; 16], limit: usize;;) -> Opened;

    /// Files an entry with its token, its origin and available length 0. It is obsolete, and nothing changes, if a stored entry of the subspace, at a prefix of its
    /// path or the path itself, is newer. It is held, and nothing changes, if an entry of the same subspace, path, timestamp, digest and length is stored: the
    /// stored one keeps its token, available length and origin, whatever token and origin come now. Else the entries of the subspace at its path or below that are older, by
    /// timestamp, then digest, then payload length, are removed; an entry of equal rank stays. The pairs of those removed, as they stood before the call, in key
    /// order, go to the front of `prune`, which has at least `limit` pairs; `pruned` says how many, and what lies behind stays.
    /// Refused: 1, 2, 3, 10, 4, 6, then obsolete, held, then 7 (with `prevent_pruning`), 8.
    ingest_entry = vb_ingest_entry(state: State; prune: [Pair]; entry: Entry, token: &[u8; 64], prevent_pruning: u8, origin: Origin) -> Ingested;

    /// [`ingest_entry`] over a prune list of at least 2 × limit numbers, offset and length by turns. Refused as there.
    ingest_entry_numbers = vb_ingest_entry_numbers(state: State; prune: [u32]; entry: Entry, token: &[u8; 64], prevent_pruning: u8, origin: Origin) -> Ingested;

    /// [`ingest_entry`] over a prune list of 1,024 pairs that goes in and comes back by value: for tests. Refused as there.
    ingest_entry_by_value = vb_ingest_entry_by_value(state: State;; prune: Pairs, entry: Entry, token: &[u8; 64], prevent_pruning: u8, origin: Origin) -> PairsIngested;

    /// Drops the entry at a subspace and path, if there is one. With `expects`, only if its digest is the one expected; without, the digest is not
    /// looked at. An absent entry answers done. Refused: 1, 2, 3, 10, 4, 9.
    forget_entry = vb_forget_entry(state: State;; subspace: Subspace, path: Path, expects: u8, expected_digest: &[u8; 32]) -> EntryForgotten;

    /// Drops every entry that `area` includes and, with `protects`, `protected_area` does not; answers how many. Without `protects` the second area is
    /// not looked at. Refused: 1, 2, 3, 10, 4.
    forget_area = vb_forget_area(state: State;; area: Area, protects: u8, protected_area: Area) -> AreaForgotten;
}

into_trees! {
    /// Records how much of a payload has arrived: `available` becomes the available length of the entry at exactly this subspace and path, in both trees. Any
    /// number up to the payload length will do, a smaller one than before too. With `expects`, only if the entry's digest is the one expected; without, the
    /// digest is not looked at. Of each tree the 8 bytes of the entry's available length are written, before the nine of its origin, and nothing else;
    /// the state in the answer is the one handed in. An absent entry is refused, unlike in [`forget_entry`], and so is a path that is only a prefix or an extension of a stored entry's.
    /// Refused: 1, 2, 3, 4, 11, 9, 12.
    record_available_length = vb_record_available_length(subspace: Subspace, path: Path, expects: u8, expected_digest: &[u8; 32], available: u64) -> AvailableRecorded;

    /// Forgets how much of a payload has arrived: [`record_available_length`] of 0. An entry of which nothing has arrived answers done.
    /// Refused: 1, 2, 3, 4, 11, 9.
    forget_payload = vb_forget_payload(subspace: Subspace, path: Path, expects: u8, expected_digest: &[u8; 32]) -> AvailableRecorded;
}

over_store! {
    /// The entry at a subspace and path, unless `ignore` passes over it. Refused: 1, 2, 3, 4.
    find_entry = vb_find_entry(subspace: Subspace, path: Path, ignore: Ignore) -> EntryFound;

    /// A step of an area's listing. A listing remembers the last key that it gave, at its start the empty one. A step answers the record of the least matching key
    /// above `last`, as bytes, in the store as it then is: a part of the subspace-first tree, key then value; the last [`VALUE`] bytes are the value, where the
    /// available length and the origin stand at [`VALUE_AVAILABLE`] and [`VALUE_ORIGIN`]. Then remember its key, which [`record_key`] gives, and go on until the
    /// length is 0: the listing is finished, or the step was refused, and [`query_area_found`] says which.
    ///
    /// Entries may be filed and forgotten, and lengths recorded, between two steps. What is stored and matches all the while is given once; what first arrives at
    /// or below the remembered key is not given; what is gone before its turn, and not filed again, is not given; no key is given twice. The key lies in the tree
    /// that a filing writes, so it is copied before one files; [`crate::Listing`] does so.
    ///
    /// Refused: 1, 2, 3, 4, then 5 if `last` is neither empty nor a key that [`encode_spt_entry_key`] writes; no record of that key need be stored, or match.
    query_area = vb_query_area(area: Area, ignore: Ignore; last: [u8]) -> Part;

    /// Whether [`query_area`] finds a record; or refused as there; or, if both are 0, the listing is finished.
    query_area_found = vb_query_area_found(area: Area, ignore: Ignore; last: [u8]) -> Listed;

    /// A step of a 3d range's listing, as [`query_area`] is of an area's. Refused as there.
    query_range = vb_query_range(range: Range, ignore: Ignore; last: [u8]) -> Part;

    /// Whether [`query_range`] finds a record; or refused as there; or, if both are 0, the listing is finished.
    query_range_found = vb_query_range_found(range: Range, ignore: Ignore; last: [u8]) -> Listed;

    /// How many entries an area includes. Refused: 1, 2, 3, 4.
    count_area = vb_count_area(area: Area) -> Counted;

    /// How many entries a 3d range includes. Refused: 1, 2, 3, 4.
    summarise = vb_summarise(range: Range) -> Counted;

    /// The 3d range of an area of interest: the area's own, its times starting at that of the first entry, walking its matches from the newest, that
    /// breaks a limit; else of the oldest match; else as given. Refused: 1, 2, 3, 4.
    area_of_interest_to_range = vb_area_of_interest_to_range(interest: Interest) -> AreaRange;
}

over_values! {
    /// Whether a path is legal: at most 8 components, each at most 64 bytes, at most 128 in all, ends that do not descend. 1 or 0.
    path_is_legal = vb_path_is_legal(p: Path) -> u8;

    /// How p compares with q, component by component, components byte by byte; a proper prefix is less. Refused: 4.
    path_cmp = vb_path_cmp(p: Path, q: Path) -> Compared;

    /// Whether p and q have the same components. Refused: 4.
    path_eq = vb_path_eq(p: Path, q: Path) -> Answer;

    /// Whether p is q or a beginning of it, by whole components. Refused: 4.
    path_is_prefix_of = vb_path_is_prefix_of(p: Path, q: Path) -> Answer;

    /// The least legal path above p that p does not prefix, if there is one. Refused: 4.
    path_greater_but_not_prefixed = vb_path_greater_but_not_prefixed(p: Path) -> Above;

    /// Whether a is newer than b, older or the same: by timestamp, then digest as bytes, then payload length. Namespace, subspace and path play no part, but an
    /// illegal path is refused. So entries at two places may compare as the same; [`ingest_entry`] holds one only if subspace and path are the same too. Refused: 4.
    entry_compare = vb_entry_compare(a: Entry, b: Entry) -> EntriesCompared;

    /// Whether a prunes b: of one namespace and subspace, a's path is b's or prefixes it, and a is newer. Refused: 4.
    entry_prunes = vb_entry_prunes(a: Entry, b: Entry) -> Answer;

    /// Whether b prunes a. Refused: 4.
    entry_is_pruned_by = vb_entry_is_pruned_by(a: Entry, b: Entry) -> Answer;

    /// Whether an area includes a subspace, path and timestamp. Refused: 4.
    area_includes_triplet = vb_area_includes_triplet(area: Area, subspace: Subspace, path: Path, timestamp: u64) -> Answer;

    /// Whether a 3d range includes a subspace, path and timestamp. Refused: 4.
    range_includes_triplet = vb_range_includes_triplet(range: Range, subspace: Subspace, path: Path, timestamp: u64) -> Answer;

    /// The 3d range that includes what an area includes. Refused: 4.
    area_to_range = vb_area_to_range(area: Area) -> AreaRange;
}

into_key! {
    /// Writes a triple's subspace-first key to the front of `out`, which has at least 298 bytes, and answers its length; the bytes behind stay.
    /// Refused: 2, 4.
    encode_spt_entry_key = vb_encode_spt_entry_key(subspace: Subspace, path: Path, timestamp: u64) -> Encoded;

    /// Writes a triple's time-first key to the front of `out`, which has at least 298 bytes, and answers its length; the bytes behind stay.
    /// Refused: 2, 4.
    encode_tsp_entry_key = vb_encode_tsp_entry_key(subspace: Subspace, path: Path, timestamp: u64) -> Encoded;
}

over_bytes! {
    record;

    /// The key of a record, which is all before its value: `record[..length]`, and the offset is 0. Of fewer bytes than a value has, nothing.
    record_key = vb_record_key() -> Part;
}

over_bytes! {
    key;

    /// The triple that a subspace-first key stands for. Refused: 5.
    decode_spt_entry_key = vb_decode_spt_entry_key() -> Decoded;

    /// The triple that a time-first key stands for. Refused: 5.
    decode_tsp_entry_key = vb_decode_tsp_entry_key() -> Decoded;

    /// What a reader takes at a position of a key's path: a component, its length and bytes; or the path's end (`component` is 0). `position` is where
    /// the reader then stands, `left` how many bytes are left. Refused: 5, and the reader stands where it stood.
    read_component_at = vb_read_component_at(at: usize) -> Stepped;

    /// The whole path at a position of a key, taken by a reader, and the position behind it. Refused: 5.
    read_path_at = vb_read_path_at(at: usize) -> PathRead;

    /// The triple that a subspace-first key stands for, taken by a reader. Refused: 5.
    read_spt_entry_key = vb_read_spt_entry_key() -> Decoded;

    /// The triple that a time-first key stands for, taken by a reader. Refused: 5.
    read_tsp_entry_key = vb_read_tsp_entry_key() -> Decoded;
}
