//! `raw` over a store that changes while a listing is open, and over the keys that a listing may remember: document 02's U7. The answers are written by hand.
mod common;
use common::*;
use virebony::raw;

/// What a listing asks for: an area, or a 3d range.
#[derive(Clone, Copy)]
#[allow(clippy::large_enum_variant)] // one a listing
enum Query {
    Area(raw::Area),
    Range(raw::Range),
}
use Query::{Area, Range};

/// An area, and the 3d range that includes the same.
fn both(area: raw::Area) -> [Query; 2] {
    [Area(area), Range(raw::area_to_range(area).range)]
}

/// What both calls of a step answer: the place of the record that it gives, or none if the listing is finished; or the refusal, and then all else is 0.
fn step_with(kept: &Kept, query: Query, ignore: raw::Ignore, last: &[u8]) -> Result<Option<usize>, u8> {
    let (state, lent) = (kept.state, kept.buffers());
    let (listed, part) = match query {
        Area(area) => (raw::query_area_found(state, lent, area, ignore, last), raw::query_area(state, lent, area, ignore, last)),
        Range(range) => (raw::query_range_found(state, lent, range, ignore, last), raw::query_range(state, lent, range, ignore, last)),
    };
    if listed.found == 0 {
        assert_eq!(part, raw::Part { offset: 0, length: 0 });
        return if listed.refusal == 0 { Ok(None) } else { Err(listed.refusal) };
    }
    assert_eq!(listed, raw::Listed { refusal: 0, found: 1 });
    Ok(Some((0..kept.state.count).find(|place| kept.part(*place) == part).unwrap()))
}

fn step(kept: &Kept, query: Query, last: &[u8]) -> Result<Option<usize>, u8> {
    step_with(kept, query, ignore(0, 0), last)
}

/// A listing that is open: the key that it remembers is its own copy.
#[derive(Clone)]
struct Open {
    query: Query,
    ignore: raw::Ignore,
    last: Vec<u8>,
}

impl Open {
    /// The subspace, path and timestamp that the next step gives.
    fn next(&mut self, kept: &Kept) -> Option<(u64, raw::Path, u64)> {
        let record = kept.record(kept.part(step_with(kept, self.query, self.ignore, &self.last).unwrap()?));
        self.last = record[..raw::record_key(record).length].to_vec();
        let triple = raw::decode_spt_entry_key(&self.last);
        assert_eq!((triple.refusal, triple.subspace.high), (0, 0));
        Some((triple.subspace.low, triple.path, triple.timestamp))
    }

    /// The next step gives the entry at this path of subspace 1 with this timestamp.
    fn gives(&mut self, kept: &Kept, text: &str, timestamp: u64) {
        assert_eq!(self.next(kept), Some((1, answered(text), timestamp)));
    }
}

/// Listings of everything, by an area and by a 3d range.
fn open() -> [Open; 2] {
    open_with(ignore(0, 0))
}

fn open_with(ignore: raw::Ignore) -> [Open; 2] {
    both(everything()).map(|query| Open { query, ignore, last: vec![] })
}

/// Files an entry of subspace 1 with a payload of 3 bytes: how many it pruned.
fn file(kept: &mut Kept, text: &str, timestamp: u64, digest: u8) -> usize {
    let answer = kept.ingest(entry(1, text, timestamp, 3, digest), 0);
    assert_eq!((answer.refusal, answer.obsolete, answer.held), (0, 0, 0));
    answer.pruned
}

fn forget(kept: &mut Kept, text: &str) {
    let before = kept.state.count;
    kept.state = raw::forget_entry(kept.state, &mut kept.buffers_mut(), subspace(1), path(text), 0, &[0; 32]).state;
    assert_eq!(kept.state.count, before - 1);
}

fn record(kept: &mut Kept, text: &str, available: u64) {
    let state = kept.state;
    assert_eq!(raw::record_available_length(state, &mut kept.trees(), subspace(1), path(text), 0, &[0; 32], available).refusal, 0);
}

/// [61], [62] and [63] at 5 in subspace 1, with digests of 9.
fn three() -> Kept {
    let mut kept = Kept::open(6);
    assert_eq!(["61", "62", "63"].map(|text| file(&mut kept, text, 5, 9)), [0; 3]);
    kept
}

#[test]
fn the_key_of_a_record() {
    let record = [0xee; 1000];
    for length in (0..301).chain([419, 420, 1000]) {
        assert_eq!(raw::record_key(&record[..length]), raw::Part { offset: 0, length: length.saturating_sub(121) });
    }
}

/// The record of the remembered key is not given again; it need not be stored, nor match.
#[test]
fn a_remembered_key_of_no_match() {
    for mut listing in open() {
        let mut kept = three();
        listing.gives(&kept, "61", 5);
        listing.clone().gives(&kept, "62", 5);
        forget(&mut kept, "61");
        listing.gives(&kept, "62", 5);
    }
    let kept = three();
    for query in both(area(0, 1, "62", times(0, 0, 1))) {
        assert_eq!(step(&kept, query, &key(1, "61", 5)), Ok(Some(1)));
        assert_eq!(step(&kept, query, &key(1, "61/61", 7)), Ok(Some(1)));
        assert_eq!(step(&kept, query, &key(1, "63", 5)), Ok(None));
    }
}

/// A later entry at the place has another key, which is above; one of a greater digest has the same key.
#[test]
fn another_entry_at_the_place() {
    for mut listing in open() {
        let mut kept = three();
        listing.gives(&kept, "61", 5);
        assert_eq!(file(&mut kept, "61", 6, 9), 1);
        listing.gives(&kept, "61", 6);
        assert_eq!(file(&mut kept, "61", 6, 10), 1);
        listing.gives(&kept, "62", 5);
        assert_eq!(file(&mut kept, "62", 5, 10), 1);
        listing.gives(&kept, "63", 5);
        assert_eq!((listing.next(&kept), file(&mut kept, "63", 7, 9)), (None, 1)); // finished, and then there is more
        listing.gives(&kept, "63", 7);
    }
}

/// What arrives behind is not given, what arrives before us is; what is pruned before its turn is not.
#[test]
fn filing_behind_and_before() {
    for mut listing in open() {
        let mut kept = three();
        listing.gives(&kept, "61", 5);
        listing.gives(&kept, "62", 5);
        assert_eq!(["60", "61/ff", "62/61"].map(|text| file(&mut kept, text, 5, 9)), [0; 3]);
        let mut second = listing.clone();
        listing.gives(&kept, "62/61", 5);
        assert_eq!(file(&mut kept, "62", 6, 9), 2);
        second.gives(&kept, "62", 6);
        second.gives(&kept, "63", 5);
        listing.gives(&kept, "63", 5);
        let mut third = Open { last: key(1, "62", 5), ..listing.clone() };
        assert_eq!(file(&mut kept, "", 8, 9), 5);
        assert_eq!((listing.next(&kept), second.next(&kept), third.next(&kept)), (None, None, None));
    }
}

/// Given if its key is above the remembered one when its turn comes.
#[test]
fn forgotten_and_filed_again() {
    for mut listing in open() {
        let mut kept = three();
        listing.gives(&kept, "61", 5);
        let mut second = listing.clone();
        for text in ["61", "63"] {
            forget(&mut kept, text);
            assert_eq!(file(&mut kept, text, 5, 9), 0);
        }
        listing.gives(&kept, "62", 5);
        listing.gives(&kept, "63", 5);
        assert_eq!(listing.next(&kept), None);
        forget(&mut kept, "62");
        second.gives(&kept, "63", 5);
        assert_eq!((file(&mut kept, "62", 5, 9), second.next(&kept)), (0, None));
    }
}

/// The part lies in the tree that a filing writes: of the bytes that stand there then, [62] is given again.
#[test]
fn the_key_is_copied_before_a_filing() {
    for mut listing in open() {
        let mut kept = three();
        forget(&mut kept, "61");
        listing.gives(&kept, "62", 5);
        let length = listing.last.len();
        assert_eq!(kept.spt[..length], listing.last);
        assert_eq!(file(&mut kept, "61", 5, 9), 0);
        Open { last: kept.spt[..length].to_vec(), ..listing.clone() }.gives(&kept, "62", 5);
        listing.gives(&kept, "63", 5);
    }
}

/// Passed over as incomplete, and then complete: behind it is not given, before us it is.
#[test]
fn completed_behind_and_before() {
    for mut listing in open_with(ignore(1, 0)) {
        let mut kept = three();
        assert_eq!(listing.next(&kept), None);
        record(&mut kept, "62", 3);
        listing.gives(&kept, "62", 5);
        record(&mut kept, "61", 3);
        assert_eq!(listing.next(&kept), None);
        record(&mut kept, "62", 2); // the record of the remembered key no longer matches
        record(&mut kept, "63", 3);
        let mut second = listing.clone();
        listing.gives(&kept, "63", 5);
        record(&mut kept, "63", 1);
        assert_eq!(second.next(&kept), None);
    }
}

/// [61] and [62] at 5 in subspace 1, [61] at 5 in subspace 3.
fn in_two_subspaces() -> Kept {
    let mut kept = Kept::open(4);
    for (low, text) in [(1, "61"), (1, "62"), (3, "61")] {
        assert_eq!(kept.ingest(entry(low, text, 5, 3, 9), 0).refusal, 0);
    }
    kept
}

/// Any key that the encoder writes will do: the step goes by its bytes.
#[test]
fn where_a_listing_goes_on() {
    let kept = in_two_subspaces();
    let below = [(0, "", 0), (0, "ff", u64::MAX), (1, "", 0), (1, "60/ff", 9), (1, "61", 4)];
    let second = [(1, "61", 5), (1, "61", 6), (1, "61/.", 0), (1, "6100", 0), (1, "62", 4)];
    let third = [(1, "62", 5), (1, "62/62", 5), (1, "ff", 0), (2, "", 0), (2, "ff", u64::MAX), (3, "61", 4)];
    let above = [(3, "61", 5), (3, "61", 6), (3, "61/61/61/61/61/61/61/61", 0), (4, "", 0), (u64::MAX, "ff", u64::MAX)];
    for (keys, gives) in [(&below[..], Some(0)), (&second, Some(1)), (&third, Some(2)), (&above, None)] {
        for (low, text, timestamp) in keys {
            let last = key(*low, text, *timestamp);
            for query in both(everything()) {
                assert_eq!(step(&kept, query, &last), Ok(gives), "{low} {text} {timestamp}");
            }
            for query in both(area(0, 3, "61", times(5, 6, 0))) {
                assert_eq!(step(&kept, query, &last), Ok(gives.and(Some(2)))); // the first two do not match
            }
            for query in turned() {
                assert_eq!(step(&kept, query, &last), Ok(None));
            }
        }
    }
}

/// Queries whose start is above their end.
fn turned() -> [Query; 4] {
    let [by_area, by_range] = both(area(1, 0, "", times(6, 5, 0)));
    let subspaces = raw::Subspaces { start: subspace(4), end: subspace(1), open: 0 };
    [by_area, by_range, Range(range(path("62"), path("61"), 0)), Range(raw::Range { subspaces, ..range(path(""), path(""), 1) })]
}

/// What no encoder writes, or the time-first one alone: 5, where nothing could match too; and 1, 2, 3 and 4 go before it.
#[test]
fn keys_that_are_none() {
    let kept = in_two_subspaces();
    let good = key(1, "61", 5);
    assert_eq!(good, [&[0; 15][..], &[1, 0x61, 0, 1, 0, 0], &[0; 7], &[5]].concat());
    let mut bad: Vec<Vec<u8>> = (1..29).map(|cut| good[..cut].to_vec()).collect();
    bad.extend([0, 1, 0xff].map(|byte| [&good[..], &[byte]].concat()));
    bad.extend([1, 25, 27, 299, 300].map(|length| vec![0; length]));
    let components = |count| [&good[..16], &[0x61, 0, 1].repeat(count), &[0; 10]].concat();
    assert_eq!([7, 8].map(|count| step(&kept, Area(everything()), &components(count))), [Ok(Some(1)); 2]);
    bad.push(components(9));
    let of_lengths = |lengths: &[usize]| {
        [&good[..16], &lengths.iter().flat_map(|n| [&vec![0x61; *n][..], &[0, 1]].concat()).collect::<Vec<_>>(), &[0; 10]].concat()
    };
    assert_eq!([&[64][..], &[64, 64]].map(|lengths| step(&kept, Area(everything()), &of_lengths(lengths))), [Ok(Some(1)); 2]);
    bad.extend([&[65][..], &[43, 43, 43]].map(of_lengths)); // a component of 65 bytes, 129 bytes in all
    for malformed in [[0x61, 0, 0], [0x61, 0, 3], [0, 2, 0], [0, 3, 0]] {
        bad.extend((7..20).map(|zeros| [&good[..16], &malformed, &vec![0; zeros]].concat()));
    }
    let mut time_first = vec![0; raw::KEY_MOST];
    assert_eq!(raw::encode_tsp_entry_key(subspace(1), path("61"), 5, &mut time_first).length, 29);
    bad.push(time_first[..29].to_vec());
    assert_eq!(bad.len(), 92);

    let illegal_area = raw::Area { path: illegal()[2], ..everything() };
    let illegal_range = range(path(""), illegal()[3], 0);
    for bytes in &bad {
        assert_eq!(raw::decode_spt_entry_key(bytes).refusal, 5);
        for query in both(everything()).into_iter().chain(turned()) {
            assert_eq!(step(&kept, query, bytes), Err(5), "{bytes:?}");
        }
        for query in [Area(illegal_area), Range(illegal_range)] {
            assert_eq!(step(&kept, query, bytes), Err(4));
            let mut other = kept.clone();
            other.state.count = 2;
            assert_eq!(step(&other, query, bytes), Err(3));
            other.spt.pop();
            assert_eq!(step(&other, query, bytes), Err(2));
            other.state.limit = 0;
            assert_eq!(step(&other, query, bytes), Err(1));
        }
    }
}

/// The time-first key of the empty path in subspace 1 at 0 is also the subspace-first key of the empty path in subspace 0 at 65,536: it is taken, by its bytes.
#[test]
fn a_key_of_both_orders() {
    let mut kept = in_two_subspaces();
    let mut out = [0; raw::KEY_MOST];
    assert_eq!(raw::encode_tsp_entry_key(subspace(1), path(""), 0, &mut out).length, 26);
    assert_eq!(out[..26], key(0, "", 65536));
    for (timestamp, first, pruned) in [(65536, 1, 0), (65537, 0, 1)] {
        assert_eq!(kept.ingest(entry(0, "", timestamp, 3, 9), 0).pruned, pruned);
        assert_eq!(both(everything()).map(|query| step(&kept, query, &out[..26])), [Ok(Some(first)); 2]);
    }
}
