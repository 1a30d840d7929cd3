//! Document 01's examples through `Store` and its values; the answers are written by hand.
use std::cmp::Ordering;
use virebony::*;

const NAMESPACE: NamespaceId = [3; 16];
const TOKEN: AuthorisationToken = [0x42; 64];
const LOCAL: EntryOrigin = EntryOrigin::Local;
const NONE: QueryIgnoreParams = QueryIgnoreParams { ignore_incomplete_payloads: false, ignore_empty_payloads: false };

fn path(components: &[&[u8]]) -> Path {
    Path::from_slices(components).unwrap()
}

fn subspace(low: u64) -> SubspaceId {
    SubspaceId { high: 0, low }
}

fn entry(low: u64, components: &[&[u8]], timestamp: u64, payload_length: u64, digest: u8) -> AuthorisedEntry {
    AuthorisedEntry::new(Entry::new(NAMESPACE, subspace(low), path(components), timestamp, payload_length, [digest; 32]), TOKEN)
}

fn success(pruned: usize) -> Result<EntryIngestionSuccess, Refusal> {
    Ok(EntryIngestionSuccess::Success { pruned })
}

#[test]
fn paths_ascend() {
    let ascending: [&[&[u8]]; 5] = [&[], &[b""], &[b"\0"], &[b"\x01"], &[b"a"]];
    for pair in ascending.map(path).windows(2) {
        assert_eq!((pair[0].cmp(&pair[1]), pair[1].cmp(&pair[0])), (Ordering::Less, Ordering::Greater));
    }
}

#[test]
fn prefixes_are_of_whole_components() {
    let a = path(&[b"a"]);
    assert!(a.is_prefix_of(&path(&[b"a", b"b"])) && path(&[b"a", b"b"]).is_prefixed_by(&a) && a.is_prefix_of(&a));
    assert!(!a.is_prefix_of(&path(&[b"ab"])));
}

#[test]
fn bounds_of_a_path() {
    assert!(Path::from_slices(&[[0; 64]]).is_ok());
    assert_eq!(Path::from_slices(&[[0; 65]]), Err(Refusal::IllegalPath));
    assert!(Path::from_slices(&[b"a"; 8]).is_ok());
    assert_eq!(Path::from_slices(&[b"a"; 9]), Err(Refusal::IllegalPath));
    assert_eq!(Path::from_slices(&[[0; 64], [0; 64]]).unwrap().path_length(), 128);
    assert_eq!(Path::from_slices(&[[0; 43]; 3]), Err(Refusal::IllegalPath)); // 129
    assert_eq!(Path::from_slices(&[vec![0; 1000]]), Err(Refusal::IllegalPath));
}

#[test]
fn a_path_by_its_components() {
    let p = path(&[b"ab", b"", b"c"]);
    assert_eq!(p.components().collect::<Vec<_>>(), [&b"ab"[..], b"", b"c"]);
    assert_eq!((p.component_count(), p.path_length(), p.component(2), p.component(3)), (3, 3, Some(&b"c"[..]), None));
    assert_eq!((p.to_string(), Path::new_empty().to_string(), format!("{p:?}")), ("6162/./63".into(), "-".into(), "Path(6162/./63)".into()));
    let behind = raw::Path { bytes: [7; 128], ends: [1, 9, 9, 9, 9, 9, 9, 9], count: 1 }; // what is not looked at does not count
    assert_eq!(Path::try_from(behind), Ok(path(&[b"\x07"])));
    assert_eq!(Path::try_from(raw::Path { count: 9, ..behind }), Err(Refusal::IllegalPath));
}

#[test]
fn entries_compared() {
    let (a, b) = (entry(1, &[b"a"], 5, 3, 9), entry(1, &[b"a", b"b"], 5, 3, 9));
    assert_eq!((a.entry().compare(b.entry()), b.entry().compare(a.entry())), (Recency::Same, Recency::Same)); // a tie
    let later = entry(1, &[b"a"], 6, 0, 0);
    assert_eq!((later.entry().compare(b.entry()), b.entry().compare(later.entry())), (Recency::Newer, Recency::Older));
    assert!(later.entry().prunes(b.entry()) && b.entry().is_pruned_by(later.entry()));
    assert!(!later.entry().is_pruned_by(b.entry()));
}

#[test]
fn times_of_an_area() {
    let at = |times, timestamp| Area::new(AreaSubspace::Any, Path::new_empty(), times).includes_triplet(&subspace(0), &path(&[b"a"]), timestamp);
    let closed = Range::new_closed(5, 10).unwrap();
    assert!(at(closed, 5) && at(closed, 9) && !at(closed, 10) && !at(closed, 4));
    assert!(at(Range::new_open(0), u64::MAX));
    assert_eq!((Range::new_closed(5, 5), closed.get_end(), Range::new_open(0).get_end()), (None, Some(&10), None));
}

#[test]
fn areas_as_3d_ranges() {
    let range = Range3d::from(Area::new(AreaSubspace::Id(subspace(u64::MAX)), path(&[b"a"]), Range::new_open(7)));
    assert_eq!(range.paths(), &Range::new(path(&[b"a"]), RangeEnd::Closed(path(&[b"a\0"]))));
    assert_eq!(range.subspaces(), &Range::new(subspace(u64::MAX), RangeEnd::Closed(SubspaceId { high: 1, low: 0 })));
    assert_eq!(range.times(), &Range::new_open(7));
    assert_eq!(Range3d::from(Area::new_full()), Range3d::new_full());
    assert!(range.includes_entry(entry(u64::MAX, &[b"a", b"b"], 7, 0, 0).entry()) && !range.includes_entry(entry(0, &[b"a"], 7, 0, 0).entry()));
    assert_eq!((path(&[b"a"]).greater_but_not_prefixed(), Path::new_empty().greater_but_not_prefixed()), (Some(path(&[b"a\0"])), None));
}

#[test]
fn subspaces_as_bytes() {
    let bytes = [1, 2, 3, 4, 5, 6, 7, 8, 9, 10, 11, 12, 13, 14, 15, 16];
    let subspace = SubspaceId::from(bytes);
    assert_eq!((subspace.high, subspace.low), (0x0102030405060708, 0x090a0b0c0d0e0f10));
    assert_eq!(<[u8; 16]>::from(subspace), bytes);
}

/// What a list of entries leaves in a store of this limit, each taken with so many pruned: how many, and the buffers' bytes.
fn filed(limit: usize, entries: &[(AuthorisedEntry, usize)]) -> (usize, Vec<u8>) {
    let mut store = Store::open(NAMESPACE, limit).unwrap();
    for (entry, pruned) in entries {
        let prevent = *pruned == 0; // where nothing is removed
        assert_eq!(store.ingest_entry(*entry, prevent, LOCAL), success(*pruned));
    }
    let (_, b) = store.as_parts();
    let numbers = [b.spt_dir, b.tsp_dir].concat().into_iter().flat_map(u32::to_be_bytes);
    (store.len(), [b.spt, b.tsp, store.tally().as_bytes()].concat().into_iter().chain(numbers).collect())
}

/// Document 02's U3: [61][62] and [61], equal in timestamp, digest and length, both stay, whichever came first, and the bytes are the same.
#[test]
fn ties_stay() {
    let [above, below, last] = [&[&b"a"[..]][..], &[b"a", b"b"], &[b"a", b"b", b"c"]].map(|components| entry(1, components, 5, 3, 9));
    let (count, two) = filed(4, &[(above, 0), (below, 0)]);
    assert_eq!((count, filed(4, &[(below, 0), (above, 0)])), (2, (2, two)));
    let three = filed(4, &[(above, 0), (below, 0), (last, 0)]);
    assert_eq!(three.0, 3);
    for [x, y, z] in [[above, last, below], [below, above, last], [below, last, above], [last, above, below], [last, below, above]] {
        assert_eq!(filed(4, &[(x, 0), (y, 0), (z, 0)]), three);
    }
    let mut store = Store::open(NAMESPACE, 1).unwrap();
    assert_eq!((store.ingest_entry(below, false, LOCAL), store.ingest_entry(above, false, LOCAL), store.len()), (success(0), Err(Refusal::Full), 1));
    let older = entry(1, &[b"a", b"c"], 5, 2, 9);
    assert_eq!(filed(2, &[(below, 0), (older, 0), (above, 1)]), filed(2, &[(above, 0), (below, 0)])); // the older one alone goes
    assert_eq!(filed(2, &[(below, 0), (above, 0), (entry(1, &[], 6, 0, 0), 2)]).0, 1); // a later one above removes both
    let mut store = Store::open(NAMESPACE, 3).unwrap();
    assert_eq!([last, below, above].map(|entry| store.ingest_entry(entry, true, LOCAL)), [success(0); 3]);
    assert_eq!(store.tally().of(subspace(1)).map(|item| (item.count, item.newest)), Some((3, 5)));
}

/// Document 02's U2, one after another: a resend, with another token, with pruning prevented, to a full store, beside a tie; and what is no resend.
#[test]
fn the_same_entry_twice() {
    let held = Ok(EntryIngestionSuccess::Held);
    let (above, below) = (entry(1, &[b"a"], 5, 3, 9), entry(1, &[b"a", b"b"], 5, 3, 9));
    let mut store = Store::open(NAMESPACE, 2).unwrap();
    assert_eq!((store.ingest_entry(above, false, LOCAL), store.ingest_entry(above, false, LOCAL)), (success(0), held));
    assert_eq!((store.ingest_entry(below, false, LOCAL), store.len()), (success(0), 2));
    let other_token = AuthorisedEntry::new(*above.entry(), [1; 64]);
    assert_eq!([false, true].map(|prevent| store.ingest_entry(other_token, prevent, LOCAL)), [held; 2]);
    assert_eq!([false, true].map(|prevent| store.ingest_entry(below, prevent, LOCAL)), [held; 2]);
    let stored = store.entry(&subspace(1), above.entry().path(), NONE).unwrap().map(|found| *found.entry());
    assert_eq!((stored, store.len()), (Some(above), 2)); // the first token stays, and the tie
    let elsewhere = Entry::new([4; 16], subspace(1), path(&[b"a"]), 5, 3, [9; 32]);
    assert_eq!(store.ingest_entry(AuthorisedEntry::new(elsewhere, TOKEN), false, LOCAL), Err(Refusal::OtherNamespace));
    for near in [entry(1, &[b"a"], 5, 4, 9), entry(1, &[b"a"], 5, 3, 10), entry(1, &[b"a"], 6, 3, 9)] {
        assert_eq!(store.ingest_entry(near, true, LOCAL), Err(Refusal::PruningPrevented));
    }
    let older = entry(1, &[b"a"], 5, 2, 9);
    assert_eq!(store.ingest_entry(older, false, LOCAL), Ok(EntryIngestionSuccess::Obsolete { obsolete: older, newer: above }));
}

#[test]
fn limit_one() {
    let mut store = Store::open(NAMESPACE, 1).unwrap();
    assert_eq!(store.ingest_entry(entry(1, &[b"a"], 5, 3, 9), false, LOCAL), success(0));
    assert_eq!(store.ingest_entry(entry(1, &[b"b"], 5, 3, 9), false, LOCAL), Err(Refusal::Full));
    assert_eq!(store.ingest_entry(entry(1, &[b"a"], 6, 3, 9), true, LOCAL), Err(Refusal::PruningPrevented));
    assert_eq!(store.ingest_entry(entry(1, &[b"a"], 6, 3, 9), false, LOCAL), success(1));
    assert_eq!((store.len(), store.limit(), store.is_empty(), store.namespace_id()), (1, 1, false, &NAMESPACE));
}

/// The four lines of document 01's listing program, and what it then lists.
#[test]
fn four_lines() {
    let lines = [entry(1, &[b"b"], 5, 3, 10), entry(1, &[b"b", b"\0"], 4, 3, 10), entry(1, &[b"a", b"b"], 7, 1, 11), entry(1, &[], 6, 0, 12)];
    let mut store = Store::open(NAMESPACE, 64).unwrap();
    let answers = lines.map(|line| store.ingest_entry(line, false, LOCAL));
    let obsolete = Ok(EntryIngestionSuccess::Obsolete { obsolete: lines[1], newer: lines[0] });
    assert_eq!(answers, [success(0), obsolete, success(0), success(1)]);
    let left = [lines[3], lines[2]].map(|entry| LengthyAuthorisedEntry::new(entry, 0, LOCAL));
    assert_eq!(store.query_area(&Area::new_full(), NONE).unwrap().collect::<Vec<_>>(), left);
    assert_eq!(store.query_range(&Range3d::new_full(), NONE).unwrap().collect::<Vec<_>>(), left);
}

/// Subspace 1: [61] at 40, [61][62] at 50, [63] at 20; subspace 2: [64] at 10. Payloads 0, 1, 2, 3 bytes long.
fn four() -> (Store, [AuthorisedEntry; 4]) {
    let entries = [entry(1, &[b"a"], 40, 0, 9), entry(1, &[b"a", b"b"], 50, 1, 9), entry(1, &[b"c"], 20, 2, 9), entry(2, &[b"d"], 10, 3, 9)];
    let mut store = Store::open(NAMESPACE, 5).unwrap();
    for entry in entries {
        assert_eq!(store.ingest_entry(entry, true, LOCAL), success(0));
    }
    (store, entries)
}

#[test]
fn lookups_listings_and_counts() {
    let (store, entries) = four();
    let (incomplete, empty) =
        (QueryIgnoreParams { ignore_incomplete_payloads: true, ..NONE }, QueryIgnoreParams { ignore_empty_payloads: true, ..NONE });
    let found = |entry: &AuthorisedEntry, ignore| store.entry(entry.entry().subspace_id(), entry.entry().path(), ignore).unwrap();
    for entry in &entries {
        assert_eq!(found(entry, NONE).map(|found| (found.available(), found.into_authorised_entry())), Some((0, *entry)));
    }
    assert_eq!(entries.each_ref().map(|entry| found(entry, incomplete).is_some()), [true, false, false, false]);
    assert_eq!(entries.each_ref().map(|entry| found(entry, empty).is_some()), [false, true, true, true]);
    assert_eq!(store.entry(&subspace(2), &path(&[b"a"]), NONE), Ok(None));

    let listed = |area: &Area, ignore| store.query_area(area, ignore).unwrap().map(|found| *found.entry()).collect::<Vec<_>>();
    assert_eq!(listed(&Area::new_full(), NONE), entries);
    assert_eq!(listed(&Area::new_full(), incomplete), entries[..1]);
    assert_eq!(listed(&Area::new_full(), empty), entries[1..]);
    assert_eq!(listed(&Area::new_subspace(subspace(2)), NONE), entries[3..]);
    let range = Range3d::new(Range::new_open(subspace(0)), Range::new_closed(path(&[b"a", b"b"]), path(&[b"d"])).unwrap(), Range::new_open(0));
    assert_eq!(store.query_range(&range, NONE).unwrap().map(|found| *found.entry()).collect::<Vec<_>>(), entries[1..3]);
    let below = Area::new(AreaSubspace::Any, path(&[b"a"]), Range::new_closed(0, 50).unwrap());
    assert_eq!((store.count_area(&Area::new_full()), store.count_area(&below), store.summarise(&range)), (Ok(4), Ok(1), Ok(2)));
}

#[test]
fn records_are_the_parts_that_the_archive_answers() {
    let (store, _) = four();
    let (state, buffers) = store.as_parts();
    let (mut entries, mut listing) = (store.query_area(&Area::new_full(), NONE).unwrap(), Listing::of_area(&Area::new_full(), NONE));
    let mut last: &[u8] = &[];
    for _ in 0..4 {
        let part = raw::query_area(state, buffers, Area::new_full().to_raw(), raw::Ignore::default(), last);
        let record = &buffers.spt[part.offset..part.offset + part.length];
        assert_eq!((entries.next_record(), listing.next_record(&store)), (Some(record), Ok(Some(record))));
        last = &record[..raw::record_key(record).length];
        assert_eq!(listing.last_key(), last);
    }
    assert_eq!((entries.next_record(), entries.next(), listing.next_record(&store), listing.next(&store)), (None, None, Ok(None), Ok(None)));
    assert_eq!(listing.last_key(), last);
}

#[test]
fn areas_of_interest() {
    let (store, _) = four();
    let start =
        |max_count, max_size| store.area_of_interest_to_range(&AreaOfInterest::new(Area::new_full(), max_count, max_size)).unwrap().times().start;
    assert_eq!([start(u64::MAX, u64::MAX), start(1, u64::MAX), start(u64::MAX, 2), start(0, 0)], [10, 40, 20, 50]);
    let nothing = Area::new(AreaSubspace::Id(subspace(9)), path(&[b"a"]), Range::new_open(3));
    assert_eq!(store.area_of_interest_to_range(&AreaOfInterest::new(nothing, 1, 1)), Ok(Range3d::from(nothing)));
}

#[test]
fn forgetting() {
    let (mut store, _) = four();
    assert_eq!(store.forget_entry(&subspace(1), &path(&[b"c"]), Some([8; 32])), Err(Refusal::OtherDigest));
    assert_eq!((store.forget_entry(&subspace(9), &path(&[b"c"]), Some([8; 32])), store.len()), (Ok(()), 4)); // absent: done
    assert_eq!((store.forget_entry(&subspace(1), &path(&[b"c"]), Some([9; 32])), store.len()), (Ok(()), 3));
    assert_eq!((store.forget_entry(&subspace(2), &path(&[b"d"]), None), store.len()), (Ok(()), 2));
    let below = Area::new(AreaSubspace::Any, path(&[b"a", b"b"]), Range::new_open(0));
    assert_eq!((store.forget_area(&Area::new_full(), Some(&below)), store.len()), (Ok(1), 1));
    assert_eq!((store.forget_area(&Area::new_full(), None), store.is_empty()), (Ok(1), true));
}

#[test]
fn tallies() {
    let item = |low, count, newest| TallyItem { subspace_id: subspace(low), count, newest };
    let (mut store, _) = four();
    assert_eq!(store.tally().collect::<Vec<_>>(), [item(1, 3, 50), item(2, 1, 10)]);
    assert_eq!((store.tally().len(), store.tally().as_bytes().len()), (2, 56));
    assert_eq!([0, 1, 2, 3].map(|low| store.tally().of(subspace(low))), [None, Some(item(1, 3, 50)), Some(item(2, 1, 10)), None]);
    let mut walked = store.tally();
    assert_eq!((walked.next(), walked.len(), walked.of(subspace(1))), (Some(item(1, 3, 50)), 1, Some(item(1, 3, 50))));
    store.forget_entry(&subspace(1), &path(&[b"a", b"b"]), None).unwrap(); // the newest goes
    assert_eq!(store.tally().of(subspace(1)), Some(item(1, 2, 40)));
    store.forget_area(&Area::new_subspace(subspace(1)), None).unwrap(); // an item goes with its last entry
    assert_eq!(store.tally().collect::<Vec<_>>(), [item(2, 1, 10)]);
    store.ingest_entry(entry(0, &[], 0, 0, 0), false, LOCAL).unwrap(); // subspace 0 at time 0: its item is no end of the items
    assert_eq!(store.tally().collect::<Vec<_>>(), [item(0, 1, 0), item(2, 1, 10)]);
    store.forget_area(&Area::new_full(), None).unwrap();
    assert_eq!((store.tally().next(), store.tally().of(subspace(0))), (None, None));
}

/// Document 02's U4: 11, 9 and 12 in this order, the exact path, and what a flag then passes over.
#[test]
fn how_much_has_arrived() {
    let (mut store, entries) = four();
    let incomplete = QueryIgnoreParams { ignore_incomplete_payloads: true, ..NONE };
    let (one, c, d) = (subspace(1), path(&[b"c"]), path(&[b"d"]));
    let listed = |store: &Store| store.query_area(&Area::new_full(), incomplete).unwrap().map(|found| *found.entry()).collect::<Vec<_>>();
    assert_eq!(listed(&store), entries[..1]);
    assert_eq!(store.record_available_length(&one, &d, Some([8; 32]), 9), Err(Refusal::AbsentEntry));
    assert_eq!(store.record_available_length(&one, &c, Some([8; 32]), 9), Err(Refusal::OtherDigest));
    assert_eq!(store.record_available_length(&one, &c, Some([9; 32]), 3), Err(Refusal::TooMuchAvailable));
    assert_eq!(store.forget_payload(&one, &path(&[b"a", b"c"]), None), Err(Refusal::AbsentEntry));
    assert_eq!(store.forget_payload(&one, &c, Some([8; 32])), Err(Refusal::OtherDigest));
    assert_eq!(store.record_available_length(&one, &c, Some([9; 32]), 2), Ok(()));
    assert_eq!(store.record_available_length(&subspace(2), &d, None, 2), Ok(()));
    assert_eq!(listed(&store), [entries[0], entries[2]]);
    let available = |store: &Store| store.query_area(&Area::new_full(), NONE).unwrap().map(|found| found.available()).collect::<Vec<_>>();
    assert_eq!(available(&store), [0, 0, 2, 2]);
    assert_eq!(store.ingest_entry(entries[2], false, LOCAL), Ok(EntryIngestionSuccess::Held));
    assert_eq!((store.entry(&one, &c, incomplete).unwrap().map(|found| found.available()), store.len()), (Some(2), 4));
    assert_eq!((store.forget_payload(&one, &c, Some([9; 32])), available(&store)), (Ok(()), vec![0, 0, 0, 2]));
    assert_eq!((store.record_available_length(&subspace(2), &d, None, 1), available(&store)), (Ok(()), vec![0, 0, 0, 1])); // smaller than before
    assert_eq!(store.ingest_entry(entry(2, &[b"d"], 11, 3, 9), false, LOCAL), success(1));
    assert_eq!(available(&store), [0; 4]); // a new entry starts at 0
}

/// Document 02's U6: an entry has the origin that it was filed with, in lookups and in listings, until another takes its place.
#[test]
fn where_entries_came_from() {
    use EntryOrigin::{Local, Remote};
    let origins = |store: &Store| {
        let listed: Vec<_> = store.query_area(&Area::new_full(), NONE).unwrap().collect();
        assert_eq!(store.query_range(&Range3d::new_full(), NONE).unwrap().collect::<Vec<_>>(), listed);
        for stored in &listed {
            let entry = stored.entry().entry();
            assert_eq!(store.entry(entry.subspace_id(), entry.path(), NONE), Ok(Some(*stored)));
        }
        listed.into_iter().map(|stored| stored.origin()).collect::<Vec<_>>()
    };
    let entries = [entry(1, &[b"a"], 5, 3, 9), entry(1, &[b"b"], 4, 3, 9), entry(2, &[b"a"], 3, 3, 9), entry(2, &[b"a", b"b"], 6, 3, 9)];
    let filed = [Remote(7), Local, Remote(0), Remote(u64::MAX)];
    let mut store = Store::open(NAMESPACE, 5).unwrap();
    for (entry, origin) in entries.into_iter().zip(filed).rev() {
        assert_eq!(store.ingest_entry(entry, true, origin), success(0));
    }
    assert_eq!(origins(&store), filed);
    for (entry, other) in entries.into_iter().zip([Local, Remote(7), Local, Remote(8)]) {
        let resent = AuthorisedEntry::new(*entry.entry(), [1; 64]);
        assert_eq!(store.ingest_entry(resent, false, other), Ok(EntryIngestionSuccess::Held));
    }
    let older = entry(1, &[b"a", b"c"], 4, 3, 9);
    let obsolete = Ok(EntryIngestionSuccess::Obsolete { obsolete: older, newer: entries[0] });
    assert_eq!((store.ingest_entry(older, false, Remote(9)), origins(&store)), (obsolete, filed.to_vec()));
    assert_eq!(store.entry(&subspace(1), &path(&[b"a"]), QueryIgnoreParams { ignore_incomplete_payloads: true, ..NONE }), Ok(None));
    store.record_available_length(&subspace(1), &path(&[b"a"]), None, 3).unwrap();
    store.record_available_length(&subspace(2), &path(&[b"a"]), Some([9; 32]), 2).unwrap();
    assert_eq!(origins(&store), filed); // what has arrived leaves them
    store.forget_payload(&subspace(1), &path(&[b"a"]), None).unwrap();
    assert_eq!(origins(&store), filed);
    assert_eq!(store.ingest_entry(entry(1, &[b"a"], 6, 3, 9), false, Remote(8)), success(1)); // another entry at the place
    assert_eq!(origins(&store), [Remote(8), Local, Remote(0), Remote(u64::MAX)]);
    store.forget_entry(&subspace(2), &path(&[b"a"]), None).unwrap();
    assert_eq!(store.ingest_entry(entries[2], false, Local), success(0)); // forgotten and filed again
    assert_eq!(origins(&store), [Remote(8), Local, Local, Remote(u64::MAX)]);
    assert_eq!(store.ingest_entry(entry(2, &[], 7, 3, 9), false, Remote(3)), success(2));
    assert_eq!(origins(&store), [Remote(8), Local, Remote(3)]);
}

#[test]
fn an_origin_in_memory() {
    let raw_origin = |remote, session| raw::Origin { remote, session };
    assert_eq!(EntryOrigin::Local.to_raw(), raw_origin(0, 0));
    assert_eq!([0, 7, u64::MAX].map(|session| EntryOrigin::Remote(session).to_raw()), [0, 7, u64::MAX].map(|session| raw_origin(1, session)));
    assert!(EntryOrigin::Local < EntryOrigin::Remote(0) && EntryOrigin::Remote(0) < EntryOrigin::Remote(1));
}

/// Every number of subspaces up to the limit, so that halving meets every one.
#[test]
fn an_item_for_each_subspace() {
    let mut store = Store::open(NAMESPACE, 20).unwrap();
    for n in 0..20 {
        store.ingest_entry(entry(2 * n, &[b"a"], n, 0, 0), false, LOCAL).unwrap();
        assert_eq!(store.tally().len(), n as usize + 1);
        for low in 0..41 {
            let there = low % 2 == 0 && low <= 2 * n;
            assert_eq!(store.tally().of(subspace(low)).map(|item| (item.count, item.newest)), there.then_some((1, low / 2)));
        }
    }
}

#[test]
fn what_a_store_refuses() {
    for limit in [0, 1025, usize::MAX] {
        assert_eq!(Store::open(NAMESPACE, limit).unwrap_err(), Refusal::BadLimit);
    }
    let mut store = Store::open([4; 16], 1024).unwrap();
    assert_eq!(store.ingest_entry(entry(1, &[], 1, 0, 0), false, LOCAL), Err(Refusal::OtherNamespace));
    let error: Box<dyn std::error::Error> = Refusal::OtherNamespace.into();
    assert_eq!(error.to_string(), "the entry names another namespace");
}
