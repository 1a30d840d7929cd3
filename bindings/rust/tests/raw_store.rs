//! `raw` over a store, in buffers that are as long as asked and no longer. The answers are written by hand from document 01.
mod common;
use common::*;
use virebony::raw;

/// The bytes of a record at a path of one component of a byte, and at one of two: 29 and 32 of key, and 121 of value.
const ONE: u32 = 150;
const TWO: u32 = 153;
/// Where in a record of ONE bytes the last byte of the available length lies: its value from 29 on, therein 104 to 111, and behind it nine bytes of origin.
const ARRIVED: usize = 140;
/// The bytes of a tree of limit 2.
const ROOM: usize = 838;

#[test]
fn opening_writes_zeros_up_to_the_limit() {
    let mut kept = Kept::lent(3);
    let before = kept.clone();
    for limit in [0, 1025, usize::MAX] {
        let refused = raw::Opened { refusal: 1, state: raw::State::default() };
        assert_eq!(raw::open(&[0xaa; 16], limit, &mut kept.buffers_mut()), refused);
    }
    let short = raw::Opened { refusal: 2, state: raw::State::default() };
    assert_eq!(raw::open(&[0xaa; 16], 4, &mut kept.buffers_mut()), short);
    let mut lent = kept.buffers_mut();
    lent.tally = &mut lent.tally[..83];
    assert_eq!(raw::open(&[0xaa; 16], 3, &mut lent), short);
    assert_eq!(kept, before);
    let opened = raw::open(&[0xaa; 16], 2, &mut kept.buffers_mut());
    assert_eq!(opened, raw::Opened { refusal: 0, state: raw::State { namespace_id: [0xaa; 16], count: 0, limit: 2 } });
    assert!(kept.spt[..ROOM].iter().chain(&kept.tsp[..ROOM]).all(|byte| *byte == 0));
    assert_eq!([&kept.spt_dir[..4], &kept.tsp_dir[..4]], [[0; 4]; 2]);
    assert_eq!((&kept.spt[ROOM..], &kept.spt_dir[4..]), (&before.spt[ROOM..], &before.spt_dir[4..])); // what lies beyond stays
    assert_eq!((&kept.tsp[ROOM..], &kept.tsp_dir[4..]), (&before.tsp[ROOM..], &before.tsp_dir[4..]));
    assert_eq!((&kept.tally[..56], &kept.tally[56..]), (&[0; 56][..], &before.tally[56..]));
}

/// Each of the five buffers one element too short, and all of them empty.
#[test]
fn short_buffers() {
    for which in 0..6 {
        let mut kept = Kept::lent(1);
        let mut lent = kept.buffers_mut();
        match which {
            0 => lent.spt = &mut lent.spt[1..],
            1 => lent.spt_dir = &mut lent.spt_dir[1..],
            2 => lent.tsp = &mut lent.tsp[1..],
            3 => lent.tsp_dir = &mut lent.tsp_dir[1..],
            4 => lent.tally = &mut lent.tally[1..],
            _ => lent = raw::BuffersMut { spt: &mut [], spt_dir: &mut [], tsp: &mut [], tsp_dir: &mut [], tally: &mut [] },
        }
        assert_eq!(raw::open(&[0; 16], 1, &mut lent).refusal, 2);
        if which == 4 {
            continue; // no other call of these is lent the tally
        }
        let state = raw::State { limit: 1, ..Default::default() };
        assert_eq!(raw::count_area(state, lent.as_buffers(), everything()), raw::Counted { refusal: 2, count: 0 });
        let refused = raw::AvailableRecorded { refusal: 2, state };
        assert_eq!(raw::record_available_length(state, &mut lent.as_trees(), subspace(1), illegal()[0], 0, &[0; 32], 0), refused);
        assert_eq!(raw::forget_payload(state, &mut lent.as_trees(), subspace(1), illegal()[0], 0, &[0; 32]), refused);
    }
}

/// Refusals 1, 2 and 3 of every call, before any other.
#[test]
fn what_no_call_takes() {
    let mut kept = Kept::open(2);
    kept.ingest(entry(1, "61", 5, 3, 9), 0);
    let good = kept.clone();
    for want in 1..=4 {
        let mut state = kept.state;
        match want {
            1 => state.limit = 0,
            2 => state.limit = 3,
            3 => state.count = 2,
            _ => (),
        }
        refused_by_all(state, &mut kept.buffers_mut(), illegal()[1], want);
    }
    assert_eq!(kept, good);
}

#[test]
fn ingestion_one_after_another() {
    let mut kept = Kept::open(4);
    let taken = kept.ingest(entry(1, "61/62", 5, 3, 9), 0);
    assert_eq!((taken.refusal, taken.obsolete, taken.pruned, taken.state.count), (0, 0, 0, 1));
    assert_eq!(kept.spt_dir[..4], [0, TWO, 0, 0]);
    assert_eq!(kept.prune, [UNTOUCHED; 4]);
    assert_eq!(kept.ingest(entry(1, "61", 6, 3, 9), 1).refusal, 7); // it would prune
    let obsolete = kept.ingest(entry(1, "61/62", 4, 3, 9), 2); // obsolete goes before 7
    assert_eq!((obsolete.refusal, obsolete.obsolete, obsolete.state.count, obsolete.token), (0, 1, 1, TOKEN));
    assert_eq!(obsolete.newer, raw::Entry { path: answered("61/62"), ..entry(1, "", 5, 3, 9) });
    let above = kept.ingest(entry(1, "61", 6, 3, 9), 0); // the older one is removed
    assert_eq!((above.refusal, above.obsolete, above.pruned, above.state.count), (0, 0, 1, 1));
    assert_eq!(kept.prune, [raw::Pair { offset: 0, length: TWO }, UNTOUCHED, UNTOUCHED, UNTOUCHED]);
    let below = kept.ingest(entry(1, "61/62", 6, 3, 9), 255); // of equal rank: two
    assert_eq!((below.refusal, below.obsolete, below.pruned, below.state.count, below.token), (0, 0, 0, 2, [0; 64]));
    let elsewhere = raw::Entry { namespace_id: [1; 16], ..entry(1, "61", 9, 3, 9) };
    assert_eq!(kept.ingest(elsewhere, 0).refusal, 6);
}

/// An ingestion that was taken: how many it pruned, and how many entries there are then.
fn taken(answer: raw::Ingested) -> (usize, usize) {
    assert_eq!((answer.refusal, answer.obsolete, answer.held), (0, 0, 0));
    (answer.pruned, answer.state.count)
}

/// Document 02's U3: of entries equal in timestamp, digest and length, one path extending the other, none removes another.
#[test]
fn ties_in_either_order() {
    let (above, below) = (entry(1, "61", 5, 3, 9), entry(1, "61/62", 5, 3, 9));
    let (mut kept, mut other) = (Kept::open(2), Kept::open(2));
    assert_eq!([below, above].map(|e| taken(kept.ingest(e, 1))), [(0, 1), (0, 2)]); // pruning prevented: nothing would be removed
    assert_eq!([above, below].map(|e| taken(other.ingest(e, 0))), [(0, 1), (0, 2)]);
    assert_eq!(kept, other); // every byte, and the lists of pairs as they were lent
    assert_eq!([&kept.spt_dir, &kept.tsp_dir], [&[0, ONE, ONE, TWO]; 2]);
    assert_eq!(kept.prune, [UNTOUCHED; 2]);
    assert_eq!(raw::decode_spt_entry_key(&kept.spt[150..182]).path, answered("61/62"));
    assert_eq!(raw::decode_tsp_entry_key(&kept.tsp[150..182]).path, answered("61/62"));
    assert_eq!(kept.tally, items(2, &[(0, 1, 2, 5)]));
    assert_eq!(taken(kept.ingest(entry(1, "", 6, 0, 0), 0)), (2, 1)); // a later one above removes both
    assert_eq!(kept.prune, [raw::Pair { offset: 0, length: ONE }, raw::Pair { offset: ONE, length: TWO }]);
}

#[test]
fn a_tie_makes_no_room_in_a_full_store() {
    let mut kept = Kept::open(1);
    assert_eq!(taken(kept.ingest(entry(1, "61/62", 5, 3, 9), 0)), (0, 1));
    let (full, state, above) = (kept.clone(), kept.state, entry(1, "61", 5, 3, 9));
    for prevent in [0, 1] {
        assert_eq!(kept.ingest(above, prevent).refusal, 8); // with pruning prevented too: nothing would be removed
        assert_eq!(raw::ingest_entry_numbers(state, &mut kept.buffers_mut(), &mut [7; 2], above, &TOKEN, prevent, LOCAL).refusal, 8);
        let by_value =
            raw::ingest_entry_by_value(state, &mut kept.buffers_mut(), raw::Pairs { pairs: [UNTOUCHED; 1024] }, above, &TOKEN, prevent, LOCAL);
        assert_eq!((by_value.ingested.refusal, by_value.pairs), (8, [UNTOUCHED; 1024]));
    }
    assert_eq!(kept, full);
}

/// All six orders leave the same: both trees, their directories and a tally that counts three.
#[test]
fn three_ties_in_every_order() {
    let line = ["61", "61/62", "61/62/63"].map(|text| entry(1, text, 5, 3, 9));
    let stores = [[0, 1, 2], [0, 2, 1], [1, 0, 2], [1, 2, 0], [2, 0, 1], [2, 1, 0]].map(|order| {
        let mut kept = Kept::open(5);
        assert_eq!(order.map(|i| taken(kept.ingest(line[i], 1))), [(0, 1), (0, 2), (0, 3)]);
        kept
    });
    assert_eq!(stores[0].tally, items(5, &[(0, 1, 3, 5)]));
    assert_eq!(stores[0].spt_dir[..6], [0, ONE, ONE, TWO, ONE + TWO, TWO + 3]);
    assert!(stores.iter().all(|kept| *kept == stores[0]));
}

#[test]
fn an_older_one_beside_a_tie() {
    let mut kept = Kept::open(2);
    let above = entry(1, "61", 5, 3, 9);
    assert_eq!([("61/62", 3), ("61/63", 2)].map(|(text, length)| taken(kept.ingest(entry(1, text, 5, length, 9), 0))), [(0, 1), (0, 2)]);
    assert_eq!(kept.ingest(above, 1).refusal, 7);
    assert_eq!(taken(kept.ingest(above, 0)), (1, 2)); // the store was full, and [61][63] makes room
    assert_eq!(kept.prune, [raw::Pair { offset: TWO, length: TWO }, UNTOUCHED]);
    let found = |text| raw::find_entry(kept.state, kept.buffers(), subspace(1), path(text), ignore(0, 0)).found;
    assert_eq!(["61", "61/62", "61/63"].map(found), [1, 1, 0]);
}

/// [61][62], older or newer than [61] by its timestamp, digest or length: no tie.
#[test]
fn older_and_newer_below() {
    let [older, newer] = [[(4, 9, 255), (5, 9, 8), (5, 2, 9)], [(6, 0, 0), (5, 0, 10), (5, 4, 9)]];
    for (time, length, digest) in older.into_iter().chain(newer) {
        let mut kept = Kept::open(2);
        assert_eq!(taken(kept.ingest(entry(1, "61/62", time, length, digest), 0)), (0, 1));
        let prunes = older.contains(&(time, length, digest));
        let prevented = kept.clone().ingest(entry(1, "61", 5, 3, 9), 1).refusal;
        assert_eq!(prevented, if prunes { 7 } else { 0 });
        assert_eq!(taken(kept.ingest(entry(1, "61", 5, 3, 9), 0)), if prunes { (1, 1) } else { (0, 2) });
    }
}

/// Document 02's U2: held, over pair records, over numbers and by value, and no byte of any buffer is another.
#[test]
fn the_same_entry_twice() {
    let mut kept = Kept::open(2);
    for text in ["61", "61/62"] {
        assert_eq!(kept.ingest(entry(1, text, 5, 3, 9), 0).refusal, 0); // a tie; the store is then full
    }
    let (good, state) = (kept.clone(), kept.state);
    let held = raw::Ingested { refusal: 0, obsolete: 0, held: 1, pruned: 0, state, newer: raw::Entry::default(), token: [0; 64] };
    for text in ["61", "61/62"] {
        let mut e = entry(1, text, 5, 3, 9);
        for i in e.path.count..raw::MCC {
            e.path.ends[i] = 1000 + i; // not looked at, nor are the bytes behind
        }
        e.path.bytes[100] ^= 255;
        for (prevent, token) in [(0, TOKEN), (1, TOKEN), (0, [1; 64]), (255, [1; 64])] {
            let (mut pairs, mut numbers) = ([UNTOUCHED; 2], [0xeeee_eeee; 4]);
            let mut lent = kept.buffers_mut();
            assert_eq!(raw::ingest_entry(state, &mut lent, &mut pairs, e, &token, prevent, remote(8)), held);
            assert_eq!(raw::ingest_entry_numbers(state, &mut lent, &mut numbers, e, &token, prevent, remote(8)), held);
            let by_value = raw::ingest_entry_by_value(state, &mut lent, raw::Pairs { pairs: [UNTOUCHED; 1024] }, e, &token, prevent, remote(8));
            assert_eq!(by_value, raw::PairsIngested { ingested: held, pairs: [UNTOUCHED; 1024] });
            assert_eq!((pairs, numbers), ([UNTOUCHED; 2], [0xeeee_eeee; 4]));
        }
        let elsewhere = raw::Entry { namespace_id: [1; 16], ..e };
        assert_eq!(kept.ingest(elsewhere, 0).refusal, 6);
        assert_eq!(kept.ingest(raw::Entry { payload_length: 4, ..e }, 1).refusal, 7); // no resend
        kept.tally[0] ^= 1;
        assert_eq!(kept.ingest(e, 0).refusal, 10);
        kept.tally[0] ^= 1;
    }
    assert_eq!(kept, good);
}

#[test]
fn a_full_store_takes_what_prunes() {
    let mut kept = Kept::open(1);
    assert_eq!(kept.ingest(entry(1, "61", 5, 3, 9), 0).refusal, 0);
    assert_eq!(kept.ingest(entry(1, "62", 5, 3, 9), 0).refusal, 8);
    assert_eq!(kept.ingest(entry(1, "", 6, 3, 9), 0).pruned, 1);
    assert_eq!(kept.prune, [raw::Pair { offset: 0, length: ONE }]);
}

#[test]
fn short_prune_lists() {
    let mut kept = Kept::open(3);
    let (state, e) = (kept.state, entry(1, "61", 5, 3, 9));
    assert_eq!(raw::ingest_entry(state, &mut kept.buffers_mut(), &mut [UNTOUCHED; 2], e, &TOKEN, 0, LOCAL).refusal, 2);
    assert_eq!(raw::ingest_entry(state, &mut kept.buffers_mut(), &mut [], e, &TOKEN, 0, LOCAL).refusal, 2);
    assert_eq!(raw::ingest_entry_numbers(state, &mut kept.buffers_mut(), &mut [0; 5], e, &TOKEN, 0, LOCAL).refusal, 2);
}

#[test]
fn ingestion_over_numbers_and_by_value() {
    let mut kept = Kept::open(3);
    kept.ingest(entry(1, "61/62", 5, 3, 9), 0);
    kept.ingest(entry(1, "61/63", 5, 3, 9), 0);
    let (mut other, state, above) = (kept.clone(), kept.state, entry(1, "61", 6, 3, 9));
    let mut numbers = [0xeeee_eeee; 6];
    let first = raw::ingest_entry_numbers(state, &mut kept.buffers_mut(), &mut numbers, above, &TOKEN, 0, LOCAL);
    assert_eq!((first.refusal, first.obsolete, first.pruned, first.state.count), (0, 0, 2, 1));
    assert_eq!(numbers, [0, TWO, TWO, TWO, 0xeeee_eeee, 0xeeee_eeee]);
    let second = raw::ingest_entry_by_value(state, &mut other.buffers_mut(), raw::Pairs { pairs: [UNTOUCHED; 1024] }, above, &TOKEN, 0, LOCAL);
    assert_eq!(second.ingested, first);
    assert_eq!(second.pairs[..2], [raw::Pair { offset: 0, length: TWO }, raw::Pair { offset: TWO, length: TWO }]);
    assert_eq!(second.pairs[2..], [UNTOUCHED; 1022]);
    assert_eq!(other, kept);
}

/// Subspace 1: [61] at 40, [61][62] at 50, [63] at 20; subspace 2: [64] at 10. Payloads 0, 1, 2, 3 bytes long.
fn four() -> Kept {
    let mut kept = Kept::open(5);
    for (low, text, timestamp, length) in [(1, "61", 40, 0), (1, "63", 20, 2), (2, "64", 10, 3), (1, "61/62", 50, 1)] {
        assert_eq!(kept.ingest(entry(low, text, timestamp, length, 9), 0).refusal, 0);
    }
    assert_eq!(kept.state.count, 4);
    kept
}

#[test]
fn lookups() {
    let kept = four();
    let find = |low, text, i| raw::find_entry(kept.state, kept.buffers(), subspace(low), path(text), i);
    let found = find(1, "61/62", ignore(0, 0));
    let stored = raw::Entry { path: answered("61/62"), ..entry(1, "", 50, 1, 9) };
    let lengthy = raw::LengthyEntry { entry: stored, token: TOKEN, available: 0, origin: LOCAL };
    assert_eq!(found, raw::EntryFound { refusal: 0, found: 1, lengthy });
    assert_eq!(find(1, "61/62", ignore(128, 0)).found, 0); // its payload is not all there
    assert_eq!(find(1, "61", ignore(1, 0)).found, 1);
    assert_eq!(find(1, "61", ignore(0, 1)).found, 0); // its payload is empty
    assert_eq!(find(2, "61", ignore(0, 0)).found, 0);
}

#[test]
fn listings_and_counts() {
    let kept = four();
    let (state, lent, all, whole, none) = (kept.state, kept.buffers(), everything(), range(path(""), path(""), 1), ignore(0, 0));
    let mut last: &[u8] = &[];
    for (i, (low, text, timestamp)) in [(1, "61", 40), (1, "61/62", 50), (1, "63", 20), (2, "64", 10)].into_iter().enumerate() {
        let listed = raw::Listed { refusal: 0, found: 1 };
        assert_eq!([raw::query_area_found(state, lent, all, none, last), raw::query_range_found(state, lent, whole, none, last)], [listed; 2]);
        let part = kept.part(i);
        assert_eq!([raw::query_area(state, lent, all, none, last), raw::query_range(state, lent, whole, none, last)], [part; 2]);
        let record = kept.record(part);
        assert_eq!(raw::record_key(record), raw::Part { offset: 0, length: part.length - raw::VALUE });
        last = &record[..part.length - raw::VALUE];
        let triple = raw::Decoded { refusal: 0, subspace: subspace(low), path: answered(text), timestamp };
        assert_eq!(raw::decode_spt_entry_key(last), triple);
    }
    let finished = raw::Listed { refusal: 0, found: 0 };
    for last in [last, &key(2, "64", 11), &key(u64::MAX, "", 0)] {
        assert_eq!([raw::query_area_found(state, lent, all, none, last), raw::query_range_found(state, lent, whole, none, last)], [finished; 2]);
        let empty = raw::Part { offset: 0, length: 0 };
        assert_eq!([raw::query_area(state, lent, all, none, last), raw::query_range(state, lent, whole, none, last)], [empty; 2]);
    }
    let (some, from) = (area(0, 1, "61", times(0, 50, 0)), range(path("61/62"), path("64"), 0));
    assert_eq!(raw::query_area_found(state, lent, some, none, &key(1, "61", 40)), finished); // at 50 it is outside
    assert_eq!(raw::query_range(state, lent, from, none, &[]), kept.part(1));
    assert_eq!(raw::query_range_found(state, lent, from, ignore(7, 0), &[]), finished);
    assert_eq!([raw::count_area(state, lent, all), raw::count_area(state, lent, some)].map(|c| (c.refusal, c.count)), [(0, 4), (0, 1)]);
    assert_eq!([raw::summarise(state, lent, whole), raw::summarise(state, lent, from)].map(|c| (c.refusal, c.count)), [(0, 4), (0, 2)]);
}

/// Met from the newest: 50, 40, 20, 10, with payloads of 1, 0, 2, 3 bytes.
#[test]
fn areas_of_interest() {
    let kept = four();
    let to_range = |area, max_count, max_size| {
        let answer = raw::area_of_interest_to_range(kept.state, kept.buffers(), raw::Interest { area, max_count, max_size });
        assert_eq!(answer.refusal, 0);
        answer.range
    };
    let all = raw::area_to_range(everything()).range;
    for (max_count, max_size, start) in [(u64::MAX, u64::MAX, 10), (1, u64::MAX, 40), (u64::MAX, 2, 20), (0, 0, 50), (4, 6, 10)] {
        assert_eq!(to_range(everything(), max_count, max_size), raw::Range { times: times(start, 0, 1), ..all });
    }
    let nothing = area(0, 9, "61", times(3, 0, 1)); // no match: as given
    assert_eq!(to_range(nothing, 1, 1), raw::area_to_range(nothing).range);
}

#[test]
fn forgetting() {
    let mut kept = four();
    let state = kept.state;
    let refused = raw::forget_entry(state, &mut kept.buffers_mut(), subspace(1), path("63"), 1, &[8; 32]);
    assert_eq!(refused, raw::EntryForgotten { refusal: 9, state });
    let absent = raw::forget_entry(state, &mut kept.buffers_mut(), subspace(9), path("63"), 1, &[8; 32]);
    assert_eq!(absent, raw::EntryForgotten { refusal: 0, state });
    assert_eq!(kept, four());
    let done = raw::forget_entry(state, &mut kept.buffers_mut(), subspace(1), path("63"), 0, &[8; 32]); // the digest is not looked at
    assert_eq!((done.refusal, done.state.count), (0, 3));
    let done = raw::forget_entry(done.state, &mut kept.buffers_mut(), subspace(2), path("64"), 2, &[9; 32]);
    assert_eq!((done.refusal, done.state.count), (0, 2));
    let below = area(0, 1, "61/62", times(0, 0, 1));
    let done = raw::forget_area(done.state, &mut kept.buffers_mut(), everything(), 4, below); // [61]; below it is protected
    assert_eq!((done.refusal, done.forgotten, done.state.count), (0, 1, 1));
    let bad = raw::Area { path: illegal()[0], ..everything() };
    assert_eq!(raw::forget_area(done.state, &mut kept.buffers_mut(), everything(), 1, bad).refusal, 4);
    let done = raw::forget_area(done.state, &mut kept.buffers_mut(), everything(), 0, bad); // an absent protected area is not looked at
    assert_eq!((done.refusal, done.forgotten, done.state.count), (0, 1, 0));
    let empty = Kept::open(5);
    assert_eq!((kept.spt, kept.spt_dir, kept.tsp, kept.tsp_dir, kept.tally), (empty.spt, empty.spt_dir, empty.tsp, empty.tsp_dir, empty.tally));
}

/// A recording that answers the state handed in, as every one does: its refusal.
fn record(kept: &mut Kept, low: u64, text: &str, digest: Option<u8>, available: u64) -> u8 {
    let (state, expects) = (kept.state, digest.map_or(0, |byte| 1 + byte));
    let answer = raw::record_available_length(state, &mut kept.trees(), subspace(low), path(text), expects, &[digest.unwrap_or(0); 32], available);
    assert_eq!(answer.state, state);
    answer.refusal
}

/// The same for forgetting one.
fn forget_payload(kept: &mut Kept, low: u64, text: &str, digest: Option<u8>) -> u8 {
    let (state, expects) = (kept.state, digest.map_or(0, |byte| 1 + byte));
    let answer = raw::forget_payload(state, &mut kept.trees(), subspace(low), path(text), expects, &[digest.unwrap_or(0); 32]);
    assert_eq!(answer.state, state);
    answer.refusal
}

/// The available length of a stored entry.
fn available(kept: &Kept, low: u64, text: &str) -> u64 {
    let found = raw::find_entry(kept.state, kept.buffers(), subspace(low), path(text), ignore(0, 0));
    assert_eq!((found.refusal, found.found), (0, 1));
    found.lengthy.available
}

/// Of [61][62] and [61], which tie, the second has 3 of its 3 bytes: the 8 bytes of its available length in either tree, and nothing else, whose origin stands
/// behind. Then 1, and none.
#[test]
fn recorded_lengths() {
    let mut kept = Kept::open(3);
    assert_eq!(["61/62", "61"].map(|text| taken(kept.ingest_from(entry(1, text, 5, 3, 9), 1, remote(u64::MAX)))), [(0, 1), (0, 2)]);
    let filed = kept.clone();
    for (digest, length) in [(None, 3), (Some(9), 1), (None, 1), (Some(9), 0), (None, 2)] {
        let mut want = filed.clone();
        (want.spt[ARRIVED], want.tsp[ARRIVED]) = (length, length); // the record of [61] is the first
        assert_eq!((record(&mut kept, 1, "61", digest, length.into()), available(&kept, 1, "61")), (0, length.into()));
        assert_eq!(kept, want);
    }
    assert_eq!((forget_payload(&mut kept, 1, "61", Some(9)), &kept), (0, &filed));
    assert_eq!((forget_payload(&mut kept, 1, "61", None), &kept), (0, &filed)); // nothing has arrived: done all the same
    let long = raw::Entry { payload_length: u64::MAX, ..entry(2, "61", 5, 0, 9) };
    assert_eq!(taken(kept.ingest_from(long, 0, remote(0x1112_1314_1516_1718))), (0, 3));
    let (filed, last) = (kept.clone(), (ONE + TWO) as usize);
    for (number, written) in [(0x0102_0304_0506_0708, [1, 2, 3, 4, 5, 6, 7, 8]), (u64::MAX, [0xff; 8])] {
        let mut want = filed.clone();
        want.spt[last + ARRIVED - 7..=last + ARRIVED].copy_from_slice(&written);
        want.tsp[last + ARRIVED - 7..=last + ARRIVED].copy_from_slice(&written);
        assert_eq!((record(&mut kept, 2, "61", None, number), &kept, available(&kept, 2, "61")), (0, &want, number));
    }
    assert_eq!((forget_payload(&mut kept, 2, "61", None), &kept), (0, &filed));
}

/// Document 02's U4: 11 before 9, 12 after it, and 4 before all of them; the path is the exact one. Nothing changes.
#[test]
fn what_a_recording_refuses() {
    let mut kept = four();
    let (good, bad_path) = (kept.clone(), illegal()[2]);
    for (low, text) in [(2, "61"), (1, ""), (1, "61/62/63"), (1, "6162"), (1, "61/."), (2, "64/64"), (0, "64")] {
        for digest in [None, Some(9), Some(8)] {
            assert_eq!([0, 9, u64::MAX].map(|n| record(&mut kept, low, text, digest, n)), [11; 3]);
            assert_eq!(forget_payload(&mut kept, low, text, digest), 11);
        }
    }
    for (low, text, length) in [(1, "61", 0), (1, "61/62", 1), (1, "63", 2), (2, "64", 3)] {
        assert_eq!([0, length, length + 1, u64::MAX].map(|n| record(&mut kept, low, text, Some(8), n)), [9; 4]);
        assert_eq!([None, Some(9)].map(|digest| record(&mut kept, low, text, digest, length + 1)), [12; 2]);
        assert_eq!([None, Some(9)].map(|digest| record(&mut kept, low, text, digest, u64::MAX)), [12; 2]);
        assert_eq!(forget_payload(&mut kept, low, text, Some(8)), 9);
        // Nothing of a payload can always be there, of an empty one too.
        assert_eq!([None, Some(9)].map(|digest| record(&mut kept, low, text, digest, 0)), [0; 2]);
    }
    let state = kept.state;
    for (low, n) in [(1, 0), (9, u64::MAX)] {
        assert_eq!(raw::record_available_length(state, &mut kept.trees(), subspace(low), bad_path, 1, &[8; 32], n).refusal, 4);
        assert_eq!(raw::forget_payload(state, &mut kept.trees(), subspace(low), bad_path, 1, &[8; 32]).refusal, 4);
    }
    // An absent entry's forgetting is still done.
    assert_eq!(raw::forget_entry(state, &mut kept.buffers_mut(), subspace(2), path("61"), 1, &[8; 32]).refusal, 0);
    assert_eq!(kept, good);
}

/// [61][62] alone, then [61] alone: the other path is that of no entry.
#[test]
fn neither_extensions_nor_prefixes() {
    for (stored, other) in [("61/62", "61"), ("61", "61/62")] {
        let mut kept = Kept::open(1);
        kept.ingest(entry(1, stored, 5, 3, 9), 0);
        assert_eq!(record(&mut kept, 1, stored, Some(9), 3), 0);
        let good = kept.clone();
        assert_eq!([0, 3, 4].map(|n| record(&mut kept, 1, other, None, n)), [11; 3]);
        assert_eq!(forget_payload(&mut kept, 1, other, Some(9)), 11);
        assert_eq!((&kept, available(&kept, 1, stored)), (&good, 3));
    }
}

/// The flag of a lookup and of a listing goes by what was recorded; counts and the tally have all.
#[test]
fn recorded_lengths_and_flags() {
    let mut kept = four();
    let listed = |kept: &Kept| -> Vec<usize> {
        let (mut places, mut last, whole) = (vec![], vec![], range(path(""), path(""), 1));
        loop {
            let part = raw::query_area(kept.state, kept.buffers(), everything(), ignore(1, 0), &last);
            assert_eq!(raw::query_range(kept.state, kept.buffers(), whole, ignore(1, 0), &last), part);
            let Some(place) = (0..4).find(|place| part.length != 0 && kept.part(*place) == part) else { return places };
            assert!(!places.contains(&place));
            places.push(place);
            last = kept.record(part)[..raw::record_key(kept.record(part)).length].to_vec();
        }
    };
    assert_eq!(listed(&kept), [0]); // [61], whose payload is empty
    assert_eq!((record(&mut kept, 1, "63", None, 1), listed(&kept)), (0, vec![0]));
    assert_eq!((record(&mut kept, 1, "63", None, 2), listed(&kept)), (0, vec![0, 2]));
    assert_eq!((record(&mut kept, 2, "64", Some(9), 3), listed(&kept)), (0, vec![0, 2, 3]));
    let find = |kept: &Kept| raw::find_entry(kept.state, kept.buffers(), subspace(1), path("63"), ignore(1, 0)).found;
    assert_eq!(find(&kept), 1);
    assert_eq!((forget_payload(&mut kept, 1, "63", None), listed(&kept), find(&kept)), (0, vec![0, 3], 0));
    assert_eq!(raw::count_area(kept.state, kept.buffers(), everything()).count, 4);
    assert_eq!(kept.tally, four().tally);
}

/// A held resend keeps what was recorded; a newer entry at the place, and one filed again after a forgetting, has 0.
#[test]
fn recorded_lengths_and_ingestions() {
    let mut kept = Kept::open(2);
    kept.ingest(entry(1, "61", 5, 3, 9), 0);
    assert_eq!(record(&mut kept, 1, "61", None, 2), 0);
    let good = kept.clone();
    assert_eq!((kept.ingest(entry(1, "61", 5, 3, 9), 0).held, &kept, available(&kept, 1, "61")), (1, &good, 2));
    assert_eq!((kept.ingest(entry(1, "61", 4, 3, 9), 0).obsolete, &kept), (1, &good));
    assert_eq!((taken(kept.ingest(entry(1, "61/62", 5, 3, 9), 0)), available(&kept, 1, "61"), available(&kept, 1, "61/62")), ((0, 2), 2, 0)); // a tie
    assert_eq!((taken(kept.ingest(entry(1, "61", 6, 3, 9), 0)), available(&kept, 1, "61")), ((2, 1), 0));
    assert_eq!(record(&mut kept, 1, "61", None, 3), 0);
    kept.state = raw::forget_entry(kept.state, &mut kept.buffers_mut(), subspace(1), path("61"), 0, &[0; 32]).state;
    assert_eq!((record(&mut kept, 1, "61", None, 3), forget_payload(&mut kept, 1, "61", None)), (11, 11));
    assert_eq!((taken(kept.ingest(entry(1, "61", 6, 3, 9), 0)), available(&kept, 1, "61")), ((0, 1), 0));
}

/// Neither call is lent the tally or asks whether it is right; buffers may be longer than asked, and what lies beyond stays; one tree alone is no store.
#[test]
fn recordings_and_the_buffers() {
    let mut kept = Kept::open(2);
    kept.ingest(entry(1, "61", 5, 3, 9), 0);
    kept.tally[27] ^= 1;
    assert_eq!((record(&mut kept, 1, "61", None, 2), forget_payload(&mut kept, 1, "61", None)), (0, 0));
    kept.spt.extend([7; 5]);
    kept.tsp.extend([7; 5]);
    kept.spt_dir.extend([7; 3]);
    kept.tsp_dir.extend([7; 3]);
    assert_eq!(record(&mut kept, 1, "61", None, 3), 0);
    for tree in [&kept.spt, &kept.tsp] {
        assert_eq!((tree[ARRIVED], &tree[ROOM..]), (3, &[7; 5][..]));
    }
    assert_eq!((&kept.spt_dir[4..], &kept.tsp_dir[4..]), (&[7; 3][..], &[7; 3][..]));
    kept.spt[ARRIVED] = 2; // in one tree only
    let damaged = kept.clone();
    assert_eq!((record(&mut kept, 1, "61", Some(8), 4), forget_payload(&mut kept, 9, "61", None), &kept), (3, 3, &damaged));
    kept.tsp[ARRIVED] = 2;
    assert_eq!(forget_payload(&mut kept, 1, "61", None), 0);
}

/// A tally's bytes: these items, and zeros up to 28 × limit.
fn items(limit: usize, items: &[(u64, u64, u32, u64)]) -> Vec<u8> {
    let parts =
        |item: &(u64, u64, u32, u64)| [&item.0.to_be_bytes()[..], &item.1.to_be_bytes(), &item.2.to_be_bytes(), &item.3.to_be_bytes()].concat();
    let mut bytes: Vec<u8> = items.iter().flat_map(parts).collect();
    bytes.resize(28 * limit, 0);
    bytes
}

#[test]
fn the_tally_after_each_call() {
    let mut kept = Kept::open(5);
    kept.ingest(entry(0, "", 0, 0, 9), 0); // an item that begins with 19 zeros and ends with 8
    assert_eq!(kept.tally, items(5, &[(0, 0, 1, 0)]));
    kept.ingest(raw::Entry { subspace_id: raw::Subspace { high: 1, low: 0 }, ..entry(0, "61", u64::MAX, 0, 9) }, 0);
    kept.ingest(entry(7, "61", 5, 0, 9), 0);
    kept.ingest(entry(7, "62", 9, 0, 9), 0);
    let three = items(5, &[(0, 0, 1, 0), (0, 7, 2, 9), (1, 0, 1, u64::MAX)]);
    assert_eq!(kept.tally, three);
    assert_eq!((kept.ingest(entry(7, "62", 8, 0, 9), 0).obsolete, &kept.tally), (1, &three));
    assert_eq!((kept.ingest(entry(7, "", 8, 0, 9), 0).pruned, &kept.tally), (1, &three)); // one more, one less
    let done = raw::forget_entry(kept.state, &mut kept.buffers_mut(), subspace(7), path("62"), 0, &[0; 32]); // the newest goes
    assert_eq!(kept.tally, items(5, &[(0, 0, 1, 0), (0, 7, 1, 8), (1, 0, 1, u64::MAX)]));
    let done = raw::forget_entry(done.state, &mut kept.buffers_mut(), subspace(7), path(""), 0, &[0; 32]); // an item goes with its last entry
    assert_eq!(kept.tally, items(5, &[(0, 0, 1, 0), (1, 0, 1, u64::MAX)]));
    let done = raw::forget_area(done.state, &mut kept.buffers_mut(), area(0, 0, "", times(0, 0, 1)), 0, everything());
    assert_eq!((done.forgotten, kept.tally), (1, items(5, &[(1, 0, 1, u64::MAX)])));
}

/// Refusal 10 of the calls that file or drop entries: behind 1, 2 and 3 and before all others, and no byte is changed. No other call looks.
#[test]
fn wrong_tallies() {
    let mut kept = Kept::open(2);
    kept.ingest(entry(1, "61", 5, 3, 9), 0);
    let bad_path = illegal()[1];
    let older = raw::Entry { namespace_id: [1; 16], ..entry(1, "61", 4, 3, 8) };
    let no_path = raw::Entry { path: bad_path, ..older };
    for at in 0..56 {
        kept.tally[at] ^= 0x80;
        let before = kept.clone();
        for (short, count, want) in [(0, 1, 10), (1, 1, 2), (0, 0, 3), (56, 0, 2)] {
            let state = raw::State { count, ..kept.state };
            let mut lent = kept.buffers_mut();
            lent.tally = &mut lent.tally[..56 - short];
            for e in [older, no_path] {
                let refused = raw::Ingested { refusal: want, obsolete: 0, held: 0, pruned: 0, state, newer: raw::Entry::default(), token: [0; 64] };
                assert_eq!(raw::ingest_entry(state, &mut lent, &mut [UNTOUCHED; 2], e, &TOKEN, 1, LOCAL), refused);
                assert_eq!(raw::ingest_entry_numbers(state, &mut lent, &mut [7; 4], e, &TOKEN, 1, LOCAL), refused);
                let by_value = raw::ingest_entry_by_value(state, &mut lent, raw::Pairs { pairs: [UNTOUCHED; 1024] }, e, &TOKEN, 1, LOCAL);
                assert_eq!(by_value, raw::PairsIngested { ingested: refused, pairs: [UNTOUCHED; 1024] });
                let forgotten = raw::forget_entry(state, &mut lent, subspace(1), e.path, 1, &e.payload_digest);
                assert_eq!(forgotten, raw::EntryForgotten { refusal: want, state });
                let here = raw::Area { path: e.path, ..everything() };
                assert_eq!(raw::forget_area(state, &mut lent, here, 1, here), raw::AreaForgotten { refusal: want, state, forgotten: 0 });
            }
        }
        assert_eq!(kept, before);
        assert_eq!(raw::count_area(kept.state, kept.buffers(), everything()), raw::Counted { refusal: 0, count: 1 });
        kept.tally[at] ^= 0x80;
    }
    assert_eq!(kept.ingest(entry(1, "62", 5, 3, 9), 0).refusal, 0);
}

/// What lies beyond 28 × limit is not looked at, and stays.
#[test]
fn a_longer_tally() {
    let mut kept = Kept::open(2);
    kept.tally.extend([7; 3]);
    assert_eq!(kept.ingest(entry(1, "61", 5, 3, 9), 0).refusal, 0);
    assert_eq!((&kept.tally[..56], &kept.tally[56..]), (&items(2, &[(0, 1, 1, 5)])[..], &[7; 3][..]));
}
