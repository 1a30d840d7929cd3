//! `raw` and where entries came from: the nine bytes at a record's end, and what a lookup shows. The answers are written by hand from document 02's U6.
mod common;
use common::*;
use virebony::raw;

/// The bytes of a record at a path of one component of a byte: 29 of key, and 121 of value, of which the last nine are the origin.
const ONE: usize = 150;
/// What the trees of edition 5 had for each entry of the limit.
const RECORD_MOST_5: usize = 410;

/// Origins as they are handed in, and the kind and session that are kept: every byte but 0 means remote, and a local one's session is not looked at.
const ASKS: [(u8, u64, u8, u64); 11] = [
    (0, 0, 0, 0),
    (0, 7, 0, 0),
    (0, u64::MAX, 0, 0),
    (1, 7, 1, 7),
    (1, 0, 1, 0),
    (1, u64::MAX, 1, u64::MAX),
    (1, 0x0102_0304_0506_0708, 1, 0x0102_0304_0506_0708),
    (2, 7, 1, 7),
    (128, 0, 1, 0),
    (255, 7, 1, 7),
    (255, u64::MAX, 1, u64::MAX),
];

fn origin(remote: u8, session: u64) -> raw::Origin {
    raw::Origin { remote, session }
}

fn nine(kind: u8, session: u64) -> [u8; 9] {
    [&[kind][..], &session.to_be_bytes()].concat().try_into().unwrap()
}

/// Files by one of the three calls.
fn file(call: usize, kept: &mut Kept, entry: raw::Entry, origin: raw::Origin) -> raw::Ingested {
    let (state, limit) = (kept.state, kept.state.limit);
    let mut lent = kept.buffers_mut();
    let answer = match call {
        0 => raw::ingest_entry(state, &mut lent, &mut vec![UNTOUCHED; limit], entry, &TOKEN, 0, origin),
        1 => raw::ingest_entry_numbers(state, &mut lent, &mut vec![7; 2 * limit], entry, &TOKEN, 0, origin),
        _ => raw::ingest_entry_by_value(state, &mut lent, raw::Pairs::default(), entry, &TOKEN, 0, origin).ingested,
    };
    kept.state = answer.state;
    answer
}

/// Taken: how many were pruned, and how many there are then.
fn taken(answer: raw::Ingested) -> (usize, usize) {
    assert_eq!((answer.refusal, answer.obsolete, answer.held), (0, 0, 0));
    (answer.pruned, answer.state.count)
}

/// The nine bytes at the end of a record, by its places in the subspace-first tree and in the time-first one; and what the lookup shows.
fn came(kept: &Kept, text: &str, (spt, tsp): (usize, usize)) -> ([u8; 9], [u8; 9], raw::Origin) {
    let end = |tree: &[u8], dir: &[u32], place: usize| {
        let end = dir[2 * place] as usize + dir[2 * place + 1] as usize;
        <[u8; 9]>::try_from(&tree[end - 9..end]).unwrap()
    };
    let found = raw::find_entry(kept.state, kept.buffers(), subspace(1), path(text), ignore(0, 0));
    assert_eq!((found.refusal, found.found), (0, 1));
    let record = raw::query_area(kept.state, kept.buffers(), area(0, 1, text, times(0, 0, 1)), ignore(0, 0), &[]);
    let value = &kept.spt[record.offset..record.offset + record.length][record.length - raw::VALUE..];
    assert_eq!(value[raw::VALUE_ORIGIN..], end(&kept.spt, &kept.spt_dir, spt)); // the listing shows the same bytes
    assert_eq!(value[raw::VALUE_SESSION..], end(&kept.spt, &kept.spt_dir, spt)[1..]);
    (end(&kept.spt, &kept.spt_dir, spt), end(&kept.tsp, &kept.tsp_dir, tsp), found.lengthy.origin)
}

/// The same bytes in both trees, and the same origin in the lookup.
fn kept_as(kind: u8, session: u64) -> ([u8; 9], [u8; 9], raw::Origin) {
    (nine(kind, session), nine(kind, session), origin(kind, session))
}

/// [61] at 5, and [62] at 4, which is the second by key and the first by time.
fn two(call: usize, of_61: raw::Origin, of_62: raw::Origin) -> Kept {
    let mut kept = Kept::open(3);
    assert_eq!(taken(file(call, &mut kept, entry(1, "61", 5, 3, 9), of_61)), (0, 1));
    assert_eq!(taken(file(call, &mut kept, entry(1, "62", 4, 3, 9), of_62)), (0, 2));
    kept
}

#[test]
fn the_numbers_of_a_record() {
    assert_eq!((raw::RECORD_MOST, raw::VALUE, raw::KEY_MOST + raw::VALUE), (419, 121, 419));
    assert_eq!((raw::VALUE_PAYLOAD_LENGTH + 8, raw::VALUE_DIGEST + 32, raw::VALUE_TOKEN + 64), (raw::VALUE_DIGEST, raw::VALUE_TOKEN, 104));
    assert_eq!((raw::VALUE_AVAILABLE + 8, raw::VALUE_ORIGIN + 1, raw::VALUE_SESSION + 8), (112, 113, 121));
}

#[test]
fn origins_are_kept_by_every_way_of_filing() {
    for (i, (remote, session, kind, number)) in ASKS.into_iter().enumerate() {
        let next = ASKS[(i + 1) % ASKS.len()];
        let stores = [0, 1, 2].map(|call| two(call, origin(next.0, next.1), origin(remote, session)));
        assert!(stores.iter().all(|kept| *kept == stores[0]));
        assert_eq!(came(&stores[0], "61", (0, 1)), kept_as(next.2, next.3));
        assert_eq!(came(&stores[0], "62", (1, 0)), kept_as(kind, number));
    }
}

/// Nothing of the second origin is kept, and an obsolete entry's verdict shows none.
#[test]
fn held_and_obsolete_keep_the_first() {
    for (remote, session, kind, number) in ASKS {
        let good = two(0, LOCAL, origin(remote, session));
        let mut kept = good.clone();
        for (again, _, _, _) in ASKS {
            for call in 0..3 {
                let held = file(call, &mut kept, entry(1, "62", 4, 3, 9), origin(again, 99));
                let empty = raw::Entry::default();
                assert_eq!(held, raw::Ingested { refusal: 0, obsolete: 0, held: 1, pruned: 0, state: good.state, newer: empty, token: [0; 64] });
                let obsolete = file(call, &mut kept, entry(1, "62", 4, 2, 9), origin(again, 99));
                let newer = raw::Entry { path: answered("62"), ..entry(1, "", 4, 3, 9) };
                assert_eq!(obsolete, raw::Ingested { refusal: 0, obsolete: 1, held: 0, pruned: 0, state: good.state, newer, token: TOKEN });
            }
        }
        assert_eq!(kept, good);
        assert_eq!(came(&kept, "62", (1, 0)), kept_as(kind, number));
    }
}

#[test]
fn lookups_that_show_nothing() {
    let kept = two(0, remote(u64::MAX), remote(7));
    let find = |low, path, flags| raw::find_entry(kept.state, kept.buffers(), subspace(low), path, flags);
    assert_eq!(find(1, path("63"), ignore(0, 0)), shows_nothing(0));
    assert_eq!(find(2, path("62"), ignore(0, 0)), shows_nothing(0));
    assert_eq!(find(1, path("62"), ignore(1, 0)), shows_nothing(0)); // nothing of its payload is there
    assert_eq!(find(1, illegal()[3], ignore(0, 0)), shows_nothing(4));
}

/// What replaces an entry has its own origin, and so has one that was forgotten and is filed again, and a tie.
#[test]
fn the_next_entry_has_its_own() {
    for call in 0..3 {
        let mut kept = two(call, LOCAL, remote(7));
        assert_eq!(taken(file(call, &mut kept, entry(1, "62", 5, 3, 9), remote(8))), (1, 2));
        assert_eq!((came(&kept, "62", (1, 1)), came(&kept, "61", (0, 0))), (kept_as(1, 8), kept_as(0, 0)));
        kept.state = raw::forget_entry(kept.state, &mut kept.buffers_mut(), subspace(1), path("62"), 1, &[9; 32]).state;
        assert_eq!(taken(file(call, &mut kept, entry(1, "62", 5, 3, 9), LOCAL)), (0, 2));
        assert_eq!(came(&kept, "62", (1, 1)), kept_as(0, 0));
        assert_eq!(taken(file(call, &mut kept, entry(1, "62/63", 5, 3, 9), remote(0))), (0, 3));
        assert_eq!((came(&kept, "62", (1, 1)), came(&kept, "62/63", (2, 2))), (kept_as(0, 0), kept_as(1, 0)));
        assert_eq!(taken(file(call, &mut kept, entry(1, "", 6, 0, 9), remote(9))), (3, 1));
        assert_eq!(came(&kept, "", (0, 0)), kept_as(1, 9));
    }
}

/// The 8 bytes before the nine are written, and no other.
#[test]
fn recordings_leave_the_origin() {
    for (remote, session, kind, number) in ASKS {
        let good = two(0, origin(remote, 0x1122_3344_5566_7788), origin(remote, session));
        let mut kept = good.clone();
        let state = kept.state;
        for length in [3_u8, 1, 0, 2] {
            let answer = raw::record_available_length(state, &mut kept.trees(), subspace(1), path("62"), 1, &[9; 32], length.into());
            assert_eq!(answer, raw::AvailableRecorded { refusal: 0, state });
            let mut want = good.clone();
            (want.spt[2 * ONE - 10], want.tsp[ONE - 10]) = (length, length);
            assert_eq!((&kept, came(&kept, "62", (1, 0))), (&want, kept_as(kind, number)));
        }
        assert_eq!(raw::forget_payload(state, &mut kept.trees(), subspace(1), path("62"), 0, &[0; 32]).refusal, 0);
        assert_eq!(kept, good);
    }
}

/// Nine bytes that are no origin, or another in the other tree, make no store: 3 in every call, and nothing changes. Any origin in both trees is one.
#[test]
fn damaged_origins() {
    let wrong = [(2, 0), (2, 7), (255, 0), (255, u64::MAX), (0, 1), (0, 7), (0, 1 << 56), (0, u64::MAX)];
    let right = [(0, 0), (1, 0), (1, 1), (1, 7), (1, 7 << 56), (1, u64::MAX)];
    let stored = [(0, 0), (1, 7)];
    let good = two(0, LOCAL, remote(7));
    for (place, trees) in [(0, 1), (0, 2), (0, 3), (1, 1), (1, 2), (1, 3)] {
        for (kind, session) in wrong.into_iter().chain(right) {
            let mut kept = good.clone();
            let (spt, tsp) = ((place + 1) * ONE, (2 - place) * ONE); // where the record ends
            if trees & 1 != 0 {
                kept.spt[spt - 9..spt].copy_from_slice(&nine(kind, session));
            }
            if trees & 2 != 0 {
                kept.tsp[tsp - 9..tsp].copy_from_slice(&nine(kind, session));
            }
            let before = kept.clone();
            if right.contains(&(kind, session)) && (trees == 3 || stored[place] == (kind, session)) {
                assert_eq!(came(&kept, ["61", "62"][place], (place, 1 - place)), kept_as(kind, session));
                assert_eq!(kept.ingest(entry(1, "61", 5, 3, 9), 0).held, 1);
                assert_eq!(taken(kept.clone().ingest(entry(1, "63", 5, 3, 9), 0)), (0, 3));
            } else {
                let state = kept.state;
                refused_by_all(state, &mut kept.buffers_mut(), path("61"), 3);
                refused_by_all(state, &mut kept.buffers_mut(), illegal()[0], 3);
            }
            assert_eq!((kept.spt, kept.tsp, kept.tally), (before.spt, before.tsp, before.tally));
        }
    }
}

/// Trees as long as edition 5 asked, or one byte too short: 2 in every call. As long as asked: taken.
#[test]
fn trees_that_are_too_short() {
    for filed in [false, true] {
        let mut kept = Kept::open(2);
        if filed {
            assert_eq!(taken(kept.ingest(entry(1, "61", 5, 3, 9), 0)), (0, 1));
        }
        let (good, room) = (kept.clone(), 2 * raw::RECORD_MOST);
        for length in [2 * RECORD_MOST_5, room - 1] {
            for (spt, tsp) in [(length, room), (room, length), (length, length)] {
                let state = kept.state;
                let mut lent = kept.buffers_mut();
                (lent.spt, lent.tsp) = (&mut lent.spt[..spt], &mut lent.tsp[..tsp]);
                assert_eq!(raw::open(&[0; 16], 2, &mut lent), raw::Opened { refusal: 2, state: raw::State::default() });
                refused_by_all(state, &mut lent, path("61"), 2);
                refused_by_all(state, &mut lent, illegal()[0], 2);
            }
        }
        assert_eq!(kept, good);
        assert_eq!(taken(kept.ingest(entry(1, "62", 5, 3, 9), 0)), (0, 1 + usize::from(filed)));
    }
}
