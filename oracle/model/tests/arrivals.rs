//! Document 02's U4, how much has arrived: answers written by hand from its paragraph.
use model::*;

fn p(comps: &[u8]) -> Path {
    comps.iter().map(|c| vec![*c]).collect()
}
fn sub(n: u8) -> Subspace {
    let mut s = [0; 16];
    s[15] = n;
    s
}
fn entry(path: &[u8], timestamp: u64, payload_length: u64) -> Entry {
    Entry { namespace: [0; 16], subspace: sub(1), path: p(path), timestamp, payload_length, payload_digest: [10; 32] }
}
/// A store of limit 4 that took these entries, with token 07.
fn store(entries: &[Entry]) -> Store {
    let mut s = Store::open([0; 16], 4, FIELD).unwrap();
    for e in entries {
        assert_eq!(s.ingest(e, &[7; 64], false, LOCAL), Ok(Verdict::Taken(vec![])));
    }
    s
}
fn available(s: &Store) -> Vec<u64> {
    s.entries().iter().map(|x| x.available).collect()
}
const LOCAL: EntryOrigin = EntryOrigin::Local;
const RIGHT: Option<&Digest> = Some(&[10; 32]);
const WRONG: Option<&Digest> = Some(&[11; 32]);
const INCOMPLETE: Ignore = Ignore { incomplete: true, empty: false };

/// Records, and says what is then available; refused, nothing has changed.
fn record(s: &mut Store, path: &[u8], expected: Option<&Digest>, n: u64) -> Result<u64, Refusal> {
    let before = s.clone();
    let answer = s.record_available_length(&sub(1), &p(path), expected, n);
    let now = s.entries().iter().find(|x| x.entry.subspace == sub(1) && x.entry.path == p(path)).map(|x| x.available);
    match answer {
        Ok(()) => Ok(now.expect("done, and nothing is stored")),
        Err(n) => {
            assert_eq!(*s, before);
            Err(n)
        }
    }
}
fn forget(s: &mut Store, path: &[u8], expected: Option<&Digest>) -> Result<(), Refusal> {
    let before = s.clone();
    let answer = s.forget_payload(&sub(1), &p(path), expected);
    assert!(answer.is_ok() || *s == before);
    answer
}

#[test]
fn lengths() {
    let mut s = store(&[entry(&[0x61], 5, 3)]);
    // Any number up to the payload length, smaller than before too.
    for n in [2, 3, 1, 1, 0, 3] {
        assert_eq!(record(&mut s, &[0x61], None, n), Ok(n));
    }
    for n in [4, 5, u64::MAX] {
        assert_eq!(record(&mut s, &[0x61], None, n), Err(12));
    }
    assert_eq!(available(&s), [3]);
    let mut none = store(&[entry(&[0x61], 5, 0)]);
    assert_eq!((record(&mut none, &[0x61], None, 0), record(&mut none, &[0x61], None, 1)), (Ok(0), Err(12)));
    let mut most = store(&[entry(&[0x61], 5, u64::MAX)]);
    assert_eq!((record(&mut most, &[0x61], None, u64::MAX), record(&mut most, &[0x61], None, u64::MAX - 1)), (Ok(u64::MAX), Ok(u64::MAX - 1)));
}

#[test]
fn forgetting() {
    let mut s = store(&[entry(&[0x61], 5, 3), entry(&[0x62], 5, 3)]);
    assert_eq!((record(&mut s, &[0x61], None, 2), record(&mut s, &[0x62], None, 3)), (Ok(2), Ok(3)));
    assert_eq!(forget(&mut s, &[0x61], None), Ok(()));
    assert_eq!(available(&s), [0, 3]);
    // At 0 already; of an empty payload.
    assert_eq!(forget(&mut s, &[0x61], None), Ok(()));
    assert_eq!(forget(&mut s, &[0x62], RIGHT), Ok(()));
    assert_eq!(available(&s), [0, 0]);
    assert_eq!(forget(&mut store(&[entry(&[0x61], 5, 0)]), &[0x61], None), Ok(()));
    // It does not forget the entry, which forget_entry does, of an absent one too.
    assert_eq!(s.entries().len(), 2);
    assert_eq!((forget(&mut s, &[0x63], None), s.forget_entry(&sub(1), &p(&[0x63]), WRONG)), (Err(11), Ok(())));
}

/// 11 before 9 before 12; 1 and 4 before them all.
#[test]
fn order_of_refusals() {
    let mut s = store(&[entry(&[0x61], 5, 3)]);
    record(&mut s, &[0x61], RIGHT, 2).unwrap();
    // A wrong digest, with a length that would do and one that is too great.
    assert_eq!((record(&mut s, &[0x61], WRONG, 1), record(&mut s, &[0x61], WRONG, 4)), (Err(9), Err(9)));
    assert_eq!((record(&mut s, &[0x61], RIGHT, 4), record(&mut s, &[0x61], RIGHT, 3)), (Err(12), Ok(3)));
    assert_eq!((forget(&mut s, &[0x61], WRONG), forget(&mut s, &[0x61], RIGHT)), (Err(9), Ok(())));
    // No entry there, whatever is expected or recorded.
    for expected in [None, RIGHT, WRONG] {
        assert_eq!((record(&mut s, &[0x62], expected, 0), record(&mut s, &[0x62], expected, u64::MAX), forget(&mut s, &[0x62], expected)), (Err(11), Err(11), Err(11)));
        // Nor can there be one: the path is illegal.
        assert_eq!((record(&mut s, &[0x61; 9], expected, u64::MAX), forget(&mut s, &[0x61; 9], expected)), (Err(4), Err(4)));
        let mut none = Store::closed(FIELD);
        assert_eq!((record(&mut none, &[0x61], expected, 0), record(&mut none, &[0x61; 9], expected, 0), forget(&mut none, &[0x61; 9], expected)), (Err(1), Err(1), Err(1)));
    }
    // Of another subspace, and of an empty store.
    assert_eq!(s.record_available_length(&sub(2), &p(&[0x61]), None, 1), Err(11));
    assert_eq!(record(&mut store(&[]), &[0x61], None, 0), Err(11));
    // The tally is not lent: a wrong one is nothing to these calls.
    s.poke_tally(20, 4);
    assert_eq!(s.forget_entry(&sub(1), &p(&[0x61]), None), Err(10));
    assert_eq!((record(&mut s, &[0x61], None, 2), forget(&mut s, &[0x61], None), record(&mut s, &[0x61], None, 1)), (Ok(2), Ok(()), Ok(1)));
    assert_eq!(s.forget_entry(&sub(1), &p(&[0x61]), None), Err(10));
}

/// Exactly the path, where the Rust's `forget_payload` meets an extension.
#[test]
fn exact_paths() {
    let mut s = store(&[entry(&[0x61, 0x62], 5, 3)]);
    record(&mut s, &[0x61, 0x62], None, 2).unwrap();
    for absent in [&[0x61][..], &[], &[0x61, 0x62, 0x63], &[0x61, 0x63]] {
        assert_eq!((record(&mut s, absent, None, 0), record(&mut s, absent, RIGHT, 3), forget(&mut s, absent, None)), (Err(11), Err(11), Err(11)));
    }
    assert_eq!(available(&s), [2]);
    // [61 62] is another path than [61][62].
    assert_eq!(s.record_available_length(&sub(1), &vec![vec![0x61, 0x62]], None, 1), Err(11));
    // Both stored, tied with one another: each has its own length.
    let mut s = store(&[entry(&[0x61], 5, 3), entry(&[0x61, 0x62], 5, 3), entry(&[0x61, 0x62, 0x63], 5, 3)]);
    assert_eq!((record(&mut s, &[0x61, 0x62], None, 2), record(&mut s, &[0x61, 0x62, 0x63], None, 3)), (Ok(2), Ok(3)));
    assert_eq!(available(&s), [0, 2, 3]);
    assert_eq!(forget(&mut s, &[0x61, 0x62], None), Ok(()));
    assert_eq!(available(&s), [0, 0, 3]);
}

/// Nothing but 8 bytes of the entry's record in either tree; one tree alone is no store.
#[test]
fn bytes() {
    let mut s = store(&[entry(&[0x62], 5, 300), entry(&[0x61], 7, 300)]);
    let (before, items_before) = ([false, true].map(|t| image(s.entries(), t, 4)), items(s.entries()));
    record(&mut s, &[0x62], None, 258).unwrap();
    let after = [false, true].map(|t| image(s.entries(), t, 4));
    // The second record of the subspace-first tree, the first of the time-first one; each has 150 bytes, of which the last nine are the origin.
    for (i, end) in [(0, 300), (1, 150)] {
        let mut wanted = before[i].0.clone();
        wanted[end - 17..end - 9].copy_from_slice(&[0, 0, 0, 0, 0, 0, 1, 2]);
        assert_eq!((&after[i].0, &after[i].1), (&wanted, &before[i].1));
    }
    assert_eq!(items(s.entries()), items_before);
    let state = State { namespace: [0; 16], count: 2, limit: 4 };
    let judged = |a: &[u8], b: &[u8]| well_formed(&state, Lent { spt: a, spt_dir: &before[0].1, tsp: b, tsp_dir: &before[1].1 }).is_some();
    assert!(judged(&before[0].0, &before[1].0) && judged(&after[0].0, &after[1].0));
    assert!(!judged(&after[0].0, &before[1].0) && !judged(&before[0].0, &after[1].0));
}

/// A held resend keeps what there is; what is filed starts at 0, whatever stood there.
#[test]
fn insertions() {
    let first = entry(&[0x61], 5, 3);
    let mut s = store(&[first.clone(), entry(&[0x62], 5, 3)]);
    assert_eq!((record(&mut s, &[0x61], None, 2), record(&mut s, &[0x62], None, 1)), (Ok(2), Ok(1)));
    let before = s.clone();
    assert_eq!((s.ingest(&first, &[7; 64], false, LOCAL), s.ingest(&first, &[8; 64], true, LOCAL)), (Ok(Verdict::Held), Ok(Verdict::Held)));
    assert_eq!(s, before);
    // An older one is obsolete, a newer one is filed anew; elsewhere nothing moves.
    assert!(matches!(s.ingest(&entry(&[0x61], 4, 3), &[7; 64], false, LOCAL), Ok(Verdict::Obsolete(..))));
    assert_eq!(s, before);
    assert_eq!(s.ingest(&entry(&[0x61], 6, 3), &[7; 64], false, LOCAL), Ok(Verdict::Taken(vec![(0, 150)])));
    assert_eq!(available(&s), [0, 1]);
    // Forgotten and filed again.
    record(&mut s, &[0x61], None, 3).unwrap();
    assert_eq!(s.forget_entry(&sub(1), &p(&[0x61]), None), Ok(()));
    assert_eq!(record(&mut s, &[0x61], None, 3), Err(11));
    assert_eq!(s.ingest(&entry(&[0x61], 6, 3), &[7; 64], false, LOCAL), Ok(Verdict::Taken(vec![])));
    assert_eq!(available(&s), [0, 1]);
    // A tie filed above or below keeps the lengths of the others.
    assert_eq!(s.ingest(&entry(&[0x62, 0x00], 5, 3), &[7; 64], false, LOCAL), Ok(Verdict::Taken(vec![])));
    assert_eq!(available(&s), [0, 1, 0]);
}

/// The flag goes by what is recorded.
#[test]
fn flags() {
    let mut s = store(&[entry(&[0x61], 5, 3), entry(&[0x62], 5, 0)]);
    let all = Query::Area(Area { subspace: None, path: vec![], times: Range { start: 0, end: None } });
    let listed = |s: &Store, ignore| s.list(&all, ignore).unwrap().into_iter().map(|x| x.entry.path[0][0]).collect::<Vec<_>>();
    let shown = |s: &Store, ignore| (s.entry(&sub(1), &p(&[0x61]), ignore).unwrap().map(|x| x.available), listed(s, ignore));
    assert_eq!(shown(&s, INCOMPLETE), (None, vec![0x62]));
    record(&mut s, &[0x61], None, 2).unwrap();
    assert_eq!(shown(&s, INCOMPLETE), (None, vec![0x62]));
    record(&mut s, &[0x61], None, 3).unwrap();
    assert_eq!(shown(&s, INCOMPLETE), (Some(3), vec![0x61, 0x62]));
    assert_eq!(shown(&s, Ignore { incomplete: true, empty: true }), (Some(3), vec![0x61]));
    forget(&mut s, &[0x61], None).unwrap();
    assert_eq!(shown(&s, INCOMPLETE), (None, vec![0x62]));
    assert_eq!(shown(&s, Ignore { incomplete: false, empty: false }), (Some(0), vec![0x61, 0x62]));
}
