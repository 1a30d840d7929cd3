//! Document 02's U6, where an entry came from: answers written by hand from its paragraph.
use model::EntryOrigin::{Local, Remote};
use model::*;

fn p(comps: &[u8]) -> Path {
    comps.iter().map(|c| vec![*c]).collect()
}
fn sub(n: u8) -> Subspace {
    let mut s = [0; 16];
    s[15] = n;
    s
}
fn entry(path: &[u8], timestamp: u64) -> Entry {
    Entry { namespace: [0; 16], subspace: sub(1), path: p(path), timestamp, payload_length: 3, payload_digest: [10; 32] }
}
const ALL: Ignore = Ignore { incomplete: false, empty: false };
const INCOMPLETE: Ignore = Ignore { incomplete: true, empty: false };

/// Files an entry with token 07; what is pruned.
fn file(s: &mut Store, e: &Entry, origin: EntryOrigin) -> Vec<Pair> {
    match s.ingest(e, &[7; 64], false, origin) {
        Ok(Verdict::Taken(pruned)) => pruned,
        other => panic!("{other:?}"),
    }
}
/// A store of limit 4 that took these, with token 07.
fn store(entries: &[(Entry, EntryOrigin)]) -> Store {
    let mut s = Store::open([0; 16], 4, FIELD).unwrap();
    for (e, origin) in entries {
        assert_eq!(file(&mut s, e, *origin), []);
    }
    s
}
/// The origin that a lookup shows.
fn shown(s: &Store, path: &[u8], ignore: Ignore) -> Option<EntryOrigin> {
    s.entry(&sub(1), &p(path), ignore).unwrap().map(|x| x.origin)
}
fn origins(s: &Store) -> Vec<EntryOrigin> {
    s.entries().iter().map(|x| x.origin).collect()
}

/// A kind and a big-endian session number, which is 0 for local; no other nine bytes are an origin.
#[test]
fn nine_bytes() {
    let written = [
        (Local, [0, 0, 0, 0, 0, 0, 0, 0, 0]),
        (Remote(0), [1, 0, 0, 0, 0, 0, 0, 0, 0]),
        (Remote(7), [1, 0, 0, 0, 0, 0, 0, 0, 7]),
        (Remote(256), [1, 0, 0, 0, 0, 0, 0, 1, 0]),
        (Remote(0x0102030405060708), [1, 1, 2, 3, 4, 5, 6, 7, 8]),
        (Remote(1 << 63), [1, 0x80, 0, 0, 0, 0, 0, 0, 0]),
        (Remote(u64::MAX), [1, 255, 255, 255, 255, 255, 255, 255, 255]),
    ];
    for (origin, bytes) in written {
        assert_eq!((origin_bytes(origin), read_origin(bytes)), (bytes, Some(origin)));
    }
    // Local with a number, in each of its bytes; another kind, with a number and without.
    for i in 1..9 {
        let mut bytes = [0; 9];
        bytes[i] = 1;
        assert_eq!(read_origin(bytes), None);
    }
    for kind in 2..=255 {
        assert_eq!((read_origin([kind, 0, 0, 0, 0, 0, 0, 0, 0]), read_origin([kind, 0, 0, 0, 0, 0, 0, 0, 7])), (None, None));
    }
}

/// The last nine of a value's 121 bytes, behind the available length; records of 147 to 419 bytes.
#[test]
fn values() {
    let mut s = store(&[(entry(&[0x61], 5), Remote(0x0102030405060708))]);
    s.record_available_length(&sub(1), &p(&[0x61]), None, 2).unwrap();
    let wanted = [&[0, 0, 0, 0, 0, 0, 0, 3][..], &[10; 32], &[7; 64], &[0, 0, 0, 0, 0, 0, 0, 2], &[1, 1, 2, 3, 4, 5, 6, 7, 8]].concat();
    assert_eq!((value(&s.entries()[0]), wanted.len()), (wanted, 121));
    let mut x = s.entries()[0].clone();
    for (path, length) in [(vec![], 147), ([vec![vec![0; 64]; 2], vec![vec![]; 6]].concat(), 419)] {
        x.entry.path = path;
        assert!([false, true].iter().all(|t| record(&x, *t).len() == length));
    }
    // At the greatest limit a tree has 429,056 bytes.
    assert_eq!(RECORD_MOST * 1024, 429_056);
}

/// 3 by what the nine bytes say, in either tree or in both; and where they differ between the trees, lawful or not.
#[test]
fn well_formedness() {
    let s = store(&[(entry(&[0x61], 5), Remote(7)), (entry(&[0x62], 4), Local)]);
    let [a, b] = [false, true].map(|t| image(s.entries(), t, 4));
    let state = State { namespace: [0; 16], count: 2, limit: 4 };
    let judged = |x: &[u8], y: &[u8]| well_formed(&state, Lent { spt: x, spt_dir: &a.1, tsp: y, tsp_dir: &b.1 });
    assert_eq!(judged(&a.0, &b.0), Some(s.entries().to_vec()));
    // The record of [61] is the first of the subspace-first tree and the second of the time-first one; each has 150 bytes.
    let with = |tree: &[u8], end: usize, nine: [u8; 9]| {
        let mut t = tree.to_vec();
        t[end - 9..end].copy_from_slice(&nine);
        t
    };
    let (first, second) = (|nine| with(&a.0, 150, nine), |nine| with(&b.0, 300, nine));
    assert_eq!((first([1, 0, 0, 0, 0, 0, 0, 0, 7]), second([1, 0, 0, 0, 0, 0, 0, 0, 7])), (a.0.clone(), b.0.clone()));
    for lawful in [Local, Remote(0), Remote(8), Remote(1 << 63), Remote(u64::MAX)] {
        let nine = origin_bytes(lawful);
        assert_eq!(judged(&first(nine), &second(nine)).map(|l| l[0].origin), Some(lawful));
        assert_eq!((judged(&first(nine), &b.0), judged(&a.0, &second(nine))), (None, None));
    }
    for nine in [[0, 0, 0, 0, 0, 0, 0, 0, 1], [0, 0, 0, 0, 0, 0, 0, 0, 7], [0, 128, 0, 0, 0, 0, 0, 0, 0], [2, 0, 0, 0, 0, 0, 0, 0, 0], [2, 0, 0, 0, 0, 0, 0, 0, 7], [255; 9]] {
        assert_eq!((judged(&first(nine), &b.0), judged(&a.0, &second(nine)), judged(&first(nine), &second(nine))), (None, None, None));
    }
}

/// A tree of 410 bytes for each entry of the limit is too short; one of 419 will do.
#[test]
fn rooms_for_records() {
    for limit in [1, 4, 1024] {
        let dir = vec![0; 2 * limit];
        let told = |a: usize, b: usize| rooms(limit as u64, Lent { spt: &vec![0; a], spt_dir: &dir, tsp: &vec![0; b], tsp_dir: &dir }, None, None);
        let (old, least) = (410 * limit, 419 * limit);
        assert_eq!((told(least, least), told(old, least), told(least, old), told(least - 1, least), told(least, least - 1)), (None, Some(2), Some(2), Some(2), Some(2)));
    }
}

/// Held keeps the origin of the insertion, the token too, whatever comes.
#[test]
fn resends() {
    for stored in [Local, Remote(0), Remote(7), Remote(u64::MAX)] {
        let mut s = store(&[(entry(&[0x61], 5), stored)]);
        let before = s.clone();
        for comes in [Local, Remote(0), Remote(7), Remote(8), Remote(u64::MAX)] {
            for (token, prevent) in [(7, false), (8, false), (7, true), (8, true)] {
                assert_eq!(s.ingest(&entry(&[0x61], 5), &[token; 64], prevent, comes), Ok(Verdict::Held));
                assert_eq!((&s, shown(&s, &[0x61], ALL)), (&before, Some(stored)));
            }
        }
    }
    // Remote with session 0 is not local.
    assert_eq!(shown(&store(&[(entry(&[0x61], 5), Remote(0))]), &[0x61], ALL), Some(Remote(0)));
}

/// An entry that is filed has the origin that it comes with, whatever stood there; what is not taken changes none.
#[test]
fn insertions() {
    let mut s = store(&[(entry(&[0x61], 5), Remote(7)), (entry(&[0x62], 5), Remote(9))]);
    // A newer one at its place; its record was 150 bytes long, nine more than the Rust's.
    assert_eq!(file(&mut s, &entry(&[0x61], 6), Local), [(0, 150)]);
    assert_eq!(origins(&s), [Local, Remote(9)]);
    assert_eq!(file(&mut s, &entry(&[0x61], 7), Remote(u64::MAX)), [(0, 150)]);
    assert_eq!(origins(&s), [Remote(u64::MAX), Remote(9)]);
    // Obsolete: an older one, also of another origin; entry and token are shown as before.
    let before = s.clone();
    assert_eq!(s.ingest(&entry(&[0x61], 6), &[8; 64], false, Local), Ok(Verdict::Obsolete(entry(&[0x61], 7), [7; 64])));
    // Refused: prevented, and of another namespace.
    assert_eq!(s.ingest(&entry(&[0x61], 8), &[7; 64], true, Local), Err(7));
    assert_eq!(s.ingest(&Entry { namespace: [1; 16], ..entry(&[0x61], 7) }, &[7; 64], false, Local), Err(6));
    assert_eq!(s, before);
    // Forgotten and filed again: the origin of the filing.
    s.forget_entry(&sub(1), &p(&[0x61]), None).unwrap();
    assert_eq!(origins(&s), [Remote(9)]);
    assert_eq!(file(&mut s, &entry(&[0x61], 7), Local), []);
    assert_eq!(origins(&s), [Local, Remote(9)]);
    let all = Area { subspace: None, path: vec![], times: Range { start: 0, end: None } };
    assert_eq!(s.forget_area(&all, None), Ok(2));
    assert_eq!(file(&mut s, &entry(&[0x62], 5), Remote(0)), []);
    assert_eq!(origins(&s), [Remote(0)]);
    // A tie below keeps its own; one above that is newer prunes both and has its own: an offset is greater by nine for each record before it.
    assert_eq!(file(&mut s, &entry(&[0x62, 0x00], 5), Local), []);
    assert_eq!(origins(&s), [Remote(0), Local]);
    assert_eq!(file(&mut s, &entry(&[], 6), Remote(3)), [(0, 150), (150, 154)]);
    assert_eq!(origins(&s), [Remote(3)]);
}

/// Recordings leave the nine bytes, and write nothing but the eight before them.
#[test]
fn recordings() {
    let mut s = store(&[(entry(&[0x61], 5), Remote(7)), (entry(&[0x62], 5), Local)]);
    let before = value(&s.entries()[0]);
    s.record_available_length(&sub(1), &p(&[0x61]), None, 2).unwrap();
    let mut wanted = before.clone();
    wanted[before.len() - 10] = 2;
    assert_eq!((value(&s.entries()[0]), origins(&s)), (wanted, vec![Remote(7), Local]));
    assert_eq!(s.record_available_length(&sub(1), &p(&[0x61]), None, 4), Err(12));
    s.forget_payload(&sub(1), &p(&[0x61]), None).unwrap();
    assert_eq!((value(&s.entries()[0]), origins(&s)), (before, vec![Remote(7), Local]));
    // With a recorded length too, held keeps both, and what replaces it has neither.
    s.record_available_length(&sub(1), &p(&[0x61]), None, 3).unwrap();
    assert_eq!(s.ingest(&entry(&[0x61], 5), &[7; 64], false, Local), Ok(Verdict::Held));
    assert_eq!((s.entries()[0].available, s.entries()[0].origin), (3, Remote(7)));
    file(&mut s, &entry(&[0x61], 6), Local);
    assert_eq!((s.entries()[0].available, s.entries()[0].origin), (0, Local));
}

/// A lookup that finds nothing shows no origin: nothing stored there, hidden by a flag, refused. Listings give the record's bytes.
#[test]
fn lookups_and_listings() {
    let mut s = store(&[(entry(&[0x61], 5), Remote(7)), (entry(&[0x61, 0x62], 5), Remote(8)), (entry(&[0x62], 5), Local)]);
    assert_eq!([shown(&s, &[0x61], ALL), shown(&s, &[0x61, 0x62], ALL), shown(&s, &[0x62], ALL), shown(&s, &[0x63], ALL)], [Some(Remote(7)), Some(Remote(8)), Some(Local), None]);
    assert_eq!([shown(&s, &[0x61], INCOMPLETE), shown(&s, &[0x62], INCOMPLETE)], [None, None]);
    s.record_available_length(&sub(1), &p(&[0x61]), None, 3).unwrap();
    assert_eq!([shown(&s, &[0x61], INCOMPLETE), shown(&s, &[0x62], INCOMPLETE)], [Some(Remote(7)), None]);
    assert_eq!(s.entry(&sub(1), &p(&[0x61; 9]), ALL), Err(4));
    assert_eq!(Store::closed(FIELD).entry(&sub(1), &p(&[0x61]), ALL), Err(1));
    let all = Query::Area(Area { subspace: None, path: vec![], times: Range { start: 0, end: None } });
    let ends: Vec<_> = s.list(&all, ALL).unwrap().into_iter().map(|x| record(&x, false)).map(|r| r[r.len() - 9..].to_vec()).collect();
    assert_eq!(ends, [[1, 0, 0, 0, 0, 0, 0, 0, 7], [1, 0, 0, 0, 0, 0, 0, 0, 8], [0; 9]]);
}
