//! Document 02's U7, filing while a listing is open: answers written by hand from its paragraph.
use model::*;

fn p(comps: &[u8]) -> Path {
    comps.iter().map(|c| vec![*c]).collect()
}
fn sub(n: u8) -> Subspace {
    let mut s = [0; 16];
    s[15] = n;
    s
}
fn of(subspace: u8, path: &[u8], timestamp: u64, digest: u8) -> Entry {
    Entry { namespace: [0; 16], subspace: sub(subspace), path: p(path), timestamp, payload_length: 3, payload_digest: [digest; 32] }
}
fn entry(path: &[u8], timestamp: u64) -> Entry {
    of(1, path, timestamp, 10)
}
/// A store of limit 8 that took these entries.
fn store(entries: &[Entry]) -> Store {
    let mut s = Store::open([0; 16], 8, FIELD).unwrap();
    entries.iter().for_each(|e| file(&mut s, e));
    s
}
fn file(s: &mut Store, e: &Entry) {
    assert!(matches!(s.ingest(e, &[7; 64], false, EntryOrigin::Local), Ok(Verdict::Taken(_))));
}
fn forget(s: &mut Store, path: &[u8]) {
    assert_eq!(s.forget_entry(&sub(1), &p(path), None), Ok(()));
}
fn everything() -> Query {
    Query::Area(Area { subspace: None, path: vec![], times: Range { start: 0, end: None } })
}
fn range(from: &[u8], to: Option<&[u8]>) -> Query {
    Query::Range(Range3d { subspaces: Range { start: sub(0), end: None }, paths: Range { start: p(from), end: to.map(p) }, times: Range { start: 0, end: None } })
}
const ALL: Ignore = Ignore { incomplete: false, empty: false };
const INCOMPLETE: Ignore = Ignore { incomplete: true, empty: false };

/// A listing that is open: it remembers the last key that it gave.
struct Walk(Query, Ignore, Vec<u8>);

impl Walk {
    fn of(query: Query) -> Walk {
        Walk(query, ALL, vec![])
    }
    /// A step: the last byte of the subspace, the components, each of one byte, and the time of what it gives. None: finished.
    fn step(&mut self, s: &Store) -> Option<(u8, Vec<u8>, u64)> {
        let x = s.step(&self.0, self.1, &self.2).unwrap()?;
        self.2 = key(&x.entry, false);
        Some((x.entry.subspace[15], x.entry.path.concat(), x.entry.timestamp))
    }
}
fn found(path: &[u8], time: u64) -> Option<(u8, Vec<u8>, u64)> {
    Some((1, path.to_vec(), time))
}
/// A step of everything from a key.
fn from(s: &Store, last: &[u8]) -> Result<Option<(u8, Vec<u8>, u64)>, Refusal> {
    Ok(s.step(&everything(), ALL, last)?.map(|x| (x.entry.subspace[15], x.entry.path.concat(), x.entry.timestamp)))
}

/// A step gives the whole record: the entry, its token, its available length and its origin. Walked to the end, by an area and by a range.
#[test]
fn whole() {
    let mut s = store(&[entry(&[0x61], 5), entry(&[0x62], 5), entry(&[0x63], 5)]);
    assert_eq!(s.ingest(&of(2, &[], 9, 1), &[9; 64], false, EntryOrigin::Remote(7)), Ok(Verdict::Taken(vec![])));
    assert_eq!(s.record_available_length(&sub(2), &p(&[]), None, 2), Ok(()));
    let last = Stored { entry: of(2, &[], 9, 1), token: [9; 64], available: 2, origin: EntryOrigin::Remote(7) };
    assert_eq!(s.step(&everything(), ALL, &spt(&sub(1), &p(&[0x63]), 5)), Ok(Some(last)));
    let mut w = Walk::of(everything());
    assert_eq!([w.step(&s), w.step(&s), w.step(&s), w.step(&s)], [found(&[0x61], 5), found(&[0x62], 5), found(&[0x63], 5), Some((2, vec![], 9))]);
    // Finished it stays finished, as long as nothing comes.
    assert_eq!((w.step(&s), w.step(&s)), (None, None));
    let mut w = Walk::of(range(&[0x62], None));
    assert_eq!([w.step(&s), w.step(&s), w.step(&s)], [found(&[0x62], 5), found(&[0x63], 5), None]);
    let mut w = Walk::of(range(&[], Some(&[0x62])));
    assert_eq!([w.step(&s), w.step(&s), w.step(&s)], [found(&[0x61], 5), Some((2, vec![], 9)), None]);
    assert_eq!(Walk::of(everything()).step(&store(&[])), None);
}

/// The remembered key's own record is not given again. It need not be stored any more, nor match, nor ever have been stored.
#[test]
fn remembered() {
    let mut s = store(&[entry(&[0x61], 5), entry(&[0x62], 5), entry(&[0x63], 5)]);
    let mut w = Walk::of(everything());
    assert_eq!([w.step(&s), w.step(&s)], [found(&[0x61], 5), found(&[0x62], 5)]);
    forget(&mut s, &[0x62]);
    assert_eq!([w.step(&s), w.step(&s)], [found(&[0x63], 5), None]);
    // It does not match: the range begins behind it, or ends before it.
    assert_eq!(s.step(&range(&[0x63], None), ALL, &spt(&sub(1), &p(&[0x61]), 5)).unwrap().map(|x| x.entry), Some(entry(&[0x63], 5)));
    assert_eq!(s.step(&range(&[], Some(&[0x63])), ALL, &spt(&sub(1), &p(&[0x63]), 5)), Ok(None));
    // Never stored: between two, below one of the same path by its time, above it.
    assert_eq!(from(&s, &spt(&sub(1), &p(&[0x62, 0x00]), 0)), Ok(found(&[0x63], 5)));
    assert_eq!(from(&s, &spt(&sub(1), &p(&[0x63]), 4)), Ok(found(&[0x63], 5)));
    assert_eq!(from(&s, &spt(&sub(1), &p(&[0x63]), 6)), Ok(None));
}

/// [61] time 5 is given and then pruned by [61] time 6: another key, above, which is given. A greater digest in its place has the same key, and is not.
#[test]
fn at_its_place() {
    let mut s = store(&[entry(&[0x61], 5), entry(&[0x62], 5)]);
    let mut w = Walk::of(everything());
    assert_eq!(w.step(&s), found(&[0x61], 5));
    file(&mut s, &entry(&[0x61], 6));
    assert_eq!(s.entries().len(), 2);
    assert_eq!([w.step(&s), w.step(&s), w.step(&s)], [found(&[0x61], 6), found(&[0x62], 5), None]);
    let mut s = store(&[entry(&[0x61], 5), entry(&[0x62], 5)]);
    let mut w = Walk::of(everything());
    assert_eq!(w.step(&s), found(&[0x61], 5));
    file(&mut s, &of(1, &[0x61], 5, 11));
    assert_eq!((s.entries().len(), s.entries()[0].entry.payload_digest), (2, [11; 32]));
    assert_eq!([w.step(&s), w.step(&s)], [found(&[0x62], 5), None]);
}

/// A key above all, below all, of another subspace: by its bytes.
#[test]
fn any_key() {
    let s = store(&[of(1, &[0x61], 5, 10), of(3, &[0x61], 5, 10)]);
    assert_eq!(from(&s, &spt(&[255; 16], &p(&[]), 0)), Ok(None));
    assert_eq!(from(&s, &spt(&sub(3), &p(&[0x61]), u64::MAX)), Ok(None));
    assert_eq!(from(&s, &spt(&sub(0), &p(&[0xff]), u64::MAX)), Ok(found(&[0x61], 5)));
    assert_eq!(from(&s, &spt(&sub(2), &p(&[]), 0)), Ok(Some((3, vec![0x61], 5))));
    let first = Query::Area(Area { subspace: Some(sub(1)), path: vec![], times: Range { start: 0, end: None } });
    assert_eq!(s.step(&first, ALL, &spt(&sub(2), &p(&[]), 0)), Ok(None));
    assert_eq!(s.step(&first, ALL, &spt(&sub(0), &p(&[]), 0)).unwrap().map(|x| x.entry), Some(of(1, &[0x61], 5, 10)));
    // The longest key.
    let longest: Path = [vec![vec![0; 64]; 2], vec![vec![]; 6]].concat();
    let k = spt(&sub(1), &longest, 5);
    assert_eq!((k.len(), from(&s, &k)), (298, Ok(found(&[0x61], 5))));
}

/// 5 for every key that the subspace-first encoder does not write; the empty one is the start.
#[test]
fn fives() {
    let s = store(&[entry(&[0x61], 5)]);
    let k = spt(&sub(1), &p(&[0x61]), 5);
    assert_eq!((from(&s, &[]), from(&s, &k)), (Ok(found(&[0x61], 5)), Ok(None)));
    // Cut anywhere, 25 bytes among them, and with a byte behind it.
    for n in 1..k.len() {
        assert_eq!(from(&s, &k[..n]), Err(5), "{n} bytes");
    }
    for b in [0, 1, 2, 3, 255] {
        assert_eq!(from(&s, &[&k[..], &[b]].concat()), Err(5));
    }
    assert_eq!((from(&s, &[0; 25]), from(&s, &[0; 26])), (Err(5), Ok(found(&[0x61], 5))));
    // Eight components and nine; 64 bytes and 65; 128 in all and 129.
    assert_eq!((from(&s, &spt(&sub(2), &vec![vec![]; 8], 5)), from(&s, &spt(&sub(2), &vec![vec![]; 9], 5))), (Ok(None), Err(5)));
    assert_eq!((from(&s, &spt(&sub(2), &vec![vec![7; 64]], 5)), from(&s, &spt(&sub(2), &vec![vec![7; 65]], 5))), (Ok(None), Err(5)));
    assert_eq!((from(&s, &spt(&sub(2), &vec![vec![7; 64]; 2], 5)), from(&s, &spt(&sub(2), &vec![vec![7; 43]; 3], 5))), (Ok(None), Err(5)));
    // 299 bytes: the longest key and one more; zeros.
    let longest: Path = [vec![vec![0; 64]; 2], vec![vec![]; 6]].concat();
    assert_eq!((from(&s, &[&spt(&sub(1), &longest, 5)[..], &[0]].concat()), from(&s, &[0; 299])), (Err(5), Err(5)));
    // A path that is none: 61 00 00, 61 00 03 .., without its end.
    for path in [&[0x61, 0, 0][..], &[0x61, 0, 3, 0, 1, 0, 0], &[0, 3, 0, 1, 0, 0], &[0x61, 0, 1], &[0x61]] {
        assert_eq!(from(&s, &[&sub(1)[..], path, &5u64.to_be_bytes()].concat()), Err(5), "{path:?}");
    }
}

/// The time-first key of [61] is none, in 29 bytes; that of the empty path happens to be one that the subspace-first encoder writes, and counts by its bytes.
#[test]
fn time_first_keys() {
    let s = store(&[entry(&[0x61], 5)]);
    let k = tsp(&sub(1), &p(&[0x61]), 5);
    assert_eq!((k.len(), from(&s, &k)), (29, Err(5)));
    let k = tsp(&sub(1), &p(&[]), 5);
    assert_eq!((k.len(), &k[..16], &k[16..18]), (26, &[0, 0, 0, 0, 0, 0, 0, 5, 0, 0, 0, 0, 0, 0, 0, 0][..], &[0, 0][..]));
    assert_eq!(FIELD.decode(false, &k).map(|(s, p, t)| (s[7], p, t)), Some((5, p(&[]), 0x01_0000)));
    // 00 .. 05 00 .. as a subspace lies above 00 .. 00 01.
    assert_eq!(from(&s, &k), Ok(None));
    assert_eq!(from(&store(&[of(255, &[0x61], 5, 10)]), &k), Ok(None));
    assert_eq!(from(&s, &tsp(&sub(1), &p(&[]), 0)), Ok(found(&[0x61], 5)));
}

/// 1, then 4, then 5. A range whose start is above its end has no match, whatever key; 5 comes there too.
#[test]
fn refusals() {
    let s = store(&[entry(&[0x61], 5)]);
    let (good, bad) = (spt(&sub(1), &p(&[]), 0), [0; 25]);
    let illegal = [Query::Area(Area { subspace: None, path: vec![vec![]; 9], times: Range { start: 0, end: None } }), range(&[0; 9], None), range(&[], Some(&[0; 9]))];
    for q in &illegal {
        for last in [&[][..], &good, &bad] {
            assert_eq!(s.step(q, ALL, last), Err(4));
            assert_eq!(Store::closed(FIELD).step(q, ALL, last), Err(1));
        }
    }
    assert_eq!(Store::closed(FIELD).step(&everything(), ALL, &bad), Err(1));
    let descends = range(&[0x62], Some(&[0x61]));
    assert_eq!([s.step(&descends, ALL, &[]), s.step(&descends, ALL, &good), s.step(&descends, ALL, &bad)], [Ok(None), Ok(None), Err(5)]);
    assert_eq!([store(&[]).step(&everything(), ALL, &good), store(&[]).step(&everything(), ALL, &bad)], [Ok(None), Err(5)]);
}

/// An entry stored and matching all the while is given once; one that first arrives behind is not, one that arrives ahead is; one pruned before its turn is not.
#[test]
fn filing_between() {
    let mut s = store(&[entry(&[0x61], 5), entry(&[0x63], 5), entry(&[0x65], 5), entry(&[0x65, 0x00], 6)]);
    let mut w = Walk::of(everything());
    assert_eq!([w.step(&s), w.step(&s)], [found(&[0x61], 5), found(&[0x63], 5)]);
    file(&mut s, &entry(&[0x62], 5));
    file(&mut s, &entry(&[0x64], 5));
    assert_eq!(w.step(&s), found(&[0x64], 5));
    // [65] time 7 prunes both that were to come, and comes in their place.
    file(&mut s, &entry(&[0x65], 7));
    assert_eq!([w.step(&s), w.step(&s)], [found(&[0x65], 7), None]);
    assert_eq!(s.entries().len(), 5);
    // The empty path prunes all, behind: nothing is left to give. Finished, the listing goes on if something comes ahead.
    file(&mut s, &entry(&[], 8));
    assert_eq!((s.entries().len(), w.step(&s)), (1, None));
    file(&mut s, &of(2, &[], 1, 10));
    assert_eq!([w.step(&s), w.step(&s)], [Some((2, vec![], 1)), None]);
}

/// Forgotten and filed again while the listing is open: given if it is ahead when its turn comes, not given again if it was. An opening between.
#[test]
fn filed_again() {
    let mut s = store(&[entry(&[0x61], 5), entry(&[0x62], 5), entry(&[0x63], 5)]);
    let mut w = Walk::of(everything());
    assert_eq!(w.step(&s), found(&[0x61], 5));
    for path in [[0x61], [0x63]] {
        forget(&mut s, &path);
    }
    assert_eq!(w.step(&s), found(&[0x62], 5));
    for path in [[0x61], [0x63]] {
        file(&mut s, &entry(&path, 5));
    }
    assert_eq!([w.step(&s), w.step(&s)], [found(&[0x63], 5), None]);
    let mut again = store(&[entry(&[0x61], 5), entry(&[0x64], 5)]);
    assert_eq!([w.step(&again), w.step(&again)], [found(&[0x64], 5), None]);
    let mut w = Walk::of(everything());
    forget(&mut again, &[0x61]);
    forget(&mut again, &[0x64]);
    assert_eq!(w.step(&again), None);
}

/// Passed over as incomplete and recorded complete when its key is behind: not given. Ahead: given. Forgotten again before its turn: not given.
#[test]
fn flags() {
    let mut s = store(&[entry(&[0x61], 5), entry(&[0x62], 5), entry(&[0x63], 5), entry(&[0x64], 5)]);
    let record = |s: &mut Store, path: u8, n| assert_eq!(s.record_available_length(&sub(1), &p(&[path]), None, n), Ok(()));
    record(&mut s, 0x62, 3);
    record(&mut s, 0x64, 3);
    let mut w = Walk(everything(), INCOMPLETE, vec![]);
    assert_eq!(w.step(&s), found(&[0x62], 5));
    record(&mut s, 0x61, 3);
    record(&mut s, 0x63, 3);
    record(&mut s, 0x64, 2);
    assert_eq!([w.step(&s), w.step(&s)], [found(&[0x63], 5), None]);
}

/// Two listings of one store, each with its own key.
#[test]
fn two_at_once() {
    let mut s = store(&[entry(&[0x61], 5), entry(&[0x62], 5), entry(&[0x63], 5)]);
    let (mut a, mut b) = (Walk::of(everything()), Walk::of(range(&[0x62], None)));
    assert_eq!([a.step(&s), b.step(&s)], [found(&[0x61], 5), found(&[0x62], 5)]);
    forget(&mut s, &[0x62]);
    file(&mut s, &entry(&[0x61, 0x00], 6));
    assert_eq!([b.step(&s), a.step(&s), a.step(&s)], [found(&[0x63], 5), found(&[0x61, 0x00], 6), found(&[0x63], 5)]);
    assert_eq!((a.step(&s), b.step(&s)), (None, None));
}
