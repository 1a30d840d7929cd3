//! Document 01's examples, with answers as it states them, but for that of a tie, which is 02's U3; and 02's U1 and U2.
use model::*;

fn p(comps: &[&[u8]]) -> Path {
    comps.iter().map(|c| c.to_vec()).collect()
}
fn sub(n: u8) -> Subspace {
    let mut s = [0; 16];
    s[15] = n;
    s
}
fn entry(path: Path, timestamp: u64, payload_length: u64, digest: u8) -> Entry {
    Entry { namespace: [0; 16], subspace: sub(1), path, timestamp, payload_length, payload_digest: [digest; 32] }
}
const ALL: Ignore = Ignore { incomplete: false, empty: false };
const TOKEN: Token = [0; 64];
const LOCAL: EntryOrigin = EntryOrigin::Local;

#[test]
fn keys() {
    let path = |p: Path| spt(&sub(0), &p, 0)[16..].to_vec();
    assert_eq!(path(p(&[])), [&[0, 0][..], &[0; 8]].concat());
    assert_eq!(path(p(&[&[]])), [&[0, 1, 0, 0][..], &[0; 8]].concat());
    assert_eq!(path(p(&[&[0x62], &[0]])), [&[0x62, 0, 1, 0, 2, 0, 1, 0, 0][..], &[0; 8]].concat());
    let longest = p(&[&[0; 64], &[0; 64], &[], &[], &[], &[], &[], &[]]);
    assert_eq!((spt(&sub(1), &p(&[]), 5).len(), tsp(&sub(1), &longest, 5).len()), (26, 298));
    assert_eq!(FIELD.decode(true, &tsp(&sub(1), &longest, 5)), Some((sub(1), longest, 5)));
    // 00 before 03 or more, an unfinished component, a byte left over, a cut key.
    for path in [&[0, 3, 0, 1, 0, 0][..], &[0x61, 0, 0], &[0, 0, 0], &[0]] {
        assert_eq!(FIELD.decode(true, &[&[0; 24], path].concat()), None);
    }
}

#[test]
fn paths() {
    let up = [p(&[]), p(&[&[]]), p(&[&[0]]), p(&[&[1]])];
    assert!(up.windows(2).all(|w| w[0] < w[1]));
    assert!(is_prefix(&p(&[&[0x61]]), &p(&[&[0x61], &[0x62]])) && !is_prefix(&p(&[&[0x61]]), &p(&[&[0x61, 0x62]])));
    assert!(FIELD.legal(&p(&[&[0; 64]])) && !FIELD.legal(&p(&[&[0; 65]])));
    assert!(FIELD.legal(&vec![vec![]; 8]) && !FIELD.legal(&vec![vec![]; 9]));
    assert!(FIELD.legal(&p(&[&[0; 64], &[0; 64]])) && !FIELD.legal(&p(&[&[0; 64], &[0; 64], &[0]])));
    assert_eq!(FIELD.above(&p(&[&[0x61]])), Some(p(&[&[0x61, 0]])));
    assert_eq!(FIELD.above(&p(&[])), None);
    assert_eq!(FIELD.above(&p(&[&[7], &[255; 64]])), Some(p(&[&[7, 0]])));
    assert_eq!(FIELD.above(&p(&[&[255; 64], &[255; 64]])), None);
}

#[test]
fn path_values() {
    let (mut bytes, mut ends) = ([0xee; 128], [7; 8]);
    (bytes[0], ends[0], ends[1]) = (0x61, 1, 1);
    assert_eq!(path_of_value(&bytes, &ends, 2), Some(p(&[&[0x61], &[]])));
    assert_eq!(path_of_value(&bytes, &ends, 9), None);
    assert_eq!(path_of_value(&bytes, &ends, u64::MAX), None);
    ends[1] = 0;
    assert_eq!(path_of_value(&bytes, &ends, 2), None);
    assert_eq!(path_of_value(&bytes, &ends, 1), Some(p(&[&[0x61]])));
    ends[0] = 65;
    assert_eq!(path_of_value(&bytes, &ends, 1), None);
    (ends[0], ends[1], ends[2]) = (64, 128, 129);
    assert!(path_of_value(&bytes, &ends, 2).is_some() && path_of_value(&bytes, &ends, 3).is_none());
}

#[test]
fn newer_and_times() {
    let (a, b) = (entry(p(&[&[0x61]]), 5, 3, 10), entry(p(&[&[0x61], &[0x62]]), 5, 3, 10));
    assert_eq!((a.compare(&b), b.compare(&a), a.compare(&a)), (Recency::Same, Recency::Same, Recency::Same));
    assert!(a.ties(&b) && !a.ties(&a));
    // Timestamp before digest before length.
    for (x, y) in [(entry(p(&[]), 6, 0, 0), entry(p(&[]), 5, 9, 9)), (entry(p(&[]), 5, 0, 9), entry(p(&[]), 5, 9, 8)), (entry(p(&[]), 5, 9, 8), entry(p(&[]), 5, 8, 8))] {
        assert_eq!((x.compare(&y), y.compare(&x)), (Recency::Newer, Recency::Older));
    }
    assert!(entry(p(&[]), 5, 0, 11).prunes(&a) && entry(p(&[]), 5, 4, 10).prunes(&b) && !entry(p(&[]), 4, 9, 99).prunes(&a));
    let times = Range { start: 5, end: Some(10) };
    assert!(times.includes(&9) && !times.includes(&10) && !times.includes(&4));
    assert!(Range { start: 0, end: None }.includes(&u64::MAX));
}

/// Document 02's U3: of 01's case of [61][62] and [61], two are left, in either order, and pruning has nothing to prevent.
#[test]
fn ties() {
    let (short, long) = (entry(p(&[&[0x61]]), 5, 3, 10), entry(p(&[&[0x61], &[0x62]]), 5, 3, 10));
    let of = |s: &Store| s.entries().iter().map(|x| x.entry.clone()).collect::<Vec<_>>();
    for (order, prevent) in [([&long, &short], false), ([&short, &long], false), ([&long, &short], true), ([&short, &long], true)] {
        let mut s = Store::open([0; 16], 2, FIELD).unwrap();
        for e in order {
            assert_eq!(s.ingest(e, &TOKEN, prevent, LOCAL), Ok(Verdict::Taken(vec![])));
        }
        assert_eq!(of(&s), [short.clone(), long.clone()]);
        assert_eq!(items(s.entries()), [(sub(1), 2, 5)]);
        // Held, though the store is full and neither is gone.
        assert_eq!((s.ingest(&short, &TOKEN, prevent, LOCAL), s.ingest(&long, &TOKEN, prevent, LOCAL)), (Ok(Verdict::Held), Ok(Verdict::Held)));
    }
    // It is not gone, so there is no room for a second.
    for (order, prevent) in [([&long, &short], false), ([&long, &short], true), ([&short, &long], false)] {
        let mut s = Store::open([0; 16], 1, FIELD).unwrap();
        s.ingest(order[0], &TOKEN, prevent, LOCAL).unwrap();
        let before = s.clone();
        assert_eq!(s.ingest(order[1], &TOKEN, prevent, LOCAL), Err(8));
        assert_eq!(s, before);
    }
    // Three on one line.
    let longest = entry(p(&[&[0x61], &[0x62], &[]]), 5, 3, 10);
    let three = [&short, &long, &longest];
    for [a, b, c] in [[0, 1, 2], [0, 2, 1], [1, 0, 2], [1, 2, 0], [2, 0, 1], [2, 1, 0]] {
        let mut s = Store::open([0; 16], 3, FIELD).unwrap();
        for e in [three[a], three[b], three[c]] {
            assert_eq!(s.ingest(e, &TOKEN, true, LOCAL), Ok(Verdict::Taken(vec![])));
        }
        assert_eq!(of(&s), [short.clone(), long.clone(), longest.clone()]);
        assert_eq!(items(s.entries()), [(sub(1), 3, 5)]);
        // A later one above removes all three; a later one at the second place removes the second and the third.
        let mut t = s.clone();
        assert_eq!(t.ingest(&entry(p(&[]), 5, 4, 10), &TOKEN, true, LOCAL), Err(7));
        assert_eq!(t.ingest(&entry(p(&[]), 5, 4, 10), &TOKEN, false, LOCAL), Ok(Verdict::Taken(vec![(0, 150), (150, 153), (303, 155)])));
        assert_eq!((t.entries().len(), items(t.entries())), (1, vec![(sub(1), 1, 5)]));
        assert_eq!(s.ingest(&entry(long.path.clone(), 6, 0, 0), &TOKEN, false, LOCAL), Ok(Verdict::Taken(vec![(150, 153), (303, 155)])));
        assert_eq!(of(&s), [short.clone(), entry(long.path.clone(), 6, 0, 0)]);
        assert_eq!(items(s.entries()), [(sub(1), 2, 6)]);
    }
    // One that ties and one that is older below: the second alone goes, and it alone is what 7 speaks of.
    let older = entry(p(&[&[0x61], &[0x63]]), 5, 2, 10);
    for limit in [2, 3] {
        let mut s = Store::open([0; 16], limit, FIELD).unwrap();
        s.ingest(&long, &TOKEN, false, LOCAL).unwrap();
        s.ingest(&older, &TOKEN, false, LOCAL).unwrap();
        assert_eq!(s.ingest(&short, &TOKEN, true, LOCAL), Err(7));
        assert_eq!(s.ingest(&short, &TOKEN, false, LOCAL), Ok(Verdict::Taken(vec![(153, 153)])));
        assert_eq!(of(&s), [short.clone(), long.clone()]);
        assert!(matches!(s.ingest(&older, &TOKEN, false, LOCAL), Ok(Verdict::Obsolete(e, _)) if e == short));
    }
}

#[test]
fn limit() {
    let short = entry(p(&[&[0x61]]), 5, 3, 10);
    let mut s = Store::open([0; 16], 1, FIELD).unwrap();
    s.ingest(&short, &TOKEN, false, LOCAL).unwrap();
    assert_eq!(s.ingest(&entry(p(&[&[0x62]]), 9, 0, 0), &TOKEN, false, LOCAL), Err(8));
    assert_eq!(s.ingest(&entry(p(&[]), 6, 0, 0), &TOKEN, false, LOCAL), Ok(Verdict::Taken(vec![(0, 150)])));
    assert_eq!(s.ingest(&short, &TOKEN, true, LOCAL), Ok(Verdict::Obsolete(entry(p(&[]), 6, 0, 0), TOKEN)));
    let other = Entry { namespace: [1; 16], ..short.clone() };
    assert_eq!(s.ingest(&other, &TOKEN, false, LOCAL), Err(6));
    assert_eq!(s.ingest(&Entry { path: vec![vec![]; 9], ..other }, &TOKEN, false, LOCAL), Err(4));
    assert_eq!((Store::open([0; 16], 0, FIELD), Store::open([0; 16], 1025, FIELD)), (Err(1), Err(1)));
}

/// Document 02's U2: the same entry twice.
#[test]
fn resends() {
    let (short, long) = (entry(p(&[&[0x61]]), 5, 3, 10), entry(p(&[&[0x61], &[0x62]]), 5, 3, 10));
    let mut s = Store::open([0; 16], 2, FIELD).unwrap();
    assert_eq!((s.ingest(&short, &TOKEN, true, LOCAL), s.ingest(&long, &TOKEN, true, LOCAL)), (Ok(Verdict::Taken(vec![])), Ok(Verdict::Taken(vec![]))));
    assert!(s.poke_available(&sub(1), &short.path, 2));
    // Full, with a tie, with an available length; also with pruning prevented and with another token.
    let before = s.clone();
    for (e, token, prevent) in [(&short, TOKEN, false), (&short, TOKEN, true), (&short, [9; 64], false), (&long, [9; 64], true)] {
        assert_eq!(s.ingest(e, &token, prevent, LOCAL), Ok(Verdict::Held));
        assert_eq!(s, before);
    }
    // Another namespace; an illegal path; a wrong tally.
    assert_eq!(s.ingest(&Entry { namespace: [1; 16], ..short.clone() }, &TOKEN, false, LOCAL), Err(6));
    assert_eq!(s.ingest(&Entry { path: vec![vec![]; 9], ..short.clone() }, &TOKEN, false, LOCAL), Err(4));
    s.poke_tally(20, 4);
    assert_eq!(s.ingest(&short, &TOKEN, false, LOCAL), Err(10));
    s.poke_tally(20, 5);
    assert_eq!(s.ingest(&short, &TOKEN, false, LOCAL), Ok(Verdict::Held));
    // The same place with another length, digest or time; another place alone is a tie.
    for near in [entry(short.path.clone(), 5, 4, 10), entry(short.path.clone(), 5, 3, 11), entry(short.path.clone(), 6, 3, 10)] {
        assert_eq!(s.ingest(&near, &TOKEN, true, LOCAL), Err(7));
    }
    assert_eq!(s.ingest(&entry(short.path.clone(), 5, 2, 10), &TOKEN, true, LOCAL), Ok(Verdict::Obsolete(short.clone(), TOKEN)));
    assert_eq!(s.ingest(&entry(p(&[&[0x61], &[0x63]]), 5, 3, 10), &TOKEN, false, LOCAL), Err(8));
    // A newer entry at the path prunes both; what was stored is then obsolete, not held.
    assert!(matches!(s.ingest(&entry(short.path.clone(), 5, 4, 10), &TOKEN, false, LOCAL), Ok(Verdict::Taken(pruned)) if pruned.len() == 2));
    assert!(matches!(s.ingest(&short, &TOKEN, false, LOCAL), Ok(Verdict::Obsolete(..))));
}

/// The four lines of the listing program.
#[test]
fn listing() {
    let mut s = Store::open([0; 16], 64, FIELD).unwrap();
    let root = entry(p(&[]), 6, 0, 12);
    let deep = entry(p(&[&[0x61], &[0x62]]), 7, 1, 11);
    assert_eq!(s.ingest(&entry(p(&[&[0x62]]), 5, 3, 10), &TOKEN, false, LOCAL), Ok(Verdict::Taken(vec![])));
    assert!(matches!(s.ingest(&entry(p(&[&[0x62], &[0]]), 4, 3, 10), &TOKEN, false, LOCAL), Ok(Verdict::Obsolete(..))));
    assert_eq!(s.ingest(&deep, &TOKEN, false, LOCAL), Ok(Verdict::Taken(vec![])));
    assert!(matches!(s.ingest(&root, &TOKEN, false, LOCAL), Ok(Verdict::Taken(pruned)) if pruned.len() == 1));
    assert_eq!(s.entries().iter().map(|x| x.entry.clone()).collect::<Vec<_>>(), [root.clone(), deep.clone()]);
    let all = Area { subspace: None, path: p(&[]), times: Range { start: 0, end: None } };
    let listed = |ignore| s.list(&Query::Area(all.clone()), ignore).unwrap().into_iter().map(|x| x.entry).collect::<Vec<_>>();
    assert_eq!(listed(ALL), [root, deep.clone()]);
    assert_eq!(listed(Ignore { empty: true, ..ALL }), [deep]);
    assert_eq!(s.area_of_interest_to_range(&all, u64::MAX, 0).unwrap().times.start, 7);
    assert_eq!(s.area_of_interest_to_range(&all, u64::MAX, 1).unwrap().times.start, 6);
    assert_eq!(s.forget_area(&all, Some(&Area { path: p(&[&[0x61]]), ..all.clone() })), Ok(1));
    assert_eq!(s.forget_entry(&sub(1), &p(&[&[0x61], &[0x62]]), Some(&[0; 32])), Err(9));
    assert_eq!(s.forget_entry(&sub(1), &p(&[&[0x61]]), Some(&[0; 32])), Ok(()));
}

/// docs/FORMAT.md's worked store, and a byte changed anywhere in it.
#[test]
fn buffers() {
    let mut s = Store::open([0; 16], 2, FIELD).unwrap();
    s.ingest(&entry(p(&[&[0x62], &[0]]), 5, 3, 10), &[0x42; 64], false, LOCAL).unwrap();
    s.ingest(&entry(p(&[&[0x61]]), 7, 1, 11), &[0x42; 64], false, LOCAL).unwrap();
    let ((mut a, mut ad), (mut b, mut bd)) = (image(s.entries(), false, 2), image(s.entries(), true, 2));
    assert_eq!((&ad, &bd), (&vec![0, 150, 150, 154], &vec![0, 154, 154, 150]));
    assert_eq!(a[150 + 16..150 + 25], [0x62, 0, 1, 0, 2, 0, 1, 0, 0]);
    let state = State { namespace: [0; 16], count: 2, limit: 2 };
    let judged = |a: &[u8], ad: &[u32], b: &[u8], bd: &[u32]| well_formed(&state, Lent { spt: a, spt_dir: ad, tsp: b, tsp_dir: bd });
    assert_eq!(judged(&a, &ad, &b, &bd), Some(s.entries().to_vec()));
    for i in 0..a.len() {
        a[i] ^= 1;
        assert_eq!(judged(&a, &ad, &b, &bd), None, "byte {i} of the subspace-first tree");
        a[i] ^= 1;
        b[i] ^= 0x80;
        assert_eq!(judged(&a, &ad, &b, &bd), None, "byte {i} of the time-first tree");
        b[i] ^= 0x80;
    }
    for i in 0..4 {
        ad[i] += 1;
        assert_eq!(judged(&a, &ad, &b, &bd), None);
        ad[i] -= 1;
        bd[i] = !bd[i];
        assert_eq!(judged(&a, &ad, &b, &bd), None);
        bd[i] = !bd[i];
    }
    let lent = Lent { spt: &a, spt_dir: &ad, tsp: &b, tsp_dir: &bd };
    assert_eq!((rooms(2, lent, None, Some(2)), rooms(0, lent, None, None), rooms(3, lent, None, None), rooms(2, lent, None, Some(1))), (None, Some(1), Some(2), Some(2)));
    assert_eq!((rooms(2, lent, Some(56), None), rooms(2, lent, Some(55), None), rooms(0, lent, Some(0), None)), (None, Some(2), Some(1)));
}

/// Document 02's U1: the items of a store, and refusal 10.
#[test]
fn tallies() {
    let of = |subspace, path, timestamp| Entry { subspace, ..entry(path, timestamp, 0, 0) };
    let high = [1, 0, 0, 0, 0, 0, 0, 0, 0, 0, 0, 0, 0, 0, 0, 0];
    let mut s = Store::open([0; 16], 4, FIELD).unwrap();
    s.ingest(&of(sub(0), p(&[]), 0), &TOKEN, false, LOCAL).unwrap();
    assert_eq!(tally(s.entries(), 1), [&[0; 19][..], &[1], &[0; 8]].concat());
    s.ingest(&of(high, p(&[]), u64::MAX), &TOKEN, false, LOCAL).unwrap();
    s.ingest(&of(sub(7), p(&[&[0x61]]), 5), &TOKEN, false, LOCAL).unwrap();
    s.ingest(&of(sub(7), p(&[&[0x62]]), 9), &TOKEN, false, LOCAL).unwrap();
    assert_eq!(items(s.entries()), [(sub(0), 1, 0), (sub(7), 2, 9), (high, 1, u64::MAX)]);
    assert_eq!(tally(s.entries(), 4)[28..56], [&sub(7)[..], &[0, 0, 0, 2], &[0, 0, 0, 0, 0, 0, 0, 9]].concat());
    assert_eq!(tally(s.entries(), 4)[84..], [0; 28]);
    assert_eq!(s.forget_entry(&sub(7), &p(&[&[0x62]]), None), Ok(()));
    assert_eq!(items(s.entries()), [(sub(0), 1, 0), (sub(7), 1, 5), (high, 1, u64::MAX)]);
    assert_eq!(s.forget_entry(&sub(7), &p(&[&[0x61]]), None), Ok(()));
    assert_eq!(items(s.entries()), [(sub(0), 1, 0), (high, 1, u64::MAX)]);
    let all = Area { subspace: None, path: p(&[]), times: Range { start: 0, end: None } };
    let bad = Area { path: vec![vec![]; 9], ..all.clone() };
    s.poke_tally(4 * 28 - 7, 0); // partly beyond the room
    assert_eq!(s.forget_area(&bad, None), Err(4));
    s.poke_tally(4 * 28 - 8, 1);
    assert_eq!((s.forget_area(&bad, None), s.forget_entry(&sub(1), &bad.path, None)), (Err(10), Err(10)));
    assert_eq!(s.ingest(&of(sub(1), bad.path.clone(), 5), &TOKEN, false, LOCAL), Err(10));
    assert_eq!((s.count_area(&all), s.count_area(&bad)), (Ok(2), Err(4)));
    s.poke_tally(4 * 28 - 8, 0);
    s.poke_tally(4 * 28, 1); // beyond it
    assert_eq!(s.forget_area(&all, None), Ok(2));
    assert_eq!(Store::closed(FIELD).forget_area(&all, None), Err(1));
}
