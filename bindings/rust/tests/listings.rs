//! Document 02's U7 through `Listing`: filing while a listing is open. The answers are written by hand, but for those of the random filings, which are those of a
//! listing of the whole store.
use virebony::*;

const NAMESPACE: NamespaceId = [3; 16];
const LOCAL: EntryOrigin = EntryOrigin::Local;
const NONE: QueryIgnoreParams = QueryIgnoreParams { ignore_incomplete_payloads: false, ignore_empty_payloads: false };
const COMPLETE: QueryIgnoreParams = QueryIgnoreParams { ignore_incomplete_payloads: true, ..NONE };

/// A path of components of one byte each.
fn path(text: &str) -> Path {
    Path::from_slices(&text.bytes().map(|byte| [byte]).collect::<Vec<_>>()).unwrap()
}

fn subspace(low: u64) -> SubspaceId {
    SubspaceId { high: 0, low }
}

fn entry(low: u64, text: &str, timestamp: u64, length: u64, digest: u8) -> AuthorisedEntry {
    AuthorisedEntry::new(Entry::new(NAMESPACE, subspace(low), path(text), timestamp, length, [digest; 32]), [0x42; 64])
}

/// Files an entry of subspace 1: how many it pruned.
fn file(store: &mut Store, text: &str, timestamp: u64, digest: u8) -> usize {
    match store.ingest_entry(entry(1, text, timestamp, 3, digest), false, LOCAL) {
        Ok(EntryIngestionSuccess::Success { pruned }) => pruned,
        other => panic!("{other:?}"),
    }
}

fn forget(store: &mut Store, text: &str) {
    let before = store.len();
    store.forget_entry(&subspace(1), &path(text), None).unwrap();
    assert_eq!(store.len(), before - 1);
}

/// b, d and f at 5 in subspace 1.
fn three() -> Store {
    let mut store = Store::open(NAMESPACE, 8).unwrap();
    assert_eq!(["b", "d", "f"].map(|text| file(&mut store, text, 5, 9)), [0; 3]);
    store
}

/// Listings of everything, by an area and by a 3d range.
fn open(ignore: QueryIgnoreParams) -> [Listing; 2] {
    [Listing::of_area(&Area::new_full(), ignore), Listing::of_range(&Range3d::new_full(), ignore)]
}

/// The path and timestamp that the next step gives.
fn next(listing: &mut Listing, store: &Store) -> Option<(Path, Timestamp)> {
    let stored = listing.next(store).unwrap()?;
    let entry = stored.entry().entry();
    assert_eq!(store.entry(entry.subspace_id(), entry.path(), NONE), Ok(Some(stored)));
    Some((*entry.path(), entry.timestamp()))
}

fn at(text: &str, timestamp: Timestamp) -> Option<(Path, Timestamp)> {
    Some((path(text), timestamp))
}

#[test]
fn filing_between_two_steps() {
    for mut listing in open(NONE) {
        let mut store = three();
        assert_eq!(next(&mut listing, &store), at("b", 5));
        assert_eq!(["a", "c", "e"].map(|text| file(&mut store, text, 5, 9)), [0; 3]); // the first arrives behind
        assert_eq!([(); 2].map(|_| next(&mut listing, &store)), [at("c", 5), at("d", 5)]);
        forget(&mut store, "f"); // gone before its turn
        assert_eq!([(); 2].map(|_| next(&mut listing, &store)), [at("e", 5), None]);
        assert_eq!((file(&mut store, "f", 5, 9), next(&mut listing, &store), next(&mut listing, &store)), (0, at("f", 5), None));
    }
}

#[test]
fn another_entry_at_the_place() {
    for mut listing in open(NONE) {
        let mut store = three();
        assert_eq!(next(&mut listing, &store), at("b", 5));
        assert_eq!((file(&mut store, "b", 6, 9), next(&mut listing, &store)), (1, at("b", 6))); // another key, which is above
        assert_eq!((file(&mut store, "b", 6, 10), next(&mut listing, &store)), (1, at("d", 5))); // the same key
                                                                                                 // Behind, and all others are gone.
        assert_eq!((file(&mut store, "", 7, 9), next(&mut listing, &store)), (3, None));
    }
}

#[test]
fn forgotten_and_filed_again() {
    for mut listing in open(NONE) {
        let mut store = three();
        assert_eq!(next(&mut listing, &store), at("b", 5));
        for text in ["b", "f"] {
            forget(&mut store, text);
            assert_eq!(file(&mut store, text, 5, 9), 0);
        }
        let mut second = listing.clone();
        assert_eq!([(); 3].map(|_| next(&mut listing, &store)), [at("d", 5), at("f", 5), None]);
        forget(&mut store, "d");
        assert_eq!(next(&mut second, &store), at("f", 5));
        // It came again too late.
        assert_eq!((file(&mut store, "d", 5, 9), next(&mut second, &store)), (0, None));
    }
}

#[test]
fn completed_while_a_listing_is_open() {
    for mut listing in open(COMPLETE) {
        let mut store = three();
        let record = |store: &mut Store, text, available| store.record_available_length(&subspace(1), &path(text), None, available).unwrap();
        assert_eq!(next(&mut listing, &store), None);
        record(&mut store, "d", 3);
        assert_eq!(next(&mut listing, &store), at("d", 5));
        record(&mut store, "b", 3); // it was passed over
        record(&mut store, "d", 2);
        assert_eq!(next(&mut listing, &store), None);
        record(&mut store, "f", 3);
        assert_eq!(next(&mut listing, &store), at("f", 5));
    }
}

/// A key that was kept, in a listing made anew; any other key; and bytes that are none.
#[test]
fn a_listing_from_a_key() {
    let store = three();
    for mut listing in open(NONE) {
        let start = listing.clone();
        assert!(start.last_key().is_empty());
        assert_eq!(next(&mut listing, &store), at("b", 5));
        let key = listing.last_key().to_vec();
        assert_eq!(key, [&[0; 15][..], &[1, b'b', 0, 1, 0, 0], &[0; 7], &[5]].concat());
        assert_eq!(start.clone().after(&key), Ok(listing.clone()));
        assert_eq!(next(&mut start.clone().after(&key).unwrap(), &store), at("d", 5));
        assert_eq!(listing.clone().after(&[]), Ok(start.clone()));
        for (last, gives) in [(entry(0, "z", 9, 0, 0), at("b", 5)), (entry(1, "c", 9, 0, 0), at("d", 5)), (entry(2, "", 0, 0, 0), None)] {
            let (mut out, entry) = ([0; raw::KEY_MOST], last.entry());
            let length = raw::encode_spt_entry_key(*entry.subspace_id(), *entry.path().as_raw(), entry.timestamp(), &mut out).length;
            assert_eq!(next(&mut start.clone().after(&out[..length]).unwrap(), &store), gives);
        }
        for bytes in [&key[..28], &key[..25], &[&key[..], &[0]].concat(), &[0; 299]] {
            assert_eq!(listing.clone().after(bytes), Err(Refusal::NoKey));
        }
    }
}

/// Numbers that look random, the same in each run.
struct Random(u64);

impl Random {
    fn below(&mut self, n: u64) -> u64 {
        self.0 = self.0.wrapping_mul(6364136223846793005).wrapping_add(1442695040888963407);
        (self.0 >> 33) % n
    }
}

/// By subspace, then path, then timestamp: in which order keys stand.
fn triple(stored: &LengthyAuthorisedEntry) -> (SubspaceId, Path, Timestamp) {
    let entry = stored.entry().entry();
    (*entry.subspace_id(), *entry.path(), entry.timestamp())
}

/// Random filings and forgettings between the steps. Each step gives the least above the last one given, of all that are listed then; and what was listed in every
/// moment was given once.
#[test]
fn a_store_that_changes_all_the_while() {
    let places = ["", "a", "aa", "ab", "b", "ba", "bab", "c", "\0", "\0a"];
    let (mut random, mut store) = (Random(5), Store::open(NAMESPACE, 24).unwrap());
    let stir = |store: &mut Store, random: &mut Random| {
        let (low, text) = (random.below(3), places[random.below(10) as usize]);
        let _ = match random.below(5) {
            0 => store.forget_entry(&subspace(low), &path(text), None),
            1 => store.record_available_length(&subspace(low), &path(text), None, random.below(3)), // refused if it is too much, or there is none
            _ => store.ingest_entry(entry(low, text, random.below(6), random.below(3), random.below(3) as u8), false, LOCAL).map(|_| ()),
        };
    };
    let (mut given, mut stayed) = (0, 0);
    for round in 0..600 {
        (0..6).for_each(|_| stir(&mut store, &mut random));
        let ignore = QueryIgnoreParams { ignore_incomplete_payloads: random.below(3) == 0, ignore_empty_payloads: random.below(3) == 0 };
        let which = if random.below(2) == 0 { AreaSubspace::Any } else { AreaSubspace::Id(subspace(random.below(3))) };
        let area = Area::new(which, path(places[random.below(3) as usize]), Range::new_open(random.below(3)));
        let by_area = round % 2 == 0;
        let mut listing = if by_area { Listing::of_area(&area, ignore) } else { Listing::of_range(&Range3d::from(area), ignore) };
        let listed =
            |store: &Store| -> Vec<_> { store.query_area(&area, ignore).unwrap().take(25).map(|stored| (triple(&stored), stored)).collect() };
        let mut stays: Vec<_> = listed(&store).iter().map(|(triple, _)| *triple).collect();
        let mut gave: Vec<(SubspaceId, Path, Timestamp)> = vec![];
        loop {
            let want = listed(&store).into_iter().find(|(triple, _)| gave.last().map_or(true, |last| triple > last));
            let got = listing.next(&store).unwrap();
            assert_eq!(got, want.map(|(_, stored)| stored));
            let Some(stored) = got else { break };
            assert!(gave.last().map_or(true, |last| *last < triple(&stored))); // no key is given twice
            gave.push(triple(&stored));
            for _ in 0..random.below(3) {
                stir(&mut store, &mut random);
                let now = listed(&store);
                stays.retain(|triple| now.iter().any(|(other, _)| other == triple));
            }
        }
        assert!(stays.iter().all(|triple| gave.contains(triple)));
        (given, stayed) = (given + gave.len(), stayed + stays.len());
    }
    assert!(given > 600 && stayed > 300, "{given} {stayed}"); // it was no walk over nothing
}
