//! What a store is kept in, and taken back from: after random calls the parts make the same store again, and a damaged part makes none.
use virebony::*;

/// Numbers that look random (splitmix64); the seeds are fixed.
struct Random(u64);

impl Random {
    fn next(&mut self) -> u64 {
        self.0 = self.0.wrapping_add(0x9e37_79b9_7f4a_7c15);
        let mut z = self.0;
        z = (z ^ (z >> 30)).wrapping_mul(0xbf58_476d_1ce4_e5b9);
        z = (z ^ (z >> 27)).wrapping_mul(0x94d0_49bb_1331_11eb);
        z ^ (z >> 31)
    }

    fn below(&mut self, bound: usize) -> usize {
        (self.next() % bound as u64) as usize
    }

    fn path(&mut self) -> Path {
        let components: Vec<_> = (0..self.below(4)).map(|_| vec![self.below(3) as u8; self.below(3)]).collect();
        Path::from_slices(&components).unwrap()
    }

    fn subspace(&mut self) -> SubspaceId {
        SubspaceId { high: u64::MAX * (self.next() & 1), low: self.next() & 1 }
    }

    fn entry(&mut self) -> AuthorisedEntry {
        let digest = [self.0; 4].map(u64::to_be_bytes).concat().try_into().unwrap();
        let entry = Entry::new([5; 16], self.subspace(), self.path(), self.next() >> (8 * self.below(8)), self.next(), digest);
        AuthorisedEntry::new(entry, [self.next() as u8; 64])
    }

    fn area(&mut self) -> Area {
        let times = Range::new(self.next() >> (8 * self.below(8)), if self.below(2) == 0 { RangeEnd::Open } else { RangeEnd::Closed(self.next()) });
        Area::new(if self.below(2) == 0 { AreaSubspace::Any } else { AreaSubspace::Id(self.subspace()) }, self.path(), times)
    }

    fn origin(&mut self) -> EntryOrigin {
        match self.below(3) {
            0 => EntryOrigin::Local,
            1 => EntryOrigin::Remote(self.next() & 1),
            _ => EntryOrigin::Remote(self.next()),
        }
    }

    /// Any call that changes a store, whatever it answers.
    fn change(&mut self, store: &mut Store) {
        match self.below(10) {
            0 => drop(store.forget_entry(&self.subspace(), &self.path(), None)),
            1 => drop(store.forget_area(&self.area(), Some(&self.area()))),
            2 => drop(store.record_available_length(&self.subspace(), &self.path(), None, self.next() >> (8 * self.below(8)))),
            3 => drop(store.forget_payload(&self.subspace(), &self.path(), None)),
            _ => drop(store.ingest_entry(self.entry(), self.below(4) == 0, self.origin())),
        }
    }
}

/// Copies of a store's parts.
#[derive(Clone, Debug, PartialEq)]
struct Parts(raw::State, Vec<u8>, Vec<u32>, Vec<u8>, Vec<u32>);

impl Parts {
    fn of(store: &Store) -> Parts {
        let (state, buffers) = store.as_parts();
        Parts(state, buffers.spt.to_vec(), buffers.spt_dir.to_vec(), buffers.tsp.to_vec(), buffers.tsp_dir.to_vec())
    }

    fn store(self) -> Result<Store, Refusal> {
        Store::from_parts(self.0, self.1, self.2, self.3, self.4)
    }

    /// The record in a place of the subspace-first tree.
    fn spt_record(&self, place: usize) -> &[u8] {
        &self.1[self.2[2 * place] as usize..][..self.2[2 * place + 1] as usize]
    }

    /// The record in a place of the time-first tree.
    fn tsp_record(&self, place: usize) -> &[u8] {
        &self.3[self.4[2 * place] as usize..][..self.4[2 * place + 1] as usize]
    }

    /// Writes the last bytes of a record in both trees.
    fn write_ends(&mut self, spt: usize, tsp: usize, bytes: &[u8]) {
        let (spt_end, tsp_end) = ((self.2[2 * spt] + self.2[2 * spt + 1]) as usize, (self.4[2 * tsp] + self.4[2 * tsp + 1]) as usize);
        self.1[spt_end - bytes.len()..spt_end].copy_from_slice(bytes);
        self.3[tsp_end - bytes.len()..tsp_end].copy_from_slice(bytes);
    }
}

fn listed(store: &Store) -> Vec<LengthyAuthorisedEntry> {
    store.query_area(&Area::new_full(), QueryIgnoreParams::default()).unwrap().collect()
}

/// The tally as the listing says it: each subspace once, counted and looked through entry by entry.
fn counted(store: &Store) -> Vec<TallyItem> {
    let entries: Vec<Entry> = listed(store).iter().map(|found| *found.entry().entry()).collect();
    let mut subspaces: Vec<SubspaceId> = entries.iter().map(|entry| *entry.subspace_id()).collect();
    subspaces.sort();
    subspaces.dedup();
    let item = |subspace_id| {
        let times: Vec<_> = entries.iter().filter(|entry| *entry.subspace_id() == subspace_id).map(Entry::timestamp).collect();
        TallyItem { subspace_id, count: times.len() as u32, newest: *times.iter().max().unwrap() }
    };
    subspaces.into_iter().map(item).collect()
}

#[test]
fn parts_make_the_same_store() {
    let (mut most, mut arrived, mut local, mut remote) = (0, 0, 0, 0);
    for seed in 0..200 {
        let mut random = Random(seed);
        let limit = 1 + random.below(12);
        let mut store = Store::open([5; 16], limit).unwrap();
        for _ in 0..30 {
            random.change(&mut store);
            let parts = Parts::of(&store);
            let mut again = parts.clone().store().unwrap();
            assert_eq!(Parts::of(&again), parts);
            assert_eq!(listed(&again), listed(&store));
            assert_eq!(again.tally().collect::<Vec<_>>(), counted(&store));
            assert_eq!(again.tally().as_bytes(), store.tally().as_bytes());
            assert_eq!((again.len(), again.limit(), again.namespace_id()), (store.len(), limit, &[5; 16]));
            // What comes next is the same too.
            let state = random.0;
            random.change(&mut again);
            random.0 = state;
            random.change(&mut store);
            assert_eq!(Parts::of(&again), Parts::of(&store));
            most = most.max(store.len());
            let listed = listed(&store);
            arrived += listed.iter().filter(|stored| stored.available() != 0).count();
            local += listed.iter().filter(|stored| stored.origin() == EntryOrigin::Local).count();
            remote += listed.iter().filter(|stored| stored.origin() != EntryOrigin::Local).count();
        }
    }
    assert_eq!(most, 12);
    assert!(arrived > 100, "available lengths were met {arrived} times");
    assert!(local > 1000 && remote > 1000, "entries that are local were met {local} times, others {remote} times");
}

/// One byte of a tree, one number of a directory, or the count is another: the trees no longer agree with each other or with their directories.
#[test]
fn a_damaged_part_makes_no_store() {
    for seed in 0..100 {
        let mut random = Random(seed);
        let mut store = Store::open([5; 16], 4).unwrap();
        (0..12).for_each(|_| random.change(&mut store));
        let good = Parts::of(&store);
        for which in 0..5 {
            let mut bad = good.clone();
            let (byte, number) = (1 + random.below(255) as u8, 1 + random.below(u32::MAX as usize) as u32);
            match which {
                0 => bad.1[random.below(4 * raw::RECORD_MOST)] ^= byte,
                1 => bad.2[random.below(8)] ^= number,
                2 => bad.3[random.below(4 * raw::RECORD_MOST)] ^= byte,
                3 => bad.4[random.below(8)] ^= number,
                _ => bad.0.count ^= number as usize,
            }
            assert_eq!(bad.store().unwrap_err(), Refusal::NotWellFormed);
        }
    }
}

/// The nine bytes of one record are another origin in both trees, or none: which stores the parts then make.
#[test]
fn other_origins_in_both_trees() {
    for seed in 0..100 {
        let mut random = Random(seed);
        let mut store = Store::open([5; 16], 4).unwrap();
        while store.is_empty() {
            (0..8).for_each(|_| random.change(&mut store));
        }
        let (good, place) = (Parts::of(&store), random.below(store.len()));
        let (path, subspace) = (*listed(&store)[place].entry().entry().path(), *listed(&store)[place].entry().entry().subspace_id());
        let key = |record: &[u8]| record[..record.len() - raw::VALUE].to_vec();
        let decoded = raw::decode_spt_entry_key(&key(good.spt_record(place)));
        let other = (0..store.len()).find(|i| {
            let tsp = raw::decode_tsp_entry_key(&key(good.tsp_record(*i)));
            (tsp.subspace, tsp.path) == (decoded.subspace, decoded.path)
        });
        for (kind, session, well_formed) in [(0, 0, true), (1, 0, true), (1, random.next(), true), (2, 0, false), (255, 7, false), (0, 1, false)] {
            let mut parts = good.clone();
            let nine = [&[kind][..], &session.to_be_bytes()].concat();
            parts.write_ends(place, other.unwrap(), &nine);
            match parts.clone().store() {
                Ok(store) if well_formed => {
                    let stored = store.entry(&subspace, &path, QueryIgnoreParams::default()).unwrap().unwrap();
                    assert_eq!(stored.origin(), if kind == 0 { EntryOrigin::Local } else { EntryOrigin::Remote(session) });
                    assert_eq!((stored, Parts::of(&store)), (listed(&store)[place], parts));
                }
                answer => assert_eq!((answer.unwrap_err(), well_formed), (Refusal::NotWellFormed, false)),
            }
        }
    }
}

/// Takes the last nine bytes from each record, as edition 5 kept them, or gives each nine zeros.
fn recut(parts: &Parts, longer: bool) -> Parts {
    let cut = |tree: &[u8], dir: &[u32]| {
        let (mut records, mut pairs) = (Vec::new(), Vec::new());
        for pair in dir.chunks_exact(2).take(parts.0.count) {
            let record = &tree[pair[0] as usize..(pair[0] + pair[1]) as usize];
            let begins = records.len() as u32;
            match longer {
                true => records.extend(record.iter().chain(&[0; 9])),
                false => records.extend(&record[..record.len() - 9]),
            }
            pairs.extend([begins, records.len() as u32 - begins]);
        }
        records.resize(tree.len(), 0);
        pairs.resize(dir.len(), 0);
        (records, pairs)
    };
    let ((spt, spt_dir), (tsp, tsp_dir)) = (cut(&parts.1, &parts.2), cut(&parts.3, &parts.4));
    Parts(parts.0, spt, spt_dir, tsp, tsp_dir)
}

/// A store of edition 5, with values of 112 bytes, is none of this edition's: in the trees that it was kept in, and in longer ones. Carried over as
/// [`Store::from_parts`] says, it is, and every entry is local.
#[test]
fn a_store_of_edition_5() {
    const RECORD_MOST_5: usize = 410;
    for seed in 0..100 {
        let mut random = Random(seed);
        let limit = 1 + random.below(6);
        let mut store = Store::open([5; 16], limit).unwrap();
        for _ in 0..12 {
            let _ = store.ingest_entry(random.entry(), false, EntryOrigin::Local);
            let _ = store.record_available_length(&random.subspace(), &random.path(), None, random.next() >> (8 * random.below(8)));
        }
        let now = Parts::of(&store);
        let before = recut(&now, false);
        let mut kept = before.clone();
        kept.1.truncate(RECORD_MOST_5 * limit);
        kept.3.truncate(RECORD_MOST_5 * limit);
        assert_eq!((kept.store().unwrap_err(), before.clone().store().unwrap_err()), (Refusal::ShortBuffer, Refusal::NotWellFormed));
        let carried = recut(&before, true);
        assert_eq!(carried, now);
        for (place, pair) in carried.2.chunks_exact(2).take(store.len()).enumerate() {
            let (begins, length) = (before.2[2 * place] + 9 * place as u32, before.2[2 * place + 1] + 9);
            assert_eq!(pair, [begins, length]); // by place, as the comment says it
        }
        let again = carried.store().unwrap();
        assert_eq!(listed(&again), listed(&store));
        assert!(listed(&again).iter().all(|stored| stored.origin() == EntryOrigin::Local));
        assert_eq!(again.tally().as_bytes(), store.tally().as_bytes());
    }
}

#[test]
fn other_limits_and_lengths() {
    let store = Store::open([5; 16], 2).unwrap();
    let good = Parts::of(&store);
    for (limit, refusal) in [(0, Refusal::BadLimit), (1025, Refusal::BadLimit), (usize::MAX, Refusal::BadLimit), (3, Refusal::ShortBuffer)] {
        let mut bad = good.clone();
        bad.0.limit = limit;
        assert_eq!(bad.store().unwrap_err(), refusal);
    }
    for which in 0..4 {
        let mut bad = good.clone();
        match which {
            0 => drop(bad.1.pop()),
            1 => drop(bad.2.pop()),
            2 => drop(bad.3.pop()),
            _ => drop(bad.4.pop()),
        }
        assert_eq!(bad.store().unwrap_err(), Refusal::ShortBuffer);
    }
    let mut longer = good.clone(); // what lies beyond is not looked at, and stays
    longer.1.push(7);
    longer.4.push(7);
    let mut again = longer.clone().store().unwrap();
    let entry = AuthorisedEntry::new(Entry::new([5; 16], SubspaceId::default(), Path::new_empty(), 1, 0, [0; 32]), [0; 64]);
    again.ingest_entry(entry, false, EntryOrigin::Remote(4)).unwrap();
    again.forget_area(&Area::new_full(), None).unwrap();
    assert_eq!(Parts::of(&again), longer);
}
