//! The store, in buffers of its own.
use crate::tally::{tally_of, Tally};
use crate::{
    raw, Area, AreaOfInterest, AuthorisedEntry, Entries, Entry, EntryOrigin, LengthyAuthorisedEntry, Listing, NamespaceId, Path, PayloadDigest,
    Range3d, Refusal, SubspaceId,
};
use raw::{Buffers, BuffersMut, Pair, State, Trees};

/// What an ingestion that was not refused did.
#[derive(Clone, Copy, Debug, PartialEq, Eq)]
#[allow(clippy::large_enum_variant)] // as in willow-rs; a verdict is looked at and dropped
pub enum EntryIngestionSuccess {
    /// The entry is stored.
    Success {
        /// How many entries it pruned.
        pruned: usize,
    },
    /// A stored entry is newer, and nothing changed.
    Obsolete {
        /// The entry that was handed in.
        obsolete: AuthorisedEntry,
        /// A stored entry of its subspace, at its path or a prefix of it, that is newer.
        newer: AuthorisedEntry,
    },
    /// The very entry is stored already, and nothing changed: the stored one keeps its token, its available length and its origin, whatever token and origin
    /// came with it now.
    Held,
}

/// Which entries a lookup or a listing passes over; the default passes over none.
#[derive(Clone, Copy, Debug, Default, PartialEq, Eq, Hash)]
pub struct QueryIgnoreParams {
    /// Those whose payload is not all there, by what was recorded ([`Store::record_available_length`]); an empty one is.
    pub ignore_incomplete_payloads: bool,
    /// Those of an empty payload.
    pub ignore_empty_payloads: bool,
}

impl QueryIgnoreParams {
    pub(crate) fn to_raw(self) -> raw::Ignore {
        raw::Ignore { incomplete_payloads: u8::from(self.ignore_incomplete_payloads), empty_payloads: u8::from(self.ignore_empty_payloads) }
    }
}

/// A store of one namespace's entries, at most 1,024 of them, that owns its buffers.
///
/// ```
/// use virebony::{Area, AuthorisedEntry, Entry, EntryIngestionSuccess, EntryOrigin, Path, Refusal, Store, SubspaceId};
/// let (namespace, subspace) = ([1; 16], SubspaceId { high: 0, low: 9 });
/// let mut store = Store::open(namespace, 16)?;
/// let mut file = |path: &[&str], timestamp| {
///     let entry = Entry::new(namespace, subspace, Path::from_slices(path)?, timestamp, 5, [0; 32]);
///     store.ingest_entry(AuthorisedEntry::new(entry, [7; 64]), false, EntryOrigin::Remote(31))
/// };
/// file(&["ward", "3"], 100)?;
/// assert_eq!(file(&["ward", "4"], 100)?, EntryIngestionSuccess::Success { pruned: 0 });
/// assert_eq!(file(&["ward"], 101)?, EntryIngestionSuccess::Success { pruned: 2 });
/// assert_eq!(file(&["ward"], 101)?, EntryIngestionSuccess::Held);
/// assert!(matches!(file(&["ward", "4"], 100)?, EntryIngestionSuccess::Obsolete { newer, .. } if newer.entry().timestamp() == 101));
///
/// let stored: Vec<_> = store.query_area(&Area::new_full(), Default::default())?.collect();
/// assert_eq!(stored.len(), 1);
/// assert_eq!(stored[0].entry().entry().path(), &Path::from_slices(&["ward"])?);
/// assert_eq!(stored[0].origin(), EntryOrigin::Remote(31));
/// assert_eq!(store.forget_entry(&subspace, stored[0].entry().entry().path(), Some([8; 32])), Err(Refusal::OtherDigest));
/// assert_eq!(store.forget_area(&Area::new_subspace(subspace), None), Ok(1));
/// assert!(store.is_empty());
/// # Ok::<(), Refusal>(())
/// ```
#[derive(Clone, Debug)]
pub struct Store {
    state: State,
    spt: Vec<u8>,
    spt_dir: Vec<u32>,
    tsp: Vec<u8>,
    tsp_dir: Vec<u32>,
    tally: Vec<u8>,
    prune: Vec<Pair>, // room for an ingestion's answer
}

impl Store {
    /// A store of no entries, for at most `limit` of them. Refused: 1.
    pub fn open(namespace_id: NamespaceId, limit: usize) -> Result<Store, Refusal> {
        let room = if limit <= raw::LIMIT_MOST { limit } else { 0 };
        let mut store = Store {
            state: State::default(),
            spt: vec![0; raw::RECORD_MOST * room],
            spt_dir: vec![0; 2 * room],
            tsp: vec![0; raw::RECORD_MOST * room],
            tsp_dir: vec![0; 2 * room],
            tally: vec![0; raw::ITEM * room],
            prune: vec![Pair::default(); room],
        };
        let opened = raw::open(&namespace_id, limit, &mut store.buffers_mut());
        store.state = Refusal::check(opened.refusal, opened.state)?;
        Ok(store)
    }

    /// The namespace of every entry here.
    pub fn namespace_id(&self) -> &NamespaceId {
        &self.state.namespace_id
    }

    /// How many entries there are.
    pub fn len(&self) -> usize {
        self.state.count
    }

    /// Whether there are none.
    pub fn is_empty(&self) -> bool {
        self.state.count == 0
    }

    /// How many entries there may be.
    pub fn limit(&self) -> usize {
        self.state.limit
    }

    /// Files an entry with its origin and available length 0. It is obsolete, and nothing changes, if a stored entry of its subspace at its path or a prefix of it is
    /// newer. It is held, and nothing changes, if an entry of the same subspace, path, timestamp, digest and length is stored, whatever
    /// token and origin come now. Else the entries of the subspace at its path or below that are older, by timestamp, then digest, then payload length, are
    /// removed; an entry of equal rank stays. Refused: 6; if it is neither obsolete nor held 7 (with `prevent_pruning`), 8.
    pub fn ingest_entry(
        &mut self,
        authorised_entry: AuthorisedEntry,
        prevent_pruning: bool,
        origin: EntryOrigin,
    ) -> Result<EntryIngestionSuccess, Refusal> {
        let (entry, token) = authorised_entry.into_parts();
        let Store { state, spt, spt_dir, tsp, tsp_dir, tally, prune } = self;
        let mut store = BuffersMut { spt, spt_dir, tsp, tsp_dir, tally };
        let answer = raw::ingest_entry(*state, &mut store, prune, entry.to_raw(), &token, u8::from(prevent_pruning), origin.to_raw());
        self.state = Refusal::check(answer.refusal, answer.state)?;
        Ok(if answer.obsolete != 0 {
            let newer = AuthorisedEntry::new(Entry::of_answer(answer.newer), answer.token);
            EntryIngestionSuccess::Obsolete { obsolete: authorised_entry, newer }
        } else if answer.held != 0 {
            EntryIngestionSuccess::Held
        } else {
            EntryIngestionSuccess::Success { pruned: answer.pruned }
        })
    }

    /// Drops the entry at a subspace and path. With a digest expected, only if it is the stored entry's. An absent entry answers done. Refused: 9.
    pub fn forget_entry(&mut self, subspace_id: &SubspaceId, path: &Path, expected_digest: Option<PayloadDigest>) -> Result<(), Refusal> {
        let (expects, digest) = (u8::from(expected_digest.is_some()), expected_digest.unwrap_or_default());
        let answer = raw::forget_entry(self.state, &mut self.buffers_mut(), *subspace_id, *path.as_raw(), expects, &digest);
        self.state = Refusal::check(answer.refusal, answer.state)?;
        Ok(())
    }

    /// Drops every entry that `area` includes and `protected`, if there is one, does not; answers how many.
    pub fn forget_area(&mut self, area: &Area, protected: Option<&Area>) -> Result<usize, Refusal> {
        let protected_area = protected.unwrap_or(area).to_raw();
        let answer = raw::forget_area(self.state, &mut self.buffers_mut(), area.to_raw(), u8::from(protected.is_some()), protected_area);
        self.state = Refusal::check(answer.refusal, answer.state)?;
        Ok(answer.forgotten)
    }

    /// Records how much of a payload has arrived: `available` bytes of that of the entry at exactly this subspace and path. Any number up to the payload
    /// length will do, a smaller one than before too; nothing else changes. With a digest expected, only if it is the stored entry's. A new entry has
    /// available length 0, also one that takes another's place. Refused: 11, 9, 12.
    ///
    /// ```
    /// use virebony::{Area, AuthorisedEntry, Entry, EntryOrigin, Path, QueryIgnoreParams, Refusal, Store, SubspaceId};
    /// let (subspace, path) = (SubspaceId { high: 0, low: 9 }, Path::from_slices(&["plot", "3"])?);
    /// let mut store = Store::open([1; 16], 16)?;
    /// assert_eq!(store.record_available_length(&subspace, &path, None, 0), Err(Refusal::AbsentEntry));
    /// let entry = Entry::new([1; 16], subspace, path, 100, 5000, [8; 32]);
    /// store.ingest_entry(AuthorisedEntry::new(entry, [7; 64]), false, EntryOrigin::Local)?;
    /// let complete = QueryIgnoreParams { ignore_incomplete_payloads: true, ..Default::default() };
    /// store.record_available_length(&subspace, &path, Some([8; 32]), 4999)?;
    /// assert_eq!(store.query_area(&Area::new_full(), complete)?.count(), 0);
    /// store.record_available_length(&subspace, &path, Some([8; 32]), 5000)?;
    /// assert_eq!(store.query_area(&Area::new_full(), complete)?.count(), 1);
    /// assert_eq!(store.record_available_length(&subspace, &path, None, 5001), Err(Refusal::TooMuchAvailable));
    /// # Ok::<(), Refusal>(())
    /// ```
    pub fn record_available_length(
        &mut self,
        subspace_id: &SubspaceId,
        path: &Path,
        expected_digest: Option<PayloadDigest>,
        available: u64,
    ) -> Result<(), Refusal> {
        let (expects, digest) = (u8::from(expected_digest.is_some()), expected_digest.unwrap_or_default());
        let answer = raw::record_available_length(self.state, &mut self.trees(), *subspace_id, *path.as_raw(), expects, &digest, available);
        self.state = Refusal::check(answer.refusal, answer.state)?;
        Ok(())
    }

    /// Forgets how much of a payload has arrived: the available length of the entry at exactly this subspace and path becomes 0. With a digest expected,
    /// only if it is the stored entry's. Refused: 11, 9.
    pub fn forget_payload(&mut self, subspace_id: &SubspaceId, path: &Path, expected_digest: Option<PayloadDigest>) -> Result<(), Refusal> {
        let (expects, digest) = (u8::from(expected_digest.is_some()), expected_digest.unwrap_or_default());
        let answer = raw::forget_payload(self.state, &mut self.trees(), *subspace_id, *path.as_raw(), expects, &digest);
        self.state = Refusal::check(answer.refusal, answer.state)?;
        Ok(())
    }

    /// The entry at a subspace and path, unless `ignore` passes over it.
    pub fn entry(&self, subspace_id: &SubspaceId, path: &Path, ignore: QueryIgnoreParams) -> Result<Option<LengthyAuthorisedEntry>, Refusal> {
        let answer = raw::find_entry(self.state, self.buffers(), *subspace_id, *path.as_raw(), ignore.to_raw());
        let raw::LengthyEntry { entry, token, available, origin } = Refusal::check(answer.refusal, answer.lengthy)?;
        let found = || LengthyAuthorisedEntry::new(AuthorisedEntry::new(Entry::of_answer(entry), token), available, EntryOrigin::of_answer(origin));
        Ok((answer.found != 0).then(found))
    }

    /// The entries that an area includes, in key order: by subspace, then path. The store is lent meanwhile; to file between two steps, walk a
    /// [`Listing::of_area`].
    pub fn query_area(&self, area: &Area, ignore: QueryIgnoreParams) -> Result<Entries<'_>, Refusal> {
        Entries::new(self, Listing::of_area(area, ignore))
    }

    /// The entries that a 3d range includes, in key order: by subspace, then path. The store is lent meanwhile; to file between two steps, walk a
    /// [`Listing::of_range`].
    pub fn query_range(&self, range: &Range3d, ignore: QueryIgnoreParams) -> Result<Entries<'_>, Refusal> {
        Entries::new(self, Listing::of_range(range, ignore))
    }

    /// How many entries an area includes.
    pub fn count_area(&self, area: &Area) -> Result<usize, Refusal> {
        let answer = raw::count_area(self.state, self.buffers(), area.to_raw());
        Refusal::check(answer.refusal, answer.count)
    }

    /// How many entries a 3d range includes: the size part of willow-rs's `summarise`.
    pub fn summarise(&self, range: &Range3d) -> Result<usize, Refusal> {
        let answer = raw::summarise(self.state, self.buffers(), range.to_raw());
        Refusal::check(answer.refusal, answer.count)
    }

    /// The 3d range of an area of interest: the area's own, its times starting at that of the first entry, walking its matches from the newest, that
    /// breaks a limit; else of the oldest match; else as given.
    pub fn area_of_interest_to_range(&self, aoi: &AreaOfInterest) -> Result<Range3d, Refusal> {
        let interest = raw::Interest { area: aoi.area.to_raw(), max_count: aoi.max_count, max_size: aoi.max_size };
        let answer = raw::area_of_interest_to_range(self.state, self.buffers(), interest);
        Refusal::check(answer.refusal, Range3d::of_answer(answer.range))
    }

    /// The items of the tally, in ascending order: how many entries each subspace has, and the newest of their timestamps. Every call that files or drops
    /// entries has kept it right, so no entry is looked at here.
    pub fn tally(&self) -> Tally<'_> {
        Tally::new(&self.tally)
    }

    /// The state and the four buffers of the entries, to be kept in a file: `docs/FORMAT.md` shows how they lie in memory. [`Store::from_parts`] takes them
    /// back. The tally is not among them, as they say what it is.
    ///
    /// ```
    /// # use virebony::Store;
    /// let store = Store::open([1; 16], 2)?;
    /// let (state, buffers) = store.as_parts();
    /// let mut file = state.namespace_id.to_vec();
    /// file.extend([state.count, state.limit].iter().flat_map(|number| number.to_le_bytes()));
    /// file.extend(buffers.spt.iter().chain(buffers.tsp));
    /// file.extend(buffers.spt_dir.iter().chain(buffers.tsp_dir).flat_map(|number| number.to_le_bytes()));
    /// assert_eq!(file.len(), 32 + 2 * 419 * 2 + 2 * 8 * 2);
    /// # Ok::<(), virebony::Refusal>(())
    /// ```
    pub fn as_parts(&self) -> (State, Buffers<'_>) {
        (self.state, self.buffers())
    }

    /// The store of a state and buffers, if they are a well-formed one. Buffers may be longer than the limit asks. The tally is worked out from the
    /// subspace-first tree, and the archive compares it with its own. Refused: 1, 2, 3.
    ///
    /// A store that an edition before 6 kept has 410 bytes of a tree for each entry of the limit, and values of 112: it is refused with 2, and in longer trees
    /// with 3, unless it has no entry and is 0 up to 419 × limit. It is carried over by giving both trees 419 × limit bytes and writing nine zeros, which say local, behind each value, at
    /// the record's end; each record then has nine bytes more, and the one in place i begins 9 × i bytes later, which goes into the directories. State, keys
    /// and tally stay. `docs/FORMAT.md` tells it too. One that edition 6 kept is taken as it is.
    pub fn from_parts(state: State, spt: Vec<u8>, spt_dir: Vec<u32>, tsp: Vec<u8>, tsp_dir: Vec<u32>) -> Result<Store, Refusal> {
        let mut store = Store { state, spt, spt_dir, tsp, tsp_dir, tally: Vec::new(), prune: Vec::new() };
        store.count_area(&Area::new_full())?;
        store.tally = tally_of(state, store.buffers());
        store.prune = vec![Pair::default(); state.limit];
        store.forget_area(&Area::new_full(), Some(&Area::new_full()))?; // drops nothing, and tests the tally
        Ok(store)
    }

    fn buffers(&self) -> Buffers<'_> {
        Buffers { spt: &self.spt, spt_dir: &self.spt_dir, tsp: &self.tsp, tsp_dir: &self.tsp_dir }
    }

    fn trees(&mut self) -> Trees<'_> {
        Trees { spt: &mut self.spt, spt_dir: &self.spt_dir, tsp: &mut self.tsp, tsp_dir: &self.tsp_dir }
    }

    fn buffers_mut(&mut self) -> BuffersMut<'_> {
        let Store { spt, spt_dir, tsp, tsp_dir, tally, .. } = self;
        BuffersMut { spt, spt_dir, tsp, tsp_dir, tally }
    }
}
