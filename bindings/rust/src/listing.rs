//! What a query answers: one entry after another.
use crate::{raw, Area, AuthorisedEntry, Entry, EntryOrigin, LengthyAuthorisedEntry, NamespaceId, Path, QueryIgnoreParams, Range3d, Refusal, Store};

/// What a listing asks for.
#[derive(Clone, Copy, Debug, PartialEq, Eq)]
#[allow(clippy::large_enum_variant)] // a listing has one of them
enum Query {
    Area(raw::Area),
    Range(raw::Range),
}

/// The entries of a query, one step after another, in key order: by subspace, then path, then timestamp. It borrows a store for a step only, so that entries may
/// be filed and forgotten between two steps.
///
/// A listing remembers the last key that it gave, at its start the empty key. A step gives the entry of the least matching key above that one in the store as it
/// then is. So in a listing that is walked to its end, an entry that is stored and matches all the while is given once. One that first arrives behind, its key not
/// being above the last one given, is not given; one that is gone before its turn, and not filed again, is not given; no key is given twice. An entry that takes the
/// place of one that was given, with a later timestamp, has another key, and is given.
///
/// A step is one call of the archive, which looks at the whole store, so that a full listing is quadratic; the last step makes another, to tell finished from refused.
///
/// ```
/// use virebony::{Area, AuthorisedEntry, Entry, EntryOrigin, Listing, Path, Refusal, Store, SubspaceId};
/// let mut store = Store::open([1; 16], 16)?;
/// let file = |store: &mut Store, name: &str, timestamp| {
///     let entry = Entry::new([1; 16], SubspaceId { high: 0, low: 9 }, Path::from_slices(&[name])?, timestamp, 5, [0; 32]);
///     store.ingest_entry(AuthorisedEntry::new(entry, [7; 64]), false, EntryOrigin::Local)
/// };
/// for name in ["b", "d", "f"] {
///     file(&mut store, name, 100)?;
/// }
/// let mut listing = Listing::of_area(&Area::new_full(), Default::default());
/// let mut given = Vec::new();
/// while let Some(stored) = listing.next(&store)? {
///     given.push(stored.entry().entry().path().to_string());
///     if given.len() == 1 {
///         file(&mut store, "a", 101)?; // behind
///         file(&mut store, "c", 101)?; // before us
///         store.forget_entry(&SubspaceId { high: 0, low: 9 }, &Path::from_slices(&["f"])?, None)?; // gone before its turn
///     }
/// }
/// assert_eq!(given, ["62", "63", "64"]); // b, c and d
/// # Ok::<(), Refusal>(())
/// ```
#[derive(Clone, Debug, PartialEq, Eq)]
pub struct Listing {
    query: Query,
    ignore: raw::Ignore,
    last: Vec<u8>,
}

impl Listing {
    /// A listing of the entries that an area includes, at its start.
    pub fn of_area(area: &Area, ignore: QueryIgnoreParams) -> Listing {
        Listing { query: Query::Area(area.to_raw()), ignore: ignore.to_raw(), last: Vec::new() }
    }

    /// A listing of the entries that a 3d range includes, at its start.
    pub fn of_range(range: &Range3d, ignore: QueryIgnoreParams) -> Listing {
        Listing { query: Query::Range(range.to_raw()), ignore: ignore.to_raw(), last: Vec::new() }
    }

    /// The same listing, made to remember this key: one that [`Listing::last_key`] told, or any other that the subspace-first encoder writes; no entry of that key need be stored. The
    /// empty one is the start. Refused: 5.
    pub fn after(mut self, last_key: &[u8]) -> Result<Listing, Refusal> {
        if !last_key.is_empty() {
            Refusal::check(raw::decode_spt_entry_key(last_key).refusal, ())?;
        }
        self.remember(last_key);
        Ok(self)
    }

    /// The last key that was given, as bytes; at the start the empty one. A listing that is made [`after`](Listing::after) it goes on from here.
    pub fn last_key(&self) -> &[u8] {
        &self.last
    }

    /// The entry of the least matching key above the last one given, in the store as it is now; none if the listing is finished. It remembers that key; one that is
    /// finished remembers the last key still, and gives what is filed above it later.
    pub fn next(&mut self, store: &Store) -> Result<Option<LengthyAuthorisedEntry>, Refusal> {
        let record = self.next_record(store)?;
        Ok(record.map(|record| read_record(*store.namespace_id(), record)))
    }

    /// The same step, which gives the record as it lies in the subspace-first tree: its key, then its value of 121 bytes ([`raw::VALUE`]), of which the last nine
    /// are where the entry came from.
    pub fn next_record<'a>(&mut self, store: &'a Store) -> Result<Option<&'a [u8]>, Refusal> {
        let record = self.step(store);
        if record.is_none() {
            Refusal::check(self.found(store).refusal, ())?;
        }
        Ok(record)
    }

    /// One call of the archive. No record: the listing is finished, or the call was refused.
    fn step<'a>(&mut self, store: &'a Store) -> Option<&'a [u8]> {
        let (state, buffers) = store.as_parts();
        let part = match self.query {
            Query::Area(area) => raw::query_area(state, buffers, area, self.ignore, &self.last),
            Query::Range(range) => raw::query_range(state, buffers, range, self.ignore, &self.last),
        };
        if part.length == 0 {
            return None;
        }
        let record = &buffers.spt[part.offset..part.offset + part.length];
        self.remember(&record[..raw::record_key(record).length]);
        Some(record)
    }

    /// What the same step says, the record left aside.
    fn found(&self, store: &Store) -> raw::Listed {
        let (state, buffers) = store.as_parts();
        match self.query {
            Query::Area(area) => raw::query_area_found(state, buffers, area, self.ignore, &self.last),
            Query::Range(range) => raw::query_range_found(state, buffers, range, self.ignore, &self.last),
        }
    }

    fn remember(&mut self, key: &[u8]) {
        self.last.clear();
        self.last.extend_from_slice(key);
    }
}

/// The entries of a query over a store that is lent meanwhile, in key order; [`Store::query_area`] and [`Store::query_range`] make it. To file between two steps,
/// walk a [`Listing`].
///
/// A step is one call of the archive, which looks at the whole store, so that a full listing is quadratic; the last step makes another, to tell finished from refused.
#[derive(Clone, Debug)]
pub struct Entries<'a> {
    store: &'a Store,
    listing: Listing,
    next: Option<&'a [u8]>,
}

impl<'a> Entries<'a> {
    /// Takes the first step. The store cannot change while it is lent, and every key that is remembered is one of its own: what is not refused here never is.
    pub(crate) fn new(store: &'a Store, mut listing: Listing) -> Result<Entries<'a>, Refusal> {
        let next = listing.next_record(store)?;
        Ok(Entries { store, listing, next })
    }

    /// The next match as it lies in the subspace-first tree: its key, then its value of 121 bytes ([`raw::VALUE`]), of which the last nine are
    /// where the entry came from. [`Iterator::next`] reads it as an entry.
    pub fn next_record(&mut self) -> Option<&'a [u8]> {
        let record = self.next?;
        self.next = self.listing.step(self.store);
        Some(record)
    }
}

impl Iterator for Entries<'_> {
    type Item = LengthyAuthorisedEntry;

    fn next(&mut self) -> Option<LengthyAuthorisedEntry> {
        let namespace_id = *self.store.namespace_id();
        self.next_record().map(|record| read_record(namespace_id, record))
    }
}

/// The entry of a record of a well-formed store.
fn read_record(namespace_id: NamespaceId, record: &[u8]) -> LengthyAuthorisedEntry {
    let (key, value) = record.split_at(raw::record_key(record).length);
    let triple = raw::decode_spt_entry_key(key);
    let (length, value) = part(value);
    let (digest, value) = part(value);
    let (token, value) = part(value);
    let (available, value) = part(value);
    let ([remote], value) = part(value);
    let (session, _) = part(value);
    let origin = EntryOrigin::of_answer(raw::Origin { remote, session: u64::from_be_bytes(session) });
    let entry = Entry::new(namespace_id, triple.subspace, Path::of_answer(triple.path), triple.timestamp, u64::from_be_bytes(length), digest);
    LengthyAuthorisedEntry::new(AuthorisedEntry::new(entry, token), u64::from_be_bytes(available), origin)
}

/// The first N bytes, and those behind.
fn part<const N: usize>(bytes: &[u8]) -> ([u8; N], &[u8]) {
    let mut first = [0; N];
    first.copy_from_slice(&bytes[..N]);
    (first, &bytes[N..])
}
