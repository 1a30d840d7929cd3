//! The tally of a store: of each subspace how many entries it has, and the newest of their timestamps.
use crate::raw::{Buffers, State, ITEM, VALUE};
use crate::{SubspaceId, Timestamp};

/// What a tally says of one subspace.
#[derive(Clone, Copy, Debug, PartialEq, Eq, Hash)]
pub struct TallyItem {
    /// The subspace.
    pub subspace_id: SubspaceId,
    /// How many entries it has; never 0.
    pub count: u32,
    /// The newest of their timestamps.
    pub newest: Timestamp,
}

impl TallyItem {
    /// The item of 28 bytes: subspace 16, count 4, newest timestamp 8, each big-endian.
    fn read(bytes: &[u8]) -> TallyItem {
        let part = |from: usize, to: usize| bytes[from..to].iter().fold(0u128, |number, byte| number << 8 | u128::from(*byte));
        TallyItem { subspace_id: SubspaceId::from(part(0, 16).to_be_bytes()), count: part(16, 20) as u32, newest: part(20, 28) as Timestamp }
    }

    fn write(self, bytes: &mut [u8]) {
        bytes[..16].copy_from_slice(&<[u8; 16]>::from(self.subspace_id));
        bytes[16..20].copy_from_slice(&self.count.to_be_bytes());
        bytes[20..].copy_from_slice(&self.newest.to_be_bytes());
    }
}

/// The items of a tally, in ascending order of their subspaces; [`Store::tally`](crate::Store::tally) makes it.
///
/// ```
/// use virebony::{AuthorisedEntry, Entry, EntryOrigin, Path, Store, SubspaceId, TallyItem};
/// let mut store = Store::open([1; 16], 16)?;
/// for (recorder, name, timestamp) in [(9, "a", 100), (9, "b", 102), (7, "a", 101)] {
///     let entry = Entry::new([1; 16], SubspaceId { high: 0, low: recorder }, Path::from_slices(&[name])?, timestamp, 5, [0; 32]);
///     store.ingest_entry(AuthorisedEntry::new(entry, [7; 64]), false, EntryOrigin::Local)?;
/// }
/// let counts: Vec<_> = store.tally().map(|item| (item.subspace_id.low, item.count)).collect();
/// assert_eq!(counts, [(7, 1), (9, 2)]);
/// let nine = SubspaceId { high: 0, low: 9 };
/// assert_eq!(store.tally().of(nine), Some(TallyItem { subspace_id: nine, count: 2, newest: 102 }));
/// # Ok::<(), virebony::Refusal>(())
/// ```
#[derive(Clone, Debug)]
pub struct Tally<'a> {
    items: std::slice::ChunksExact<'a, u8>,
    bytes: &'a [u8],
}

impl<'a> Tally<'a> {
    /// Of a tally's bytes. No item has count 0, so the items end at the first place whose count is 0.
    pub(crate) fn new(bytes: &'a [u8]) -> Tally<'a> {
        let items = halve(bytes.len() / ITEM, |place| at(bytes, place).count != 0);
        let bytes = &bytes[..ITEM * items];
        Tally { items: bytes.chunks_exact(ITEM), bytes }
    }

    /// The item of a subspace, found by halving; none if the subspace has no entry. It does not matter how far the iterator is.
    pub fn of(&self, subspace_id: SubspaceId) -> Option<TallyItem> {
        let items = self.bytes.len() / ITEM;
        let place = halve(items, |place| at(self.bytes, place).subspace_id < subspace_id);
        (place < items).then(|| at(self.bytes, place)).filter(|item| item.subspace_id == subspace_id)
    }

    /// The bytes of all items, 28 each, however far the iterator is.
    pub fn as_bytes(&self) -> &'a [u8] {
        self.bytes
    }
}

impl Iterator for Tally<'_> {
    type Item = TallyItem;

    fn next(&mut self) -> Option<TallyItem> {
        self.items.next().map(TallyItem::read)
    }

    fn size_hint(&self) -> (usize, Option<usize>) {
        self.items.size_hint()
    }
}

impl ExactSizeIterator for Tally<'_> {}

fn at(bytes: &[u8], place: usize) -> TallyItem {
    TallyItem::read(&bytes[ITEM * place..ITEM * (place + 1)])
}

/// The first of so many places at which a test that holds of some first places fails.
fn halve(places: usize, holds: impl Fn(usize) -> bool) -> usize {
    let (mut from, mut to) = (0, places);
    while from < to {
        let mid = from + (to - from) / 2;
        if holds(mid) {
            from = mid + 1;
        } else {
            to = mid;
        }
    }
    from
}

/// The tally of a well-formed store, from its subspace-first tree, where the entries of a subspace stand together: a record begins with the subspace, and
/// its key ends with the timestamp.
pub(crate) fn tally_of(state: State, store: Buffers<'_>) -> Vec<u8> {
    let mut items: Vec<TallyItem> = Vec::new();
    for pair in store.spt_dir.chunks_exact(2).take(state.count) {
        let (offset, length) = (pair[0] as usize, pair[1] as usize);
        let key = &store.spt[offset..offset + length - VALUE];
        let (mut subspace, mut timestamp) = ([0; 16], [0; 8]);
        subspace.copy_from_slice(&key[..16]);
        timestamp.copy_from_slice(&key[key.len() - 8..]);
        let (subspace_id, newest) = (SubspaceId::from(subspace), u64::from_be_bytes(timestamp));
        match items.last_mut().filter(|item| item.subspace_id == subspace_id) {
            Some(item) => *item = TallyItem { count: item.count + 1, newest: item.newest.max(newest), ..*item },
            None => items.push(TallyItem { subspace_id, count: 1, newest }),
        }
    }
    let mut bytes = vec![0; ITEM * state.limit];
    for (item, room) in items.into_iter().zip(bytes.chunks_exact_mut(ITEM)) {
        item.write(room);
    }
    bytes
}
