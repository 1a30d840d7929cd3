//! A store as a list of entries in order of subspace, path and time, and document 01's calls on it, with 02's U1 to U4, U6 and U7. A call that is
//! refused answers its number.
use crate::*;

pub type Refusal = u8;
/// Offset and length of a record in the subspace-first tree.
pub type Pair = (u32, u32);

#[derive(Clone, Debug, PartialEq, Eq)]
pub enum Verdict {
    /// The pairs of the records that were removed, as they stood before the call: those of strictly older entries (02, U3).
    Taken(Vec<Pair>),
    /// A stored entry that is newer, with its token; its origin is not shown.
    Obsolete(Entry, Token),
    /// The very entry is stored already; nothing changes, its token, available length and origin included (02, U2 and U6).
    Held,
}

#[derive(Clone, Debug, PartialEq, Eq)]
pub struct Store {
    pub namespace: Namespace,
    /// None is no limit at all, which 01 does not have; 0 is what a refused opening leaves.
    pub limit: Option<u64>,
    pub bounds: Bounds,
    list: Vec<Stored>,
    /// The tally that calls are lent, as it is.
    tally: Vec<u8>,
}

impl Store {
    fn new(namespace: Namespace, limit: Option<u64>, bounds: Bounds) -> Store {
        Store { namespace, limit, bounds, list: vec![], tally: vec![0; (ITEM * 1024) as usize] }
    }
    pub fn unlimited(namespace: Namespace, bounds: Bounds) -> Store {
        Store::new(namespace, None, bounds)
    }
    /// What a refused opening leaves: a state that is all 0, so that every call on the store is refused with 1.
    pub fn closed(bounds: Bounds) -> Store {
        Store::new([0; 16], Some(0), bounds)
    }
    pub fn open(namespace: Namespace, limit: u64, bounds: Bounds) -> Result<Store, Refusal> {
        if (1..=1024).contains(&limit) { Ok(Store::new(namespace, Some(limit), bounds)) } else { Err(1) }
    }
    pub fn entries(&self) -> &[Stored] {
        &self.list
    }
    /// 1 if the store is none; 4 if one of the paths is illegal.
    pub fn refusal(&self, paths: &[&Path]) -> Result<(), Refusal> {
        if self.limit == Some(0) {
            return Err(1);
        }
        if paths.iter().all(|p| self.bounds.legal(p)) { Ok(()) } else { Err(4) }
    }
    /// The same of a call that changes the store: 10 goes before 4, if the tally is not the one that the store gives.
    fn changes(&self, paths: &[&Path]) -> Result<(), Refusal> {
        self.refusal(&[])?;
        if !is_tally(&self.list, self.room(), &self.tally) {
            return Err(10);
        }
        self.refusal(paths)
    }
    /// How many items the tally has room for.
    fn room(&self) -> u64 {
        self.limit.unwrap_or(1024.max(self.list.len() as u64))
    }
    /// The tally worked out afresh; what lies beyond the limit's room stays.
    fn retally(&mut self) {
        let new = tally(&self.list, self.room());
        let beyond = self.tally.split_off(new.len().min(self.tally.len()));
        self.tally = [new, beyond].concat();
    }
    /// An entry that is taken is stored with this origin, whatever stood at its place before (02, U6).
    pub fn ingest(&mut self, e: &Entry, token: &Token, prevent_pruning: bool, origin: EntryOrigin) -> Result<Verdict, Refusal> {
        self.changes(&[&e.path])?;
        if e.namespace != self.namespace {
            return Err(6);
        }
        if let Some(x) = self.list.iter().find(|x| x.entry.covers(e) && x.entry.compare(e) == Recency::Newer) {
            return Ok(Verdict::Obsolete(x.entry.clone(), x.token));
        }
        // The same subspace, path, timestamp, digest and length; the namespace is the store's.
        if self.list.iter().any(|x| x.entry == *e) {
            return Ok(Verdict::Held);
        }
        // Strictly older ones only: one that ties stays, and no more is said of it (02, U3).
        let outdated = |x: &Stored| e.covers(&x.entry) && x.entry.compare(e) == Recency::Older;
        let (mut at, mut pruned) = (0, vec![]);
        for x in &self.list {
            let length = record(x, false).len() as u32;
            if outdated(x) {
                pruned.push((at, length));
            }
            at += length;
        }
        if prevent_pruning && !pruned.is_empty() {
            return Err(7);
        }
        if self.limit.is_some_and(|limit| (self.list.len() - pruned.len()) as u64 >= limit) {
            return Err(8);
        }
        self.list.retain(|x| !outdated(x));
        let triple = |e: &Entry| (e.subspace, e.path.clone(), e.timestamp);
        let place = self.list.partition_point(|x| triple(&x.entry) < triple(e));
        self.list.insert(place, Stored { entry: e.clone(), token: *token, available: 0, origin });
        self.retally();
        Ok(Verdict::Taken(pruned))
    }
    fn place_of(&self, s: &Subspace, p: &Path) -> Option<usize> {
        self.list.iter().position(|x| x.entry.subspace == *s && x.entry.path == *p)
    }
    /// An absent entry answers done, whatever digest was expected.
    pub fn forget_entry(&mut self, s: &Subspace, p: &Path, expected: Option<&Digest>) -> Result<(), Refusal> {
        self.changes(&[p])?;
        if let Some(i) = self.place_of(s, p) {
            if expected.is_some_and(|d| *d != self.list[i].entry.payload_digest) {
                return Err(9);
            }
            self.list.remove(i);
            self.retally();
        }
        Ok(())
    }
    pub fn forget_area(&mut self, area: &Area, protected: Option<&Area>) -> Result<u64, Refusal> {
        self.changes(&[Some(&area.path), protected.map(|a| &a.path)].into_iter().flatten().collect::<Vec<_>>())?;
        let before = self.list.len();
        self.list.retain(|x| !area.includes(&x.entry) || protected.is_some_and(|a| a.includes(&x.entry)));
        self.retally();
        Ok((before - self.list.len()) as u64)
    }
    /// How much of the payload of the entry at exactly this place has arrived, be it more or less than before (02, U4): 11 if no entry is there, then 9,
    /// then 12. The tally is not lent, so there is no 10.
    pub fn record_available_length(&mut self, s: &Subspace, p: &Path, expected: Option<&Digest>, available: u64) -> Result<(), Refusal> {
        self.refusal(&[p])?;
        let Some(i) = self.place_of(s, p) else { return Err(11) };
        let x = &mut self.list[i];
        if expected.is_some_and(|d| *d != x.entry.payload_digest) {
            return Err(9);
        }
        if available > x.entry.payload_length {
            return Err(12);
        }
        x.available = available;
        Ok(())
    }
    /// Sets it to 0, which is never too much (02, U4).
    pub fn forget_payload(&mut self, s: &Subspace, p: &Path, expected: Option<&Digest>) -> Result<(), Refusal> {
        self.record_available_length(s, p, expected, 0)
    }
    pub fn entry(&self, s: &Subspace, p: &Path, ignore: Ignore) -> Result<Option<Stored>, Refusal> {
        self.refusal(&[p])?;
        Ok(self.place_of(s, p).map(|i| self.list[i].clone()).filter(|x| !ignore.passes_over(x)))
    }
    /// A whole listing: the matches in key order.
    pub fn list(&self, query: &Query, ignore: Ignore) -> Result<Vec<Stored>, Refusal> {
        self.refusal(&query.paths())?;
        Ok(self.list.iter().filter(|x| query.includes(&x.entry) && !ignore.passes_over(x)).cloned().collect())
    }
    /// A step of a listing that remembers this key, at its start the empty one (02, U7): of the matches in the store as it is, the one of the least
    /// subspace-first key above that one, by the keys' bytes; at the start the least of all. None: the listing is finished. 5 if what is remembered is
    /// neither empty nor a key that the subspace-first encoder writes; its record need not be stored, nor match.
    pub fn step(&self, query: &Query, ignore: Ignore, last: &[u8]) -> Result<Option<Stored>, Refusal> {
        self.refusal(&query.paths())?;
        if !last.is_empty() && self.bounds.decode(false, last).is_none() {
            return Err(5);
        }
        let matches = self.list.iter().filter(|x| query.includes(&x.entry) && !ignore.passes_over(x));
        Ok(matches.filter(|x| key(&x.entry, false)[..] > *last).min_by_key(|x| key(&x.entry, false)).cloned())
    }
    pub fn count_area(&self, area: &Area) -> Result<u64, Refusal> {
        let all = Ignore { incomplete: false, empty: false };
        Ok(self.list(&Query::Area(area.clone()), all)?.len() as u64)
    }
    pub fn summarise(&self, r: &Range3d) -> Result<u64, Refusal> {
        let all = Ignore { incomplete: false, empty: false };
        Ok(self.list(&Query::Range(r.clone()), all)?.len() as u64)
    }
    /// The matches in time-first order from the last: the times start at that of the first entry met that breaks a
    /// limit, else of the least match, else as given. A limit of 2^64 - 1 means none; a sum past it counts as over.
    pub fn area_of_interest_to_range(&self, area: &Area, max_count: u64, max_size: u64) -> Result<Range3d, Refusal> {
        self.refusal(&[&area.path])?;
        let mut r = self.bounds.area_range(area);
        let mut met: Vec<&Entry> = self.list.iter().map(|x| &x.entry).filter(|e| area.includes(e)).collect();
        met.sort_by_key(|e| tsp(&e.subspace, &e.path, e.timestamp));
        let (mut count, mut size) = (0u64, 0u128);
        for e in met.into_iter().rev() {
            r.times.start = e.timestamp;
            count += 1;
            size += e.payload_length as u128;
            if max_count != u64::MAX && count > max_count || max_size != u64::MAX && size > max_size as u128 {
                break;
            }
        }
        Ok(r)
    }
    /// From outside, as no call of the store does: writes a number into the tally, where there is room for its 8 bytes.
    pub fn poke_tally(&mut self, at: u64, n: u64) {
        if let Some(to) = usize::try_from(at).ok().and_then(|at| self.tally.get_mut(at..)).and_then(|rest| rest.first_chunk_mut()) {
            *to = n.to_be_bytes();
        }
    }
    /// From outside, as is done to the Rust, which has no call for it: sets the available length, at most the payload length.
    pub fn poke_available(&mut self, s: &Subspace, p: &Path, n: u64) -> bool {
        let Some(i) = self.place_of(s, p) else { return false };
        let x = &mut self.list[i];
        x.available = n.min(x.entry.payload_length);
        true
    }
}
