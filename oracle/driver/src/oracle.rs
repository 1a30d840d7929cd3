//! ORACLE: the customer's Rust, called. Every answer below comes out of the unchanged files, but for what this driver
//! does itself: the limit (refusal 8: the call is made, and taken back if the count then exceeds the limit), the names
//! of the outcomes, `unlike` (README.md), `spt01` and `tsp01`, which are the model's and say so in their names, `above`, which picks from a listing, and
//! `resend` and `beside_ties`, which put back what 02's U2 and U3 want unchanged, and `compared`, which reckons pairs with the
//! nine bytes of 02's U6.
use crate::answer::{Answer, Shown};
use crate::call::*;
use crate::convert::*;
use crate::cuts;
use crate::params::*;
use crate::tally::counted;
use model::{Bounds, Ignore, Pair, Query, Recency, Token};
use std::panic::{catch_unwind, AssertUnwindSafe};
use std::rc::Rc;
use ufotofu_codec::block_on;
use wgps::RbsrStore;
use willow_data_model::{grouping as g, *};
use willow_sideload::SideloadStore;
use willow_store_simple_sled::StoreSimpleSled;

const ALL: Ignore = Ignore { incomplete: false, empty: false };

pub type St<const MCL: usize, const MCC: usize, const MPL: usize> =
    StoreSimpleSled<MCL, MCC, MPL, Ns, Sub, Dig, Tok>;

/// A tree's records.
type Raw = Vec<(sled::IVec, sled::IVec)>;

pub struct Oracle<const MCL: usize, const MCC: usize, const MPL: usize> {
    pub store: Rc<St<MCL, MCC, MPL>>,
    pub db: sled::Db,
    limit: Option<u64>,
    bend: bool,
    /// With how many bytes more a record the pairs of a prune list are reckoned.
    longer: usize,
}

/// In what way the Rust's answer was come by, with the model's beside it.
pub enum Way {
    Plain,
    /// The very entry is stored (02, U2): whether the trees were put back.
    Held(bool),
    /// Stored extensions tie (02, U3): what the answer is with these put back.
    Tied(Answer),
}

/// A record that goes by 01's rule.
struct Outdated {
    /// Subspace-first, and where it stands in that tree.
    key: sled::IVec,
    pair: Pair,
    /// It is at the very subspace, path and time of the entry that comes.
    own: bool,
    /// It has the timestamp, digest and length of the entry that comes.
    same: bool,
}

/// A subspace-first key; or the time-first one of the same triple, which has the last 8 bytes in front.
fn turned(k: &[u8], time_first: bool) -> Vec<u8> {
    let (rest, time) = k.split_at(k.len() - 8);
    if time_first { [time, rest].concat() } else { k.to_vec() }
}

impl<const MCL: usize, const MCC: usize, const MPL: usize> Oracle<MCL, MCC, MPL> {
    pub fn open(n: Ns, limit: Option<u64>) -> Self {
        let db = sled::Db::default();
        let store = Rc::new(St::new(&n, db.clone()).unwrap());
        Oracle { store, db, limit, bend: false, longer: 0 }
    }
    /// For the comparison with the port: pairs are reckoned as they are with its records (cuts.rs).
    pub fn compared(n: Ns, limit: Option<u64>) -> Self {
        Oracle { longer: cuts::LONGER, ..Self::open(n, limit) }
    }
    pub fn tree(&self, tsp: bool) -> sled::Tree {
        self.db.open_tree([tsp as u8]).unwrap()
    }
    pub fn raw(&self, tsp: bool) -> Raw {
        self.tree(tsp).iter().flatten().collect()
    }
    fn both(&self) -> [Raw; 2] {
        [self.raw(false), self.raw(true)]
    }
    /// The tally, counted in both trees; none if they do not give the same.
    pub fn tally(&self) -> Option<Vec<model::Item>> {
        let [a, b] = [false, true].map(|time_first| counted(self.raw(time_first).iter().map(|(k, _)| &k[..]), time_first));
        if a == b { a } else { None }
    }
    fn restore(&self, old: [Raw; 2]) {
        for (tsp, old) in [false, true].into_iter().zip(old) {
            let t = self.tree(tsp);
            t.clear().unwrap();
            for (k, v) in old {
                t.insert(k, v).unwrap();
            }
        }
    }
    pub fn list(&self) -> Vec<Shown> {
        self.range_list(&g::Range3d::new_full(), ALL)
    }
    fn range_list(&self, r: &g::Range3d<MCL, MCC, MPL, Sub>, i: Ignore) -> Vec<Shown> {
        let s = self.store.clone();
        drain(RbsrStore::<MCL, MCC, MPL, Ns, Sub, Dig, Tok, NoPrint>::query_range(s, r, ignore(i)))
    }
    fn area_list(&self, a: &g::Area<MCL, MCC, MPL, Sub>, i: Ignore) -> Vec<Shown> {
        let mut l = self.range_list(&g::Range3d::new_full(), i);
        l.retain(|x| a.includes_triplet(&Sub(x.entry.subspace), &path(&x.entry.path).unwrap(), x.entry.timestamp));
        l
    }
    /// The first of these entries, of a listing of the Rust's own, whose key in the Rust's own tree is above some bytes. The Rust has no step that begins at a key: this
    /// driver picks it, and whether the bytes are a key is not asked.
    fn above(&self, listed: Vec<Shown>, last: &[u8]) -> Answer {
        let (all, records) = (self.list(), self.raw(false));
        let key = |x: &Shown| records[all.iter().position(|y| x == y).unwrap()].0.to_vec();
        Answer::Next(listed.into_iter().map(|x| { let k = key(&x); (x, k) }).find(|(_, k)| k[..] > *last))
    }

    /// Offset and length of each record of the subspace-first tree.
    fn pairs(&self, records: &Raw) -> Vec<Pair> {
        let mut at = 0;
        let place = |(k, v): &(sled::IVec, sled::IVec)| {
            let pair = (at, (k.len() + v.len() + self.longer) as u32);
            at += pair.1;
            pair
        };
        records.iter().map(place).collect()
    }

    pub fn ingest(&self, e: &model::Entry, k: &Token, prevent: bool, from: model::EntryOrigin) -> Out<Answer> {
        let authed = AuthorisedEntry::new(entry(e)?, Tok(*k)).unwrap();
        let before = self.both();
        self.tree(false).take_journal();
        match block_on(self.store.ingest_entry(authed, prevent, origin(from))) {
            Ok(EntryIngestionSuccess::Success) => {}
            Ok(EntryIngestionSuccess::Obsolete { newer, .. }) => {
                let newer = unentry(&newer, 0);
                return Ok(Answer::Obsolete(newer.entry, newer.token));
            }
            Err(EntryIngestionError::PruningPrevented) => return Ok(Answer::Refused(7)),
            Err(e) => return Ok(Answer::Said(format!("error {e:?}"))),
        }
        if self.limit.is_some_and(|l| self.tree(false).len() as u64 > l) {
            self.restore(before);
            return Ok(Answer::Refused(8));
        }
        // keys_to_prune, as the batch had them, as offset and length in the tree before the call.
        let places: std::collections::BTreeMap<_, _> = before[0].iter().map(|(k, _)| k.clone()).zip(self.pairs(&before[0])).collect();
        let pruned = self.tree(false).take_journal().into_iter().filter(|w| w.1.is_none());
        Ok(Answer::Taken(pruned.map(|(k, _)| places[&k]).collect()))
    }

    /// What goes by 01's rule when an entry comes, ties included: of the Rust's own records those of its subspace, at its path or below, that are not newer.
    fn outdated(&self, e: &model::Entry) -> Vec<Outdated> {
        let (key, length) = (model::key(e, false), e.payload_length.to_be_bytes());
        // The subspace and the components, each with its end: the keys at the path and below begin so, and no other.
        let (stem, time) = (&key[..key.len() - 10], &key[key.len() - 8..]);
        let (records, mut out) = (self.raw(false), vec![]);
        let pairs = self.pairs(&records);
        for ((k, v), pair) in records.into_iter().zip(pairs) {
            if k.starts_with(stem) {
                let rank = (&k[k.len() - 8..], &v[8..40], &v[..8]).cmp(&(time, &e.payload_digest, &length));
                if rank.is_le() {
                    out.push(Outdated { own: k[..] == key[..], key: k, pair, same: rank.is_eq() });
                }
            }
        }
        out
    }

    /// An ingestion of an entry that no stored one outdates, where something is to go by 01's rule. The Rust must answer and file just that: with
    /// pruning prevented it refuses with 7 and changes nothing, else it names all that goes, and files the entry with its token and available length 0.
    fn by_01(&mut self, e: &model::Entry, token: &Token, prevent: bool, from: model::EntryOrigin) -> Result<(Answer, Vec<Outdated>), String> {
        let (before, gone) = (self.both(), self.outdated(e));
        let answer = self.exec(&Call::Ingest(e.clone(), *token, prevent, from));
        let wanted = if prevent { Answer::Refused(7) } else { Answer::Taken(gone.iter().map(|g| g.pair).collect()) };
        if gone.is_empty() || answer != wanted {
            return Err(format!("an ingestion of {e:?}, prevented {prevent}: the Rust says {answer:?}, by 01's rule it is {wanted:?}"));
        }
        let value = [&e.payload_length.to_be_bytes()[..], &e.payload_digest, token, &[0; 8]].concat();
        for (time_first, mut wanted) in [false, true].into_iter().zip(before) {
            if !prevent {
                wanted.retain(|(k, _)| !gone.iter().any(|g| k[..] == turned(&g.key, time_first)[..]));
                wanted.push((model::key(e, time_first).into(), value.clone().into()));
                wanted.sort();
            }
            if self.raw(time_first) != wanted {
                return Err(format!("an ingestion of {e:?}, prevented {prevent}: the Rust files something else than 01's rule, time-first {time_first}"));
            }
        }
        Ok((answer, gone))
    }

    /// An ingestion that the model answers with held: the very entry is stored. The Rust files it anew, and removes with the
    /// stored one the extensions that tie; with pruning prevented it refuses with 7 (`by_01`). Its trees are then put back, if they
    /// are not as they were by themselves: if the token is another, the available length was not 0, or an extension went. The Rust's
    /// own answer, and whether anything was put back.
    fn resend(&mut self, e: &model::Entry, token: &Token, prevent: bool, from: model::EntryOrigin) -> Result<(Answer, bool), String> {
        let before = self.both();
        let (answer, gone) = self.by_01(e, token, prevent, from)?;
        if !gone[0].own || !gone.iter().all(|g| g.same) {
            return Err(format!("{e:?} is held, and the Rust has it not, or something older below it"));
        }
        let changed = before != self.both();
        if changed {
            self.restore(before);
        }
        Ok((answer, changed))
    }

    /// An ingestion above stored extensions that tie with its entry, which is not stored and not outdated. The Rust removes them with what is older, and with
    /// pruning prevented it refuses on their account too (`by_01`); by 02's U3 they stay, and nobody asks whether they may go. So, unless something older is
    /// there to be protected, the Rust is asked once more without the flag; then what ties is put back into both trees, and they are put back as they were if
    /// they hold more than the limit. The Rust's own answer, and what it is then.
    fn beside_ties(&mut self, e: &model::Entry, token: &Token, prevent: bool, from: model::EntryOrigin) -> Result<(Answer, Answer), String> {
        let before = self.both();
        let (answer, gone) = self.by_01(e, token, prevent, from)?;
        let (ties, older): (Vec<_>, Vec<_>) = gone.into_iter().partition(|g| g.same);
        if prevent {
            if !older.is_empty() {
                return Ok((answer, Answer::Refused(7)));
            }
            self.by_01(e, token, false, from)?;
        }
        for (time_first, was) in [false, true].into_iter().zip(&before) {
            for (k, v) in was.iter().filter(|(k, _)| ties.iter().any(|g| k[..] == turned(&g.key, time_first)[..])) {
                self.tree(time_first).insert(k, v).unwrap();
            }
        }
        if self.limit.is_some_and(|l| self.tree(false).len() as u64 > l) {
            self.restore(before);
            return Ok((answer, Answer::Refused(8)));
        }
        Ok((answer, Answer::Taken(older.iter().map(|g| g.pair).collect())))
    }

    /// Whether an extension of the entry is stored that ties with it, and the entry itself is not.
    fn ties(&self, e: &model::Entry) -> bool {
        let same: Vec<bool> = self.outdated(e).into_iter().filter(|g| g.same).map(|g| g.own).collect();
        same.first() == Some(&false)
    }

    /// A call with the model's answer to it beside: where the two part by 02's U2 or U3, as above. The Rust's own answer, and in what way it was come by.
    pub fn beside(&mut self, call: &Call, model: &Answer) -> Result<(Answer, Way), String> {
        match (call, model) {
            (Call::Ingest(e, token, prevent, from), Answer::Held) => self.resend(e, token, *prevent, *from).map(|(answer, back)| (answer, Way::Held(back))),
            (Call::Ingest(e, token, prevent, from), Answer::Taken(_) | Answer::Refused(7 | 8)) if self.ties(e) => {
                self.beside_ties(e, token, *prevent, *from).map(|(answer, then)| (answer, Way::Tied(then)))
            }
            _ => Ok((self.exec(call), Way::Plain)),
        }
    }

    pub fn exec(&mut self, call: &Call) -> Answer {
        crate::quiet();
        YES.with(|y| y.set(u64::MAX));
        crate::ASKED.set(true);
        let answer = catch_unwind(AssertUnwindSafe(|| self.run(call)));
        crate::ASKED.set(false);
        match answer {
            Ok(Ok(a) | Err(a)) => a,
            Err(_) => {
                let m = crate::last_panic();
                if m.starts_with("Store for") { Answer::Refused(6) } else { Answer::Said(format!("panic {m}")) }
            }
        }
    }

    fn run(&mut self, call: &Call) -> Out<Answer> {
        // Right before the call that makes the area's range, where that is asked for.
        let bend = std::mem::take(&mut self.bend);
        let arm = || {
            if bend {
                PathBuilder::<MCL, MCC, MPL>::refuse_once()
            }
        };
        let st = &self.store;
        Ok(match call {
            Call::Open(n, l) => {
                *self = Oracle { longer: self.longer, ..Self::open(Ns(*n), *l) };
                Answer::Opened
            }
            Call::Ingest(e, k, prevent, from) => self.ingest(e, k, *prevent, *from)?,
            Call::Forget(s, p, d) => match block_on(st.forget_entry(&Sub(*s), &path(p)?, d.map(Dig))) {
                Ok(()) => Answer::Done,
                Err(ForgetEntryError::WrongEntry) => Answer::Refused(9),
                Err(e) => Answer::Said(format!("error {e:?}")),
            },
            Call::ForgetArea(a, p) => {
                let p = p.as_ref().map(area).transpose()?;
                Answer::Forgot(block_on(st.forget_area(&area(a)?, p.as_ref())).unwrap() as u64)
            }
            Call::Entry(s, p, i) => {
                let found = block_on(st.entry(&Sub(*s), &path(p)?, ignore(*i))).unwrap();
                Answer::Found(found.map(|e| unentry(e.entry(), e.available())))
            }
            Call::QueryArea(a, i) => {
                let a = area(a)?;
                arm();
                Answer::List(drain(st.clone().query_area(a, ignore(*i))))
            }
            Call::IncludedIn(a, i) => Answer::List(self.area_list(&area(a)?, *i)),
            Call::QueryRange(r, i) => Answer::List(self.range_list(&range(r)?, *i)),
            Call::Next(Query::Area(a), i, last) => self.above(self.area_list(&area(a)?, *i), last),
            Call::Next(Query::Range(r), i, last) => self.above(self.range_list(&range(r)?, *i), last),
            Call::Walk(..) | Call::More(_) => Answer::Said("the Rust has no such call".into()),
            Call::Count(a) => Answer::Count(block_on(st.count_area(&area(a)?)).unwrap() as u64),
            Call::Size(r) => {
                let r = range(r)?;
                let (_, n): (NoPrint, usize) = block_on(st.summarise(&r)).unwrap();
                Answer::Size(n as u64)
            }
            Call::Aoi(a, c, z) => {
                let aoi = g::AreaOfInterest::new(area(a)?, *c, *z);
                arm();
                let r = block_on(
                    RbsrStore::<MCL, MCC, MPL, Ns, Sub, Dig, Tok, NoPrint>::area_of_interest_to_range(
                        &**st, &aoi,
                    ),
                );
                Answer::Range(unrange(&r))
            }
            Call::AreaRange(a) => {
                let a: g::Area<MCL, MCC, MPL, Sub> = area(a)?;
                arm();
                Answer::Range(unrange(&g::Range3d::from(a)))
            }
            Call::Succ(p) => {
                let p: Path<MCL, MCC, MPL> = path(p)?;
                Answer::Above(p.successor().as_ref().map(comps))
            }
            Call::Above(p) => {
                let p: Path<MCL, MCC, MPL> = path(p)?;
                Answer::Above(p.greater_but_not_prefixed().as_ref().map(comps))
            }
            Call::Order(a, b) => {
                let (a, b): (Path<MCL, MCC, MPL>, Path<MCL, MCC, MPL>) = (path(a)?, path(b)?);
                Answer::Order(a.cmp(&b), a.is_prefix_of(&b))
            }
            Call::Newer(a, b) => {
                let (a, b): (Entry<MCL, MCC, MPL, _, _, _>, _) = (entry(a)?, entry(b)?);
                // Asked both ways: newer, older, or neither.
                match (a.is_newer_than(&b), b.is_newer_than(&a)) {
                    (true, false) => Answer::Newer(Recency::Newer, a.prunes(&b)),
                    (false, true) => Answer::Newer(Recency::Older, a.prunes(&b)),
                    (false, false) => Answer::Newer(Recency::Same, a.prunes(&b)),
                    (true, true) => Answer::Said("each is newer than the other".into()),
                }
            }
            Call::InArea(a, e) => {
                let a: g::Area<MCL, MCC, MPL, Sub> = area(a)?;
                Answer::Included(a.includes_triplet(&Sub(e.subspace), &path(&e.path)?, e.timestamp))
            }
            Call::InRange(r, e) => {
                let r: g::Range3d<MCL, MCC, MPL, Sub> = range(r)?;
                Answer::Included(r.includes_triplet(&Sub(e.subspace), &path(&e.path)?, e.timestamp))
            }
            Call::Key(s, p, t) => Self::keys(s, p, *t)?,
            Call::Decode(time_first, k) => Self::decode(*time_first, k)?,
            Call::Decode01(time_first, k) => {
                crate::judge::decode(Bounds { component: MCL, count: MCC, total: MPL }, *time_first, k)
            }
            Call::Dump => {
                let tree = |time_first| -> Vec<_> {
                    self.raw(time_first).into_iter().map(|(k, v)| (k.to_vec(), v.to_vec())).collect()
                };
                match self.tally() {
                    Some(items) => Answer::Dump(tree(false), tree(true), items),
                    None => Answer::Said("the trees have no tally, or two".into()),
                }
            }
            Call::Put(tsp, k, v) => {
                self.tree(*tsp).insert(k, v.clone()).unwrap();
                Answer::Said("put".into())
            }
            Call::Poke(..) => Answer::Said("the Rust keeps no tally".into()),
            // Its `forget_payload` is about stored payloads and meets others' (`fpayload`): no reference for 02's U4.
            Call::Record(..) | Call::Unrecord(..) => Answer::Said("the Rust has no such call".into()),
            // A poke from outside into the last eight bytes of the Rust's value, in both trees; never above the payload length.
            Call::Avail(s, p, n) => {
                let p: Path<MCL, MCC, MPL> = path(p)?;
                let Some(e) = block_on(st.entry(&Sub(*s), &p, ignore(ALL))).unwrap() else {
                    return Ok(Answer::Absent);
                };
                let x = unentry(e.entry(), 0);
                let one = Self::open(Ns(x.entry.namespace), None);
                one.ingest(&x.entry, &x.token, false, model::EntryOrigin::Local)?;
                for tsp in [false, true] {
                    let (k, v) = one.raw(tsp).remove(0);
                    let mut v = v.to_vec();
                    *v.last_chunk_mut().unwrap() = (*n).min(x.entry.payload_length).to_be_bytes();
                    self.tree(tsp).insert(k, v).unwrap();
                }
                Answer::Done
            }
            // The unchanged code with one bend: the stand-in builder refuses the empty component that `successor` would
            // append, as it does at a path of MCC components. "unlike" where `successor` then still gives another path
            // than `greater_but_not_prefixed` (a full component that ends in ff, where it carries).
            Call::Bent(c) => {
                let (Call::QueryArea(a, ..) | Call::Aoi(a, ..) | Call::AreaRange(a)) = &**c else {
                    unreachable!()
                };
                let p: Path<MCL, MCC, MPL> = path(&a.path)?;
                PathBuilder::<MCL, MCC, MPL>::refuse_once();
                if p.successor() != p.greater_but_not_prefixed() {
                    return Ok(Answer::Unlike);
                }
                // Nor is a sum of lengths past 2^64 - 1 compared: the Rust wraps there, or panics if built with checks.
                if matches!(**c, Call::Aoi(_, _, z) if z != u64::MAX) {
                    let all = self.area_list(&area(a)?, ALL);
                    if all.iter().map(|x| x.entry.payload_length as u128).sum::<u128>() > u64::MAX as u128 {
                        return Ok(Answer::Unlike);
                    }
                }
                self.bend = true;
                self.run(c)?
            }
            _ => self.extra(call)?,
        })
    }
}
