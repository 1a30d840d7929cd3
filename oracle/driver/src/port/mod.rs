//! The port, through the crate `virebony`: every call is one or several of its door (module `raw`).
pub mod spell;
pub mod values;
use crate::answer::{Answer, Shown};
use crate::call::{Call, Walk};
use model::*;
use spell::*;
use std::collections::BTreeMap;
use values::{area_range, strict};
use virebony::raw;

/// A store's buffers, its tally and a prune list, longer than a store needs.
#[derive(Clone, PartialEq)]
pub struct Buffers {
    pub spt: Vec<u8>,
    pub spt_dir: Vec<u32>,
    pub tsp: Vec<u8>,
    pub tsp_dir: Vec<u32>,
    pub tally: Vec<u8>,
    pub prune: Vec<raw::Pair>,
}

/// What a call is handed beside its values: a state, how much of each buffer, in the order above, and how many bytes for a
/// key.
#[derive(Clone, Copy)]
pub struct Handed {
    pub state: raw::State,
    pub lengths: [usize; 6],
    pub key: usize,
}

impl Buffers {
    pub fn lengths(&self) -> [usize; 6] {
        [self.spt.len(), self.spt_dir.len(), self.tsp.len(), self.tsp_dir.len(), self.tally.len(), self.prune.len()]
    }
    /// A byte of a tree (0, 2) or of the tally (4), or a number of a directory (1, 3).
    pub fn at(&self, which: usize, at: usize) -> u32 {
        match which {
            0 => self.spt[at] as u32,
            1 => self.spt_dir[at],
            2 => self.tsp[at] as u32,
            3 => self.tsp_dir[at],
            _ => self.tally[at] as u32,
        }
    }
    pub fn set(&mut self, which: usize, at: usize, to: u32) {
        match which {
            0 => self.spt[at] = to as u8,
            1 => self.spt_dir[at] = to,
            2 => self.tsp[at] = to as u8,
            3 => self.tsp_dir[at] = to,
            _ => self.tally[at] = to as u8,
        }
    }
    /// What 02's U4 is lent: no tally, and directories that it cannot change.
    fn trees(&mut self, [a, b, c, d, ..]: [usize; 6]) -> raw::Trees<'_> {
        raw::Trees { spt: &mut self.spt[..a], spt_dir: &self.spt_dir[..b], tsp: &mut self.tsp[..c], tsp_dir: &self.tsp_dir[..d] }
    }
    pub fn lent(&self, [a, b, c, d, ..]: [usize; 6]) -> Lent<'_> {
        Lent { spt: &self.spt[..a], spt_dir: &self.spt_dir[..b], tsp: &self.tsp[..c], tsp_dir: &self.tsp_dir[..d] }
    }
    fn shared(&self, [a, b, c, d, ..]: [usize; 6]) -> raw::Buffers<'_> {
        raw::Buffers { spt: &self.spt[..a], spt_dir: &self.spt_dir[..b], tsp: &self.tsp[..c], tsp_dir: &self.tsp_dir[..d] }
    }
    fn parts(&mut self, [a, b, c, d, e, f]: [usize; 6]) -> (raw::BuffersMut<'_>, &mut [raw::Pair]) {
        let store = raw::BuffersMut {
            spt: &mut self.spt[..a],
            spt_dir: &mut self.spt_dir[..b],
            tsp: &mut self.tsp[..c],
            tsp_dir: &mut self.tsp_dir[..d],
            tally: &mut self.tally[..e],
        };
        (store, &mut self.prune[..f])
    }
}

pub struct Port {
    pub state: raw::State,
    pub buffers: Buffers,
    /// The listings that are open, each with a copy of the last key that it gave.
    pub walks: BTreeMap<u8, Walk>,
}

/// What a listing is asked for, as the door takes it.
#[derive(Clone, Copy)]
enum Asked {
    Area(raw::Area),
    Range(raw::Range),
}

impl Port {
    /// A state that an answer hands back: as it was if the call was refused, else kept.
    fn keep(&mut self, refusal: u8, state: raw::State, handed: raw::State) -> Result<(), Answer> {
        if refusal == 0 {
            self.state = state;
        } else if state != handed {
            return Err(Answer::Said(format!("stray: refused {refusal} with {state:?}")));
        }
        Ok(())
    }
    pub fn exec(&mut self, call: &Call, h: Handed, salt: u64) -> Answer {
        self.ask(call, h, salt).unwrap_or_else(|a| a)
    }
    fn ask(&mut self, call: &Call, h: Handed, salt: u64) -> Result<Answer, Answer> {
        let s = &mut Spell::salted(salt);
        Ok(match call {
            Call::Bent(c) => self.ask(c, h, salt)?,
            Call::Open(n, limit) => {
                let limit = limit.unwrap_or(1024) as usize;
                let got = raw::open(n, limit, &mut self.buffers.parts(h.lengths).0);
                if got.refusal != 0 {
                    return Ok(strict(got.state, raw::State::default(), Answer::Refused(got.refusal)));
                }
                self.state = got.state;
                strict(got.state, raw::State { namespace_id: *n, count: 0, limit }, Answer::Opened)
            }
            Call::Ingest(e, k, prevent, o) => self.ingest(s.entry(e), k, s.yes(*prevent), s.origin(*o), h, salt)?,
            Call::Forget(sub, p, d) => {
                let (junk, p) = (s.bytes(), s.path(p));
                let got = raw::forget_entry(h.state, &mut self.buffers.parts(h.lengths).0, subspace(sub), p, s.yes(d.is_some()), &d.unwrap_or(junk));
                self.keep(got.refusal, got.state, h.state)?;
                if got.refusal == 0 { Answer::Done } else { Answer::Refused(got.refusal) }
            }
            Call::Record(sub, p, n, d) => {
                let (junk, p) = (s.bytes(), s.path(p));
                let got = raw::record_available_length(h.state, &mut self.buffers.trees(h.lengths), subspace(sub), p, s.yes(d.is_some()), &d.unwrap_or(junk), *n);
                recorded(got, h.state)
            }
            Call::Unrecord(sub, p, d) => {
                let (junk, p) = (s.bytes(), s.path(p));
                let got = raw::forget_payload(h.state, &mut self.buffers.trees(h.lengths), subspace(sub), p, s.yes(d.is_some()), &d.unwrap_or(junk));
                recorded(got, h.state)
            }
            // The driver's poke, by the public call: never above the payload length.
            Call::Avail(sub, p, n) => {
                let (sub, p, all) = (subspace(sub), s.path(p), s.ignore(Ignore { incomplete: false, empty: false }));
                let found = raw::find_entry(h.state, self.buffers.shared(h.lengths), sub, p, all);
                match (found.refusal, found.found) {
                    (0, 0) => Answer::Absent,
                    (0, _) => {
                        let n = (*n).min(found.lengthy.entry.payload_length);
                        recorded(raw::record_available_length(h.state, &mut self.buffers.trees(h.lengths), sub, p, 0, &s.bytes(), n), h.state)
                    }
                    (n, _) => Answer::Refused(n),
                }
            }
            Call::ForgetArea(a, b) => {
                let a = s.area(a);
                let protected = b.as_ref().map(|b| s.area(b)).unwrap_or_else(|| s.absent_area());
                let got = raw::forget_area(h.state, &mut self.buffers.parts(h.lengths).0, a, s.yes(b.is_some()), protected);
                self.keep(got.refusal, got.state, h.state)?;
                match (got.refusal, got.forgotten) {
                    (0, n) => Answer::Forgot(n as u64),
                    (n, 0) => Answer::Refused(n),
                    _ => Answer::Said(format!("stray: {got:?}")),
                }
            }
            Call::Entry(sub, p, i) => self.found(raw::find_entry(h.state, self.buffers.shared(h.lengths), subspace(sub), s.path(p), s.ignore(*i))),
            Call::QueryArea(a, i) | Call::IncludedIn(a, i) => {
                let (a, i) = (Asked::Area(s.area(a)), s.ignore(*i));
                Answer::List(self.list(h, a, i, salt)?)
            }
            Call::QueryRange(r, i) => {
                let (r, i) = (Asked::Range(s.range(r)), s.ignore(*i));
                Answer::List(self.list(h, r, i, salt)?)
            }
            Call::Next(q, i, last) => {
                let (q, i) = (s.query(q), s.ignore(*i));
                Answer::Next(self.next(h, q, i, last)?.map(|(x, key)| (x, key.to_vec())))
            }
            Call::Walk(w, query, ignore) => {
                self.walks.insert(*w, Walk { query: query.clone(), ignore: *ignore, last: vec![] });
                Answer::Begun
            }
            // What is remembered is the key that the port says the record has, copied before anything else is filed.
            Call::More(w) => {
                let Some(open) = self.walks.get(w) else { return Ok(Answer::Absent) };
                let (q, i) = (s.query(&open.query), s.ignore(open.ignore));
                let given = self.next(h, q, i, &open.last)?.map(|(x, key)| (x, key.to_vec()));
                if let (Some((_, key)), Some(open)) = (&given, self.walks.get_mut(w)) {
                    open.last = key.clone();
                }
                Answer::Next(given)
            }
            Call::Count(a) => counted(raw::count_area(h.state, self.buffers.shared(h.lengths), s.area(a)), Answer::Count),
            Call::Size(r) => counted(raw::summarise(h.state, self.buffers.shared(h.lengths), s.range(r)), Answer::Size),
            Call::Aoi(a, max_count, max_size) => {
                let interest = raw::Interest { area: s.area(a), max_count: *max_count, max_size: *max_size };
                area_range(raw::area_of_interest_to_range(h.state, self.buffers.shared(h.lengths), interest))
            }
            _ => values::exec(call, h.key, salt),
        })
    }
    /// Over pair records, over numbers, or with a prune list by value.
    fn ingest(&mut self, e: raw::Entry, k: &Token, prevent: u8, o: raw::Origin, h: Handed, salt: u64) -> Result<Answer, Answer> {
        let (mut store, prune) = self.buffers.parts(h.lengths);
        let got = match salt % 8 {
            1 | 2 => {
                let mut numbers: Vec<u32> = prune.iter().flat_map(|p| [p.offset, p.length]).collect();
                let got = raw::ingest_entry_numbers(h.state, &mut store, &mut numbers, e, k, prevent, o);
                prune.iter_mut().zip(numbers.chunks(2)).for_each(|(p, n)| *p = raw::Pair { offset: n[0], length: n[1] });
                got
            }
            3 if prune.len() >= 1024 => {
                let got = raw::ingest_entry_by_value(h.state, &mut store, raw::Pairs { pairs: prune[..1024].try_into().unwrap() }, e, k, prevent, o);
                prune[..1024].copy_from_slice(&got.pairs);
                got.ingested
            }
            _ => raw::ingest_entry(h.state, &mut store, prune, e, k, prevent, o),
        };
        let plain = raw::Ingested { refusal: 0, obsolete: 0, held: 0, pruned: 0, state: got.state, newer: raw::Entry::default(), token: [0; 64] };
        self.keep(got.refusal, got.state, h.state)?;
        Ok(match (got.refusal, got.obsolete, got.held, unentry(&got.newer)) {
            (0, 1, _, Some(newer)) => {
                let plain = raw::Ingested { obsolete: 1, newer: Spell::plain().entry(&newer), token: got.token, ..plain };
                strict(got, plain, Answer::Obsolete(newer, got.token))
            }
            (0, 0, 1, _) => strict(got, raw::Ingested { held: 1, state: h.state, ..plain }, Answer::Held),
            (0, 0, _, _) if got.pruned <= h.lengths[5] => {
                let pairs = self.buffers.prune[..got.pruned].iter().map(|p| (p.offset, p.length)).collect();
                strict(got, raw::Ingested { pruned: got.pruned, ..plain }, Answer::Taken(pairs))
            }
            (n, ..) => strict(got, raw::Ingested { refusal: n, ..plain }, Answer::Refused(n)),
        })
    }
    fn found(&self, got: raw::EntryFound) -> Answer {
        let l = got.lengthy;
        let none = raw::LengthyEntry { entry: raw::Entry::default(), token: [0; 64], available: 0, origin: raw::Origin { remote: 0, session: 0 } };
        match (got.refusal, got.found, unentry(&l.entry), unorigin(&l.origin)) {
            (0, 1, Some(entry), Some(origin)) => {
                let plain = Spell::plain().entry(&entry);
                strict(l.entry, plain, Answer::Found(Some(Shown { entry, token: l.token, available: l.available, origin: Some(origin) })))
            }
            (0, 0, _, _) => strict(l, none, Answer::Found(None)),
            (n, _, _, _) => strict(got, raw::EntryFound { refusal: n, found: 0, lengthy: none }, Answer::Refused(n)),
        }
    }
    /// Both calls of a step: whether there is a record, and where it lies.
    fn step(&self, h: Handed, q: Asked, i: raw::Ignore, last: &[u8]) -> (raw::Listed, raw::Part) {
        let b = self.buffers.shared(h.lengths);
        match q {
            Asked::Area(a) => (raw::query_area_found(h.state, b, a, i, last), raw::query_area(h.state, b, a, i, last)),
            Asked::Range(r) => (raw::query_range_found(h.state, b, r, i, last), raw::query_range(h.state, b, r, i, last)),
        }
    }
    /// What a step gives, by the model's reading of the record, and the record's key, which lies in the tree. The part must be a record of the directory, and empty if there is none.
    fn next(&self, h: Handed, q: Asked, i: raw::Ignore, last: &[u8]) -> Result<Option<(Shown, &[u8])>, Answer> {
        let (got, part) = self.step(h, q, i, last);
        let stray = Err(Answer::Said(format!("stray: {got:?} {part:?}")));
        let empty = part == raw::Part { offset: 0, length: 0 };
        match got {
            raw::Listed { refusal: 0, found: 1 } => {
                if !self.buffers.spt_dir[..2 * self.state.count].chunks(2).any(|p| [p[0] as usize, p[1] as usize] == [part.offset, part.length]) {
                    return stray;
                }
                let record = &self.buffers.spt[part.offset..part.offset + part.length];
                let key = raw::record_key(record);
                match read_record(self.state.namespace_id, record, false) {
                    Some(x) if key.offset + key.length <= record.len() => Ok(Some((x.into(), &record[key.offset..key.offset + key.length]))),
                    _ => Err(Answer::Said(format!("no record in {part:?}, or no key in {key:?}"))),
                }
            }
            raw::Listed { refusal: 0, found: 0 } if empty => Ok(None),
            raw::Listed { refusal, found: 0 } if refusal != 0 && empty => Err(Answer::Refused(refusal)),
            _ => stray,
        }
    }
    /// A whole listing, from the empty key on. Nothing writes the tree meanwhile, so what is remembered is often the key as it lies there, and else a copy.
    fn list(&self, h: Handed, q: Asked, i: raw::Ignore, salt: u64) -> Result<Vec<Shown>, Answer> {
        let (mut out, mut last, mut copy): (Vec<Shown>, &[u8], Vec<u8>);
        (out, last) = (vec![], &[]);
        while let Some((x, key)) = self.next(h, q, i, last)? {
            out.push(x);
            if out.len() > self.state.count {
                return Err(Answer::Said("a listing of more than there is".into()));
            }
            last = key;
            if salt % 3 == 0 {
                copy = key.to_vec();
                last = &copy;
            }
        }
        Ok(out)
    }
}

/// The state that is answered is the one that was handed in, refused or not.
fn recorded(got: raw::AvailableRecorded, handed: raw::State) -> Answer {
    match (got.refusal, got.state == handed) {
        (0, true) => Answer::Done,
        (n, true) => Answer::Refused(n),
        _ => Answer::Said(format!("stray: {got:?}")),
    }
}

fn counted(got: raw::Counted, answer: impl Fn(u64) -> Answer) -> Answer {
    match (got.refusal, got.count) {
        (0, n) => answer(n as u64),
        (n, 0) => Answer::Refused(n),
        _ => Answer::Said(format!("stray: {got:?}")),
    }
}
