//! Filing while listings are open (02, U7): keys that listings go on from, for every kind that lists; and the kind `listings`. Small stores, up to four listings open at
//! once, of areas and of ranges, with and without flags; between their steps entries that come behind and ahead of what they remember, prune what was given and what is
//! yet to come, forgettings and filing again, recordings, openings; and steps from keys of every kind, sound and not.
use crate::call::{Call, Walk};
use crate::gen_origins::any_origin;
use crate::gen_steps::Gen;
use crate::rng::Rng;
use model::*;

/// How many listings are open at most.
const WALKS: u64 = 4;
const LAST: [u8; 16] = [255; 16];

/// A key that no other is above.
fn greatest() -> Vec<u8> {
    spt(&LAST, &vec![vec![255; 64]; 2], u64::MAX)
}

/// Bytes that are mostly no key, made of one.
fn spoiled(r: &mut Rng, mut k: Vec<u8>) -> Vec<u8> {
    let (at, b) = (r.at(k.len()), r.of(&[0, 1, 2, 3, 0x61, 255]));
    match r.below(8) {
        0 => k.truncate(25),
        1 => k.truncate(at.max(1)),
        2 => k.truncate(k.len() - 1),
        3 | 4 => k.push(b),
        5 => drop(k.splice(16..16, [0, 3])),
        6 => drop(k.splice(16..16, [0x61, 0, 0])),
        _ => k.resize(299, 0),
    }
    k
}

impl Gen {
    /// The key of the record before a place; at the first place the empty one, behind the last record one above all. Now and then another time, another subspace, or no key.
    /// By numbers of its own.
    pub fn key_before(&mut self, place: u64) -> Vec<u8> {
        let list = self.judge.store.entries();
        let before = place.checked_sub(1).map(|i| list.get(i as usize).map(|x| x.entry.clone()));
        let r = &mut self.keys;
        let Some(before) = before else { return vec![] };
        let Some(mut e) = before else {
            return r.of(&[greatest(), greatest(), vec![255; 298], vec![0; 299]]);
        };
        match r.below(24) {
            0 => e.timestamp = e.timestamp.wrapping_add(1),
            1 => e.timestamp = e.timestamp.wrapping_sub(1),
            2 => e.subspace[15] = e.subspace[15].wrapping_add(1),
            3 => e.path.clear(),
            4 => return key(&e, true),
            5 => return spoiled(r, key(&e, false)),
            _ => {}
        }
        key(&e, false)
    }
    /// An area or a range around a stored entry: mostly so wide that several match.
    fn wide(&mut self, e: &Entry) -> Query {
        let r = &mut self.a.r;
        let (open, path) = (Range { start: 0, end: None }, e.path[..e.path.len().min(r.of(&[0, 0, 0, 1]))].to_vec());
        match r.below(17) {
            0..=3 => Query::Area(Area { subspace: None, path, times: open }),
            4..=5 => Query::Area(Area { subspace: Some(e.subspace), path, times: open }),
            6 => Query::Area(Area { subspace: None, path, times: Range { start: 0, end: e.timestamp.checked_add(1) } }),
            7..=9 => Query::Range(Range3d { subspaces: Range { start: [0; 16], end: None }, paths: Range { start: vec![], end: None }, times: open }),
            10..=11 => Query::Range(Range3d { subspaces: Range { start: [0; 16], end: None }, paths: Range { start: path.clone(), end: None }, times: open }),
            12 => Query::Range(Range3d { subspaces: Range { start: e.subspace, end: None }, paths: Range { start: vec![], end: FIELD.above(&e.path) }, times: open }),
            13 => Query::Area(self.a.area_around(e)),
            14 => Query::Range(self.a.range_around(e)),
            // No legal path.
            15 => {
                let (path, end) = (self.a.illegal(), self.a.r.one_in(2));
                let paths = if end { Range { start: vec![], end: Some(path.clone()) } } else { Range { start: path.clone(), end: None } };
                let range = Range3d { subspaces: Range { start: [0; 16], end: None }, paths, times: open.clone() };
                if self.a.r.one_in(2) { Query::Area(Area { subspace: None, path, times: open }) } else { Query::Range(range) }
            }
            // Legal, and of nothing: it ends before it starts.
            _ => {
                let (above, times) = (FIELD.above(&e.path).unwrap_or_default(), if r.one_in(2) { open } else { Range { start: 5, end: Some(3) } });
                Query::Range(Range3d { subspaces: Range { start: [0; 16], end: None }, paths: Range { start: above, end: Some(e.path.clone()) }, times })
            }
        }
    }
    fn flags(&mut self) -> Ignore {
        Ignore { incomplete: self.a.r.one_in(3), empty: self.a.r.one_in(8) }
    }
    fn begin(&mut self, w: u8, e: &Entry) -> Call {
        let query = self.wide(e);
        Call::Walk(w, query, self.flags())
    }
    /// What the listing would give next, if something.
    fn coming(&self, w: &Walk) -> Option<Entry> {
        self.judge.store.step(&w.query, w.ignore, &w.last).ok().flatten().map(|x| x.entry)
    }
    /// A step of a listing, or a new one in its place: mostly where it is finished or its paths are illegal, seldom else.
    fn more(&mut self, w: u8, e: &Entry) -> Call {
        let goes_on = self.judge.walks.get(&w).map(|w| self.coming(w).is_some());
        let new = match goes_on {
            None => true,
            Some(true) => self.a.r.one_in(60),
            Some(false) => self.a.r.one_in(3),
        };
        if new { self.begin(w, e) } else { Call::More(w) }
    }
    /// Bytes to go on from: keys of what is stored, was stored, never was; the least and the greatest; and what the encoder does not write.
    fn any_key(&mut self, e: &Entry) -> Vec<u8> {
        let (other, s, p, t) = (self.a.entry([0; 16]), self.a.subspace(), self.a.legal(), self.a.time());
        let sent = if self.sent.is_empty() { e.clone() } else { self.a.r.of(&self.sent) };
        let long = [vec![vec![0; 64]; 2], vec![vec![]; 6]].concat();
        let illegal = self.a.illegal();
        let damaged = self.raw_key(false);
        let r = &mut self.a.r;
        match r.below(40) {
            0..=2 => vec![],
            3..=8 => key(e, false),
            9..=11 if FIELD.legal(&sent.path) => key(&sent, false),
            12..=13 if FIELD.legal(&other.path) => key(&other, false),
            14 => spt(&s, &e.path, e.timestamp),
            15..=16 => spt(&e.subspace, &e.path, e.timestamp.wrapping_add(r.of(&[1, u64::MAX]))),
            17 => spt(&e.subspace, &p, t),
            9..=13 => spt(&s, &p, t),
            18 => spt(&[0; 16], &vec![], 0),
            19 => r.of(&[greatest(), spt(&LAST, &vec![], 0)]),
            20 => spt(&r.of(&[[0; 16], e.subspace, s, LAST]), &long, t),
            21..=22 => tsp(&e.subspace, &e.path, e.timestamp),
            23 => tsp(&s, &vec![], t),
            24..=26 => spt(&e.subspace, &illegal, t),
            27 => spt(&e.subspace, &vec![vec![]; 9], t),
            28 => [&spt(&e.subspace, &long, t)[..], &[r.of(&[0, 1, 255])]].concat(),
            29..=30 => damaged,
            31 => (0..1 + r.at(400)).map(|_| r.next() as u8).collect(),
            32 => (0..299).map(|_| r.of(&[0, 0, 1, 2, 0x61])).collect(),
            _ => spoiled(r, key(e, false)),
        }
    }
    /// An entry that comes while a listing is open: at the path that it gave last, at or above what it would give next, or anywhere.
    fn beside(&mut self, w: &Walk, e: &Entry) -> Entry {
        let (namespace, given, coming) = (self.judge.store.namespace, FIELD.decode(false, &w.last), self.coming(w));
        let any = self.a.entry(namespace);
        let mut new = match (self.a.r.below(12), given, coming) {
            // The same key with another digest, or a later time.
            (0..=1, Some((subspace, path, timestamp)), _) => {
                let mut new = Entry { namespace, subspace, path, timestamp, payload_length: self.a.length(), payload_digest: any.payload_digest };
                let there = self.judge.store.entries().iter().find(|x| x.entry.subspace == subspace && x.entry.path == new.path).map(|x| x.entry.payload_digest);
                if self.a.r.one_in(2) {
                    new.timestamp = new.timestamp.wrapping_add(1);
                } else if let Some(mut d) = there {
                    let i = d.iter().rposition(|b| *b < 255).unwrap_or(0);
                    d[i] = d[i].wrapping_add(1);
                    new.payload_digest = d;
                }
                new
            }
            // Newer than what is coming, at its path or above it.
            (2..=4, _, Some(next)) => {
                let cut = if self.a.r.one_in(2) { next.path.len() } else { self.a.r.at(next.path.len() + 1) };
                Entry { path: next.path[..cut].to_vec(), timestamp: next.timestamp.saturating_add(1), ..next }
            }
            // Near to what is coming, or to what was given.
            (5, _, Some(next)) => Entry { path: self.a.relative(&next.path), payload_length: self.a.length(), ..next },
            (6..=7, Some((subspace, path, timestamp)), _) => Entry { namespace, subspace, path: self.a.relative(&path), timestamp, payload_length: self.a.length(), payload_digest: any.payload_digest },
            (8, ..) => self.a.close(e),
            _ => any,
        };
        new.namespace = namespace;
        new
    }
    pub fn scrolled(&mut self) -> Call {
        let (token, prevent, namespace) = (self.a.token(), self.a.r.one_in(8), self.judge.store.namespace);
        let origin = any_origin(&mut self.a.r);
        let w = self.a.r.below(WALKS) as u8;
        let Some(x) = self.stored() else {
            let e = self.a.entry(namespace);
            return match self.a.r.below(10) {
                0 => self.begin(w, &e),
                1..=2 => Call::More(w),
                3..=4 => {
                    let (q, last) = (self.wide(&e), self.any_key(&e));
                    Call::Next(q, self.flags(), last)
                }
                5..=6 if !self.gone.is_empty() => Call::Ingest(Entry { namespace, ..self.a.r.of(&self.gone).0 }, token, prevent, origin),
                _ => Call::Ingest(e, token, prevent, origin),
            };
        };
        let e = x.entry.clone();
        match self.a.r.below(100) {
            0..=35 => self.more(w, &e),
            36..=45 => {
                let (q, last) = (self.wide(&e), self.any_key(&e));
                Call::Next(q, self.flags(), last)
            }
            46..=57 => {
                let e = match self.judge.walks.get(&w).cloned() {
                    Some(open) => self.beside(&open, &e),
                    None => self.a.entry(namespace),
                };
                Call::Ingest(e, token, prevent, origin)
            }
            58..=66 => Call::Ingest(self.a.entry(namespace), token, prevent, origin),
            // What a listing gave last, what it would give next, or anything.
            67..=72 => {
                let open = self.judge.walks.get(&w).cloned();
                let next = open.as_ref().and_then(|w| self.coming(w));
                let last = open.and_then(|w| self.judge.store.entries().iter().map(|x| x.entry.clone()).find(|e| key(e, false) == w.last));
                let e = self.a.r.of(&[Some(e.clone()), next.clone(), next, last]).unwrap_or(e);
                self.gone.push((e.clone(), x.origin));
                Call::Forget(e.subspace, e.path, Some(e.payload_digest).filter(|_| self.a.r.one_in(3)))
            }
            73 => {
                let (all, times) = (self.a.r.one_in(3), Range { start: 0, end: None });
                let a = if all { Area { subspace: None, path: vec![], times } } else { Area { subspace: Some(e.subspace), path: e.path[..e.path.len().min(1)].to_vec(), times } };
                let inside = self.judge.store.entries().iter().filter(|x| a.includes(&x.entry));
                self.gone.extend(inside.map(|x| (x.entry.clone(), x.origin)));
                Call::ForgetArea(a, None)
            }
            // Filed again: the last one that was forgotten, or one before.
            74..=80 if !self.gone.is_empty() => {
                let i = if self.a.r.one_in(2) { self.gone.len() - 1 } else { self.a.r.at(self.gone.len()) };
                Call::Ingest(Entry { namespace, ..self.gone[i].0.clone() }, token, false, origin)
            }
            81..=87 => {
                let (l, part) = (e.payload_length, self.a.r.next() % e.payload_length.max(1));
                Call::Record(e.subspace, e.path, self.a.r.of(&[l, l, l, part]), None)
            }
            88..=89 => {
                let recorded: Vec<Entry> = self.judge.store.entries().iter().filter(|x| x.available > 0).map(|x| x.entry.clone()).collect();
                let e = if recorded.is_empty() { e } else { self.a.r.of(&recorded) };
                Call::Unrecord(e.subspace, e.path, None)
            }
            90 => Call::IncludedIn(self.a.area_around(&e), self.a.ignore()),
            91 => Call::QueryRange(self.a.range_around(&e), self.a.ignore()),
            92 => Call::Ingest(e, token, prevent, origin),
            93 if self.a.r.one_in(4) => self.open(),
            94 if self.a.r.one_in(3) => Call::Dump,
            95 => {
                let e = self.tied(e);
                Call::Ingest(e, token, prevent, origin)
            }
            96 => match self.store_call() {
                Call::Ingest(e, token, prevent, _) => Call::Ingest(e, token, prevent, origin),
                other => other,
            },
            _ => self.more(w, &e),
        }
    }
}
