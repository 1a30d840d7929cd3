//! Random sequences of steps over all values (gen_any.rs). The generator keeps a model of its own, so that it can ask for
//! what is stored. KIND: `untied`, without ties among the entries that are handed in, so that the Rust stays the comparison
//! (02, U3); `tied`, with many; `held`, mostly what is stored once more, or nearly; `full`, stores of up to 1,024 entries,
//! filled and kept full; `values`, calls that need no store; `arrivals`, how much of a payload has arrived (gen_arrivals.rs);
//! `origins`, where an entry came from (gen_origins.rs); `listings`, filing while listings are open (gen_listings.rs). The same seed gives the same steps.
use crate::answer::Answer;
use crate::call::Call;
use crate::gen_any::Any;
use crate::gen_origins::any_origin;
use crate::judge::Judge;
use crate::rng::Rng;
use crate::step::{Front, Step};
use model::*;

pub const KINDS: [&str; 8] = ["untied", "tied", "held", "full", "values", "arrivals", "origins", "listings"];

pub struct Gen {
    pub a: Any,
    pub kind: String,
    pub judge: Judge,
    /// Handed in since the last opening that was not refused.
    pub sent: Vec<Entry>,
    /// Forgotten since then, with the origin that it had (`origins`, `listings`).
    pub gone: Vec<(Entry, EntryOrigin)>,
    /// For the keys that listings go on from.
    pub keys: Rng,
}

/// An ingestion whose origin is yet to be drawn.
pub fn ingest(e: Entry, token: Token, prevent: bool) -> Call {
    Call::Ingest(e, token, prevent, EntryOrigin::Local)
}

impl Gen {
    pub fn open(&mut self) -> Call {
        let limits: &[u64] = match &self.kind[..] {
            "full" => &[1024, 1024, 1024, 1024, 1023, 700],
            "held" => &[1, 2, 2, 3, 4, 6, 8, 16, 32],
            "arrivals" | "origins" => &[1, 2, 3, 4, 6, 8, 12, 16, 24],
            "listings" => &[2, 3, 4, 6, 8, 8, 12, 16, 24],
            _ => &[1, 2, 4, 8, 16, 24, 32, 48, 64, 64, 64, 64, 100, 200],
        };
        let namespace = if self.a.r.one_in(4) { [0; 16] } else { self.a.subspace() };
        Call::Open(namespace, Some(self.a.r.of(limits)))
    }
    fn namespace(&mut self) -> Namespace {
        let mut n = self.judge.store.namespace;
        if self.a.r.one_in(40) {
            let i = self.a.r.at(16);
            n[i] = n[i].wrapping_add(1);
        }
        n
    }
    pub fn stored(&mut self) -> Option<Stored> {
        let n = self.judge.store.entries().len();
        (n > 0).then(|| self.judge.store.entries()[self.a.r.at(n)].clone())
    }
    /// One that is stored, or, seldom, any.
    fn about(&mut self) -> Entry {
        match self.stored() {
            Some(x) if !self.a.r.one_in(8) => x.entry,
            _ => self.a.entry([0; 16]),
        }
    }
    pub fn tied(&mut self, e: Entry) -> Entry {
        let mut t = e.clone();
        if !e.path.is_empty() && self.a.r.one_in(2) {
            t.path.truncate(self.a.r.at(e.path.len()));
        } else {
            t.path.push(self.a.r.of(&[vec![], vec![0], vec![0x61], vec![255]]));
        }
        if FIELD.legal(&t.path) { t } else { e }
    }
    fn entry(&mut self) -> (Entry, Token) {
        let (n, token) = (self.namespace(), self.a.token());
        let stored = self.stored();
        let mut e = match (self.a.r.below(10), stored) {
            (1 | 4..=7, Some(x)) if self.kind == "tied" => self.tied(x.entry),
            // A resend, often with the token that it came with.
            (0..=1, Some(x)) => {
                let token = if self.a.r.one_in(3) { token } else { x.token };
                return (Entry { namespace: n, ..x.entry }, token);
            }
            (2..=3, Some(x)) => self.a.close(&x.entry),
            _ => self.a.entry(n),
        };
        e.namespace = n;
        // Until it ties with nothing that was handed in: with another digest, and in the end at another time. What is sent again above was looked at when it came.
        let mut tries = 0;
        while self.kind == "untied" && self.sent.iter().any(|x| x.ties(&e)) {
            tries += 1;
            if tries > 64 {
                e.timestamp = self.a.r.next();
            }
            e.payload_digest[self.a.r.at(32)] = self.a.r.next() as u8;
        }
        (e, token)
    }
    /// What is stored once more, with any token, flag or namespace; or at its place with another digest, length or time; or tied with it. Some available
    /// lengths, and little else.
    fn again(&mut self) -> Call {
        let Some(x) = self.stored() else { return ingest(Entry { namespace: self.judge.store.namespace, ..self.a.entry([0; 16]) }, self.a.token(), self.a.r.one_in(3)) };
        let (mut e, other) = (x.entry.clone(), self.a.token());
        let token = if self.a.r.one_in(2) { other } else { x.token };
        match self.a.r.below(100) {
            0..=54 if self.a.r.one_in(12) => {
                let i = self.a.r.at(16);
                e.namespace[i] = e.namespace[i].wrapping_add(1);
            }
            0..=54 => {}
            55..=69 => match self.a.r.below(3) {
                0 => e.timestamp = e.timestamp.wrapping_add(self.a.r.of(&[1, u64::MAX])),
                1 => e.payload_length = e.payload_length.wrapping_add(self.a.r.of(&[1, u64::MAX])),
                _ => {
                    let i = self.a.r.of(&[0, 31, 15, 16, 7]);
                    e.payload_digest[i] = e.payload_digest[i].wrapping_add(self.a.r.of(&[1, 255, 128]));
                }
            },
            70..=79 => e = self.tied(e),
            80..=86 => {
                let any = self.a.number();
                return Call::Avail(e.subspace, e.path, self.a.r.of(&[1, 2, u64::MAX, any]));
            }
            87..=91 => e = Entry { namespace: e.namespace, ..self.a.entry([0; 16]) },
            _ => return self.store_call(),
        }
        ingest(e, token, self.a.r.one_in(3))
    }
    /// Of many subspaces and paths, so that little is pruned.
    fn filler(&mut self) -> Call {
        let r = &mut self.a.r;
        let mut subspace = [0; 16];
        (subspace[0], subspace[15]) = (r.below(6) as u8 * 51, r.below(8) as u8);
        let path = (0..1 + r.below(3)).map(|_| (0..1 + r.below(3)).map(|_| r.next() as u8).collect()).collect();
        let (timestamp, prevent) = (r.next() >> r.below(64), r.one_in(4));
        let e = Entry { namespace: self.judge.store.namespace, subspace, path, timestamp, payload_length: self.a.length(), payload_digest: self.a.digest() };
        ingest(e, self.a.token(), prevent)
    }
    pub fn interest(&mut self) -> Call {
        let e = self.about();
        let mut a = self.a.area_around(&e);
        // Often wide, so that several match.
        if self.a.r.one_in(2) {
            a = Area { subspace: a.subspace.filter(|_| self.a.r.one_in(2)), path: e.path[..e.path.len().min(self.a.r.at(2))].to_vec(), times: Range { start: 0, ..a.times } };
        }
        let mut met: Vec<&Entry> = self.judge.store.entries().iter().map(|x| &x.entry).filter(|e| a.includes(e)).collect();
        met.sort_by_key(|e| key(e, true));
        let lengths: Vec<u64> = met.iter().rev().map(|e| e.payload_length).collect();
        let r = &mut self.a.r;
        let some = r.below(lengths.len() as u64 + 2);
        let count = r.of(&[u64::MAX, u64::MAX, some, some, u64::MAX - 1]);
        // The sum of the first so many, and one less: the limit breaks late.
        let sum = lengths.iter().take(1 + r.at(lengths.len() + 1)).fold(0u64, |a, b| a.saturating_add(*b));
        let any = r.next();
        let size = r.of(&[u64::MAX, sum, sum, sum.saturating_sub(1), sum.saturating_sub(1), any, 0, u64::MAX - 1]);
        Call::Bent(Box::new(Call::Aoi(a, count, size)))
    }
    /// A key to list from: mostly that of the record before a place, and often a record stands there that does not match and has a match behind it, if there is one.
    pub fn from(&mut self, query: &Query, ignore: Ignore) -> Vec<u8> {
        let place = self.place(query, ignore);
        self.key_before(place)
    }
    fn place(&mut self, query: &Query, ignore: Ignore) -> u64 {
        let list = self.judge.store.entries();
        let n = list.len() as u64;
        let matches: Vec<bool> = list.iter().map(|x| query.includes(&x.entry) && !ignore.passes_over(x)).collect();
        let last = matches.iter().rposition(|m| *m).unwrap_or(0);
        let gaps: Vec<u64> = (0..last).filter(|i| !matches[*i]).map(|i| i as u64).collect();
        if !gaps.is_empty() && !self.a.r.one_in(4) {
            return self.a.r.of(&gaps);
        }
        let (inside, any) = (self.a.r.below(n + 1), self.a.number());
        self.a.r.of(&[0, inside, inside, inside, inside, n, n + 1, any, u64::MAX])
    }
    pub fn store_call(&mut self) -> Call {
        let full = self.kind == "full";
        let e = self.about();
        match self.a.r.below(100) {
            0..=40 => {
                let (e, k) = self.entry();
                ingest(e, k, self.a.r.one_in(4))
            }
            41..=44 => {
                let mut d = e.payload_digest;
                let i = self.a.r.of(&[0, 31, 16]);
                d[i] ^= self.a.r.of(&[1, 128]);
                let d = self.a.r.of(&[None, None, Some(e.payload_digest), Some(d), Some(d)]);
                let p = if self.a.r.one_in(12) { self.a.illegal() } else { e.path };
                Call::Forget(e.subspace, p, d)
            }
            45..=48 if !full || self.a.r.one_in(6) => {
                let mut a = self.a.area_around(&e);
                // Mostly of one subspace and not of all its paths, so that something is left.
                if a.subspace.is_none() && !self.a.r.one_in(4) {
                    a.subspace = Some(e.subspace);
                }
                if a.path.is_empty() && !self.a.r.one_in(4) {
                    a.path = e.path[..e.path.len().min(1)].to_vec();
                }
                // Around another entry of the area, if there is one.
                let inside: Vec<Entry> = self.judge.store.entries().iter().map(|x| x.entry.clone()).filter(|e| a.includes(e)).collect();
                let other = if inside.is_empty() { e } else { self.a.r.of(&inside) };
                let mut b = self.a.area_around(&other);
                // It saves this one, but for its path now and then.
                if !self.a.r.one_in(4) {
                    let end = self.a.r.of(&[None, other.timestamp.checked_add(1)]);
                    b = Area { subspace: Some(other.subspace).filter(|_| self.a.r.one_in(2)), times: Range { start: 0, end }, ..b };
                }
                if self.a.r.one_in(2) {
                    b.path = other.path;
                }
                let protects = self.a.r.below(5) < 4;
                Call::ForgetArea(a, protects.then_some(b))
            }
            49..=55 => {
                let absent = self.a.relative(&e.path);
                let illegal = self.a.illegal();
                let p = self.a.r.of(&[&e.path, &e.path, &e.path, &e.path, &e.path, &e.path, &e.path, &e.path, &absent, &illegal]).clone();
                Call::Entry(e.subspace, p, self.a.ignore())
            }
            56..=61 => {
                let n = if e.payload_length > 1 { 1 + self.a.r.next() % (e.payload_length - 1) } else { 1 };
                let any = self.a.number();
                Call::Avail(e.subspace, e.path, self.a.r.of(&[n, n, n, u64::MAX, any]))
            }
            62..=63 => Call::IncludedIn(self.a.area_around(&e), self.a.ignore()),
            64..=65 => Call::Bent(Box::new(Call::QueryArea(self.a.area_around(&e), self.a.ignore()))),
            66..=69 => Call::QueryRange(self.a.range_around(&e), self.a.ignore()),
            70..=75 => {
                let (q, i) = (Query::Area(self.a.area_around(&e)), self.a.ignore());
                let last = self.from(&q, i);
                Call::Next(q, i, last)
            }
            76..=80 => {
                let (q, i) = (Query::Range(self.a.range_around(&e)), self.a.ignore());
                let last = self.from(&q, i);
                Call::Next(q, i, last)
            }
            81..=83 => Call::Count(self.a.area_around(&e)),
            84..=85 => Call::Size(self.a.range_around(&e)),
            86..=94 => self.interest(),
            95 if self.a.r.one_in(4) => {
                let limit = self.a.r.of(&[0, 1025, u64::MAX, 1 << 63, 2000]);
                Call::Open(self.judge.store.namespace, Some(limit))
            }
            95 if self.a.r.one_in(if full { 20 } else { 3 }) => self.open(),
            96 => Call::Dump,
            _ => self.value_call(),
        }
    }
    fn value_call(&mut self) -> Call {
        let e = self.about();
        match self.a.r.below(24) {
            0..=2 => Call::Above(self.a.path()),
            3..=6 => {
                let p = self.a.path();
                let q = if self.a.r.one_in(3) { self.a.path() } else { self.a.relative(&p) };
                Call::Order(p, q)
            }
            7..=9 => {
                let (mut x, mut y) = (self.a.entry([0; 16]), self.a.entry([0; 16]));
                if !self.a.r.one_in(4) {
                    y = self.a.close(&x);
                }
                // The same, wherever it stands.
                if self.a.r.one_in(4) {
                    y = Entry { path: self.a.relative(&x.path), subspace: if self.a.r.one_in(4) { y.subspace } else { x.subspace }, ..x.clone() };
                }
                if self.a.r.one_in(2) {
                    (x.namespace, y.namespace) = (self.a.subspace(), x.namespace);
                }
                if self.a.r.one_in(2) {
                    y.namespace = x.namespace;
                }
                Call::Newer(x, y)
            }
            10..=12 => {
                let a = self.a.area_around(&e);
                let x = if self.a.r.one_in(3) { self.a.entry([0; 16]) } else { Entry { path: self.a.relative(&e.path), ..e } };
                Call::InArea(a, x)
            }
            13..=15 => {
                let r = self.a.range_around(&e);
                let x = if self.a.r.one_in(3) { self.a.entry([0; 16]) } else { Entry { path: self.a.relative(&e.path), ..e } };
                Call::InRange(r, x)
            }
            16..=18 => {
                let mut a = self.a.area_around(&e);
                a.path = self.a.path();
                Call::Bent(Box::new(Call::AreaRange(a)))
            }
            19..=20 => {
                let longest = [vec![vec![0; 64]; 2], vec![vec![]; 6]].concat();
                let p = if self.a.r.one_in(10) { longest } else { self.a.path() };
                Call::Key(self.a.subspace(), p, self.a.time())
            }
            _ => {
                let time_first = self.a.r.one_in(2);
                Call::Decode(time_first, self.raw_key(time_first))
            }
        }
    }
    fn call(&mut self) -> Call {
        if self.kind == "values" {
            return self.value_call();
        }
        let s = &self.judge.store;
        if s.limit == Some(0) && !self.a.r.one_in(6) {
            return self.open();
        }
        let lacks = s.limit.is_some_and(|l| (s.entries().len() as u64) < l);
        if self.kind == "full" && lacks && !self.a.r.one_in(20) {
            return self.filler();
        }
        match &self.kind[..] {
            "held" => self.again(),
            "arrivals" => self.arrival(),
            "origins" => self.from_elsewhere(),
            "listings" => self.scrolled(),
            _ => self.store_call(),
        }
    }
}

pub fn steps(seed: u64, n: u64, kind: &str) -> Vec<Step> {
    let mut g = Gen { a: Any::new(seed), kind: kind.into(), judge: Judge::closed(), sent: vec![], gone: vec![], keys: Rng(!seed ^ 0x6e45_0000_0000_0000) };
    // Numbers of their own for the origins, and for the keys above, so that all else is what it would be without them.
    let (mut out, mut origins) = (vec![], Rng(!seed ^ 0x0e16_1257_0000_0000));
    for i in 0..n {
        let mut call = if i == 0 && kind != "values" { g.open() } else { g.call() };
        if let Call::Ingest(_, _, _, origin) = &mut call {
            if kind != "origins" && kind != "listings" {
                *origin = any_origin(&mut origins);
            }
        }
        let front = if i == 0 { Front::Plain } else { g.front(&call) };
        let salt = if g.a.r.one_in(12) { 0 } else { g.a.r.next() };
        if let Call::Ingest(e, ..) = &call {
            g.sent.push(e.clone());
        }
        // What the generator knows is what the call does where nothing is wrong with what it is handed.
        if front == Front::Plain && g.judge.exec(&call) == Answer::Opened {
            g.sent.clear();
            // A listing that is open outlives the store, and what was forgotten may come again.
            if kind != "listings" {
                g.gone.clear();
            }
        }
        out.push(Step { call, front, salt });
    }
    out
}

#[cfg(test)]
mod tests {
    use super::*;
    use crate::call::{call, LINE};
    use crate::show::show_call;

    /// A call that a line can say whole is read back from it as it was.
    #[test]
    fn lines() {
        for kind in KINDS {
            for step in steps(7, 3000, kind) {
                let line = show_call(&step.call);
                let read = call(&line);
                match step.call {
                    // Two long paths and a long key.
                    Call::Next(Query::Range(_), ..) if line.len() > LINE => assert!(read.is_none()),
                    // A line names no namespace for these, nor what is no part of a triple.
                    Call::Newer(..) | Call::InArea(..) | Call::InRange(..) => assert!(read.is_some()),
                    c => assert_eq!(read, Some(c)),
                }
            }
        }
    }
}
