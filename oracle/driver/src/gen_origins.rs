//! Where an entry came from (02, U6): origins for the ingestions of every kind, and the kind `origins`. Small stores; what is stored sent again with another
//! origin, newer entries at the same places and above them, ties, forgettings and filing again, recordings of available lengths between, and many lookups
//! and listings.
use crate::call::Call;
use crate::gen_steps::Gen;
use crate::rng::Rng;
use crate::step::Front;
use model::EntryOrigin::{Local, Remote};
use model::*;

/// Local; remote of session 0, of a small one, of a great one, of any.
pub fn any_origin(r: &mut Rng) -> EntryOrigin {
    let any = r.next();
    r.of(&[
        Local, Local, Local, Local, Local, Local, Local, Remote(0), Remote(0), Remote(1), Remote(7), Remote(8), Remote(255), Remote(256), Remote(1 << 32), Remote((1 << 63) - 1),
        Remote(1 << 63), Remote(any | 1 << 63), Remote(u64::MAX - 1), Remote(u64::MAX), Remote(u64::MAX), Remote(any),
    ])
}

impl Gen {
    /// This one, the same but for its kind, with a number or a byte of it more or less, or any.
    fn near_origin(&mut self, o: EntryOrigin) -> EntryOrigin {
        let any = any_origin(&mut self.a.r);
        let r = &mut self.a.r;
        let session = if let Remote(n) = o { n } else { 0 };
        let byte = session ^ 1 << (8 * r.below(8));
        r.of(&[o, o, Local, Local, Remote(session), Remote(0), Remote(session.wrapping_add(1)), Remote(byte), Remote(session.swap_bytes()), any, any, any])
    }
    /// An entry, seldom of another namespace, with an origin near that of a stored one, or any.
    fn comes(&mut self, mut e: Entry, token: Token, prevent: bool, near: Option<EntryOrigin>) -> Call {
        if self.a.r.one_in(50) {
            e.namespace[self.a.r.at(16)] ^= 1;
        }
        let any = any_origin(&mut self.a.r);
        let origin = near.map_or(any, |o| self.near_origin(o));
        Call::Ingest(e, token, prevent, origin)
    }
    pub fn from_elsewhere(&mut self) -> Call {
        let (token, prevent, namespace) = (self.a.token(), self.a.r.one_in(5), self.judge.store.namespace);
        let Some(x) = self.stored() else {
            let e = self.a.entry(namespace);
            return self.comes(e, token, prevent, None);
        };
        let (mut e, was) = (x.entry.clone(), Some(x.origin));
        match self.a.r.below(100) {
            // A resend, often with the token that it came with.
            0..=15 => {
                let token = if self.a.r.one_in(3) { token } else { x.token };
                self.comes(e, token, prevent, was)
            }
            // At its place or above it, newer, or older.
            16..=23 => {
                e.timestamp = if self.a.r.one_in(4) { e.timestamp.wrapping_sub(1) } else { e.timestamp.saturating_add(1) };
                if self.a.r.one_in(5) {
                    e.path.truncate(self.a.r.at(e.path.len() + 1));
                }
                self.comes(e, token, prevent, was)
            }
            24..=26 => {
                let e = self.tied(e);
                self.comes(e, token, prevent, was)
            }
            27..=35 => {
                let mut e = self.a.entry(namespace);
                if self.a.r.one_in(20) {
                    // The longest key.
                    e.path = [vec![vec![0; 64]; 2], vec![vec![]; 6]].concat();
                }
                self.comes(e, token, prevent, None)
            }
            36..=41 => {
                self.gone.push((e.clone(), x.origin));
                Call::Forget(e.subspace, e.path, Some(e.payload_digest).filter(|_| self.a.r.one_in(2)))
            }
            42..=43 => {
                let a = Area { subspace: Some(e.subspace), path: e.path[..e.path.len().min(1)].to_vec(), times: Range { start: 0, end: None } };
                let inside = self.judge.store.entries().iter().filter(|x| a.includes(&x.entry));
                self.gone.extend(inside.map(|x| (x.entry.clone(), x.origin)));
                Call::ForgetArea(a, None)
            }
            // What was forgotten since the opening, filed again.
            44..=50 if !self.gone.is_empty() => {
                let (e, was) = self.a.r.of(&self.gone);
                self.comes(Entry { namespace, ..e }, token, prevent, Some(was))
            }
            51..=57 => {
                let (l, inside) = (e.payload_length, self.a.r.next() % e.payload_length.max(1));
                Call::Record(e.subspace, e.path, self.a.r.of(&[l, l, inside, inside, inside, 0, l.saturating_add(1)]), Some(e.payload_digest).filter(|_| self.a.r.one_in(3)))
            }
            58..=60 => {
                let recorded: Vec<Entry> = self.judge.store.entries().iter().filter(|x| x.available > 0).map(|x| x.entry.clone()).collect();
                let e = if recorded.is_empty() { e } else { self.a.r.of(&recorded) };
                Call::Unrecord(e.subspace, e.path, None)
            }
            61..=73 => {
                let p = if self.a.r.one_in(10) { self.a.relative(&e.path) } else { e.path };
                let i = Ignore { incomplete: self.a.r.one_in(5), empty: self.a.r.one_in(12) };
                Call::Entry(e.subspace, p, i)
            }
            74..=77 => Call::IncludedIn(self.a.area_around(&e), self.a.ignore()),
            78..=80 => Call::QueryRange(self.a.range_around(&e), self.a.ignore()),
            81..=83 => {
                let (q, i) = (Query::Area(self.a.area_around(&e)), self.a.ignore());
                let last = self.from(&q, i);
                Call::Next(q, i, last)
            }
            84..=86 => {
                let (q, i) = (Query::Range(self.a.range_around(&e)), self.a.ignore());
                let last = self.from(&q, i);
                Call::Next(q, i, last)
            }
            87..=88 => Call::Count(self.a.area_around(&e)),
            89..=90 => Call::Size(self.a.range_around(&e)),
            91..=92 => self.interest(),
            93 => Call::Dump,
            94 if self.a.r.one_in(3) => self.open(),
            _ => match self.store_call() {
                Call::Ingest(e, token, prevent, _) => self.comes(e, token, prevent, was),
                other => other,
            },
        }
    }
    /// A fault in the nine bytes of a stored entry: one of them changed in one tree, which may be lawful there; all of them in both trees, another kind or local
    /// with a number; or a tree as short as if no record had them.
    pub fn wrong_origin(&mut self) -> Front {
        let n = self.judge.store.entries().len();
        let (place, which) = (self.a.r.at(n.max(1)), self.a.r.of(&[0, 2]));
        match self.a.r.below(3) {
            0 if n > 0 => {
                let records = records(self.judge.store.entries(), which == 2);
                let end: usize = records[..=place].iter().map(|(k, v)| k.len() + v.len()).sum();
                let byte = if self.a.r.one_in(2) { 0 } else { self.a.r.at(ORIGIN) };
                let any = self.a.r.next() as u32;
                Front::Changed(which, (end - ORIGIN + byte) as u64, self.a.r.of(&[1, 255, any]))
            }
            1 if n > 0 => {
                let was = if let Remote(session) = self.judge.store.entries()[place].origin { session } else { 0 };
                let (any, some) = (self.a.r.next(), self.a.r.of(&[1, 1, 7, 256, 1 << 63, u64::MAX]));
                let (kind, session) = if self.a.r.one_in(2) { (0, self.a.r.of(&[was.max(1), some, some, any | 1])) } else { (self.a.r.of(&[2, 2, 3, 128, 255, 255]), self.a.r.of(&[0, was, was, some, any])) };
                let mut nine = [kind; ORIGIN];
                nine[1..].copy_from_slice(&session.to_be_bytes());
                Front::Origin(place, nine)
            }
            _ => Front::Short(which, ORIGIN * self.judge.store.limit.unwrap_or(1024) as usize),
        }
    }
}
