//! The kind `arrivals`: 02's U4, how much of a payload has arrived. Small stores; recordings and forgettings of an available length at stored
//! places, above and below them, elsewhere and at illegal paths, with lengths around the payload's and with digests that are right, wrong or not expected;
//! between them resends, newer entries at the same places, ties, forgettings and filing again, and lookups and listings with flags.
use crate::call::Call;
use crate::gen_steps::{ingest, Gen};
use crate::step::Front;
use model::*;

impl Gen {
    /// A payload length: none, small, the greatest, any.
    fn payload(&mut self) -> u64 {
        let any = self.a.r.next();
        self.a.r.of(&[0, 0, 1, 2, 3, 3, 3, 4, 7, 255, 256, 1 << 32, u64::MAX - 1, u64::MAX, u64::MAX, any])
    }
    /// An entry of any values, with such a length.
    fn arrives(&mut self) -> Entry {
        Entry { payload_length: self.payload(), ..self.a.entry(self.judge.store.namespace) }
    }
    /// The place of a stored entry, or one near it that is mostly not stored.
    fn near(&mut self, e: &Entry) -> (Subspace, Path) {
        let (mut s, mut p) = (e.subspace, e.path.clone());
        match self.a.r.below(20) {
            // Properly longer, by one component or several.
            0..=1 => {
                for _ in 0..self.a.r.of(&[1, 1, 2]) {
                    p.push(self.a.r.of(&[vec![], vec![0], vec![0x61], vec![255], vec![0x61, 0x62]]));
                }
            }
            // Properly shorter.
            2..=3 if !p.is_empty() => p.truncate(self.a.r.at(p.len())),
            4 => p = self.a.relative(&p),
            5 => {
                let i = self.a.r.of(&[0, 15, 7, 8]);
                s[i] = s[i].wrapping_add(self.a.r.of(&[1, 255, 128]));
            }
            6 => p = self.a.illegal(),
            7 => (s, p) = (self.a.subspace(), self.a.path()),
            _ => {}
        }
        (s, p)
    }
    /// Not expected, right, wrong in a bit, or that of another entry.
    fn expected(&mut self, e: &Entry) -> Option<Digest> {
        let (mut wrong, i) = (e.payload_digest, self.a.r.of(&[0, 31, 15, 16, 7]));
        wrong[i] ^= self.a.r.of(&[1, 128, 16]);
        let other = self.stored().map_or([0; 32], |x| x.entry.payload_digest);
        self.a.r.of(&[None, None, None, Some(e.payload_digest), Some(e.payload_digest), Some(e.payload_digest), Some(wrong), Some(wrong), Some(other)])
    }
    /// A length around the payload's, around the one that is recorded, or any.
    fn available(&mut self, x: &Stored) -> u64 {
        let (l, a) = (x.entry.payload_length, x.available);
        let inside = if l == u64::MAX { self.a.r.next() } else { self.a.r.below(l + 1) };
        let any = self.a.number();
        self.a.r.of(&[0, l.saturating_sub(1), l, l, l.saturating_add(1), l.saturating_add(1), u64::MAX, inside, inside, inside, any, a, a.saturating_sub(1)])
    }
    /// What is stored, with another digest, length or time, or the same.
    fn anew(&mut self, e: &Entry) -> Entry {
        let mut e = e.clone();
        match self.a.r.below(6) {
            0..=2 => e.timestamp = e.timestamp.saturating_add(1),
            3 => e.timestamp = e.timestamp.wrapping_sub(1),
            4 => e.payload_digest[self.a.r.at(32)] ^= 1,
            _ => e.payload_length = e.payload_length.wrapping_add(1),
        }
        if self.a.r.one_in(2) {
            e.payload_length = self.payload();
        }
        e
    }
    /// Flags, mostly the one that goes by what has arrived.
    fn incomplete(&mut self) -> Ignore {
        if self.a.r.one_in(3) { self.a.ignore() } else { Ignore { incomplete: true, empty: self.a.r.one_in(6) } }
    }
    pub fn arrival(&mut self) -> Call {
        let (token, prevent) = (self.a.token(), self.a.r.one_in(5));
        let Some(x) = self.stored() else {
            // An empty store, or none: mostly something is filed.
            let e = self.arrives();
            return match self.a.r.below(8) {
                0 => Call::Record(e.subspace, e.path, self.a.number(), Some(e.payload_digest).filter(|_| self.a.r.one_in(2))),
                1 => Call::Unrecord(e.subspace, e.path, Some(e.payload_digest).filter(|_| self.a.r.one_in(2))),
                _ => ingest(e, token, prevent),
            };
        };
        let e = x.entry.clone();
        match self.a.r.below(100) {
            0..=33 => {
                let ((s, p), d) = (self.near(&e), self.expected(&e));
                Call::Record(s, p, self.available(&x), d)
            }
            34..=41 => {
                let ((s, p), d) = (self.near(&e), self.expected(&e));
                Call::Unrecord(s, p, d)
            }
            // A resend, often with the token that it came with.
            42..=48 => ingest(e, if self.a.r.one_in(3) { token } else { x.token }, prevent),
            49..=55 => ingest(self.anew(&e), token, prevent),
            56..=58 => ingest(self.tied(e), token, prevent),
            59..=65 => ingest(self.arrives(), token, prevent),
            66..=69 => Call::Forget(e.subspace, e.path.clone(), self.expected(&e)),
            // Filed again, or once more, as it came since the opening.
            70..=74 if !self.sent.is_empty() => ingest(self.a.r.of(&self.sent), token, prevent),
            75 => {
                let a = Area { subspace: Some(e.subspace), ..self.a.area_around(&e) };
                Call::ForgetArea(a, None)
            }
            76..=82 => {
                let p = if self.a.r.one_in(8) { self.a.relative(&e.path) } else { e.path };
                Call::Entry(e.subspace, p, self.incomplete())
            }
            83..=85 => Call::IncludedIn(self.a.area_around(&e), self.incomplete()),
            86..=87 => Call::QueryRange(self.a.range_around(&e), self.incomplete()),
            88..=89 => {
                let (q, i) = (Query::Area(self.a.area_around(&e)), self.incomplete());
                let last = self.from(&q, i);
                Call::Next(q, i, last)
            }
            90 => Call::Count(self.a.area_around(&e)),
            91 => Call::Dump,
            92 => match self.a.r.below(6) {
                0 => Call::Open(self.judge.store.namespace, Some(self.a.r.of(&[0, 1025, u64::MAX]))),
                1..=3 => self.open(),
                _ => Call::Avail(e.subspace, e.path, self.a.number()),
            },
            _ => self.store_call(),
        }
    }
    /// Another byte in the available length of a stored entry, in one tree.
    pub fn one_tree(&mut self) -> Front {
        let which = self.a.r.of(&[0, 2]);
        let (list, mut at) = (records(self.judge.store.entries(), which == 2), 0);
        if list.is_empty() {
            return Front::Plain;
        }
        for (k, v) in &list[..=self.a.r.at(list.len())] {
            at += k.len() + v.len();
        }
        Front::Changed(which, (at - ORIGIN - 1 - self.a.r.at(8)) as u64, self.a.r.next() as u32)
    }
}
