//! What is wrong with a random call: damaged keys, and faults in what is handed in beside a call's own values.
use crate::call::Call;
use crate::gen_steps::Gen;
use crate::step::{changes, on_store, Front};
use model::*;

impl Gen {
    /// A key, sound or damaged in one place or two.
    pub fn raw_key(&mut self, time_first: bool) -> Vec<u8> {
        let p = if self.a.r.one_in(8) { self.a.illegal() } else { self.a.legal() };
        let (s, t) = (self.a.subspace(), self.a.time());
        let mut k = if time_first != self.a.r.one_in(30) { tsp(&s, &p, t) } else { spt(&s, &p, t) };
        for _ in 0..self.a.r.of(&[0, 0, 1, 1, 2]) {
            let at = self.a.r.at(k.len().max(1));
            let b = self.a.r.next() as u8;
            let b = self.a.r.of(&[0, 1, 2, 3, 255, b]);
            match self.a.r.below(6) {
                0 => k.truncate(at),
                1 => k.push(b),
                2 => k.insert(at, b),
                3 if !k.is_empty() => drop(k.remove(at)),
                4 => drop(k.splice(at..at, [0, b])),
                _ if !k.is_empty() => k[at] = b,
                _ => {}
            }
        }
        k
    }
    pub fn front(&mut self, call: &Call) -> Front {
        let by = if self.a.r.one_in(2) { 1 } else { 1 + self.a.r.at(900) };
        match call {
            Call::Key(..) if self.a.r.one_in(6) => return Front::Short(6, by),
            Call::Open(..) if self.a.r.one_in(4) => return Front::Short(self.a.r.at(5), by),
            Call::Open(..) => return Front::Plain,
            // A wrong tally, beside a resend mostly.
            Call::Ingest(..) if self.kind == "held" && self.a.r.one_in(12) => return Front::Changed(4, self.a.r.below(ITEM), self.a.r.next() as u32),
            // An available length in one tree alone.
            _ if self.kind == "arrivals" && on_store(call) && self.a.r.one_in(40) => return self.one_tree(),
            // An origin that is none, or another in one tree; a tree that has no room for origins.
            _ if self.kind == "origins" && on_store(call) && self.a.r.one_in(if matches!(call, Call::Ingest(..) | Call::Entry(..)) { 16 } else { 3 }) => return self.wrong_origin(),
            // Often beside a step from any key, so that what is wrong with the key meets it.
            _ if !on_store(call) || !self.a.r.one_in(if self.kind == "listings" && matches!(call, Call::Next(..)) { 4 } else { 14 }) => return Front::Plain,
            _ => {}
        }
        let limit = self.judge.store.limit.unwrap_or(1024);
        let count = self.judge.store.entries().len() as u64;
        let any = self.a.number();
        match self.a.r.below(8) {
            0 | 1 => Front::Limit(self.a.r.of(&[0, 1025, limit + 1, limit.saturating_sub(1), u64::MAX, 1 << 63, any])),
            2 => Front::Count(self.a.r.of(&[count + 1, count.saturating_sub(1), limit + 1, u64::MAX, any])),
            3..=5 => Front::Short(self.a.r.at(4 + changes(call) as usize + matches!(call, Call::Ingest(..)) as usize), by),
            _ => {
                let which = self.a.r.at(4 + changes(call) as usize);
                // Mostly where records, or items, lie.
                let used = [159 * count + 60, 2 * count + 2, 159 * count + 60, 2 * count + 2, ITEM * (items(self.judge.store.entries()).len() as u64 + 1)][which];
                let any = self.a.r.next();
                let at = self.a.r.of(&[any % used, any % used, any]);
                Front::Changed(which, at, self.a.r.next() as u32)
            }
        }
    }
}
