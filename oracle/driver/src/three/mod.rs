//! The customer's Rust, the model and the port in one process, call by call. Answers are compared as values; after every
//! call the port's state, both trees, both directories, the tally, the prune list and what lies beyond the bounds are compared
//! byte for byte with what the model says, and the Rust's trees record by record, but for the origins that it has not (cuts.rs), with the tally that is
//! counted in them. In a run that makes a call of 02's U4, which the Rust has not, the Rust is not asked, and the model judges alone; so it does where a listing's
//! step begins at a key (02, U7), and there the Rust's own listing of that moment, if it is asked at all, must have the same entry first above that key. What a
//! listing that is held open gives is held against 02's four sentences about it too (listings.rs).
pub mod arrivals;
pub mod listings;
pub mod origins;
pub mod reading;
pub mod run;
pub mod table;
use crate::answer::{Answer, Records};
use crate::call::Call;
use crate::cuts;
use crate::judge::Judge;
use crate::oracle::{Oracle, Way};
use crate::params::Ns;
use crate::port::{Buffers, Handed, Port};
use crate::rng::Rng;
use crate::step::{changes, on_store, steps, Front, Step};
use crate::tally::counted;
use listings::Listings;
use model::*;
use virebony::raw;

/// By whom an answer of the port's was judged.
#[derive(Clone, Copy, Debug, PartialEq, Eq, PartialOrd, Ord)]
pub enum Judged {
    ByBoth,
    /// The Rust has not this: refusals 1, 2, 3, 10; a store that was not opened; decoding by 01; a step of a listing; a run that makes a call of 02's U4.
    ByModel,
    /// The Rust's answer differs and is meant to: docs/DIFFERENCES.md 1.2 (`successor` carries) or 5 (the sum).
    SkippedArea,
    /// docs/DIFFERENCES.md 2: a key that no encoder writes is read, panics, is reached by no call.
    SkippedRead,
    SkippedPanic,
    SkippedUnreached,
    /// docs/DIFFERENCES.md 12: a resend, which the model and the port hold. The Rust takes it anew and changes no byte; refuses it, pruning being
    /// prevented; or changes something, which is put back.
    Held,
    HeldPrevented,
    HeldBack,
    /// docs/DIFFERENCES.md 4: above a stored extension that ties, which stays in the model and the port. The Rust removes it; refuses, pruning being
    /// prevented; or has room by removing it, where the store is full. It is put back.
    TieRemoved,
    TiePrevented,
    TieRoom,
}

pub struct Three {
    rust: Oracle<64, 8, 128>,
    pub judge: Judge,
    port: Port,
    /// What the port's buffers must be.
    shadow: Buffers,
    records: [Records; 2],
    items: Vec<Item>,
    /// No store is open: the Rust, which has no such thing, is not asked.
    closed: bool,
    /// The run makes a call of 02's U4: the Rust is not asked.
    alone: bool,
    /// What the listings that are open have seen.
    listings: Listings,
    /// The rows of `listings` that the last call is.
    pub told: Vec<&'static str>,
}

/// A byte or a number of the port's that was changed, and what it was.
struct Change {
    which: usize,
    at: usize,
    old: u32,
}

fn pattern(r: &mut Rng, needed: usize) -> Vec<u8> {
    let mut v = vec![0; needed + r.at(40)];
    let (a, b) = (r.next() as u8 | 1, r.next() as u8);
    v.iter_mut().enumerate().for_each(|(i, x)| *x = (i as u8).wrapping_mul(a) ^ b);
    v
}
fn numbers(r: &mut Rng, needed: usize) -> Vec<u32> {
    (0..needed + r.at(10)).map(|_| r.next() as u32).collect()
}
/// Buffers for a limit, full of something, each longer by something.
fn buffers(r: &mut Rng, limit: u64) -> Buffers {
    let (room, pairs) = ((RECORD_MOST * limit) as usize, 2 * limit as usize);
    // Often enough of them for a prune list by value.
    let prune = if r.one_in(2) { limit as usize } else { 1024 } + r.at(5);
    Buffers {
        spt: pattern(r, room),
        spt_dir: numbers(r, pairs),
        tsp: pattern(r, room),
        tsp_dir: numbers(r, pairs),
        tally: pattern(r, (ITEM * limit) as usize),
        prune: numbers(r, 2 * prune).chunks_exact(2).map(|n| raw::Pair { offset: n[0], length: n[1] }).collect(),
    }
}

impl Three {
    /// With no store open yet.
    pub fn new(alone: bool) -> Three {
        let shadow = buffers(&mut Rng(0), 2);
        Three {
            rust: Oracle::compared(Ns::default(), Some(0)),
            judge: Judge::closed(),
            port: Port { state: raw::State::default(), buffers: shadow.clone(), walks: Default::default() },
            shadow,
            records: Default::default(),
            items: vec![],
            closed: true,
            alone,
            listings: Listings::default(),
            told: vec![],
        }
    }
    fn state(&self) -> raw::State {
        let s = &self.judge.store;
        raw::State { namespace_id: s.namespace, count: s.entries().len(), limit: s.limit.unwrap_or(1024) as usize }
    }
    /// The model's view of what is handed in: the first of refusals 1, 2, 3, 10.
    fn refused(&self, call: &Call, h: &Handed, limit: u64) -> Option<u8> {
        let (lent, tally) = (self.port.buffers.lent(h.lengths), changes(call).then_some(h.lengths[4]));
        let prune = matches!(call, Call::Ingest(..)).then_some(h.lengths[5]);
        match call {
            Call::Key(..) => (h.key < 298).then_some(2),
            Call::Open(..) => rooms(limit, lent, Some(h.lengths[4]), None),
            _ if !on_store(call) => None,
            _ => rooms(limit, lent, tally, prune).or_else(|| {
                let state = State { namespace: h.state.namespace_id, count: h.state.count as u64, limit };
                match well_formed(&state, lent) {
                    None => Some(3),
                    Some(list) => tally.is_some_and(|n| !is_tally(&list, limit, &self.port.buffers.tally[..n])).then_some(10),
                }
            }),
        }
    }
    /// Makes the call faulty: what is handed in, the refusal, and what to undo afterwards. Another limit may be no fault; all else
    /// must be one to the model.
    fn front(&mut self, step: &Step, plain: Handed) -> Result<(Handed, Option<u8>, Vec<Change>), String> {
        let (mut h, mut undo) = (plain, vec![]);
        let mut limit = h.state.limit as u64;
        let room = |which: usize, limit: u64| [RECORD_MOST, 2, RECORD_MOST, 2, ITEM, 1][which].saturating_mul(limit) as usize;
        match step.front {
            Front::Plain => return Ok((plain, None, undo)),
            Front::Limit(n) => h.state.limit = n as usize,
            Front::Count(n) => h.state.count = n as usize,
            Front::Short(which, by) if which < 6 => {
                if let Call::Open(_, l) = step.call {
                    limit = l.unwrap_or(1024);
                }
                h.lengths[which] = room(which, limit).saturating_sub(by).min(h.lengths[which]);
            }
            Front::Short(_, by) => h.key = 298usize.saturating_sub(by),
            Front::Changed(which, at, by) => {
                if room(which, limit) > 0 && on_store(&step.call) {
                    let at = at as usize % room(which, limit);
                    undo.push(self.change(which, at, by));
                }
            }
            Front::Origin(place, nine) => {
                if on_store(&step.call) && place < self.judge.store.entries().len() {
                    undo = self.change_origin(place, nine);
                }
            }
        }
        if on_store(&step.call) {
            limit = h.state.limit as u64;
        }
        let refusal = self.refused(&step.call, &h, limit);
        if refusal.is_none() {
            self.undo(&undo);
            return match step.front {
                Front::Count(n) if n as usize != plain.state.count && on_store(&step.call) => Err("another count is no fault to the model".into()),
                Front::Short(..) | Front::Changed(..) => Err("a short or changed buffer is no fault to the model".into()),
                Front::Origin(place, _) if place < self.judge.store.entries().len() && on_store(&step.call) => Err("an unlawful origin is no fault to the model".into()),
                _ => Ok((plain, None, vec![])),
            };
        }
        Ok((h, refusal, undo))
    }
    /// Changes a byte or a number of the port's; or takes changes back.
    fn change(&mut self, which: usize, at: usize, by: u32) -> Change {
        let old = self.port.buffers.at(which, at);
        let new = old.wrapping_add(by | 1);
        self.port.buffers.set(which, at, new);
        Change { which, at, old }
    }
    /// Writes the nine bytes of an entry's origin into both trees of the port's.
    fn change_origin(&mut self, place: usize, nine: [u8; ORIGIN]) -> Vec<Change> {
        let mut changed = vec![];
        for (which, time_first) in [(0, false), (2, true)] {
            let key = key(&self.judge.store.entries()[place].entry, time_first);
            let records = &self.records[time_first as usize];
            let i = records.iter().position(|r| r.0 == key).expect("a stored entry");
            let end: usize = records[..=i].iter().map(|(k, v)| k.len() + v.len()).sum();
            for (at, byte) in (end - ORIGIN..end).zip(nine) {
                changed.push(Change { which, at, old: self.port.buffers.at(which, at) });
                self.port.buffers.set(which, at, byte as u32);
            }
        }
        changed
    }
    fn undo(&mut self, undo: &[Change]) {
        for c in undo {
            self.port.buffers.set(c.which, c.at, c.old);
        }
    }
    /// An opening gets new buffers, or those that are there if they are long enough: then an old store lies in them.
    fn lend(&mut self, step: &Step, limit: u64) {
        let mut r = Rng(step.salt);
        let b = &self.port.buffers;
        let room = b.spt.len().min(b.tsp.len()) as u64 >= RECORD_MOST * limit && b.spt_dir.len().min(b.tsp_dir.len()) as u64 >= 2 * limit;
        if !(room && b.tally.len() as u64 >= ITEM * limit && b.prune.len() as u64 >= limit && r.one_in(2)) {
            self.port.buffers = buffers(&mut r, limit);
            self.shadow = self.port.buffers.clone();
        }
    }
    /// Writes what the model holds into the shadow.
    fn draw(&mut self) {
        let (s, limit) = (&self.judge.store, self.judge.store.limit.unwrap_or(1024));
        self.records = [records(s.entries(), false), records(s.entries(), true)];
        self.items = items(s.entries());
        let ((a, ad), (b, bd)) = (layout(&self.records[0], limit), layout(&self.records[1], limit));
        let t = tally(s.entries(), limit);
        self.shadow.spt[..a.len()].copy_from_slice(&a);
        self.shadow.spt_dir[..ad.len()].copy_from_slice(&ad);
        self.shadow.tsp[..b.len()].copy_from_slice(&b);
        self.shadow.tsp_dir[..bd.len()].copy_from_slice(&bd);
        self.shadow.tally[..t.len()].copy_from_slice(&t);
    }
    /// Makes a call in all three. The model's answer and who judged the port's; or the difference, in words.
    pub fn step(&mut self, step: &Step) -> Result<(Answer, Judged), String> {
        // Without a limit is with the greatest.
        let call = &match &step.call {
            Call::Open(n, None) => Call::Open(*n, Some(1024)),
            c => c.clone(),
        };
        if let (Call::Open(_, Some(l @ 1..=1024)), Front::Plain) = (call, step.front) {
            self.lend(step, *l);
        }
        self.told.clear();
        let asked = self.judge.asked(call);
        // A step of no listing is no call.
        if let Call::More(w) = asked {
            return if self.port.walks.contains_key(&w) { Err(format!("listing {w} is open in the port alone")) } else { Ok((Answer::Absent, Judged::ByModel)) };
        }
        let plain = Handed { state: self.port.state, lengths: self.port.buffers.lengths(), key: 298 + step.salt as usize % 9 };
        let (h, refusal, undo) = self.front(step, plain)?;
        let model = refusal.map_or_else(|| self.judge.exec(call), Answer::Refused);
        if let Call::Avail(..) = call {
            return self.poke(step, h, model);
        }
        if let Call::Dump = call {
            let rust = if self.closed || self.alone { cuts::cut(&model) } else { self.rust.exec(call) };
            return if rust == cuts::cut(&model) { Ok((model, if self.alone { Judged::ByModel } else { Judged::ByBoth })) } else { Err(format!("trees: Rust {rust:?}\n  model {model:?}")) };
        }
        let changed: Vec<u32> = undo.iter().map(|c| self.port.buffers.at(c.which, c.at)).collect();
        let port = self.port.exec(call, h, step.salt);
        // What was changed must stand as it was made; it is then taken back.
        if let Some((c, _)) = undo.iter().zip(changed).find(|(c, changed)| self.port.buffers.at(c.which, c.at) != *changed) {
            return Err(format!("a refused call wrote {} at {}", c.which, c.at));
        }
        self.undo(&undo);
        if port != model {
            return Err(format!("answers:\n  model {model:?}\n  port  {port:?}"));
        }
        self.told = self.listings.after(call, &port, &self.judge.store)?;
        let judged = if steps(&asked) { self.step_by_the_rust(&asked, refusal, &model)? } else { self.by_the_rust(call, refusal, &model)? };
        if refusal.is_none() && matches!(call, Call::Open(..)) {
            self.closed = model != Answer::Opened;
            if self.closed {
                self.port.state = raw::State::default();
            }
        }
        match &model {
            Answer::Taken(pairs) => {
                for (to, (offset, length)) in self.shadow.prune.iter_mut().zip(pairs) {
                    *to = raw::Pair { offset: *offset, length: *length };
                }
                self.draw()
            }
            Answer::Opened | Answer::Done => self.draw(),
            Answer::Forgot(n) if *n > 0 => self.draw(),
            _ => {}
        }
        self.same()?;
        Ok((model, judged))
    }
    /// The available length, written from outside into the Rust and the model; the port is asked by its public call. Nobody is asked where no store is open.
    fn poke(&mut self, step: &Step, h: Handed, model: Answer) -> Result<(Answer, Judged), String> {
        let port = if self.closed { model.clone() } else { self.port.exec(&step.call, h, step.salt) };
        let rust = if self.closed || self.alone { model.clone() } else { self.rust.exec(&step.call) };
        if rust != model || port != model {
            return Err(format!("poke: Rust {rust:?}, model {model:?}, port {port:?}"));
        }
        if model == Answer::Done {
            self.draw();
            self.told = self.listings.after(&step.call, &port, &self.judge.store)?;
        }
        self.same()?;
        Ok((model, if self.alone { Judged::ByModel } else { Judged::ByBoth }))
    }
    /// A step of a listing is the model's to judge: the Rust has none that begins at a key. Where it is asked at all, the first of its own listing whose key is above must be the same.
    fn step_by_the_rust(&mut self, asked: &Call, refusal: Option<u8>, model: &Answer) -> Result<Judged, String> {
        if !self.alone && !self.closed && refusal.is_none() && !matches!(model, Answer::Refused(5) | Answer::Absent) {
            let rust = self.rust.exec(asked);
            if rust != cuts::cut(model) {
                return Err(format!("steps:\n  Rust  {rust:?}\n  model {model:?} (and the port)"));
            }
        }
        Ok(Judged::ByModel)
    }
    fn by_the_rust(&mut self, call: &Call, refusal: Option<u8>, model: &Answer) -> Result<Judged, String> {
        let opens = matches!(call, Call::Open(..)) && *model == Answer::Opened;
        let alone = self.alone || refusal.is_some() || matches!(call, Call::Decode01(..) | Call::Walk(..)) || (!opens && (matches!(call, Call::Open(..)) || self.closed && on_store(call)));
        if alone {
            return Ok(Judged::ByModel);
        }
        let (rust, way) = self.rust.beside(call, model)?;
        let model = &cuts::cut(model);
        Ok(match (way, call, &rust, model) {
            (Way::Tied(then), ..) if then != *model => return Err(format!("answers beside ties:\n  Rust  {rust:?}, with these put back {then:?}\n  model {model:?} (and the port)")),
            (_, _, rust, model) if rust == model => Judged::ByBoth,
            (Way::Held(_), _, Answer::Refused(_), _) => Judged::HeldPrevented,
            (Way::Held(back), ..) => if back { Judged::HeldBack } else { Judged::Held },
            (Way::Tied(_), _, Answer::Refused(_), _) => Judged::TiePrevented,
            (Way::Tied(_), _, _, Answer::Refused(_)) => Judged::TieRoom,
            (Way::Tied(_), ..) => Judged::TieRemoved,
            (_, Call::Bent(_), Answer::Unlike, _) => Judged::SkippedArea,
            (_, Call::Decode(..), Answer::Triple(..), Answer::Refused(5)) => Judged::SkippedRead,
            (_, Call::Decode(true, _), Answer::Said(w), Answer::Refused(5)) if w == "unreached" => Judged::SkippedUnreached,
            (_, Call::Decode(..), Answer::Said(w), Answer::Refused(5)) if w.starts_with("panic") && !w.contains("stand-in") => Judged::SkippedPanic,
            _ => return Err(format!("answers:\n  Rust  {rust:?}\n  model {model:?} (and the port)")),
        })
    }
    /// Everything that is kept between calls.
    fn same(&mut self) -> Result<(), String> {
        let (port, shadow, state) = (&self.port.buffers, &self.shadow, self.state());
        let at = |a: &[u8], b: &[u8]| a.iter().zip(b).position(|(x, y)| x != y);
        let n_at = |a: &[u32], b: &[u32]| a.iter().zip(b).position(|(x, y)| x != y);
        if self.port.state != state {
            return Err(format!("state: port {:?}, model {state:?}", self.port.state));
        }
        if port != shadow {
            let trees = [at(&port.spt, &shadow.spt), at(&port.tsp, &shadow.tsp)];
            let directories = [n_at(&port.spt_dir, &shadow.spt_dir), n_at(&port.tsp_dir, &shadow.tsp_dir)];
            let prune = port.prune.iter().zip(&shadow.prune).position(|(x, y)| x != y);
            let tally = at(&port.tally, &shadow.tally);
            return Err(format!("buffers differ first at: trees {trees:?}, directories {directories:?}, tally {tally:?}, prune list {prune:?}"));
        }
        if self.closed || self.alone {
            return Ok(());
        }
        for time_first in [false, true] {
            let (rust, model) = (self.rust.raw(time_first), &self.records[time_first as usize]);
            if rust.len() != model.len() || rust.iter().zip(model).any(|((k, v), (l, w))| k[..] != l[..] || v[..] != *cuts::value(w)) {
                return Err(format!("the Rust's tree and the model's differ, time-first {time_first}"));
            }
            if counted(rust.iter().map(|(k, _)| &k[..]), time_first).as_ref() != Some(&self.items) {
                return Err(format!("the tally of the Rust's tree and the model's differ, time-first {time_first}"));
            }
        }
        Ok(())
    }
}
