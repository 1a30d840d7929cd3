//! The model, asked in the call language. Nothing is decided here.
use crate::answer::{either, Answer};
use crate::call::{Call, Walk};
use model::*;
use std::collections::BTreeMap;

pub struct Judge {
    pub store: Store,
    /// The listings that are open, whatever store stands there by now.
    pub walks: BTreeMap<u8, Walk>,
}

impl Judge {
    fn of(store: Store) -> Judge {
        Judge { store, walks: BTreeMap::new() }
    }
    pub fn unlimited(bounds: Bounds) -> Judge {
        Judge::of(Store::unlimited([0; 16], bounds))
    }
    pub fn limited(limit: u64, bounds: Bounds) -> Judge {
        Judge::of(Store::open([0; 16], limit, bounds).unwrap())
    }
    pub fn closed() -> Judge {
        Judge::of(Store::closed(FIELD))
    }
    fn list(&self, query: &Query, ignore: Ignore) -> Answer {
        either(self.store.list(query, ignore), |l| Answer::List(l.into_iter().map(Into::into).collect()))
    }
    fn next(&self, query: &Query, ignore: Ignore, last: &[u8]) -> Answer {
        either(self.store.step(query, ignore, last), |x| Answer::Next(x.map(|x| (x.clone().into(), key(&x.entry, false)))))
    }
    /// A step of an open listing as a step from the key that it remembers; every other call as it is.
    pub fn asked(&self, c: &Call) -> Call {
        match c {
            Call::More(w) => self.walks.get(w).map_or(c.clone(), |w| Call::Next(w.query.clone(), w.ignore, w.last.clone())),
            c => c.clone(),
        }
    }
    /// Of calls that need no store: 4 if one of the paths is illegal.
    fn legal(&self, paths: &[&Path], f: impl Fn() -> Answer) -> Answer {
        if paths.iter().all(|p| self.store.bounds.legal(p)) { f() } else { Answer::Refused(4) }
    }
    pub fn exec(&mut self, c: &Call) -> Answer {
        let b = self.store.bounds;
        match c {
            Call::Bent(c) => self.exec(c),
            Call::Open(n, limit) => {
                let opened = limit.map_or(Ok(Store::unlimited(*n, b)), |l| Store::open(*n, l, b));
                let answer = either(opened.clone().map(|_| ()), |_| Answer::Opened);
                self.store = opened.unwrap_or(Store::closed(b));
                answer
            }
            Call::Ingest(e, token, prevent, origin) => self.store.ingest(e, token, *prevent, *origin).into(),
            Call::Forget(s, p, d) => either(self.store.forget_entry(s, p, d.as_ref()), |_| Answer::Done),
            Call::Record(s, p, n, d) => either(self.store.record_available_length(s, p, d.as_ref(), *n), |_| Answer::Done),
            Call::Unrecord(s, p, d) => either(self.store.forget_payload(s, p, d.as_ref()), |_| Answer::Done),
            Call::ForgetArea(a, protected) => either(self.store.forget_area(a, protected.as_ref()), Answer::Forgot),
            Call::Entry(s, p, ignore) => either(self.store.entry(s, p, *ignore), |x| Answer::Found(x.map(Into::into))),
            Call::QueryArea(a, ignore) | Call::IncludedIn(a, ignore) => self.list(&Query::Area(a.clone()), *ignore),
            Call::QueryRange(r, ignore) => self.list(&Query::Range(r.clone()), *ignore),
            Call::Next(query, ignore, last) => self.next(query, *ignore, last),
            Call::Walk(w, query, ignore) => {
                self.walks.insert(*w, Walk { query: query.clone(), ignore: *ignore, last: vec![] });
                Answer::Begun
            }
            // Finished or refused, it remembers the same key as before.
            Call::More(w) => {
                let Call::Next(query, ignore, last) = self.asked(c) else { return Answer::Absent };
                let answer = self.next(&query, ignore, &last);
                if let (Answer::Next(Some((_, key))), Some(open)) = (&answer, self.walks.get_mut(w)) {
                    open.last = key.clone();
                }
                answer
            }
            Call::Count(a) => either(self.store.count_area(a), Answer::Count),
            Call::Size(r) => either(self.store.summarise(r), Answer::Size),
            Call::Aoi(a, count, size) => either(self.store.area_of_interest_to_range(a, *count, *size), Answer::Range),
            Call::AreaRange(a) => self.legal(&[&a.path], || Answer::Range(b.area_range(a))),
            Call::Above(p) => self.legal(&[p], || Answer::Above(b.above(p))),
            Call::Order(p, q) => self.legal(&[p, q], || Answer::Order(p.cmp(q), is_prefix(p, q))),
            Call::Newer(x, y) => self.legal(&[&x.path, &y.path], || Answer::Newer(x.compare(y), x.prunes(y))),
            Call::InArea(a, e) => self.legal(&[&a.path, &e.path], || Answer::Included(a.includes(e))),
            Call::InRange(r, e) => {
                let paths: Vec<&Path> = [Some(&r.paths.start), r.paths.end.as_ref(), Some(&e.path)].into_iter().flatten().collect();
                self.legal(&paths, || Answer::Included(r.includes(e)))
            }
            Call::Key(s, p, t) => self.legal(&[p], || Answer::Keys(spt(s, p, *t), tsp(s, p, *t))),
            Call::Decode(time_first, k) | Call::Decode01(time_first, k) => decode(b, *time_first, k),
            Call::Dump => {
                let list = self.store.entries();
                Answer::Dump(records(list, false), records(list, true), items(list))
            }
            Call::Poke(at, n) => {
                self.store.poke_tally(*at, *n);
                Answer::Done
            }
            Call::Avail(s, p, n) if b.legal(p) => {
                if self.store.poke_available(s, p, *n) { Answer::Done } else { Answer::Absent }
            }
            Call::Avail(..) => Answer::Refused(4),
            Call::Succ(p) if !b.legal(p) => Answer::Refused(4),
            _ => Answer::Said("not in document 01".into()),
        }
    }
}

pub fn decode(b: Bounds, time_first: bool, k: &[u8]) -> Answer {
    b.decode(time_first, k).map_or(Answer::Refused(5), |(s, p, t)| Answer::Triple(s, p, t))
}
