//! How often each thing occurs in generated calls, by the model's words.
use crate::answer::Answer;
use crate::call::Call;
use crate::step::{on_store, Front, Step};
use super::{arrivals, listings, origins, reading};
use model::*;

#[derive(Default)]
pub struct Table {
    rows: Vec<(String, u64)>,
    /// Where an entry with an available length was forgotten since the opening.
    pub forgotten: Vec<(Subspace, Path)>,
    /// What was forgotten since the opening, and where it had come from.
    pub gone: Vec<(Entry, EntryOrigin)>,
}

const CALLS: [&str; 19] = [
    "open", "ingest", "forget", "farea", "entry", "qarea", "qrange", "nexta", "next", "count", "size", "aoi", "arange",
    "above", "order", "newer", "inarea", "inrange", "key",
];
const ROWS: [&str; 93] = [
    "taken", "taken, nothing pruned", "taken, one pruned", "taken, several pruned", "obsolete", "obsolete by its own path",
    "obsolete by a prefix", "done", "done, an entry forgotten", "done, nothing there", "refused 1", "refused 2", "refused 3",
    "refused 4", "refused 5", "refused 6", "refused 7", "refused 8", "refused 9", "refused 10", "tie: the longer is stored",
    "tie: the shorter is stored", "tied extension kept, nothing pruned", "tied extension kept, an older one pruned",
    "taken with pruning prevented beside a tied extension", "refused 7 for an older one beside a tied extension",
    "refused 8 beside a tied extension", "a later entry prunes two that tie", "held", "held, pruning prevented",
    "held by a full store", "held with another token", "held beside a longer path that ties", "held beside a shorter path that ties",
    "held with an available length", "resend with a wrong tally", "resend of another namespace", "stored but for its timestamp", "stored but for its digest",
    "stored but for its length", "stored but for its path, a tie", "prevented, nothing to prune", "ingestion into a full store",
    "ingestion into a full store of 1,024", "taken by a full store", "protected area", "protected area that saves",
    "both flags", "incomplete alone hides", "empty alone hides", "available length strictly between, in a query",
    "lookup that finds", "lookup hidden by a flag", "listing of several", "next over a record that does not match",
    "next from a key above all", "next from a key that is none", "area of interest that matches", "its count breaks", "its size breaks",
    "its size breaks at the third or later", "it has no limit and matches", "its sum passes 2^64 - 1", "times that descend",
    "range of paths that descends", "8 components", "128 bytes", "component of 64 bytes", "byte 00 in a path",
    "9 components alone are wrong", "129 bytes alone are wrong", "65 bytes alone are wrong", "empty path",
    "digest whose bytes differ", "token whose bytes differ", "subspace of 16 bytes", "timestamp from 2^63 on",
    "length from 2^63 on", "namespace not 0", "key that no encoder writes", "key of 298 bytes", "least path above: none",
    "entries compared: newer", "entries compared: older", "entries compared: same", "a new item", "a new item between others",
    "an item that goes", "an item that goes from between others", "newest timestamp lowered", "taken, local", "taken, remote", "held, another origin comes",
];

pub fn name(c: &Call) -> &'static str {
    match c {
        Call::Bent(c) => name(c),
        Call::Open(..) => "open",
        Call::Ingest(..) => "ingest",
        Call::Forget(..) => "forget",
        Call::ForgetArea(..) => "farea",
        Call::Entry(..) => "entry",
        Call::QueryArea(..) | Call::IncludedIn(..) => "qarea",
        Call::QueryRange(..) => "qrange",
        Call::Next(Query::Area(_), ..) => "nexta",
        Call::Next(Query::Range(_), ..) => "next",
        Call::Walk(_, Query::Area(_), _) => "walka",
        Call::Walk(_, Query::Range(_), _) => "walk",
        Call::More(_) => "more",
        Call::Count(..) => "count",
        Call::Size(..) => "size",
        Call::Aoi(..) => "aoi",
        Call::AreaRange(..) => "arange",
        Call::Above(..) => "above",
        Call::Order(..) => "order",
        Call::Newer(..) => "newer",
        Call::InArea(..) => "inarea",
        Call::InRange(..) => "inrange",
        Call::Key(..) => "key",
        Call::Decode(..) | Call::Decode01(..) => "decode",
        Call::Avail(..) => "avail",
        Call::Record(..) => "record",
        Call::Unrecord(..) => "unrecord",
        _ => "other",
    }
}

fn paths(c: &Call) -> Vec<&Path> {
    match c {
        Call::Bent(c) => paths(c),
        Call::Ingest(e, ..) => vec![&e.path],
        Call::Forget(_, p, _) | Call::Record(_, p, ..) | Call::Unrecord(_, p, _) | Call::Entry(_, p, _) | Call::Avail(_, p, _) | Call::Above(p) | Call::Key(_, p, _) => vec![p],
        Call::ForgetArea(a, b) => [Some(&a.path), b.as_ref().map(|b| &b.path)].into_iter().flatten().collect(),
        Call::QueryArea(a, _) | Call::IncludedIn(a, _) | Call::Count(a) => vec![&a.path],
        Call::Next(q, ..) | Call::Walk(_, q, _) => q.paths(),
        Call::Aoi(a, ..) | Call::AreaRange(a) => vec![&a.path],
        Call::QueryRange(r, _) | Call::Size(r) => [Some(&r.paths.start), r.paths.end.as_ref()].into_iter().flatten().collect(),
        Call::Order(p, q) => vec![p, q],
        Call::Newer(a, b) => vec![&a.path, &b.path],
        Call::InArea(a, e) => vec![&a.path, &e.path],
        Call::InRange(r, e) => [Some(&r.paths.start), r.paths.end.as_ref(), Some(&e.path)].into_iter().flatten().collect(),
        _ => vec![],
    }
}

fn differ(bytes: &[u8]) -> bool {
    bytes.iter().any(|b| *b != bytes[0])
}
fn descends<T: Ord>(r: &Range<T>) -> bool {
    r.end.as_ref().is_some_and(|end| *end < r.start)
}

impl Table {
    pub fn add(&mut self, row: &str, yes: bool) {
        if yes {
            match self.rows.iter_mut().find(|r| r.0 == row) {
                Some(r) => r.1 += 1,
                None => self.rows.push((row.into(), 1)),
            }
        }
    }
    pub fn merge(&mut self, other: Table) {
        for (row, n) in other.rows {
            match self.rows.iter_mut().find(|r| r.0 == row) {
                Some(r) => r.1 += n,
                None => self.rows.push((row, n)),
            }
        }
    }
    fn get(&self, row: &str) -> u64 {
        self.rows.iter().find(|r| r.0 == row).map_or(0, |r| r.1)
    }
    /// Every row, with those that never occurred: those of the kinds `arrivals`, `origins` and `listings`, those of the others.
    pub fn all(&self, arrivals: bool, origins: bool, listings: bool, others: bool) -> Vec<(String, u64)> {
        let calls = CALLS.iter().map(|c| format!("call {c}"));
        let fours = CALLS.iter().filter(|c| **c != "open").map(|c| format!("refused 4 in {c}"));
        let rows: Vec<String> = calls.chain(fours).chain(ROWS.iter().chain(&reading::ROWS).map(|r| r.to_string())).filter(|_| others).collect();
        let more = arrivals::ROWS.iter().filter(|_| arrivals).map(|r| r.to_string()).chain(origins::rows().into_iter().filter(|_| origins));
        let more = more.chain(listings::ROWS.iter().filter(|_| listings).map(|r| r.to_string()));
        rows.into_iter().chain(more).map(|r| { let n = self.get(&r); (r, n) }).collect()
    }
    /// Counts one call: the store before it, the call, the model's answer.
    pub fn count(&mut self, store: &Store, step: &Step, answer: &Answer) {
        let c = match &step.call {
            Call::Bent(c) => c,
            c => c,
        };
        self.add(&format!("call {}", name(c)), true);
        if let Answer::Refused(n) = answer {
            self.add(&format!("refused {n}"), true);
            self.add(&format!("refused 4 in {}", name(c)), *n == 4);
        }
        self.values(c);
        self.arrivals(store, step, c, answer);
        self.origins(store, step, c, answer);
        self.steps(store, step, c, answer);
        if let Call::Ingest(e, ..) = c {
            let stored = |e: &Entry| store.entries().iter().any(|x| x.entry == *e);
            self.add("resend with a wrong tally", *answer == Answer::Refused(10) && stored(e));
            self.add("resend of another namespace", *answer == Answer::Refused(6) && stored(&Entry { namespace: store.namespace, ..e.clone() }));
        }
        // Nothing below is met by a call that is refused for what it is handed.
        if matches!(answer, Answer::Refused(1..=4 | 10)) && (on_store(c) || step.front != Front::Plain) {
            return;
        }
        match c {
            Call::Ingest(e, k, prevent, origin) => self.ingestion(store, e, k, *prevent, *origin, answer),
            Call::Forget(s, p, _) => {
                let there = store.entries().iter().any(|x| x.entry.subspace == *s && x.entry.path == *p);
                self.add("done", *answer == Answer::Done);
                self.add("done, an entry forgotten", *answer == Answer::Done && there);
                self.add("done, nothing there", *answer == Answer::Done && !there);
                if *answer == Answer::Done && there {
                    self.forgotten(store, s, p);
                }
            }
            Call::ForgetArea(a, Some(b)) => {
                self.add("protected area", true);
                self.add("protected area that saves", store.entries().iter().any(|x| a.includes(&x.entry) && b.includes(&x.entry)));
            }
            Call::Entry(s, p, i) => {
                let hit = store.entries().iter().find(|x| x.entry.subspace == *s && x.entry.path == *p);
                self.add("lookup that finds", matches!(answer, Answer::Found(Some(_))));
                self.add("lookup hidden by a flag", hit.is_some() && *answer == Answer::Found(None));
                self.flags(*i, hit);
            }
            Call::Next(q, i, _) => self.listing(store, *i, c, answer, |e| q.includes(e)),
            Call::QueryArea(a, i) | Call::IncludedIn(a, i) => {
                self.listing(store, *i, c, answer, |e| a.includes(e));
            }
            Call::QueryRange(r, i) => self.listing(store, *i, c, answer, |e| r.includes(e)),
            Call::Aoi(a, count, size) => self.interest(store, a, *count, *size),
            Call::Newer(..) => {
                if let Answer::Newer(order, _) = answer {
                    self.add(&format!("entries compared: {order:?}").to_lowercase(), true);
                }
            }
            Call::Above(_) => self.add("least path above: none", *answer == Answer::Above(None)),
            Call::Decode(time_first, k) | Call::Decode01(time_first, k) => {
                self.add("key that no encoder writes", *answer == Answer::Refused(5));
                reading::cases(*time_first, k).into_iter().for_each(|row| self.add(row, true));
            }
            Call::Key(..) => self.add("key of 298 bytes", matches!(answer, Answer::Keys(k, _) if k.len() == 298)),
            _ => {}
        }
    }
    fn values(&mut self, c: &Call) {
        for p in paths(c) {
            let (count, total) = (p.len(), p.iter().map(|c| c.len()).sum::<usize>());
            let longest = p.iter().map(|c| c.len()).max().unwrap_or(0);
            let legal = FIELD.legal(p);
            self.add("8 components", legal && count == 8);
            self.add("128 bytes", legal && total == 128);
            self.add("component of 64 bytes", legal && longest == 64);
            self.add("byte 00 in a path", legal && p.iter().flatten().any(|b| *b == 0));
            self.add("9 components alone are wrong", count == 9 && longest <= 64 && total <= 128);
            self.add("129 bytes alone are wrong", total == 129 && longest <= 64 && count <= 8);
            self.add("65 bytes alone are wrong", longest == 65 && count <= 8 && total <= 128);
            self.add("empty path", p.is_empty());
        }
        match c {
            Call::Ingest(e, k, ..) => {
                self.add("digest whose bytes differ", differ(&e.payload_digest));
                self.add("token whose bytes differ", differ(k));
                self.add("subspace of 16 bytes", differ(&e.subspace[..15]));
                self.add("timestamp from 2^63 on", e.timestamp >> 63 == 1);
                self.add("length from 2^63 on", e.payload_length >> 63 == 1);
                self.add("namespace not 0", e.namespace != [0; 16]);
            }
            Call::QueryArea(a, _) | Call::IncludedIn(a, _) | Call::Count(a) | Call::Aoi(a, ..) => self.add("times that descend", descends(&a.times)),
            Call::QueryRange(r, _) | Call::Size(r) | Call::InRange(r, _) => {
                self.add("times that descend", descends(&r.times));
                self.add("range of paths that descends", descends(&r.paths));
            }
            _ => {}
        }
    }
    fn ingestion(&mut self, store: &Store, e: &Entry, k: &Token, prevent: bool, origin: EntryOrigin, answer: &Answer) {
        let full = store.limit == Some(store.entries().len() as u64);
        self.add("ingestion into a full store", full);
        self.add("ingestion into a full store of 1,024", full && store.limit == Some(1024));
        match answer {
            Answer::Taken(pairs) => {
                self.add("taken", true);
                self.add(if origin == EntryOrigin::Local { "taken, local" } else { "taken, remote" }, true);
                self.add(["taken, nothing pruned", "taken, one pruned", "taken, several pruned"][pairs.len().min(2)], true);
                self.add("taken by a full store", full);
                let of: Vec<_> = items(store.entries()).into_iter().map(|item| item.0).collect();
                self.add("a new item", !of.contains(&e.subspace));
                self.add("a new item between others", !of.contains(&e.subspace) && of.iter().any(|s| *s < e.subspace) && of.iter().any(|s| *s > e.subspace));
                self.add("prevented, nothing to prune", prevent);
            }
            Answer::Obsolete(newer, _) => {
                self.add("obsolete", true);
                self.add(if newer.path == e.path { "obsolete by its own path" } else { "obsolete by a prefix" }, true);
            }
            _ => {}
        }
        let ties = |longer: bool| store.entries().iter().any(|x| x.entry.ties(e) && (x.entry.path.len() > e.path.len()) == longer);
        self.add("tie: the longer is stored", ties(true));
        self.add("tie: the shorter is stored", ties(false));
        match answer {
            Answer::Taken(pairs) if ties(true) => {
                self.add(if pairs.is_empty() { "tied extension kept, nothing pruned" } else { "tied extension kept, an older one pruned" }, true);
                self.add("taken with pruning prevented beside a tied extension", prevent);
            }
            Answer::Refused(7) => self.add("refused 7 for an older one beside a tied extension", ties(true)),
            Answer::Refused(8) => self.add("refused 8 beside a tied extension", ties(true)),
            _ => {}
        }
        let gone: Vec<&Entry> = store.entries().iter().map(|x| &x.entry).filter(|x| e.prunes(x)).collect();
        self.add("a later entry prunes two that tie", matches!(answer, Answer::Taken(_)) && gone.iter().any(|x| gone.iter().any(|y| x.ties(y))));
        if let (Some(x), Answer::Held) = (store.entries().iter().find(|x| x.entry == *e), answer) {
            self.add("held", true);
            self.add("held, pruning prevented", prevent);
            self.add("held by a full store", full);
            self.add("held with another token", x.token != *k);
            self.add("held, another origin comes", x.origin != origin);
            self.add("held beside a longer path that ties", ties(true));
            self.add("held beside a shorter path that ties", ties(false));
            self.add("held with an available length", x.available > 0);
            return;
        }
        let but = |f: &dyn Fn(&Entry) -> Entry| store.entries().iter().any(|x| x.entry != *e && f(&x.entry) == *e);
        self.add("stored but for its timestamp", but(&|x| Entry { timestamp: e.timestamp, ..x.clone() }));
        self.add("stored but for its digest", but(&|x| Entry { payload_digest: e.payload_digest, ..x.clone() }));
        self.add("stored but for its length", but(&|x| Entry { payload_length: e.payload_length, ..x.clone() }));
        self.add("stored but for its path, a tie", ties(true) || ties(false));
    }
    /// What becomes of the tally when the entry at a place is forgotten.
    fn forgotten(&mut self, store: &Store, s: &Subspace, p: &Path) {
        let of = items(store.entries());
        let newest = |left: &dyn Fn(&Entry) -> bool| store.entries().iter().map(|x| &x.entry).filter(|e| left(e)).map(|e| e.timestamp).max();
        let (before, after) = (newest(&|e| e.subspace == *s), newest(&|e| e.subspace == *s && e.path != *p));
        self.add("an item that goes", after.is_none());
        self.add("an item that goes from between others", after.is_none() && of[0].0 < *s && *s < of[of.len() - 1].0);
        self.add("newest timestamp lowered", after.is_some() && after < before);
    }
    fn flags<'a>(&mut self, i: Ignore, met: impl IntoIterator<Item = &'a Stored>) {
        self.add("both flags", i.incomplete && i.empty);
        let (mut incomplete, mut empty, mut between) = (false, false, false);
        for x in met {
            let (short, none) = (x.available < x.entry.payload_length, x.entry.payload_length == 0);
            incomplete |= i.incomplete && !i.empty && short;
            empty |= i.empty && !i.incomplete && none;
            between |= 0 < x.available && short;
        }
        self.add("incomplete alone hides", incomplete);
        self.add("empty alone hides", empty);
        self.add("available length strictly between, in a query", between);
    }
    fn listing(&mut self, store: &Store, i: Ignore, c: &Call, answer: &Answer, includes: impl Fn(&Entry) -> bool) {
        self.flags(i, store.entries().iter().filter(|x| includes(&x.entry)));
        self.add("listing of several", matches!(answer, Answer::List(l) if l.len() > 1));
        if let Call::Next(_, _, last) = c {
            let above: Vec<Vec<u8>> = store.entries().iter().map(|x| key(&x.entry, false)).filter(|k| k > last).collect();
            self.add("next over a record that does not match", matches!(answer, Answer::Next(Some((_, k))) if above[0] != *k));
            self.add("next from a key above all", *answer == Answer::Next(None) && above.is_empty());
            self.add("next from a key that is none", *answer == Answer::Refused(5));
        }
    }
    fn interest(&mut self, store: &Store, a: &Area, max_count: u64, max_size: u64) {
        let mut met: Vec<&Entry> = store.entries().iter().map(|x| &x.entry).filter(|e| a.includes(e)).collect();
        met.sort_by_key(|e| key(e, true));
        self.add("area of interest that matches", !met.is_empty());
        self.add("it has no limit and matches", !met.is_empty() && max_count == u64::MAX && max_size == u64::MAX);
        let (mut count, mut size) = (0u64, 0u128);
        for e in met.iter().rev() {
            (count, size) = (count + 1, size + e.payload_length as u128);
            if max_count != u64::MAX && count > max_count {
                return self.add("its count breaks", true);
            }
            if max_size != u64::MAX && size > max_size as u128 {
                self.add("its size breaks", true);
                self.add("its size breaks at the third or later", count > 2);
                return self.add("its sum passes 2^64 - 1", size > u64::MAX as u128);
            }
        }
    }
}
