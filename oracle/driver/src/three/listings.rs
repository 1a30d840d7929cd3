//! Listings that are held open while entries are filed, pruned, forgotten and recorded: 02's U7. The four sentences that it says of a listing are checked on what the
//! port gave, over the stores that the model had since the listing began; and how often each thing of it occurs: the rows of the kind `listings`.
use super::reading;
use super::table::Table;
use crate::answer::Answer;
use crate::call::{Call, Walk};
use crate::step::{Front, Step};
use model::*;
use std::collections::{BTreeMap, BTreeSet};

pub const ROWS: [&str; 87] = [
    "call walk", "call walka", "call more", "step of a range's listing", "step of an area's listing", "steps of two listings in turn", "step of one of three listings or more",
    "walked to its end", "walked to its end, a range's", "walked to its end, an area's", "walked to its end, entries filed between", "walked to its end, entries pruned between",
    "walked to its end, entries forgotten between", "walked to its end, an area forgotten between", "walked to its end, lengths recorded between", "walked to its end, a payload forgotten between",
    "walked to its end, an opening between",
    "given once, stored all the while", "given once, stored all the while, entries filed between", "given once, stored all the while, entries pruned between",
    "given once, stored all the while, entries forgotten between", "given once, stored all the while, lengths recorded between", "given once, several stored all the while",
    "arrived behind, finished without it", "arrived behind, below all that was given", "arrived behind, between two that were given", "arrived ahead and given", "arrived ahead and given next",
    "arrived behind one listing and ahead of another", "pruned before its turn, finished without it", "pruned before its turn by a newer one at its path, which is given",
    "pruned before its turn by a path above", "forgotten before its turn, finished without it", "forgotten before its turn and filed again ahead, given",
    "forgotten before its turn and filed again behind, not given", "forgotten after its turn and filed again, not given again", "forgotten before its turn and filed again, given once",
    "given, then pruned by a newer one at its path, which is given", "given, then replaced at the same key, not given again", "given, then replaced at the same key right away",
    "passed over by a flag, completed behind, not given", "passed over by a flag, completed ahead, given", "passed over by a flag to the end", "forgotten payload before its turn, not given",
    "step from a remembered key that is stored", "step from a remembered key that was pruned", "step from a remembered key that was forgotten", "step from a remembered key that does not match any more",
    "step from a remembered key, nothing stored is left", "finished at once", "finished twice", "finished, then something came ahead and was given", "refused, and the listing goes on",
    "refused 1 of an open listing", "refused 2 of an open listing", "refused 3 of an open listing", "refused 4 of an open listing",
    "step from any key: the start", "step from any key: a stored one", "step from any key: one that was stored and is gone", "step from any key: not stored, between two", "step from any key: below all, the first", "step from any key: above all, finished",
    "step from any key: of a subspace without entries", "step from any key: it does not match", "step from any key: at a stored path, another time", "step from any key: time-first, and written subspace-first too",
    "step from any key: 298 bytes", "step over entries that do not match", "range that descends: finished", "refused 5 in a range that descends", "refused 5 in an empty store",
    "refused 1 with a key that is none", "refused 2 with a key that is none", "refused 3 with a key that is none", "refused 4 with a key that is none", "refused 4 with a key",
    "refused 5: fewer than 26 bytes", "refused 5: 25 bytes", "refused 5: a stored key cut", "refused 5: a key and a byte behind it", "refused 5: nine components or more", "refused 5: a component over 64 bytes",
    "refused 5: a path over 128 bytes", "refused 5: a time-first key", "refused 5: 299 bytes", "refused 5: 00 then anything else",
];

/// What has happened since a listing began.
pub struct History {
    walk: Walk,
    /// What it gave, with the keys.
    given: Vec<(Vec<u8>, Entry)>,
    /// What is stored and matches, as it was after the last call.
    matches: Vec<Stored>,
    /// Stored and matching all the while.
    always: Vec<Entry>,
    /// Arrived at or below the remembered key.
    behind: Vec<Entry>,
    /// Gone before its turn, and not filed again; by which call; and whether the end of the listing has counted it.
    gone: Vec<(Entry, By, bool)>,
    /// Arrived ahead, how, and how many had been given then.
    ahead: Vec<(Entry, Came, usize)>,
    /// What has changed the store since.
    between: Vec<By>,
    /// Rows that the next step counts, if it does not give what must not be given, which is checked.
    next: Vec<&'static str>,
    /// Rows that the end counts.
    end: Vec<&'static str>,
    /// By which call the record of the remembered key went, if it did.
    left: Option<By>,
    finished: bool,
    refused: bool,
}

/// By which call an entry came or went.
#[derive(Clone, Copy, Debug, PartialEq)]
enum By {
    Filed,
    Pruned,
    Forgotten,
    AreaForgotten,
    Recorded,
    Unrecorded,
    Opened,
}

/// How an entry came ahead of a listing.
#[derive(Clone, Copy, Debug, PartialEq)]
enum Came {
    First,
    /// It was there before, since the listing began, and gone.
    Again,
    Completed,
    /// It pruned one at its path that was yet to come.
    InPlace,
}

fn matching(walk: &Walk, store: &Store) -> Vec<Stored> {
    store.entries().iter().filter(|x| walk.query.includes(&x.entry) && !walk.ignore.passes_over(x)).cloned().collect()
}
fn is_in(e: &Entry, list: &[Stored]) -> bool {
    list.iter().any(|x| x.entry == *e)
}
fn one_place(a: &Entry, b: &Entry) -> bool {
    a.subspace == b.subspace && a.path == b.path
}

impl History {
    fn begun(walk: Walk, store: &Store) -> History {
        let matches = matching(&walk, store);
        let always = matches.iter().map(|x| x.entry.clone()).collect();
        History {
            walk, given: vec![], matches, always, behind: vec![], gone: vec![], ahead: vec![], between: vec![], next: vec![], end: vec![], left: None, finished: false,
            refused: false,
        }
    }
    /// After a call that may have changed the store: what came, what went, and where it lies beside the remembered key. Whether something came behind, and ahead.
    fn changed(&mut self, call: &Call, store: &Store) -> (bool, bool) {
        let now = matching(&self.walk, store);
        let came: Vec<Entry> = now.iter().map(|x| x.entry.clone()).filter(|e| !is_in(e, &self.matches)).collect();
        let went: Vec<Entry> = self.matches.iter().map(|x| x.entry.clone()).filter(|e| !is_in(e, &now)).collect();
        let by = match call {
            Call::Ingest(..) => By::Filed,
            Call::Forget(..) => By::Forgotten,
            Call::ForgetArea(..) => By::AreaForgotten,
            Call::Record(..) | Call::Avail(..) => By::Recorded,
            Call::Unrecord(..) => By::Unrecorded,
            _ => By::Opened,
        };
        self.between.push(by);
        self.always.retain(|e| is_in(e, &now));
        for e in &went {
            let how = if by == By::Filed { By::Pruned } else { by };
            self.between.push(how);
            // Not yet given: its turn has not come.
            if key(e, false) > self.walk.last {
                self.gone.push((e.clone(), how, false));
            } else if key(e, false) == self.walk.last {
                self.left = Some(how);
            }
        }
        let (mut behind, mut ahead) = (false, false);
        for e in came {
            let k = key(&e, false);
            let (was_given, was_gone) = (self.given.iter().any(|g| g.1 == e), self.gone.iter().any(|g| g.0 == e));
            self.gone.retain(|g| g.0 != e);
            if k <= self.walk.last {
                behind = true;
                self.left = self.left.filter(|_| k != self.walk.last);
                let row = match by {
                    By::Recorded if !was_given => "passed over by a flag, completed behind, not given",
                    By::Filed if was_given => "forgotten after its turn and filed again, not given again",
                    By::Filed if was_gone => "forgotten before its turn and filed again behind, not given",
                    _ => "arrived behind, finished without it",
                };
                self.end.push(row);
                if by == By::Filed && !was_given && !was_gone && self.given.iter().all(|g| g.0 != k) {
                    let below = self.given.iter().all(|g| k < g.0);
                    self.end.push(if below { "arrived behind, below all that was given" } else { "arrived behind, between two that were given" });
                }
                if self.given.iter().any(|g| g.0 == k && g.1 != e) {
                    self.end.push("given, then replaced at the same key, not given again");
                    if self.walk.last == k {
                        self.next.push("given, then replaced at the same key right away");
                    }
                }
                self.behind.push(e);
            } else {
                ahead = true;
                let in_place = went.iter().any(|w| one_place(w, &e) && key(w, false) > self.walk.last);
                let how = if by == By::Recorded { Came::Completed } else if was_gone { Came::Again } else if in_place { Came::InPlace } else { Came::First };
                self.ahead.retain(|a| a.0 != e);
                self.ahead.push((e, how, self.given.len()));
            }
        }
        self.matches = now;
        (behind, ahead)
    }
    /// What the port gave at a step, beside the store as it is. The rows that this is, or which sentence is broken.
    fn stepped(&mut self, answer: &Answer, store: &Store) -> Result<Vec<&'static str>, String> {
        let area = matches!(self.walk.query, Query::Area(_));
        let mut rows = vec![if area { "step of an area's listing" } else { "step of a range's listing" }];
        let (x, k) = match answer {
            Answer::Refused(n) => {
                self.refused = true;
                rows.extend((1..=4).contains(n).then(|| ROWS[ROWS.iter().position(|r| *r == "refused 1 of an open listing").unwrap() + *n as usize - 1]));
                return Ok(rows);
            }
            Answer::Next(Some((x, k))) => (x, k),
            Answer::Next(None) => {
                rows.extend(self.ended(store)?);
                return Ok(rows);
            }
            _ => return Err(format!("no answer of a listing: {answer:?}")),
        };
        if self.given.iter().any(|g| g.0 == *k) {
            return Err(format!("02, U7: \"No key is given twice\": {k:02x?}"));
        }
        if self.behind.contains(&x.entry) {
            return Err(format!("02, U7: \"One that first arrives behind is not shown\": {:?}", x.entry));
        }
        if self.gone.iter().any(|g| g.0 == x.entry) {
            return Err(format!("02, U7: \"One pruned before its turn, and not filed again, is not shown\": {:?}", x.entry));
        }
        rows.extend(self.from(store));
        rows.append(&mut self.next);
        rows.extend(self.refused.then_some("refused, and the listing goes on"));
        rows.extend(self.finished.then_some("finished, then something came ahead and was given"));
        if let Some((_, how, given)) = self.ahead.iter().find(|a| a.0 == x.entry) {
            match how {
                Came::First => {
                    rows.push("arrived ahead and given");
                    rows.extend((*given == self.given.len()).then_some("arrived ahead and given next"));
                }
                Came::Again => {
                    rows.push("forgotten before its turn and filed again ahead, given");
                    self.end.push("forgotten before its turn and filed again, given once");
                }
                Came::Completed => rows.push("passed over by a flag, completed ahead, given"),
                Came::InPlace => rows.push("pruned before its turn by a newer one at its path, which is given"),
            }
        }
        rows.extend(self.given.iter().any(|g| one_place(&g.1, &x.entry)).then_some("given, then pruned by a newer one at its path, which is given"));
        let over = store.entries().iter().map(|y| key(&y.entry, false)).any(|y| y > self.walk.last && y < *k);
        rows.extend(over.then_some("step over entries that do not match"));
        self.given.push((k.clone(), x.entry.clone()));
        self.walk.last = k.clone();
        self.left = None;
        (self.refused, self.finished) = (false, false);
        Ok(rows)
    }
    /// What a step from the remembered key begins at.
    fn from(&self, store: &Store) -> Vec<&'static str> {
        if self.given.is_empty() {
            return vec![];
        }
        let at = store.entries().iter().find(|x| key(&x.entry, false) == self.walk.last);
        let mut rows = vec![];
        rows.extend(at.is_some().then_some("step from a remembered key that is stored"));
        rows.extend((at.is_none() && self.left == Some(By::Pruned)).then_some("step from a remembered key that was pruned"));
        rows.extend((at.is_none() && matches!(self.left, Some(By::Forgotten | By::AreaForgotten))).then_some("step from a remembered key that was forgotten"));
        rows.extend(at.is_some_and(|x| self.walk.ignore.passes_over(x)).then_some("step from a remembered key that does not match any more"));
        rows.extend(store.entries().is_empty().then_some("step from a remembered key, nothing stored is left"));
        rows
    }
    /// Finished: what was stored and matched all the while was given once.
    fn ended(&mut self, store: &Store) -> Result<Vec<&'static str>, String> {
        for e in &self.always {
            let n = self.given.iter().filter(|g| g.1 == *e).count();
            if n != 1 {
                return Err(format!("02, U7: \"an entry stored and matching all the while is shown once\": {n} times, {e:?}"));
            }
        }
        let mut rows = self.from(store);
        rows.append(&mut self.next);
        if self.finished {
            rows.push("finished twice");
        } else if self.given.is_empty() {
            rows.push("finished at once");
        } else {
            rows.extend(["walked to its end", if matches!(self.walk.query, Query::Area(_)) { "walked to its end, an area's" } else { "walked to its end, a range's" }]);
            let by = |by: By| self.between.contains(&by);
            for (how, row) in [
                (By::Filed, "walked to its end, entries filed between"), (By::Pruned, "walked to its end, entries pruned between"), (By::Forgotten, "walked to its end, entries forgotten between"),
                (By::AreaForgotten, "walked to its end, an area forgotten between"), (By::Recorded, "walked to its end, lengths recorded between"),
                (By::Unrecorded, "walked to its end, a payload forgotten between"), (By::Opened, "walked to its end, an opening between"),
            ] {
                rows.extend(by(how).then_some(row));
            }
            if !self.always.is_empty() {
                rows.push("given once, stored all the while");
                rows.extend((self.always.len() > 1).then_some("given once, several stored all the while"));
                rows.extend(by(By::Filed).then_some("given once, stored all the while, entries filed between"));
                rows.extend(by(By::Pruned).then_some("given once, stored all the while, entries pruned between"));
                rows.extend((by(By::Forgotten) || by(By::AreaForgotten)).then_some("given once, stored all the while, entries forgotten between"));
                rows.extend(by(By::Recorded).then_some("given once, stored all the while, lengths recorded between"));
            }
        }
        for (e, by, counted) in self.gone.iter_mut().filter(|g| !g.2) {
            *counted = true;
            rows.push(match by {
                By::Pruned => "pruned before its turn, finished without it",
                By::Unrecorded | By::Recorded => "forgotten payload before its turn, not given",
                _ => "forgotten before its turn, finished without it",
            });
            let above = *by == By::Pruned && !store.entries().iter().any(|x| one_place(&x.entry, e));
            rows.extend(above.then_some("pruned before its turn by a path above"));
        }
        let hidden = store.entries().iter().any(|x| self.walk.query.includes(&x.entry) && self.walk.ignore.passes_over(x));
        rows.extend(hidden.then_some("passed over by a flag to the end"));
        rows.append(&mut self.end);
        self.finished = true;
        rows.sort();
        rows.dedup();
        Ok(rows)
    }
}

/// The listings that are open.
#[derive(Default)]
pub struct Listings {
    open: BTreeMap<u8, History>,
    /// The listing that made the last step.
    stepped: Option<u8>,
    /// Every key that was ever stored.
    once: BTreeSet<Vec<u8>>,
}

impl Listings {
    /// After a call that the port and the model answered alike: the rows that it is, or which sentence is broken.
    pub fn after(&mut self, call: &Call, port: &Answer, store: &Store) -> Result<Vec<&'static str>, String> {
        let mut rows = vec![];
        match (call, port) {
            (Call::Walk(w, query, ignore), _) => {
                let walk = Walk { query: query.clone(), ignore: *ignore, last: vec![] };
                self.open.insert(*w, History::begun(walk, store));
            }
            (Call::More(w), answer) => {
                let n = self.open.len();
                if let Some(h) = self.open.get_mut(w) {
                    rows = h.stepped(answer, store)?;
                    rows.extend(self.stepped.is_some_and(|s| s != *w).then_some("steps of two listings in turn"));
                    rows.extend((n > 2).then_some("step of one of three listings or more"));
                    self.stepped = Some(*w);
                }
            }
            (Call::Next(_, _, last), Answer::Next(_)) => {
                let gone = self.once.contains(last) && store.entries().iter().all(|x| key(&x.entry, false) != *last);
                rows.extend(gone.then_some("step from any key: one that was stored and is gone"));
            }
            (_, Answer::Opened | Answer::Taken(_) | Answer::Done | Answer::Forgot(_)) => {
                if let (Call::Ingest(e, ..), Answer::Taken(_)) = (call, port) {
                    self.once.insert(key(e, false));
                }
                let (mut behind, mut ahead) = (false, false);
                for h in self.open.values_mut() {
                    let (b, a) = h.changed(call, store);
                    (behind, ahead) = (behind | b, ahead | a);
                }
                rows.extend((behind && ahead && matches!(call, Call::Ingest(..))).then_some("arrived behind one listing and ahead of another"));
            }
            _ => {}
        }
        Ok(rows)
    }
}

/// A path's bounds that every path keeps: what is read by them is escaped as the encoder does.
const WIDE: Bounds = Bounds { component: 4096, count: 4096, total: 4096 };

/// In what way bytes are none that the subspace-first encoder writes.
fn forms(store: &Store, k: &[u8]) -> Vec<&'static str> {
    let mut forms = vec![];
    let mut add = |yes: bool, row| forms.extend(yes.then_some(row));
    add(k.len() < 26, "refused 5: fewer than 26 bytes");
    add(k.len() == 25, "refused 5: 25 bytes");
    add(k.len() == 299, "refused 5: 299 bytes");
    add(store.entries().iter().any(|x| key(&x.entry, false).starts_with(k)), "refused 5: a stored key cut");
    add(FIELD.decode(false, &k[..k.len() - 1]).is_some(), "refused 5: a key and a byte behind it");
    add(FIELD.decode(true, k).is_some(), "refused 5: a time-first key");
    add(reading::cases(false, k).contains(&"read: 00 then anything else"), "refused 5: 00 then anything else");
    if let Some((_, p, _)) = WIDE.decode(false, k) {
        add(p.len() > 8, "refused 5: nine components or more");
        add(p.iter().any(|c| c.len() > 64), "refused 5: a component over 64 bytes");
        add(p.concat().len() > 128, "refused 5: a path over 128 bytes");
    }
    forms
}

impl Table {
    /// Counts a step from any bytes: the store, the model's answer.
    pub fn steps(&mut self, store: &Store, step: &Step, c: &Call, answer: &Answer) {
        let Call::Next(query, ignore, last) = c else { return };
        let is_key = last.is_empty() || FIELD.decode(false, last).is_some();
        if let Answer::Refused(n @ 1..=4) = answer {
            self.add(&format!("refused {n} with a key that is none"), !is_key);
            self.add("refused 4 with a key", *n == 4 && !last.is_empty() && is_key);
        }
        if step.front != Front::Plain || store.limit == Some(0) {
            return;
        }
        let descends = match query {
            Query::Area(_) => false,
            Query::Range(r) => r.paths.end.as_ref().is_some_and(|end| *end < r.paths.start) || r.times.end.is_some_and(|end| end < r.times.start) || r.subspaces.end.is_some_and(|end| end < r.subspaces.start),
        };
        if *answer == Answer::Refused(5) {
            self.add("refused 5 in a range that descends", descends);
            self.add("refused 5 in an empty store", store.entries().is_empty());
            forms(store, last).into_iter().for_each(|row| self.add(row, true));
        }
        let Answer::Next(given) = answer else { return };
        let keys: Vec<Vec<u8>> = store.entries().iter().map(|x| key(&x.entry, false)).collect();
        let at = store.entries().iter().find(|x| key(&x.entry, false) == *last);
        self.add("step from any key: the start", last.is_empty() && given.is_some());
        self.add("range that descends: finished", descends);
        if last.is_empty() || keys.is_empty() {
            return;
        }
        let (s, p, _) = FIELD.decode(false, last).expect("a key");
        self.add("step from any key: a stored one", at.is_some());
        self.add("step from any key: not stored, between two", at.is_none() && *last > keys[0] && *last < keys[keys.len() - 1]);
        self.add("step from any key: below all, the first", *last < keys[0] && given.as_ref().is_some_and(|g| g.1 == keys[0]));
        self.add("step from any key: above all, finished", *last > keys[keys.len() - 1]);
        self.add("step from any key: of a subspace without entries", store.entries().iter().all(|x| x.entry.subspace != s));
        self.add("step from any key: it does not match", at.is_some_and(|x| !query.includes(&x.entry) || ignore.passes_over(x)));
        self.add("step from any key: at a stored path, another time", at.is_none() && store.entries().iter().any(|x| x.entry.subspace == s && x.entry.path == p));
        self.add("step from any key: time-first, and written subspace-first too", FIELD.decode(true, last).is_some());
        self.add("step from any key: 298 bytes", last.len() == 298);
        let over = given.as_ref().is_some_and(|(_, k)| keys.iter().any(|y| y > last && y < k));
        self.add("step over entries that do not match", over);
    }
}
