//! How often each thing of 02's U4 occurs: the rows of the kind `arrivals`.
use super::table::Table;
use crate::answer::Answer;
use crate::call::Call;
use crate::step::{records, Front, Step};
use model::*;

pub const ROWS: [&str; 49] = [
    "call record", "call unrecord", "recorded, another length than before", "recorded, the same length as before", "recorded, a smaller length than before",
    "recorded, the whole payload", "recorded, a part of the payload", "recorded, none of a payload that is not empty", "recorded, an empty payload", "recorded, a payload of 2^64 - 1 bytes",
    "recorded with no digest expected", "recorded with its digest expected", "recorded beside a path that ties", "recorded, neither first nor last in its tree",
    "recorded, at another place in the other tree", "recorded in a full store", "recorded, a record of the greatest length", "payload forgotten", "payload forgotten, none was there", "payload forgotten with its digest expected",
    "refused 11", "refused 11, a longer path is stored", "refused 11, a shorter path is stored", "refused 11, both are stored", "refused 11, neither is stored",
    "refused 11, the path is stored in another subspace", "refused 11 with a digest expected", "refused 11 of a payload to forget",
    "refused 9 of a recording", "refused 9 of a recording, it would be 12 too", "refused 9 of a payload to forget", "refused 12", "refused 12, one too many", "refused 12, 2^64 - 1",
    "refused 12, an empty payload", "refused 12 with its digest expected", "refused 4 in record", "refused 4 in unrecord", "refused 1 of either", "refused 2 of either", "refused 3 of either",
    "refused 3, an available length in one tree alone", "held, a recorded length is kept", "a newer entry at its place wipes a recorded length", "forgotten with a recorded length and filed again",
    "lookup with the flag, a part has arrived", "lookup with the flag, all has arrived", "listing with the flag, a part has arrived", "listing with the flag, all has arrived",
];

impl Table {
    /// Counts one call: the store before it, the call, the model's answer.
    pub fn arrivals(&mut self, store: &Store, step: &Step, c: &Call, answer: &Answer) {
        let at = |s: &Subspace, p: &Path| store.entries().iter().find(|x| x.entry.subspace == *s && x.entry.path == *p);
        if records(c) {
            self.add("refused 1 of either", *answer == Answer::Refused(1));
            self.add("refused 2 of either", *answer == Answer::Refused(2));
            self.add("refused 3 of either", *answer == Answer::Refused(3));
        }
        if let (Front::Changed(which @ (0 | 2), byte, _), Answer::Refused(3)) = (step.front, answer) {
            let mut end = 0;
            let one = records_of(store, which == 2).any(|length| {
                end += length;
                let available = end - ORIGIN as u64;
                (available - 8..available).contains(&byte)
            });
            self.add("refused 3, an available length in one tree alone", one);
        }
        // The rest is about what a call that is handed nothing faulty says of entries.
        if step.front != Front::Plain || store.limit == Some(0) {
            return;
        }
        match c {
            Call::Record(s, p, n, d) => self.recorded(store, s, p, Some(*n), d, answer),
            Call::Unrecord(s, p, d) => self.recorded(store, s, p, None, d, answer),
            Call::Open(..) if *answer == Answer::Opened => self.forgotten.clear(),
            Call::Forget(s, p, _) if *answer == Answer::Done && at(s, p).is_some_and(|x| x.available > 0) => self.forgotten.push((*s, p.clone())),
            Call::Ingest(e, ..) => {
                let was = at(&e.subspace, &e.path);
                self.add("held, a recorded length is kept", *answer == Answer::Held && was.is_some_and(|x| x.available > 0));
                if let Answer::Taken(_) = answer {
                    self.add("a newer entry at its place wipes a recorded length", was.is_some_and(|x| x.available > 0));
                    let before = self.forgotten.len();
                    self.forgotten.retain(|(s, p)| *s != e.subspace || *p != e.path);
                    let again = self.forgotten.len() < before;
                    self.add("forgotten with a recorded length and filed again", again);
                }
            }
            Call::Entry(s, p, Ignore { incomplete: true, empty: false }) => {
                if let Some(x) = at(s, p) {
                    self.add("lookup with the flag, a part has arrived", *answer == Answer::Found(None) && x.available > 0);
                    self.add("lookup with the flag, all has arrived", matches!(answer, Answer::Found(Some(_))) && x.available > 0);
                }
            }
            Call::QueryArea(a, i) | Call::IncludedIn(a, i) => self.shown(store, *i, |e| a.includes(e)),
            Call::QueryRange(r, i) => self.shown(store, *i, |e| r.includes(e)),
            _ => {}
        }
    }
    /// Entries of a listing that the flag hides or shows by what is recorded.
    fn shown(&mut self, store: &Store, i: Ignore, includes: impl Fn(&Entry) -> bool) {
        let some = |all: bool| store.entries().iter().any(|x| i.incomplete && includes(&x.entry) && x.available > 0 && (x.available == x.entry.payload_length) == all);
        let (part, all) = (some(false), some(true));
        self.add("listing with the flag, a part has arrived", part);
        self.add("listing with the flag, all has arrived", all);
    }
    /// A recording of so much, or a forgetting, of what has arrived.
    fn recorded(&mut self, store: &Store, s: &Subspace, p: &Path, n: Option<u64>, d: &Option<Digest>, answer: &Answer) {
        let list = store.entries();
        let place = list.iter().position(|x| x.entry.subspace == *s && x.entry.path == *p);
        match (answer, place) {
            (Answer::Refused(11), _) => {
                let (longer, shorter) = (
                    list.iter().any(|x| x.entry.subspace == *s && is_prefix(p, &x.entry.path)),
                    list.iter().any(|x| x.entry.subspace == *s && is_prefix(&x.entry.path, p)),
                );
                self.add("refused 11, a longer path is stored", longer);
                self.add("refused 11, a shorter path is stored", shorter);
                self.add("refused 11, both are stored", longer && shorter);
                self.add("refused 11, neither is stored", !longer && !shorter);
                self.add("refused 11, the path is stored in another subspace", list.iter().any(|x| x.entry.path == *p));
                self.add("refused 11 with a digest expected", d.is_some());
                self.add("refused 11 of a payload to forget", n.is_none());
            }
            (Answer::Refused(9), Some(i)) => {
                self.add("refused 9 of a recording", n.is_some());
                self.add("refused 9 of a recording, it would be 12 too", n.is_some_and(|n| n > list[i].entry.payload_length));
                self.add("refused 9 of a payload to forget", n.is_none());
            }
            (Answer::Refused(12), Some(i)) => {
                let length = list[i].entry.payload_length;
                self.add("refused 12, one too many", n == length.checked_add(1));
                self.add("refused 12, 2^64 - 1", n == Some(u64::MAX));
                self.add("refused 12, an empty payload", length == 0);
                self.add("refused 12 with its digest expected", d.is_some());
            }
            (Answer::Done, Some(i)) => {
                let (x, length) = (&list[i], list[i].entry.payload_length);
                let Some(n) = n else {
                    self.add("payload forgotten", x.available > 0);
                    self.add("payload forgotten, none was there", x.available == 0);
                    return self.add("payload forgotten with its digest expected", d.is_some());
                };
                let mut times: Vec<_> = list.iter().map(|x| key(&x.entry, true)).collect();
                times.sort();
                self.add("recorded, another length than before", n != x.available);
                self.add("recorded, the same length as before", n == x.available);
                self.add("recorded, a smaller length than before", n < x.available);
                self.add("recorded, the whole payload", n == length && length > 0);
                self.add("recorded, a part of the payload", 0 < n && n < length);
                self.add("recorded, none of a payload that is not empty", n == 0 && length > 0);
                self.add("recorded, an empty payload", length == 0);
                self.add("recorded, a payload of 2^64 - 1 bytes", length == u64::MAX);
                self.add("recorded with no digest expected", d.is_none());
                self.add("recorded with its digest expected", d.is_some());
                self.add("recorded beside a path that ties", list.iter().any(|y| y.entry.ties(&x.entry)));
                self.add("recorded, neither first nor last in its tree", 0 < i && i + 1 < list.len());
                self.add("recorded, at another place in the other tree", times[i] != key(&x.entry, true));
                self.add("recorded in a full store", store.limit == Some(list.len() as u64));
                self.add("recorded, a record of the greatest length", record(x, false).len() as u64 == RECORD_MOST);
            }
            _ => {}
        }
    }
}

/// The lengths of a tree's records.
fn records_of(store: &Store, time_first: bool) -> impl Iterator<Item = u64> {
    model::records(store.entries(), time_first).into_iter().map(|(k, v)| (k.len() + v.len()) as u64)
}
