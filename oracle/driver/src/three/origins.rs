//! How often each thing of 02's U6 occurs: the rows of the kind `origins`.
use super::table::{name, Table};
use crate::answer::Answer;
use crate::call::Call;
use crate::step::{Front, Step};
use model::EntryOrigin::{Local, Remote};
use model::*;

const ROWS: [&str; 65] = [
    "filed local", "filed remote", "filed remote, session 0", "filed remote, session from 2^63 on", "filed remote, session 2^64 - 1", "filed remote, a record of the greatest length",
    "filed remote, at another place in the other tree", "filed remote with pruning prevented", "held with the same origin", "held with another origin", "held, local is stored and remote comes",
    "held, remote is stored and local comes", "held, remote is stored and another session comes", "held, session 0 is stored and local comes", "held, local is stored and session 0 comes",
    "held with another origin and another token", "held with another origin, pruning prevented", "held with another origin by a full store", "held with another origin and a recorded length",
    "held with another origin beside a path that ties", "replaced, with another origin", "replaced, remote by local", "replaced, local by remote", "replaced, session by session",
    "replaced, with the same origin", "replaced with a recorded length and another origin", "pruned by one above, with another origin", "several pruned, local and remote", "filed beside a tie of another origin", "obsolete, another origin comes",
    "refused 7, another origin comes", "refused 8, remote comes", "refused 6, remote comes", "forgotten and filed again with another origin", "forgotten and filed again, local after remote",
    "forgotten and filed again, remote after local", "forgotten and filed again, another session", "forgotten and filed again with the same origin", "recorded, a local entry", "recorded, a remote entry", "recorded, session 0", "recorded, a session from 2^63 on",
    "payload forgotten, a remote entry", "refused 12, a remote entry", "lookup of a local entry", "lookup of a remote entry", "lookup of session 0", "lookup of a session from 2^63 on",
    "lookup of session 2^64 - 1", "lookup of a remote entry with a recorded length", "lookup of a remote entry hidden by a flag", "lookup of nothing", "listing of local and remote", "listing of session 0",
    "listing of several sessions", "next match is remote", "refused 3, a kind in the subspace-first tree alone",
    "refused 3, a kind in the time-first tree alone", "refused 3, a session in the subspace-first tree alone", "refused 3, a session in the time-first tree alone", "refused 3, another lawful origin in one tree",
    "refused 3, local with a number in both trees", "refused 3, kind 2 in both trees", "refused 3, kind 255 in both trees", "refused 3, another kind without a number in both trees",
];
/// Every call on a store.
const CALLS: [&str; 13] = ["ingest", "forget", "farea", "record", "unrecord", "entry", "qarea", "qrange", "nexta", "next", "count", "size", "aoi"];

pub fn rows() -> Vec<String> {
    let faults = CALLS.iter().flat_map(|c| [format!("refused 2, no room for origins, in {c}"), format!("refused 3, no origin in both trees, in {c}")]);
    ROWS.iter().map(|r| r.to_string()).chain(faults).collect()
}

/// The session of a remote one, from 2^63 on.
fn great(o: EntryOrigin) -> bool {
    matches!(o, Remote(n) if n >> 63 == 1)
}
fn remote(o: EntryOrigin) -> bool {
    o != Local
}

impl Table {
    /// Counts one call: the store before it, the call, the model's answer.
    pub fn origins(&mut self, store: &Store, step: &Step, c: &Call, answer: &Answer) {
        match (step.front, answer) {
            (Front::Short(0 | 2, by), Answer::Refused(2)) if by as u64 == ORIGIN as u64 * store.limit.unwrap_or(0) => {
                self.add(&format!("refused 2, no room for origins, in {}", name(c)), true);
            }
            (Front::Changed(which @ (0 | 2), byte, by), Answer::Refused(3)) => self.changed(store, which == 2, byte as usize, by),
            (Front::Origin(_, [kind, session @ ..]), Answer::Refused(3)) => {
                self.add("refused 3, local with a number in both trees", kind == 0);
                self.add("refused 3, kind 2 in both trees", kind == 2);
                self.add("refused 3, kind 255 in both trees", kind == 255);
                self.add("refused 3, another kind without a number in both trees", session == [0; 8]);
                self.add(&format!("refused 3, no origin in both trees, in {}", name(c)), true);
            }
            _ => {}
        }
        // The rest is about what a call that is handed nothing faulty says of entries.
        if step.front != Front::Plain || store.limit == Some(0) {
            return;
        }
        let at = |s: &Subspace, p: &Path| store.entries().iter().find(|x| x.entry.subspace == *s && x.entry.path == *p);
        match c {
            Call::Open(..) if *answer == Answer::Opened => self.gone.clear(),
            Call::Ingest(e, token, prevent, origin) => self.comes(store, e, token, *prevent, *origin, answer),
            Call::Forget(s, p, _) if *answer == Answer::Done => self.gone.extend(at(s, p).map(|x| (x.entry.clone(), x.origin))),
            Call::ForgetArea(a, None) if matches!(answer, Answer::Forgot(_)) => {
                self.gone.extend(store.entries().iter().filter(|x| a.includes(&x.entry)).map(|x| (x.entry.clone(), x.origin)))
            }
            Call::Record(s, p, n, _) => {
                let Some(x) = at(s, p) else { return };
                let done = *answer == Answer::Done && *n > 0;
                self.add("recorded, a local entry", done && x.origin == Local);
                self.add("recorded, a remote entry", done && remote(x.origin));
                self.add("recorded, session 0", done && x.origin == Remote(0));
                self.add("recorded, a session from 2^63 on", done && great(x.origin));
                self.add("refused 12, a remote entry", *answer == Answer::Refused(12) && remote(x.origin));
            }
            Call::Unrecord(s, p, _) => self.add("payload forgotten, a remote entry", *answer == Answer::Done && at(s, p).is_some_and(|x| x.available > 0 && remote(x.origin))),
            Call::Entry(s, p, _) => match (answer, at(s, p)) {
                (Answer::Found(Some(x)), _) => {
                    let o = x.origin.expect("the model's origin");
                    self.add("lookup of a local entry", o == Local);
                    self.add("lookup of a remote entry", remote(o));
                    self.add("lookup of session 0", o == Remote(0));
                    self.add("lookup of a session from 2^63 on", great(o));
                    self.add("lookup of session 2^64 - 1", o == Remote(u64::MAX));
                    self.add("lookup of a remote entry with a recorded length", remote(o) && x.available > 0);
                }
                (Answer::Found(None), hidden) => {
                    self.add("lookup of a remote entry hidden by a flag", hidden.is_some_and(|x| remote(x.origin)));
                    self.add("lookup of nothing", hidden.is_none());
                }
                _ => {}
            },
            _ => {}
        }
        match answer {
            Answer::List(l) => {
                let of: Vec<EntryOrigin> = l.iter().filter_map(|x| x.origin).collect();
                self.add("listing of local and remote", of.contains(&Local) && of.iter().any(|o| remote(*o)));
                self.add("listing of session 0", of.contains(&Remote(0)));
                self.add("listing of several sessions", of.iter().any(|a| of.iter().any(|b| remote(*a) && remote(*b) && a != b)));
            }
            Answer::Next(Some((x, _))) => self.add("next match is remote", x.origin.is_some_and(remote)),
            _ => {}
        }
    }
    /// A byte of a tree changed by so much, where it is one of the nine of an entry.
    fn changed(&mut self, store: &Store, time_first: bool, byte: usize, by: u32) {
        let mut end = 0;
        for (k, v) in model::records(store.entries(), time_first) {
            end += k.len() + v.len();
            if (end - ORIGIN..end).contains(&byte) {
                let (mut nine, i): ([u8; ORIGIN], _) = (*v.last_chunk().unwrap(), byte + ORIGIN - end);
                nine[i] = nine[i].wrapping_add((by | 1) as u8);
                let tree = if time_first { "time-first" } else { "subspace-first" };
                self.add(&format!("refused 3, a {} in the {tree} tree alone", if i == 0 { "kind" } else { "session" }), true);
                self.add("refused 3, another lawful origin in one tree", read_origin(nine).is_some());
            }
        }
    }
    /// An entry that comes.
    fn comes(&mut self, store: &Store, e: &Entry, token: &Token, prevent: bool, origin: EntryOrigin, answer: &Answer) {
        let list = store.entries();
        let was = list.iter().find(|x| x.entry.subspace == e.subspace && x.entry.path == e.path);
        let other = was.is_some_and(|x| x.origin != origin);
        let full = store.limit == Some(list.len() as u64);
        match (answer, was) {
            (Answer::Held, Some(x)) => {
                self.add("held with the same origin", !other);
                self.add("held with another origin", other);
                self.add("held, local is stored and remote comes", x.origin == Local && remote(origin));
                self.add("held, remote is stored and local comes", remote(x.origin) && origin == Local);
                self.add("held, remote is stored and another session comes", other && remote(x.origin) && remote(origin));
                self.add("held, session 0 is stored and local comes", x.origin == Remote(0) && origin == Local);
                self.add("held, local is stored and session 0 comes", x.origin == Local && origin == Remote(0));
                self.add("held with another origin and another token", other && x.token != *token);
                self.add("held with another origin, pruning prevented", other && prevent);
                self.add("held with another origin by a full store", other && full);
                self.add("held with another origin and a recorded length", other && x.available > 0);
                self.add("held with another origin beside a path that ties", other && list.iter().any(|y| y.entry.ties(e)));
            }
            (Answer::Taken(pairs), was) => {
                let filed = Stored { entry: e.clone(), token: *token, available: 0, origin };
                let rank = |time_first| list.iter().filter(|x| !e.prunes(&x.entry) && key(&x.entry, time_first) < key(e, time_first)).count();
                self.add("filed local", origin == Local);
                self.add("filed remote", remote(origin));
                self.add("filed remote, session 0", origin == Remote(0));
                self.add("filed remote, session from 2^63 on", great(origin));
                self.add("filed remote, session 2^64 - 1", origin == Remote(u64::MAX));
                self.add("filed remote, a record of the greatest length", remote(origin) && record(&filed, false).len() as u64 == RECORD_MOST);
                self.add("filed remote, at another place in the other tree", remote(origin) && rank(false) != rank(true));
                self.add("filed remote with pruning prevented", remote(origin) && prevent);
                if let Some(x) = was {
                    self.add("replaced, with another origin", other);
                    self.add("replaced, remote by local", remote(x.origin) && origin == Local);
                    self.add("replaced, local by remote", x.origin == Local && remote(origin));
                    self.add("replaced, session by session", other && remote(x.origin) && remote(origin));
                    self.add("replaced, with the same origin", !other);
                    self.add("replaced with a recorded length and another origin", other && x.available > 0);
                }
                let gone: Vec<&Stored> = list.iter().filter(|x| e.prunes(&x.entry)).collect();
                assert_eq!(gone.len(), pairs.len());
                self.add("pruned by one above, with another origin", gone.iter().any(|x| x.entry.path != e.path && x.origin != origin));
                self.add("several pruned, local and remote", gone.iter().any(|x| x.origin == Local) && gone.iter().any(|x| remote(x.origin)));
                self.add("filed beside a tie of another origin", list.iter().any(|x| x.entry.ties(e) && x.origin != origin));
                if let Some(i) = self.gone.iter().position(|(x, _)| x == e) {
                    let before = self.gone.remove(i).1;
                    self.add("forgotten and filed again with another origin", before != origin);
                    self.add("forgotten and filed again, local after remote", remote(before) && origin == Local);
                    self.add("forgotten and filed again, remote after local", before == Local && remote(origin));
                    self.add("forgotten and filed again, another session", before != origin && remote(before) && remote(origin));
                    self.add("forgotten and filed again with the same origin", before == origin);
                }
            }
            (Answer::Obsolete(..), _) => self.add("obsolete, another origin comes", other),
            (Answer::Refused(7), _) => self.add("refused 7, another origin comes", other),
            (Answer::Refused(8), _) => self.add("refused 8, remote comes", remote(origin)),
            (Answer::Refused(6), _) => self.add("refused 6, remote comes", remote(origin)),
            _ => {}
        }
    }
}
