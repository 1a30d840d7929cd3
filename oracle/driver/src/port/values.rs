//! The port's calls that need no store. Every call of the door is made, also where one answer would do; answers that
//! contradict each other, or hold anything that they should not, are said in words and are so like no other answer.
use super::spell::*;
use crate::answer::Answer;
use crate::call::Call;
use crate::rng::Rng;
use model::*;
use std::cmp::Ordering;
use std::fmt::Debug;
use virebony::raw;

/// The answer if the door's own, spelled plainly, is what it gave, to the byte.
pub fn strict<T: PartialEq + Debug>(got: T, expected: T, answer: Answer) -> Answer {
    if got == expected { answer } else { Answer::Said(format!("stray: {got:?}")) }
}

/// Yes or no, or a refusal.
fn yes(got: raw::Answer) -> Result<bool, Answer> {
    match got {
        raw::Answer { refusal: 0, yes: 0 } => Ok(false),
        raw::Answer { refusal: 0, yes: 1 } => Ok(true),
        raw::Answer { refusal, yes: 0 } => Err(Answer::Refused(refusal)),
        _ => Err(Answer::Said(format!("stray: {got:?}"))),
    }
}

pub fn area_range(got: raw::AreaRange) -> Answer {
    let r = unrange(&got.range);
    match (got.refusal, r) {
        (0, Some(r)) => strict(got.range, Spell::plain().range(&r), Answer::Range(r)),
        (n, _) => strict(got, raw::AreaRange { refusal: n, range: raw::Range::default() }, Answer::Refused(n)),
    }
}

fn order(a: raw::Path, b: raw::Path) -> Result<Answer, Answer> {
    let c = raw::path_cmp(a, b);
    let order = match c {
        raw::Compared { refusal: 0, less: 1, greater: 0 } => Ok(Ordering::Less),
        raw::Compared { refusal: 0, less: 0, greater: 1 } => Ok(Ordering::Greater),
        raw::Compared { refusal: 0, less: 0, greater: 0 } => Ok(Ordering::Equal),
        raw::Compared { refusal, less: 0, greater: 0 } => Err(Answer::Refused(refusal)),
        _ => Err(Answer::Said(format!("stray: {c:?}"))),
    };
    let (equal, prefix) = (yes(raw::path_eq(a, b)), yes(raw::path_is_prefix_of(a, b)));
    if equal.as_ref().err() != order.as_ref().err() || prefix.as_ref().err() != order.as_ref().err() {
        return Err(Answer::Said(format!("contradictory: {order:?} {equal:?} {prefix:?}")));
    }
    let (order, equal, prefix) = (order?, equal?, prefix?);
    if equal != (order == Ordering::Equal) {
        return Err(Answer::Said(format!("contradictory: {order:?} {equal:?}")));
    }
    Ok(Answer::Order(order, prefix))
}

/// Newer, older or the same, or a refusal.
fn recency(got: raw::EntriesCompared) -> Result<Recency, Answer> {
    match got {
        raw::EntriesCompared { refusal: 0, newer: 1, older: 0 } => Ok(Recency::Newer),
        raw::EntriesCompared { refusal: 0, newer: 0, older: 1 } => Ok(Recency::Older),
        raw::EntriesCompared { refusal: 0, newer: 0, older: 0 } => Ok(Recency::Same),
        raw::EntriesCompared { refusal, newer: 0, older: 0 } => Err(Answer::Refused(refusal)),
        _ => Err(Answer::Said(format!("stray: {got:?}"))),
    }
}

fn newer(a: raw::Entry, b: raw::Entry) -> Result<Answer, Answer> {
    let (order, back) = (recency(raw::entry_compare(a, b)), recency(raw::entry_compare(b, a)));
    let (prunes, pruned) = (yes(raw::entry_prunes(a, b)), yes(raw::entry_is_pruned_by(b, a)));
    let turned = order.clone().map(|order| match order {
        Recency::Newer => Recency::Older,
        Recency::Older => Recency::Newer,
        Recency::Same => Recency::Same,
    });
    if prunes != pruned || turned != back || order.as_ref().err() != prunes.as_ref().err() {
        return Err(Answer::Said(format!("contradictory: {order:?} {back:?} {prunes:?} {pruned:?}")));
    }
    Ok(Answer::Newer(order?, prunes?))
}

/// A key, written into a buffer that is full of something else.
fn key(s: raw::Subspace, p: raw::Path, t: u64, time_first: bool, fill: &[u8]) -> Result<Vec<u8>, Answer> {
    let mut out = fill.to_vec();
    let encode = if time_first { raw::encode_tsp_entry_key } else { raw::encode_spt_entry_key };
    let got = encode(s, p, t, &mut out);
    let kept = if got.refusal == 0 { got.length } else { 0 };
    if kept > out.len() || out[kept..] != fill[kept..] || got.refusal != 0 && got.length != 0 {
        return Err(Answer::Said(format!("stray: {got:?} {out:?}")));
    }
    if got.refusal != 0 { Err(Answer::Refused(got.refusal)) } else { Ok(out[..kept].to_vec()) }
}

/// All ways to read a key: at once, by a reader, the path by a reader, component by component.
fn decode(time_first: bool, k: &[u8]) -> Answer {
    let (at_once, reader) = if time_first {
        (raw::decode_tsp_entry_key(k), raw::read_tsp_entry_key(k))
    } else {
        (raw::decode_spt_entry_key(k), raw::read_spt_entry_key(k))
    };
    if at_once != reader {
        return Answer::Said(format!("contradictory: {at_once:?} {reader:?}"));
    }
    let from = if time_first { 24 } else { 16 };
    let path = raw::read_path_at(k, from);
    if let Err(words) = steps(k, from, &path) {
        return Answer::Said(words);
    }
    let zero = raw::Decoded { refusal: at_once.refusal, subspace: Default::default(), path: Default::default(), timestamp: 0 };
    match (at_once.refusal, unpath(&at_once.path)) {
        (0, Some(p)) if path.refusal == 0 && path.path == at_once.path => {
            let s = unsubspace(&at_once.subspace);
            strict(at_once.path, Spell::plain().path(&p), Answer::Triple(s, p, at_once.timestamp))
        }
        (0, _) => Answer::Said(format!("contradictory: {at_once:?} {path:?}")),
        (n, _) => strict(at_once, zero, Answer::Refused(n)),
    }
}

/// Reads a path component by component, and holds it against the path that was read at once.
fn steps(k: &[u8], from: usize, path: &raw::PathRead) -> Result<(), String> {
    let (mut at, mut p) = (from, vec![]);
    let end = loop {
        let s = raw::read_component_at(k, at);
        let stands = raw::Stepped { refusal: s.refusal, component: 0, length: 0, bytes: [0; 64], position: at, left: k.len().saturating_sub(at) };
        if s.refusal != 0 {
            if s != stands {
                return Err(format!("stray: {s:?}"));
            }
            break None;
        }
        if s.length > 64 || s.bytes[s.length..].iter().any(|b| *b != 0) || s.left != k.len() - s.position || s.position <= at {
            return Err(format!("stray: {s:?}"));
        }
        if s.component == 0 {
            break Some(s.position);
        }
        p.push(s.bytes[..s.length].to_vec());
        at = s.position;
    };
    // The reader takes any number of components, the path as a whole none over the bounds.
    let whole = end.filter(|_| FIELD.legal(&p)).map(|end| (p.clone(), end));
    let read = unpath(&path.path).filter(|_| path.refusal == 0).map(|p| (p, path.next));
    if whole == read { Ok(()) } else { Err(format!("contradictory: {whole:?} {path:?}")) }
}

/// `room`: how many bytes a key's buffer has.
pub fn exec(call: &Call, room: usize, salt: u64) -> Answer {
    let s = &mut Spell::salted(salt);
    let answer = match call {
        Call::Above(p) => {
            let v = s.path(p);
            let got = raw::path_greater_but_not_prefixed(v);
            let (legal, above) = (raw::path_is_legal(v), unpath(&got.path));
            let plain = raw::Above { refusal: got.refusal, found: got.found, path: Default::default() };
            match (got.refusal, got.found, above) {
                (0, 1, Some(p)) if legal == 1 => Ok(strict(got.path, Spell::plain().path(&p), Answer::Above(Some(p)))),
                (0, 0, _) if legal == 1 => Ok(strict(got, plain, Answer::Above(None))),
                (n, 0, _) if legal == 0 => Ok(strict(got, plain, Answer::Refused(n))),
                _ => Err(Answer::Said(format!("contradictory: {legal} {got:?}"))),
            }
        }
        Call::Order(p, q) => order(s.path(p), s.path(q)),
        Call::Newer(a, b) => newer(s.entry(a), s.entry(b)),
        Call::InArea(a, e) => {
            yes(raw::area_includes_triplet(s.area(a), subspace(&e.subspace), s.path(&e.path), e.timestamp)).map(Answer::Included)
        }
        Call::InRange(r, e) => {
            yes(raw::range_includes_triplet(s.range(r), subspace(&e.subspace), s.path(&e.path), e.timestamp)).map(Answer::Included)
        }
        Call::AreaRange(a) => Ok(area_range(raw::area_to_range(s.area(a)))),
        Call::Key(sub, p, t) => {
            let mut r = Rng(salt);
            let fill: Vec<u8> = (0..room).map(|_| r.next() as u8).collect();
            let (a, b) = (key(subspace(sub), s.path(p), *t, false, &fill), key(subspace(sub), s.path(p), *t, true, &fill));
            match (a, b) {
                (Ok(a), Ok(b)) => Ok(Answer::Keys(a, b)),
                (Err(a), Err(b)) if a == b => Err(a),
                (a, b) => Err(Answer::Said(format!("contradictory: {a:?} {b:?}"))),
            }
        }
        Call::Decode(time_first, k) | Call::Decode01(time_first, k) => Ok(decode(*time_first, k)),
        _ => Err(Answer::Said("not a call of the door".into())),
    };
    answer.unwrap_or_else(|a| a)
}
