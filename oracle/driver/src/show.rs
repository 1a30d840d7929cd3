//! The line language's printing: each value in the shortest form that the language has for it.
use crate::answer::{Answer, Records, Shown};
use crate::call::Call;
use model::*;

pub fn show_hex(b: &[u8]) -> String {
    use std::fmt::Write;
    b.iter().fold(String::new(), |mut s, x| {
        write!(s, "{x:02x}").unwrap();
        s
    })
}
/// A subspace: two digits if all bytes but the last are 0, else all the bytes.
pub fn show_last(b: &[u8]) -> String {
    let n = b.len() - 1;
    if b[..n].iter().all(|x| *x == 0) { show_hex(&b[n..]) } else { show_hex(b) }
}
/// A digest or a token: two digits if all bytes are the same, else all the bytes.
pub fn show_fill(b: &[u8]) -> String {
    if b.iter().all(|x| *x == b[0]) { show_hex(&b[..1]) } else { show_hex(b) }
}
pub fn show_path(p: &Path) -> String {
    if p.is_empty() {
        return "-".into();
    }
    let one = |c: &Vec<u8>| if c.is_empty() { ".".into() } else { show_hex(c) };
    p.iter().map(one).collect::<Vec<_>>().join("/")
}
pub fn show_open<T>(x: &Option<T>, f: impl Fn(&T) -> String) -> String {
    x.as_ref().map_or("*".into(), f)
}
/// As the listing program prints it.
pub fn short(e: &Entry) -> String {
    let (s, p, d) = (show_last(&e.subspace), show_path(&e.path), show_fill(&e.payload_digest));
    format!("{s} {p} {} {} {d}", e.timestamp, e.payload_length)
}
/// - for local, or the session of a remote one.
fn origin(o: EntryOrigin) -> String {
    match o {
        EntryOrigin::Local => "-".into(),
        EntryOrigin::Remote(session) => session.to_string(),
    }
}
/// And the token, the available length and the origin, which the Rust's has not.
fn full(x: &Shown) -> String {
    let last = x.origin.map_or(String::new(), |o| format!(" {}", origin(o)));
    format!("{} {} {}{last}", short(&x.entry), show_fill(&x.token), x.available)
}
fn range<T>(r: &Range<T>, f: impl Fn(&T) -> String) -> String {
    format!("{} {}", f(&r.start), show_open(&r.end, f))
}
fn range3d(r: &Range3d) -> String {
    format!("{} {} {}", range(&r.subspaces, |s| show_last(s)), range(&r.paths, show_path), range(&r.times, u64::to_string))
}
fn area(a: &Area) -> String {
    format!("{} {} {}", show_open(&a.subspace, |s| show_last(s)), show_path(&a.path), range(&a.times, u64::to_string))
}
/// Both trees, a record a line, and the tally, an item a line.
fn dump(spt: &Records, tsp: &Records, items: &[Item]) -> String {
    let mut out = vec![];
    for (name, records) in [("spt", spt), ("tsp", tsp)] {
        out.push(format!("{name} {}", records.len()));
        out.extend(records.iter().map(|(k, v)| format!("{} {}", show_hex(k), show_hex(v))));
    }
    out.push(format!("tally {}", items.len()));
    out.extend(items.iter().map(|item| show_hex(&item_bytes(item))));
    out.join("\n")
}

/// An answer as the call language prints it: shortened, so never what is compared in one process.
pub fn show(a: &Answer) -> String {
    match a {
        Answer::Refused(n) => format!("refused {n}"),
        Answer::Opened => "ok".into(),
        Answer::Taken(pairs) => {
            let shown: String = pairs.iter().map(|(at, len)| format!(" {at}:{len}")).collect();
            format!("ok {}{shown}", pairs.len())
        }
        Answer::Obsolete(e, _) => format!("obsolete {}", short(e)),
        Answer::Held => "held".into(),
        Answer::Done => "done".into(),
        Answer::Absent => "none".into(),
        Answer::Forgot(n) => format!("forgot {n}"),
        Answer::Found(x) => x.as_ref().map_or("none".into(), |x| format!("entry {}", full(x))),
        Answer::List(l) => {
            let lines: String = l.iter().map(|x| format!("\n{}", full(x))).collect();
            format!("list {}{lines}", l.len())
        }
        Answer::Begun => "begun".into(),
        // The key is that of the subspace, path and time shown.
        Answer::Next(x) => x.as_ref().map_or("finished".into(), |(x, _)| format!("found {}", full(x))),
        Answer::Count(n) => format!("count {n}"),
        Answer::Size(n) => format!("size {n}"),
        Answer::Range(r) => format!("range {}", range3d(r)),
        Answer::Above(p) => format!("path {}", show_open(p, show_path)),
        Answer::Order(order, prefix) => format!("{order:?}{}", if *prefix { " prefix" } else { "" }).to_lowercase(),
        Answer::Newer(order, prunes) => format!("{order:?} prunes {}", *prunes as u8).to_lowercase(),
        Answer::Included(yes) => format!("included {}", *yes as u8),
        Answer::Keys(a, b) => format!("key {} {}", show_hex(a), show_hex(b)),
        Answer::Triple(s, p, t) => format!("triple {} {} {t}", show_last(s), show_path(p)),
        Answer::Dump(a, b, items) => dump(a, b, items),
        Answer::Unlike => "unlike".into(),
        Answer::Said(words) => words.clone(),
    }
}

fn flags(i: &Ignore) -> String {
    format!("{} {}", i.incomplete as u8, i.empty as u8)
}
fn raw(k: &[u8]) -> String {
    if k.is_empty() { "-".into() } else { show_hex(k) }
}
fn key_kind(time_first: bool) -> &'static str {
    if time_first { "tsp" } else { "spt" }
}
/// A call as a line, which `call::call` reads as the same call.
pub fn show_call(c: &Call) -> String {
    let triple = |s: &Subspace, p: &Path| format!("{} {}", show_last(s), show_path(p));
    let digest = |d: &Option<Digest>| d.map_or(String::new(), |d| format!(" {}", show_fill(&d)));
    let areas = |a: &Area, p: &Option<Area>| format!("{}{}", area(a), p.as_ref().map_or(String::new(), |p| format!(" {}", area(p))));
    match c {
        Call::Open(n, l) => format!("open {} {}", show_last(n), show_open(l, u64::to_string)),
        Call::Ingest(e, k, prevent, from) => {
            let o = if *from == EntryOrigin::Local { String::new() } else { format!(" {}", origin(*from)) };
            let n = if e.namespace == [0; 16] && o.is_empty() { String::new() } else { format!(" {}", show_last(&e.namespace)) };
            format!("ingest {} {} {}{n}{o}", *prevent as u8, short(e), show_fill(k))
        }
        Call::Forget(s, p, d) => format!("forget {}{}", triple(s, p), digest(d)),
        Call::ForgetArea(a, p) => format!("farea {}", areas(a, p)),
        Call::Entry(s, p, i) => format!("entry {} {}", triple(s, p), flags(i)),
        Call::QueryArea(a, i) => format!("qarea {} {}", area(a), flags(i)),
        Call::IncludedIn(a, i) => format!("iarea {} {}", area(a), flags(i)),
        Call::QueryRange(r, i) => format!("qrange {} {}", range3d(r), flags(i)),
        Call::Walk(w, Query::Area(a), i) => format!("walka {w} {} {}", area(a), flags(i)),
        Call::Walk(w, Query::Range(r), i) => format!("walk {w} {} {}", range3d(r), flags(i)),
        Call::More(w) => format!("more {w}"),
        Call::Next(Query::Area(a), i, k) => format!("nexta {} {} {}", area(a), flags(i), raw(k)),
        Call::Next(Query::Range(r), i, k) => format!("next {} {} {}", range3d(r), flags(i), raw(k)),
        Call::Count(a) => format!("count {}", area(a)),
        Call::Size(r) => format!("size {}", range3d(r)),
        Call::Aoi(a, c, z) => format!("aoi {} {c} {z}", area(a)),
        Call::AreaRange(a) => format!("arange {}", area(a)),
        Call::Bent(c) => show_call(c).replacen(' ', "01 ", 1),
        Call::Payloads => "payloads".into(),
        Call::Succ(p) => format!("succ {}", show_path(p)),
        Call::Above(p) => format!("above {}", show_path(p)),
        Call::Order(p, q) => format!("order {} {}", show_path(p), show_path(q)),
        Call::Newer(a, b) => format!("newer {} {}", short(a), short(b)),
        Call::InArea(a, e) => format!("inarea {} {} {}", area(a), triple(&e.subspace, &e.path), e.timestamp),
        Call::InRange(r, e) => format!("inrange {} {} {}", range3d(r), triple(&e.subspace, &e.path), e.timestamp),
        Call::Key(s, p, t) => format!("key {} {t}", triple(s, p)),
        Call::Decode(time_first, k) => format!("{} {}", key_kind(*time_first), raw(k)),
        Call::Decode01(time_first, k) => format!("{}01 {}", key_kind(*time_first), raw(k)),
        Call::Dump => "dump".into(),
        Call::Put(time_first, k, v) => format!("put {} {} {}", key_kind(*time_first), raw(k), raw(v)),
        Call::Poke(at, n) => format!("poke {at} {n}"),
        Call::Avail(s, p, n) => format!("avail {} {n}", triple(s, p)),
        Call::Record(s, p, n, d) => format!("record {} {n}{}", triple(s, p), digest(d)),
        Call::Unrecord(s, p, d) => format!("unrecord {}{}", triple(s, p), digest(d)),
        Call::Append(s, p, n) => format!("append {} {n}", triple(s, p)),
        Call::ForgetPayload(s, p, d) => format!("fpayload {}{}", triple(s, p), digest(d)),
        Call::ForgetAreaPayloads(a, p) => format!("fareapayloads {}", areas(a, p)),
        Call::Clear => "clear".into(),
        Call::Again(n) => format!("again {}", show_last(n)),
        Call::Existing => "existing".into(),
        Call::Deny(times, e, _) => format!("deny {times} {}", short(e)),
    }
}
