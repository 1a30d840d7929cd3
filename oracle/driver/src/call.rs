//! The line language: plain values and the parsing of a line. No decision about a store is made here.
use model::*;

/// A longer line is of another form.
pub const LINE: usize = 1024;

#[derive(Clone, Debug, PartialEq)]
pub enum Call {
    Open(Namespace, Option<u64>),
    /// With its token; whether pruning is prevented; where it came from.
    Ingest(Entry, Token, bool, EntryOrigin),
    Forget(Subspace, Path, Option<Digest>),
    ForgetArea(Area, Option<Area>),
    Entry(Subspace, Path, Ignore),
    QueryArea(Area, Ignore),
    IncludedIn(Area, Ignore),
    QueryRange(Range3d, Ignore),
    /// A listing of this number begins (02, U7): it remembers the empty key. One of the same number that was open is given up.
    Walk(u8, Query, Ignore),
    /// A step of the listing of this number, from the key that it remembers.
    More(u8),
    /// A step from any bytes.
    Next(Query, Ignore, Vec<u8>),
    Count(Area),
    Size(Range3d),
    /// The most entries, the most bytes.
    Aoi(Area, u64, u64),
    AreaRange(Area),
    /// One of QueryArea, Aoi and AreaRange with the area's range ending as document 01 says.
    Bent(Box<Call>),
    Payloads,
    Succ(Path),
    Above(Path),
    Order(Path, Path),
    Newer(Entry, Entry),
    /// Whether the entry's triple is included.
    InArea(Area, Entry),
    InRange(Range3d, Entry),
    Key(Subspace, Path, u64),
    /// Decoding of a raw key, time-first or not; and the same by document 01.
    Decode(bool, Vec<u8>),
    Decode01(bool, Vec<u8>),
    Dump,
    Put(bool, Vec<u8>, Vec<u8>),
    /// A number, into the tally at a byte.
    Poke(u64, u64),
    Avail(Subspace, Path, u64),
    /// 02's U4, which the Rust has not: records an available length, or forgets it.
    Record(Subspace, Path, u64, Option<Digest>),
    Unrecord(Subspace, Path, Option<Digest>),
    Append(Subspace, Path, u64),
    ForgetPayload(Subspace, Path, Option<Digest>),
    ForgetAreaPayloads(Area, Option<Area>),
    Clear,
    Again(Namespace),
    Existing,
    /// An entry whose token says yes so many times, and then no.
    Deny(u64, Entry, Token),
}

/// A listing that is open, with the last key that it gave: empty at its start.
#[derive(Clone, Debug, PartialEq)]
pub struct Walk {
    pub query: Query,
    pub ignore: Ignore,
    pub last: Vec<u8>,
}

// Fields

fn hex(t: &str) -> Option<Vec<u8>> {
    let dig = |b: u8| match b {
        b'0'..=b'9' => Some(b - b'0'),
        b'a'..=b'f' => Some(b - b'a' + 10),
        _ => None,
    };
    if t.len() % 2 != 0 {
        return None;
    }
    t.as_bytes().chunks(2).map(|c| Some(dig(c[0])? * 16 + dig(c[1])?)).collect()
}
fn number(t: &str) -> Option<u64> {
    let plain = t.bytes().all(|b| b.is_ascii_digit()) && (t == "0" || !t.starts_with('0'));
    if plain { t.parse().ok() } else { None }
}
fn path(t: &str) -> Option<Path> {
    if t == "-" {
        return Some(vec![]);
    }
    t.split('/')
        .map(|c| if c == "." { Some(vec![]) } else { hex(c).filter(|v| !v.is_empty()) })
        .collect()
}
/// Two digits: the last byte, the rest 0. Else all the bytes.
fn last<const N: usize>(t: &str) -> Option<[u8; N]> {
    let v = hex(t)?;
    if v.len() == 1 {
        let mut out = [0; N];
        out[N - 1] = v[0];
        return Some(out);
    }
    v.try_into().ok()
}
/// Two digits: every byte. Else all the bytes.
fn fill<const N: usize>(t: &str) -> Option<[u8; N]> {
    let v = hex(t)?;
    if v.len() == 1 {
        return Some([v[0]; N]);
    }
    v.try_into().ok()
}
fn flag(t: &str) -> Option<bool> {
    match t {
        "0" => Some(false),
        "1" => Some(true),
        _ => None,
    }
}
fn open<T>(t: &str, f: impl Fn(&str) -> Option<T>) -> Option<Option<T>> {
    if t == "*" { Some(None) } else { f(t).map(Some) }
}
fn sub(t: &str) -> Option<Subspace> {
    last(t)
}
fn area(f: &[&str]) -> Option<Area> {
    let [s, p, a, b] = f else { return None };
    Some(Area { subspace: open(s, sub)?, path: path(p)?, times: Range { start: number(a)?, end: open(b, number)? } })
}
fn areas(f: &[&str]) -> Option<(Area, Option<Area>)> {
    match f.len() {
        4 => Some((area(f)?, None)),
        8 => Some((area(&f[..4])?, Some(area(&f[4..])?))),
        _ => None,
    }
}
fn range(f: &[&str]) -> Option<Range3d> {
    let [a, b, c, d, e, g] = f else { return None };
    Some(Range3d {
        subspaces: Range { start: sub(a)?, end: open(b, sub)? },
        paths: Range { start: path(c)?, end: open(d, path)? },
        times: Range { start: number(e)?, end: open(g, number)? },
    })
}
fn entry(f: &[&str]) -> Option<(Entry, Token)> {
    let (n, s, p, t, l, d, k) = match f {
        [s, p, t, l, d] => ("00", s, p, t, l, d, &"00"),
        [s, p, t, l, d, k] => ("00", s, p, t, l, d, k),
        [s, p, t, l, d, k, n] => (*n, s, p, t, l, d, k),
        _ => return None,
    };
    let e = Entry {
        namespace: last(n)?,
        subspace: sub(s)?,
        path: path(p)?,
        timestamp: number(t)?,
        payload_length: number(l)?,
        payload_digest: fill(d)?,
    };
    Some((e, fill(k)?))
}
/// - for local, or the session of a remote one.
fn origin(t: &str) -> Option<EntryOrigin> {
    if t == "-" { Some(EntryOrigin::Local) } else { number(t).map(EntryOrigin::Remote) }
}
/// A subspace, path and timestamp; the rest 0.
fn triple(f: &[&str]) -> Option<Entry> {
    let [s, p, t] = f else { return None };
    Some(entry(&[s, p, t, "0", "00"])?.0)
}

/// The number of a listing: a digit.
fn listing(t: &str) -> Option<u8> {
    number(t).filter(|n| *n < 10).map(|n| n as u8)
}
/// A key: pairs of hex digits, or - for no byte at all.
fn raw(t: &str) -> Option<Vec<u8>> {
    if t == "-" { Some(vec![]) } else { hex(t).filter(|v| !v.is_empty()) }
}
fn time_first(t: &str) -> Option<bool> {
    match t {
        "spt" => Some(false),
        "tsp" => Some(true),
        _ => None,
    }
}

/// The call that a line spells, or none if it is of another form.
pub fn call(line: &str) -> Option<Call> {
    if line.len() > LINE {
        return None;
    }
    let all: Vec<&str> = line.split(' ').collect();
    let (name, f) = all.split_first()?;
    if let Some(plain @ ("qarea" | "aoi" | "arange")) = name.strip_suffix("01") {
        return Some(Call::Bent(Box::new(call(&[&[plain], f].concat().join(" "))?)));
    }
    let flags = |f: &[&str]| Some(Ignore { incomplete: flag(f[0])?, empty: flag(f[1])? });
    Some(match (*name, f.len()) {
        ("open", 2) => Call::Open(last(f[0])?, open(f[1], number)?),
        ("in", 5) => entry(f).map(|(e, k)| Call::Ingest(e, k, false, EntryOrigin::Local))?,
        ("ingest", 7..=9) => {
            let (e, k) = entry(&f[1..f.len().min(8)])?;
            Call::Ingest(e, k, flag(f[0])?, f.get(8).map_or(Some(EntryOrigin::Local), |t| origin(t))?)
        }
        ("forget", 2) => Call::Forget(sub(f[0])?, path(f[1])?, None),
        ("forget", 3) => Call::Forget(sub(f[0])?, path(f[1])?, Some(fill(f[2])?)),
        ("farea", _) => areas(f).map(|(a, p)| Call::ForgetArea(a, p))?,
        ("entry", 4) => Call::Entry(sub(f[0])?, path(f[1])?, flags(&f[2..])?),
        ("qarea", 6) => Call::QueryArea(area(&f[..4])?, flags(&f[4..])?),
        ("iarea", 6) => Call::IncludedIn(area(&f[..4])?, flags(&f[4..])?),
        ("qrange", 8) => Call::QueryRange(range(&f[..6])?, flags(&f[6..])?),
        ("walka", 7) => Call::Walk(listing(f[0])?, Query::Area(area(&f[1..5])?), flags(&f[5..])?),
        ("walk", 9) => Call::Walk(listing(f[0])?, Query::Range(range(&f[1..7])?), flags(&f[7..])?),
        ("more", 1) => Call::More(listing(f[0])?),
        ("nexta", 7) => Call::Next(Query::Area(area(&f[..4])?), flags(&f[4..])?, raw(f[6])?),
        ("next", 9) => Call::Next(Query::Range(range(&f[..6])?), flags(&f[6..])?, raw(f[8])?),
        ("count", 4) => Call::Count(area(f)?),
        ("size", 6) => Call::Size(range(f)?),
        ("aoi", 6) => Call::Aoi(area(&f[..4])?, number(f[4])?, number(f[5])?),
        ("arange", 4) => Call::AreaRange(area(f)?),
        ("succ", 1) => Call::Succ(path(f[0])?),
        ("above", 1) => Call::Above(path(f[0])?),
        ("order", 2) => Call::Order(path(f[0])?, path(f[1])?),
        ("newer", 10) => Call::Newer(entry(&f[..5])?.0, entry(&f[5..])?.0),
        ("inarea", 7) => Call::InArea(area(&f[..4])?, triple(&f[4..])?),
        ("inrange", 9) => Call::InRange(range(&f[..6])?, triple(&f[6..])?),
        ("key", 3) => Call::Key(sub(f[0])?, path(f[1])?, number(f[2])?),
        ("spt" | "tsp", 1) => Call::Decode(*name == "tsp", raw(f[0])?),
        ("spt01" | "tsp01", 1) => Call::Decode01(*name == "tsp01", raw(f[0])?),
        ("dump", 0) => Call::Dump,
        ("put", 3) => Call::Put(time_first(f[0])?, raw(f[1])?, raw(f[2])?),
        ("poke", 2) => Call::Poke(number(f[0])?, number(f[1])?),
        ("avail", 3) => Call::Avail(sub(f[0])?, path(f[1])?, number(f[2])?),
        ("record", 3) => Call::Record(sub(f[0])?, path(f[1])?, number(f[2])?, None),
        ("record", 4) => Call::Record(sub(f[0])?, path(f[1])?, number(f[2])?, Some(fill(f[3])?)),
        ("unrecord", 2) => Call::Unrecord(sub(f[0])?, path(f[1])?, None),
        ("unrecord", 3) => Call::Unrecord(sub(f[0])?, path(f[1])?, Some(fill(f[2])?)),
        ("append", 3) => Call::Append(sub(f[0])?, path(f[1])?, number(f[2])?),
        ("fpayload", 2) => Call::ForgetPayload(sub(f[0])?, path(f[1])?, None),
        ("fpayload", 3) => Call::ForgetPayload(sub(f[0])?, path(f[1])?, Some(fill(f[2])?)),
        ("fareapayloads", _) => areas(f).map(|(a, p)| Call::ForgetAreaPayloads(a, p))?,
        ("clear", 0) => Call::Clear,
        ("payloads", 0) => Call::Payloads,
        ("again", 1) => Call::Again(last(f[0])?),
        ("existing", 0) => Call::Existing,
        ("deny", 6) => {
            let (e, k) = entry(&f[1..])?;
            Call::Deny(number(f[0])?, e, k)
        }
        _ => return None,
    })
}

#[cfg(test)]
mod tests {
    use super::*;

    #[test]
    fn origins() {
        let e = Entry { namespace: [0; 16], subspace: last("01").unwrap(), path: vec![vec![0x61]], timestamp: 5, payload_length: 3, payload_digest: [10; 32] };
        let other = Entry { namespace: last("02").unwrap(), ..e.clone() };
        let of = |e: &Entry, origin| Some(Call::Ingest(e.clone(), [7; 64], true, origin));
        let (local, remote) = (EntryOrigin::Local, EntryOrigin::Remote);
        for (line, wanted) in [
            ("ingest 1 01 61 5 3 0a 07", of(&e, local)), ("ingest 1 01 61 5 3 0a 07 02", of(&other, local)), ("ingest 1 01 61 5 3 0a 07 00 -", of(&e, local)),
            ("ingest 1 01 61 5 3 0a 07 00 0", of(&e, remote(0))), ("ingest 1 01 61 5 3 0a 07 02 7", of(&other, remote(7))),
            ("ingest 1 01 61 5 3 0a 07 00 18446744073709551615", of(&e, remote(u64::MAX))), ("in 01 61 5 3 0a", Some(Call::Ingest(e.clone(), [0; 64], false, local))),
        ] {
            assert_eq!(call(line), wanted, "{line}");
        }
        for bad in ["00 07", "00 --", "00 +7", "00 18446744073709551616", "00 ", "00 - 7", "00 7 -", "- 7"] {
            assert_eq!(call(&format!("ingest 1 01 61 5 3 0a 07 {bad}")), None, "{bad}");
        }
        assert_eq!(call("in 01 61 5 3 0a 07 00 7"), None);
    }
    #[test]
    fn listings() {
        let all = Area { subspace: None, path: vec![], times: Range { start: 0, end: None } };
        let range = Range3d { subspaces: Range { start: [0; 16], end: None }, paths: Range { start: vec![vec![0x61]], end: None }, times: Range { start: 0, end: Some(9) } };
        let (none, both) = (Ignore { incomplete: false, empty: false }, Ignore { incomplete: true, empty: true });
        for (line, wanted) in [
            ("walka 0 * - 0 * 0 0", Call::Walk(0, Query::Area(all.clone()), none)), ("walk 9 00 * 61 * 0 9 1 1", Call::Walk(9, Query::Range(range.clone()), both)), ("more 3", Call::More(3)),
            ("nexta * - 0 * 1 1 -", Call::Next(Query::Area(all), both, vec![])), ("next 00 * 61 * 0 9 0 0 0061ff", Call::Next(Query::Range(range), none, vec![0, 0x61, 255])),
        ] {
            assert_eq!(call(line), Some(wanted), "{line}");
        }
        for bad in ["walka 10 * - 0 * 0 0", "walka - * - 0 * 0 0", "walka * - 0 * 0 0", "walk 0 * - 0 * 0 0", "walka 0 00 * 61 * 0 9 0 0", "more", "more 00", "more 1 2", "nexta * - 0 * 0 0", "nexta * - 0 * 0 0 0", "next * - 0 * 0 0 -"] {
            assert_eq!(call(bad), None, "{bad}");
        }
    }
    #[test]
    fn arrivals() {
        let (s, p) = (last("01").unwrap(), vec![vec![0x61]]);
        assert_eq!(call("record 01 61 2"), Some(Call::Record(s, p.clone(), 2, None)));
        assert_eq!(call("record 01 61 18446744073709551615 0a"), Some(Call::Record(s, p.clone(), u64::MAX, Some([10; 32]))));
        assert_eq!(call("unrecord 01 61"), Some(Call::Unrecord(s, p.clone(), None)));
        assert_eq!(call("unrecord 01 61 0a"), Some(Call::Unrecord(s, p, Some([10; 32]))));
        for bad in ["record 01 61", "record 01 61 1 0a 0b", "record 01 61 01", "record 01 61 18446744073709551616", "record 01 61 1 0", "unrecord 01", "unrecord 01 61 0", "unrecord 01 61 0a 0"] {
            assert_eq!(call(bad), None, "{bad}");
        }
    }
}
