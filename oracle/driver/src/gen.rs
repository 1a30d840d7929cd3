//! Random calls from a seed, for stores: short paths over few bytes, few subspaces, times, lengths and digests, so that
//! prefixes and resends are common; now and then a path at or over a bound, and a number at the end of its range.
//! KIND: `in` the listing program's lines;
//! `shared` calls on which document 01 wants the Rust's own answer (or, with a name that ends in 01, the Rust's with the
//! area's range ending as 01 says); `hall` the same at 16/4/32; `wide` the same with many paths and times, so that the
//! store grows to its limit of 64, 256 or 1,024; `refusals` the same with many openings, of limits and namespaces that
//! refuse much, for the model; `calls` also those where document 01 differs (qarea, aoi, arange);
//! `keys` and `raw`, which need no store, are in gen_keys.rs. Half of the ingestions name their origin (02, U6), by numbers of their own, so that all else is what it
//! would be without them.
//! In `in`, `shared`, `hall` and `wide` no two entries that are handed in since an opening tie (02, U3: the Rust stays the
//! comparison for such sequences); in `refusals` and `calls` ties are common.
use crate::call::{call, Call};
use crate::gen_origins::any_origin;
use crate::rng::Rng;
use model::{Entry, EntryOrigin};
use std::io::Write;

pub const KINDS: [&str; 8] = ["in", "shared", "hall", "wide", "refusals", "calls", "keys", "raw"];
/// Without ties: the Rust's answers are compared as they are, but for what is held.
pub const UNTIED: [&str; 4] = ["in", "shared", "hall", "wide"];

pub struct Gen {
    pub r: Rng,
    pub kind: String,
    /// Component length, component count, path length.
    pub max: (u64, u64, u64),
    pub sent: Vec<String>,
    pub paths: Vec<String>,
    /// Handed in since the opening, whatever became of it.
    handed: Vec<Entry>,
    /// For the origins.
    origins: Rng,
}

impl Gen {
    /// The next line. Where the Rust is the comparison, one whose entry ties with one that was handed in before is left out,
    /// and another made in its place.
    fn next(&mut self) -> String {
        let untied = UNTIED.contains(&&self.kind[..]);
        loop {
            let sent = self.sent.len();
            let line = self.line();
            match call(&line) {
                Some(Call::Ingest(e, ..)) if untied && self.handed.iter().any(|x| x.ties(&e)) => {
                    self.sent.truncate(sent);
                    continue;
                }
                Some(Call::Ingest(e, ..)) => {
                    self.handed.push(e);
                    return self.named(line);
                }
                Some(Call::Open(..)) => self.handed.clear(),
                _ => {}
            }
            return line;
        }
    }
    /// An ingestion's line, half of the time with its origin.
    fn named(&mut self, line: String) -> String {
        if self.kind == "in" || self.origins.one_in(2) {
            return line;
        }
        let origin = match any_origin(&mut self.origins) {
            EntryOrigin::Local => "-".into(),
            EntryOrigin::Remote(session) => session.to_string(),
        };
        // The namespace stands before it.
        let namespace = if line.split(' ').count() == 8 { " 00" } else { "" };
        format!("{line}{namespace} {origin}")
    }
    fn line(&mut self) -> String {
        if self.kind == "refusals" && self.r.one_in(25) {
            let n = self.r.pick(&["00", "00", "00", "01"]);
            let limit = self.r.pick(&["0", "1", "1", "2", "3", "5", "1024", "1025", "18446744073709551615"]);
            return format!("open {n} {limit}");
        }
        if self.kind == "wide" {
            // Mostly filing; of the rest, what empties the store seldom.
            let x = self.r.below(100);
            if x < 70 {
                let t = self.r.below(1000);
                let (s, p, l) = (self.r.below(5), self.path(), self.num(3, 200));
                let d = self.r.pick(&["00", "0a", "0b", "ff"]);
                return format!("ingest {} {s:02x} {p} {t} {l} {d} 00", self.r.pick(&["0", "0", "0", "1"]));
            }
            if x < 95 {
                loop {
                    let l = self.call();
                    if !["ingest", "farea", "open", "dump", "iarea", "qrange"].iter().any(|n| l.starts_with(n)) || self.r.one_in(40) {
                        return l;
                    }
                }
            }
        }
        self.call()
    }
    fn call(&mut self) -> String {
        let any = self.kind == "calls";
        let x = self.r.below(100);
        if self.kind == "in" {
            return match x {
                0 => self.r.pick(&["", "in", "in 01 61 5 3 0A", "in 01 61 05 3 0a", "in 01 61// 5 3 0a", "out 01 61 5 3 0a",
                    "in 01 6 5 3 0a", "in 1 61 5 3 0a", "in 01 61 5 18446744073709551616 0a", "in 01 61 5 3 0a ", "in  01 61 5 3 0a"]).into(),
                1..=12 if !self.sent.is_empty() => {
                    let at = self.r.below(self.sent.len() as u64) as usize;
                    self.sent[at].clone()
                }
                _ => {
                    let l = format!("in {}", self.entry());
                    self.sent.push(l.clone());
                    l
                }
            };
        }
        match x {
            0..=7 if !self.sent.is_empty() => {
                // A resend, perhaps with another token or flag.
                let at = self.r.below(self.sent.len() as u64) as usize;
                let e = self.sent[at].clone();
                format!("ingest {} {e} {}", self.r.pick(&["0", "0", "1"]), self.r.pick(&["00", "00", "01"]))
            }
            0..=44 => {
                let e = self.entry();
                self.sent.push(e.clone());
                let other = if self.r.one_in(60) { " 01" } else { "" };
                let e = if !other.is_empty() && self.r.one_in(3) { format!("01 {} 5 3 0a", self.edge()) } else { e };
                format!("ingest {} {e} {}{other}", self.r.pick(&["0", "0", "0", "1"]), self.r.pick(&["00", "00", "01"]))
            }
            45..=51 => {
                // Sometimes one that was sent.
                let (s, p) = match self.sent.last() {
                    Some(e) if self.r.one_in(2) => {
                        let f: Vec<_> = e.split(' ').collect();
                        (f[0].into(), f[1].into())
                    }
                    _ => (self.sub(), self.path()),
                };
                format!("forget {s} {p}{}", self.digest())
            }
            52 => format!("farea {}", self.area()),
            53..=54 => format!("farea {} {}", self.area(), self.area()),
            55..=62 => {
                let (s, p) = (self.sub(), self.path());
                format!("entry {s} {p} {}", self.flags())
            }
            63..=66 => {
                let (s, p) = (self.sub(), self.path());
                format!("avail {s} {p} {}", self.r.below(3))
            }
            67..=71 => format!("iarea {} {}", self.area(), self.flags()),
            72..=77 => format!("qrange {} {}", self.range(), self.flags()),
            78..=81 => format!("count {}", self.area()),
            82..=84 => format!("size {}", self.range()),
            85..=89 => {
                let (name, a) = self.at(any);
                let (c, z) = (self.num(5, 5), self.num(6, 5));
                format!("aoi{name} {a} {c} {z}")
            }
            90 => format!("above {}", if self.r.one_in(3) { self.path() } else { self.edge() }),
            91 if any => format!("succ {}", self.path()),
            91..=92 => {
                let (name, mut a) = self.at(any);
                if self.r.one_in(2) {
                    a = format!("* {} 0 *", self.edge());
                }
                format!("arange{name} {a}")
            }
            93 => format!("order {} {}", self.path(), self.path()),
            94 => format!("newer {} {}", self.entry(), self.entry()),
            95 => {
                let (name, a) = self.at(any);
                format!("qarea{name} {a} {}", self.flags())
            }
            96 if self.kind != "wide" && self.r.one_in(20) => {
                self.sent.clear();
                format!("open 00 {}", self.r.pick(&["4", "16", "64", "1024", "*"]))
            }
            _ if self.kind == "wide" && !self.r.one_in(10) => "count * - 0 *".into(),
            _ => "dump".into(),
        }
    }
}

pub fn write(seed: u64, n: u64, kind: &str, out: &mut impl Write) {
    if kind == "keys" || kind == "raw" {
        return crate::gen_keys::write(seed, n, kind == "raw", out);
    }
    let max = if kind == "hall" { (16, 4, 32) } else { (64, 8, 128) };
    let mut g = Gen { r: Rng(seed), kind: kind.into(), max, sent: vec![], paths: vec![], handed: vec![], origins: Rng(!seed ^ 0x0e16_1257_0000_0000) };
    if kind != "in" {
        let limits: &[&str] = if kind == "wide" { &["64", "256", "1024"] } else { &["4", "16", "64", "1024", "*"] };
        writeln!(out, "open 00 {}", g.r.pick(limits)).unwrap();
    }
    for _ in 0..n {
        let l = g.next();
        writeln!(out, "{l}").unwrap();
    }
    if kind != "in" {
        writeln!(out, "dump").unwrap();
    }
}
