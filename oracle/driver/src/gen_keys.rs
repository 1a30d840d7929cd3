//! Random calls from a seed that need no store. KIND: `keys` above, order, newer, arange01, key, spt01, tsp01 and some
//! bad lines; `raw` the keys, sound and damaged, for the Rust's own decoders (spt, tsp), with key.
//! Paths lie at, below and over every bound, over the bytes 00 01 02 fe ff and 61, and come with their relatives, so that
//! equal paths, prefixes and near-prefixes are common. Lines are at most 1,024 bytes long, but for a bad one.
use crate::rng::Rng;
use crate::show::*;
use model::{spt, tsp, Path as Comps, Subspace, FIELD};
use std::io::Write;

const BYTES: [u8; 6] = [0, 1, 2, 0x61, 0xfe, 0xff];
/// Lengths of components at the bounds: 63, 64, 65 bytes; 7, 8, 9 components; totals 127, 128, 129.
const SHAPES: [&[usize]; 26] = [
    &[63], &[64], &[65], &[64, 63], &[64, 64], &[64, 65], &[65, 64], &[63, 64], &[64, 62, 1], &[64, 63, 1], &[64, 64, 1],
    &[64, 64, 0], &[1, 63, 63], &[1, 63, 64], &[1, 64, 64], &[0, 0, 0, 0, 0, 0, 0], &[0, 0, 0, 0, 0, 0, 0, 0],
    &[0, 0, 0, 0, 0, 0, 0, 0, 0], &[1, 0, 1, 0, 1, 0, 1, 0], &[2, 1, 1, 1, 1, 1, 1, 1, 1],
    &[16, 16, 16, 16, 16, 16, 16, 15], &[16, 16, 16, 16, 16, 16, 16, 16], &[16, 16, 16, 16, 16, 16, 16, 17],
    &[64, 64, 0, 0, 0, 0, 0, 0], &[64, 0, 0, 0, 0, 0, 0, 64], &[64, 64, 0, 0, 0, 0, 0, 0, 0],
];
/// Lines of another form, with the call's name first; the rest is what is wrong.
const BAD: [&str; 40] = [
    "above", "above ", "above 61 62", "above 6", "above 6A", "above 61/", "above /61", "above 61//62", "above -/61",
    "above .61", "above 61.", "above *", "above  61", "above 61 ", " above 61", "above\t61", "Above 61", "above 61\r",
    "order 61", "order 61 62 63", "order 61  62", "order - --", "key 01 61", "key 1 61 5", "key 001 61 5", "key 01 61 05",
    "key 01 61 +5", "key 01 61 18446744073709551616", "key 01 61 -", "key 000000000000000000000000000000 61 5",
    "spt01", "spt01 0", "spt01 .", "tsp01 0g", "tsp01 00 00", "arange01 01 61 5", "arange01 01 * 0 *", "arange01 01 61 * *",
    "newer 01 61 5 3 0a 01 61 5 3", "newer 01 61 5 3 0A 01 61 5 3 0a",
];

struct Gen {
    r: Rng,
    paths: Vec<Comps>,
}

impl Gen {
    fn comp(&mut self, len: usize) -> Vec<u8> {
        // One byte, the last three free.
        let b = self.r.of(&BYTES);
        let mut c = vec![b; len];
        for i in len.saturating_sub(3)..len {
            if !self.r.one_in(3) {
                c[i] = self.r.of(&BYTES);
            }
        }
        c
    }
    /// A path that differs a little from this one.
    fn relative(&mut self, mut p: Comps) -> Comps {
        let n = p.len();
        match (self.r.below(8), p.last_mut()) {
            (0, _) => {
                let len = self.r.at(3);
                let c = self.comp(len);
                p.push(c)
            }
            (1, Some(_)) => p.truncate(self.r.at(n)),
            (2, Some(c)) => c.push(self.r.of(&BYTES)),
            (3, Some(c)) => {
                c.pop();
            }
            (4, Some(c)) if !c.is_empty() => *c.last_mut().unwrap() = self.r.of(&BYTES),
            // The same bytes, cut into components elsewhere.
            (5, Some(_)) if n > 1 => {
                let tail = p.pop().unwrap();
                p.last_mut().unwrap().extend(tail)
            }
            (6, Some(c)) if c.len() > 1 => {
                let tail = c.split_off(1);
                p.push(tail)
            }
            _ => {}
        }
        p
    }
    /// Mostly legal. None so long that a line with two of them would pass 1,024 bytes.
    fn path(&mut self) -> Comps {
        let known = !self.paths.is_empty() && self.r.one_in(2);
        let p = if known {
            let p = self.r.of(&self.paths);
            self.relative(p)
        } else if self.r.one_in(2) {
            let shape = self.r.of(&SHAPES);
            shape.iter().map(|len| self.comp(*len)).collect()
        } else {
            (0..self.r.at(4)).map(|_| self.r.at(4)).collect::<Vec<_>>().into_iter().map(|len| self.comp(len)).collect()
        };
        if p.len() <= 10 && p.iter().map(|c| c.len()).sum::<usize>() <= 132 {
            if self.paths.len() == 12 {
                let i = self.r.at(12);
                self.paths.swap_remove(i);
            }
            self.paths.push(p.clone());
            return p;
        }
        vec![]
    }
    fn legal_path(&mut self) -> Comps {
        loop {
            let p = self.path();
            if FIELD.legal(&p) {
                return p;
            }
        }
    }
    fn sub(&mut self) -> Subspace {
        let mut s = [0; 16];
        match self.r.below(6) {
            0 => s = [255; 16],
            1 => s[8..].fill(255),
            2 => s[self.r.at(16)] = self.r.of(&BYTES),
            _ => s[15] = self.r.of(&BYTES),
        }
        s
    }
    fn num(&mut self) -> u64 {
        let at = [0, 1, 2, 5, 5, 5, 255, 256, 1 << 32, (1 << 63) - 1, 1 << 63, u64::MAX - 1, u64::MAX];
        if self.r.one_in(8) { self.r.next() } else { self.r.of(&at) }
    }
    fn digest(&mut self) -> String {
        let mut d = [0; 32];
        match self.r.below(6) {
            0 => d[0] = 1,
            1 => d[31] = 255,
            2 => d[self.r.at(32)] = self.r.of(&BYTES),
            _ => d = [self.r.of(&BYTES); 32],
        }
        show_fill(&d)
    }
    fn fields(&mut self) -> [String; 5] {
        let (s, p) = (self.sub(), self.path());
        [show_last(&s), show_path(&p), self.num().to_string(), self.num().to_string(), self.digest()]
    }
    /// Two entries; the second is often the first with a field or two changed.
    fn entries(&mut self) -> String {
        let (a, mut b) = (self.fields(), self.fields());
        if !self.r.one_in(4) {
            let mut c = a.clone();
            for _ in 0..self.r.below(3) {
                let i = self.r.at(5);
                c[i] = b[i].clone();
            }
            b = c;
        }
        format!("{} {}", a.join(" "), b.join(" "))
    }
    fn area(&mut self) -> String {
        let s = if self.r.one_in(3) { "*".into() } else { show_last(&self.sub()) };
        let t = if self.r.one_in(2) { "*".into() } else { self.num().to_string() };
        let p = self.path();
        format!("{s} {} {} {t}", show_path(&p), self.num())
    }
    /// A key, sound or damaged, of the kind asked for (or, seldom, of the other).
    fn key(&mut self, time_first: bool) -> Vec<u8> {
        let encode = if time_first != self.r.one_in(20) { tsp } else { spt };
        let (s, p, t) = (self.sub(), self.legal_path(), self.num());
        let mut k = encode(&s, &p, t);
        // Where the path begins and where its bytes end, before its last 00 00.
        let (from, to) = if time_first { (24, k.len() - 2) } else { (16, k.len() - 10) };
        let byte = self.r.of(&BYTES);
        match self.r.below(32) {
            0 => k.truncate(self.r.at(k.len())),
            1 => k.truncate(from + self.r.at(3)),
            2 => k.push(byte),
            3 => k.extend(vec![byte; 8]),
            // 00 and 03 or more: in the path, or in place of its end.
            4 => drop(k.splice(to..to, [0, 3 + self.r.below(253) as u8])),
            5 => k[to + 1] = 3 + self.r.below(253) as u8,
            6 => drop(k.splice(from..from, [0, 3, 0, 1])),
            // An unfinished component before 00 00.
            7 => drop(k.splice(to..to, [0x61])),
            8 if to > from => drop(k.drain(to - 2..to)),
            9 => drop(k.splice(to..to, [0, 2])),
            // One component more, nine or ten in all.
            10 => drop(k.splice(to..to, [0, 1])),
            11 => drop(k.splice(to..to, [0, 1].repeat(9 - p.len() + self.r.at(2)))),
            // Paths over the other bounds, escaped as the encoder would.
            12 => {
                let c = self.comp(65);
                k = encode(&s, &vec![c], t)
            }
            13 => {
                let (b, c) = (self.comp(64), self.comp(64));
                k = encode(&s, &vec![b, c, vec![byte]], t)
            }
            // The end of the path too early, or lost.
            14 => drop(k.splice(from..from, [0, 0])),
            15 => drop(k.drain(to..to + 2)),
            // The last byte lost: for a time-first key a lone 00 is left.
            16 => drop(k.pop()),
            17 => {
                let i = self.r.at(k.len());
                k[i] = byte
            }
            // In a component that has begun: 00 and 03 or more, and a lone 00 at the end.
            18 => drop(k.splice(to..to, [0x61, 0, byte.max(3), 0, 1])),
            19 => drop(k.splice(to.., [0x61, 0])),
            _ => {}
        }
        k
    }
    fn raw(&mut self, time_first: bool) -> String {
        let k = self.key(time_first);
        if k.is_empty() { "-".into() } else { show_hex(&k) }
    }
    fn line(&mut self, raw: bool) -> String {
        let time_first = self.r.one_in(2);
        match self.r.below(100) {
            0..=83 if raw => format!("{} {}", if time_first { "tsp" } else { "spt" }, self.raw(time_first)),
            0..=14 => {
                let p = self.path();
                format!("above {}", show_path(&p))
            }
            15..=31 => {
                let (a, b) = (self.path(), self.path());
                let b = if self.r.one_in(2) { self.relative(a.clone()) } else { b };
                format!("order {} {}", show_path(&a), show_path(&b))
            }
            32..=46 => format!("newer {}", self.entries()),
            47..=59 => format!("arange01 {}", self.area()),
            60..=83 => format!("{}01 {}", if time_first { "tsp" } else { "spt" }, self.raw(time_first)),
            // Of 1,024 bytes and of 1,026.
            84 if self.r.one_in(4) => format!("above {}", "61".repeat(509 + self.r.at(2))),
            84..=85 => self.r.pick(&BAD).into(),
            _ => {
                let (s, p) = (self.sub(), self.path());
                format!("key {} {} {}", show_last(&s), show_path(&p), self.num())
            }
        }
    }
}

pub fn write(seed: u64, n: u64, raw: bool, out: &mut impl Write) {
    let mut g = Gen { r: Rng(seed), paths: vec![] };
    for _ in 0..n {
        let l = g.line(raw);
        writeln!(out, "{l}").unwrap();
    }
}
