//! Random values without bounds of habit: any 64-bit number, any bytes, every bound of a path by itself. Values come back,
//! and so do their neighbours, so that equal and nearly equal ones meet.
use crate::rng::Rng;
use model::*;

pub struct Any {
    pub r: Rng,
    subspaces: Vec<Subspace>,
    pub paths: Vec<Path>,
    times: Vec<u64>,
    digests: Vec<Digest>,
    tokens: Vec<Token>,
    /// Whether payload lengths near 2^64 are common, so that sums pass it.
    huge: bool,
}

const EDGES: [u64; 16] =
    [0, 0, 1, 2, 3, 7, 255, 256, 65535, 1 << 32, (1 << 32) - 1, (1 << 63) - 1, 1 << 63, (1 << 63) + 1, u64::MAX - 1, u64::MAX];
/// Lengths of components, at the bounds from inside.
const FULL: [&[usize]; 18] = [
    &[64], &[63], &[64, 64], &[64, 63], &[1, 63, 64], &[64, 62, 2], &[64, 63, 1, 0], &[0, 64, 64], &[43, 43, 42],
    &[0, 0, 0, 0, 0, 0, 0, 0], &[0, 0, 0, 0, 0, 0, 0], &[1, 1, 1, 1, 1, 1, 1, 1], &[16, 16, 16, 16, 16, 16, 16, 16],
    &[16, 16, 16, 16, 16, 16, 16, 15], &[64, 0, 0, 0, 0, 0, 0, 64], &[64, 64, 0, 0, 0, 0, 0, 0], &[0, 0, 0, 0, 0, 0, 0, 64],
    &[2, 0, 1, 0, 0, 3, 0, 1],
];
/// Over one bound, and only over that one: 65 bytes, nine components, a total of 129.
const OVER: [&[usize]; 14] = [
    &[65], &[1, 65], &[65, 1], &[0, 65, 63], &[65, 0, 0, 0, 0, 0, 0, 0], &[0, 0, 0, 0, 0, 0, 0, 0, 0],
    &[1, 1, 1, 1, 1, 1, 1, 1, 1], &[14, 14, 14, 14, 14, 14, 14, 14, 14], &[64, 0, 0, 0, 0, 0, 0, 0, 64], &[64, 64, 1],
    &[1, 64, 64], &[43, 43, 43], &[17, 16, 16, 16, 16, 16, 16, 16], &[64, 1, 0, 64],
];

impl Any {
    pub fn new(seed: u64) -> Any {
        let r = Rng(seed ^ 0x5eed_0fa1_1000_0000);
        let mut a = Any { r, subspaces: vec![], paths: vec![], times: vec![], digests: vec![], tokens: vec![], huge: false };
        a.huge = a.r.one_in(3);
        a
    }
    fn bytes<const N: usize>(&mut self) -> [u8; N] {
        let mut b = [0; N];
        match self.r.below(4) {
            0 => b = [self.byte(); N],
            1 => b[self.r.at(N)] = self.byte(),
            _ => b.fill_with(|| self.r.next() as u8),
        }
        b
    }
    /// One of those known, one that differs from it in a byte, or a new one.
    fn again<const N: usize>(&mut self, known: &[[u8; N]], most: usize) -> [u8; N] {
        if known.len() < 2 || known.len() < most && self.r.one_in(4) {
            return self.bytes();
        }
        let mut b = self.r.of(known);
        if self.r.one_in(8) {
            let any = self.r.at(N);
            let i = self.r.of(&[0, N - 1, N / 2, N / 2 - 1, any]);
            b[i] = b[i].wrapping_add(self.r.of(&[1, 255, 128]));
        }
        b
    }
    pub fn subspace(&mut self) -> Subspace {
        let known = self.subspaces.clone();
        let mut s = self.again(&known, 5);
        match self.r.below(24) {
            0 => s = [255; 16],
            1 => s = [0; 16],
            // The next as a number of 128 bits, the carry from the low half included.
            2 => s = u128::from_be_bytes(s).wrapping_add(1).to_be_bytes(),
            3 => s[8..].fill(255),
            _ => {}
        }
        if self.subspaces.len() < 5 {
            self.subspaces.push(s);
        }
        s
    }
    pub fn digest(&mut self) -> Digest {
        let known = self.digests.clone();
        let d = self.again(&known, 6);
        if self.digests.len() < 6 {
            self.digests.push(d);
        }
        d
    }
    pub fn token(&mut self) -> Token {
        let known = self.tokens.clone();
        let k = self.again(&known, 4);
        if self.tokens.len() < 4 {
            self.tokens.push(k);
        }
        k
    }
    pub fn number(&mut self) -> u64 {
        match self.r.below(4) {
            0 => self.r.of(&EDGES),
            1 => self.r.below(8),
            2 => self.r.next(),
            _ => self.r.next() >> self.r.below(64),
        }
    }
    /// A timestamp: one known, a neighbour of it, or a new one.
    pub fn time(&mut self) -> u64 {
        if self.times.len() > 3 && !self.r.one_in(8) {
            let t = self.r.of(&self.times);
            return if self.r.one_in(4) { t.wrapping_add(self.r.of(&[1, u64::MAX])) } else { t };
        }
        let t = self.number();
        if self.times.len() < 7 {
            self.times.push(t);
        }
        t
    }
    pub fn length(&mut self) -> u64 {
        match self.r.below(9) {
            0 | 8 => 0,
            1 => 1,
            2 | 3 => 2 + self.r.below(6),
            4 | 5 if self.huge => {
                let any = self.r.next();
                self.r.of(&[u64::MAX, u64::MAX - 1, 1 << 63, (1 << 63) + 5, any])
            }
            _ => self.r.next() >> (24 + self.r.below(38)),
        }
    }
    fn byte(&mut self) -> u8 {
        let any = self.r.next() as u8;
        self.r.of(&[0, 0, 1, 2, 3, 0x61, 254, 255, 255, any, any])
    }
    fn component(&mut self, len: usize) -> Vec<u8> {
        let (one, same) = (self.byte(), self.r.one_in(2));
        let mut c: Vec<u8> = (0..len).map(|_| if same { one } else { self.byte() }).collect();
        if len > 0 && self.r.one_in(2) {
            c[len - 1] = self.byte();
        }
        c
    }
    fn of(&mut self, lengths: &[usize]) -> Path {
        lengths.iter().map(|n| self.component(*n)).collect()
    }
    /// Over exactly one bound.
    pub fn illegal(&mut self) -> Path {
        let shape = self.r.of(&OVER);
        self.of(shape)
    }
    /// A path a little different from this one.
    pub fn relative(&mut self, p: &Path) -> Path {
        let mut q = p.clone();
        match (self.r.below(9), q.last_mut()) {
            (0, Some(_)) => q.truncate(self.r.at(p.len())),
            (1, Some(_)) => q.truncate(p.len() - 1),
            (2..=4, _) => {
                let n = self.r.of(&[0, 1, 1, 2]);
                q.push(self.component(n))
            }
            (5, Some(c)) => c.push(self.byte()),
            (6, Some(c)) => drop(c.pop()),
            (7, Some(c)) if !c.is_empty() => *c.last_mut().unwrap() = self.byte(),
            _ => {}
        }
        if FIELD.legal(&q) { q } else { p.clone() }
    }
    /// A legal path, often a relative of one known.
    pub fn legal(&mut self) -> Path {
        if self.paths.len() > 2 && self.r.below(5) < 3 {
            let p = self.r.of(&self.paths);
            return self.relative(&p);
        }
        let p = if self.r.one_in(60) {
            // The longest key: every byte is escaped.
            self.of(&[64, 64, 0, 0, 0, 0, 0, 0]).into_iter().map(|c| vec![0; c.len()]).collect()
        } else if self.r.one_in(6) {
            let shape = self.r.of(&FULL);
            self.of(shape)
        } else {
            let n = self.r.of(&[0, 1, 1, 1, 1, 1, 2, 2, 2, 2, 2, 3, 3, 3, 4, 5]);
            let lengths: Vec<usize> = (0..n).map(|_| self.r.of(&[0, 1, 1, 1, 2, 3])).collect();
            self.of(&lengths)
        };
        if self.paths.len() < 24 {
            self.paths.push(p.clone());
        } else {
            let i = self.r.at(24);
            self.paths[i] = p.clone();
        }
        p
    }
    /// Any path; one in twenty is illegal.
    pub fn path(&mut self) -> Path {
        if self.r.one_in(20) { self.illegal() } else { self.legal() }
    }
    pub fn ignore(&mut self) -> Ignore {
        let i = self.r.below(5);
        Ignore { incomplete: i == 1 || i == 3, empty: i == 2 || i == 3 }
    }
    fn end(&mut self, start: u64, inside: u64) -> Option<u64> {
        let any = self.time();
        self.r.of(&[None, None, None, None, inside.checked_add(1), inside.checked_add(1), inside.checked_add(1), Some(inside), Some(start), Some(any)])
    }
    /// Times around one, mostly with it inside.
    fn times_around(&mut self, t: u64) -> Range<u64> {
        let any = self.time();
        let start = self.r.of(&[0, 0, t, t, t.saturating_sub(1), any]);
        Range { start, end: self.end(start, t) }
    }
    /// A beginning of a path.
    fn beginning(&mut self, p: &Path) -> Path {
        let n = self.r.at(p.len() + 1);
        if self.r.one_in(14) { self.illegal() } else { p[..n].to_vec() }
    }
    /// An area, mostly with the entry inside.
    pub fn area_around(&mut self, e: &Entry) -> Area {
        let other = self.subspace();
        let subspace = self.r.of(&[None, None, Some(e.subspace), Some(e.subspace), Some(e.subspace), Some(other)]);
        let path = if self.r.one_in(10) { self.path() } else { self.beginning(&e.path) };
        Area { subspace, path, times: self.times_around(e.timestamp) }
    }
    /// A 3d range, mostly with the entry inside.
    pub fn range_around(&mut self, e: &Entry) -> Range3d {
        let (a, b) = (self.subspace(), self.subspace());
        let next = u128::from_be_bytes(e.subspace).checked_add(1).map(u128::to_be_bytes);
        let subspaces = Range { start: self.r.of(&[[0; 16], [0; 16], e.subspace, e.subspace, e.subspace, a]), end: self.r.of(&[None, None, None, next, next, Some(e.subspace), Some(b)]) };
        let (start, end, above) = (self.path(), self.path(), FIELD.above(&e.path));
        let begin = self.beginning(&e.path);
        let paths = Range { start: self.r.of(&[vec![], vec![], e.path.clone(), begin.clone(), begin, start]), end: self.r.of(&[None, None, None, above.clone(), above, Some(e.path.clone()), Some(end)]) };
        Range3d { subspaces, paths, times: self.times_around(e.timestamp) }
    }
    /// An entry of this namespace with any values.
    pub fn entry(&mut self, namespace: Namespace) -> Entry {
        Entry {
            namespace,
            subspace: self.subspace(),
            path: self.path(),
            timestamp: self.time(),
            payload_length: self.length(),
            payload_digest: self.digest(),
        }
    }
    /// An entry next to this one: of its subspace, at a relative of its path, alike but for one thing.
    pub fn close(&mut self, e: &Entry) -> Entry {
        let mut c = Entry { path: self.relative(&e.path), ..e.clone() };
        match self.r.below(4) {
            0 => c.timestamp = c.timestamp.wrapping_add(self.r.of(&[1, u64::MAX])),
            1 => c.payload_length = c.payload_length.wrapping_add(self.r.of(&[1, u64::MAX])),
            _ => {
                let i = self.r.of(&[0, 31, 15, 16, 7]);
                c.payload_digest[i] = c.payload_digest[i].wrapping_add(self.r.of(&[1, 255, 128]));
            }
        }
        c
    }
}
