//! The values of gen.rs's random calls: paths, subspaces, numbers, entries, areas, ranges.
use crate::gen::Gen;

const BYTES: [&str; 6] = ["00", "01", "02", "61", "62", "ff"];

impl Gen {
    pub fn comp(&mut self, len: u64) -> String {
        if len == 0 {
            return ".".into();
        }
        if len > 2 {
            // Long ones: one byte, then the last two free.
            let b = self.r.pick(&BYTES);
            return b.repeat(len as usize - 2) + self.r.pick(&BYTES) + self.r.pick(&BYTES);
        }
        (0..len).map(|_| self.r.pick(&BYTES)).collect()
    }
    pub fn of(&mut self, lens: Vec<u64>) -> String {
        if lens.is_empty() {
            return "-".into();
        }
        lens.into_iter().map(|l| self.comp(l)).collect::<Vec<_>>().join("/")
    }
    /// At, below or over a bound.
    pub fn edge(&mut self) -> String {
        let (mcl, mcc, mpl) = self.max;
        let lens = match self.r.below(6) {
            0 => vec![mcl - 1 + self.r.below(3)],
            1 => (0..mcc - 1 + self.r.below(3)).map(|_| self.r.below(2)).collect(),
            2 => vec![mcl, mpl - mcl - 2 + self.r.below(4)],
            // Full in bytes, the last components short or empty.
            3 => vec![mcl, mpl - mcl - 2, 2],
            4 => vec![mcl, mpl - mcl - 1, 1, 0],
            _ => {
                let mut l = vec![0; mcc as usize];
                l[mcc as usize - 1] = mcl - self.r.below(2);
                l[0] = mpl - mcl - 1 + self.r.below(2);
                l
            }
        };
        self.of(lens)
    }
    pub fn path(&mut self) -> String {
        let mcc = self.max.1;
        if self.kind == "wide" && !self.r.one_in(200) {
            // One to three components of one or two bytes, out of many.
            let n = 1 + self.r.below(3);
            let mut comp = || (0..1 + self.r.below(2)).map(|_| format!("{:02x}", self.r.below(24) * 11)).collect::<String>();
            return (0..n).map(|_| comp()).collect::<Vec<_>>().join("/");
        }
        // A known path, its parent or a child of it.
        if !self.paths.is_empty() && self.r.one_in(2) {
            let at = self.r.below(self.paths.len() as u64) as usize;
            let p = self.paths[at].clone();
            return match self.r.below(4) {
                0 => match p.rfind('/') {
                    Some(i) => p[..i].into(),
                    None => "-".into(),
                },
                1 if p != "-" => {
                    let len = self.r.below(2);
                    format!("{p}/{}", self.comp(len))
                }
                _ => p,
            };
        }
        if self.kind != "in" && self.r.one_in(12) {
            let len = self.r.below(2);
            return "./".repeat(mcc as usize - 1) + &self.comp(len);
        }
        if self.r.one_in(24) {
            return self.edge();
        }
        let lens: Vec<u64> = (0..[0, 1, 1, 1, 2, 2, 2, 3][self.r.below(8) as usize])
            .map(|_| [0, 1, 1, 1, 1, 2][self.r.below(6) as usize])
            .collect();
        let p = self.of(lens);
        if self.paths.len() < 40 {
            self.paths.push(p.clone());
        } else {
            let at = self.r.below(40) as usize;
            self.paths[at] = p.clone();
        }
        p
    }
    pub fn sub(&mut self) -> String {
        if self.kind != "in" && self.r.one_in(12) {
            return "ff".repeat(16);
        }
        self.r.pick(&["00", "01", "01", "01", "02", "ff"]).into()
    }
    pub fn num(&mut self, small: u64, rare: u64) -> String {
        if self.r.one_in(rare) {
            return (u64::MAX - self.r.below(2)).to_string();
        }
        self.r.below(small).to_string()
    }
    pub fn entry(&mut self) -> String {
        let (s, p, t, l) = (self.sub(), self.path(), self.num(6, 30), self.num(3, 200));
        format!("{s} {p} {t} {l} {}", self.r.pick(&["00", "0a", "0a", "0b", "ff"]))
    }
    pub fn times(&mut self) -> String {
        let a = self.num(5, 30);
        let b = if self.r.one_in(2) { "*".into() } else { self.num(9, 30) };
        format!("{} {b}", if self.r.one_in(2) { "0".into() } else { a })
    }
    pub fn area(&mut self) -> String {
        let s = if self.r.one_in(2) { "*".into() } else { self.sub() };
        format!("{s} {} {}", self.path(), self.times())
    }
    /// An area whose path has all its components, the last not full: there the Rust's `successor` is 01's end.
    pub fn full_area(&mut self) -> String {
        let s = if self.r.one_in(2) { "*".into() } else { self.sub() };
        let dots = "./".repeat(self.max.1 as usize - 1);
        let len = self.r.below(2);
        format!("{s} {dots}{} {}", self.comp(len), self.times())
    }
    /// For the calls that turn an area into a range: the Rust as it is where that is 01's way, else bent to be.
    pub fn at(&mut self, any: bool) -> (&'static str, String) {
        let name = if any { "" } else { "01" };
        (name, if self.r.one_in(4) { self.full_area() } else { self.area() })
    }
    pub fn range(&mut self) -> String {
        let (a, p) = (self.sub(), self.path());
        let b = if self.r.one_in(2) { "*".into() } else { self.sub() };
        let q = if self.r.one_in(2) { "*".into() } else { self.path() };
        let a = if self.r.one_in(2) { "00".into() } else { a };
        let p = if self.r.one_in(2) { "-".into() } else { p };
        format!("{a} {b} {p} {q} {}", self.times())
    }
    pub fn flags(&mut self) -> &'static str {
        self.r.pick(&["0 0", "0 0", "1 0", "0 1", "1 1"])
    }
    pub fn digest(&mut self) -> &'static str {
        self.r.pick(&["", "", " 0a", " 0b", " 00"])
    }
}
