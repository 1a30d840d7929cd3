//! Both keys of a triple, written and read.
use crate::{Bounds, Path, Subspace};

/// Component byte 00 is written 00 02, a component ends 00 01, a path 00 00.
fn path_bytes(p: &Path) -> Vec<u8> {
    let mut k = vec![];
    for c in p {
        for b in c {
            k.push(*b);
            if *b == 0 {
                k.push(2);
            }
        }
        k.extend([0, 1]);
    }
    k.extend([0, 0]);
    k
}
/// Subspace-first.
pub fn spt(s: &Subspace, p: &Path, t: u64) -> Vec<u8> {
    [&s[..], &path_bytes(p), &t.to_be_bytes()].concat()
}
/// Time-first.
pub fn tsp(s: &Subspace, p: &Path, t: u64) -> Vec<u8> {
    [&t.to_be_bytes()[..], s, &path_bytes(p)].concat()
}

/// A reading of a key that is right if the key is one at all.
fn read(time_first: bool, k: &[u8]) -> Option<(Subspace, Path, u64)> {
    let middle = k.len().checked_sub(24)?;
    let (sub, path, time) =
        if time_first { (&k[8..24], &k[24..], &k[..8]) } else { (&k[..16], &k[16..16 + middle], &k[16 + middle..]) };
    let (mut p, mut c, mut bytes) = (vec![], vec![], path.iter());
    while let Some(b) = bytes.next() {
        match (*b, if *b == 0 { bytes.next() } else { None }) {
            (0, Some(2)) => c.push(0),
            (0, Some(1)) => p.push(std::mem::take(&mut c)),
            (0, Some(0)) => break,
            (0, _) => return None,
            (b, _) => c.push(b),
        }
    }
    Some((sub.try_into().ok()?, p, u64::from_be_bytes(time.try_into().ok()?)))
}

impl Bounds {
    /// The triple of a key; none (refusal 5) for every key that the encoder of its kind writes for no legal triple.
    pub fn decode(&self, time_first: bool, k: &[u8]) -> Option<(Subspace, Path, u64)> {
        let encode = if time_first { tsp } else { spt };
        read(time_first, k).filter(|(s, p, t)| self.legal(p) && encode(s, p, *t) == k)
    }
}
