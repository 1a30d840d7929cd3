//! Which paths are legal, and the least one above.
use crate::{Area, Path, Range, Range3d};

/// Bytes a component, components, bytes a path.
#[derive(Clone, Copy, Debug, PartialEq, Eq)]
pub struct Bounds {
    pub component: usize,
    pub count: usize,
    pub total: usize,
}
pub const FIELD: Bounds = Bounds { component: 64, count: 8, total: 128 };
/// A smaller instance, for which the same code must hold.
pub const HALL: Bounds = Bounds { component: 16, count: 4, total: 32 };

impl Bounds {
    pub fn legal(&self, p: &Path) -> bool {
        p.len() <= self.count
            && p.iter().all(|c| c.len() <= self.component)
            && p.iter().map(|c| c.len()).sum::<usize>() <= self.total
    }
    /// The least legal path above `p` that `p` does not prefix: the longest beginning of `p` whose last component can be
    /// made greater, by a byte 00 behind it or, if it is full, by one more in its last byte that is not ff.
    pub fn above(&self, p: &Path) -> Option<Path> {
        for i in (0..p.len()).rev() {
            let before: usize = p[..i].iter().map(|c| c.len()).sum();
            let mut c = p[i].clone();
            if c.len() < self.component.min(self.total - before) {
                c.push(0);
            } else {
                while c.last() == Some(&255) {
                    c.pop();
                }
                match c.last_mut() {
                    Some(b) => *b += 1,
                    None => continue,
                }
            }
            return Some(p[..i].iter().cloned().chain([c]).collect());
        }
        None
    }
    /// The 3d range of an area: it ends at the least path above, and is open if there is none.
    pub fn area_range(&self, a: &Area) -> Range3d {
        let next = |s: [u8; 16]| u128::from_be_bytes(s).checked_add(1).map(u128::to_be_bytes);
        Range3d {
            subspaces: Range { start: a.subspace.unwrap_or_default(), end: a.subspace.and_then(next) },
            paths: Range { start: a.path.clone(), end: self.above(&a.path) },
            times: a.times.clone(),
        }
    }
}
