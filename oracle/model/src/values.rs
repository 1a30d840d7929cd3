//! Document 01's values: plain bytes, numbers and lists. Orders are those of bytes and numbers.
use std::cmp::Ordering;

pub type Namespace = [u8; 16];
pub type Subspace = [u8; 16];
pub type Digest = [u8; 32];
pub type Token = [u8; 64];
/// A path's components. Their order as lists of lists of bytes is the order of paths.
pub type Path = Vec<Vec<u8>>;

#[derive(Clone, Debug, PartialEq, Eq)]
pub struct Entry {
    pub namespace: Namespace,
    pub subspace: Subspace,
    pub path: Path,
    pub timestamp: u64,
    pub payload_length: u64,
    pub payload_digest: Digest,
}

/// Where an entry came from: 02's U6.
#[derive(Clone, Copy, Debug, PartialEq, Eq)]
pub enum EntryOrigin {
    Local,
    /// With the number of its session, which may be any.
    Remote(u64),
}

/// An entry as it is stored. The origin is the one that it was inserted with.
#[derive(Clone, Debug, PartialEq, Eq)]
pub struct Stored {
    pub entry: Entry,
    pub token: Token,
    pub available: u64,
    pub origin: EntryOrigin,
}

/// A closed end shuts out its own value; none is open.
#[derive(Clone, Debug, PartialEq, Eq)]
pub struct Range<T> {
    pub start: T,
    pub end: Option<T>,
}

/// One subspace or any; all paths that `path` prefixes; a range of times.
#[derive(Clone, Debug, PartialEq, Eq)]
pub struct Area {
    pub subspace: Option<Subspace>,
    pub path: Path,
    pub times: Range<u64>,
}

#[derive(Clone, Debug, PartialEq, Eq)]
pub struct Range3d {
    pub subspaces: Range<Subspace>,
    pub paths: Range<Path>,
    pub times: Range<u64>,
}

/// What a listing is asked for: the entries of an area, or of a 3d range.
#[derive(Clone, Debug, PartialEq, Eq)]
pub enum Query {
    Area(Area),
    Range(Range3d),
}

/// The two flags of a query.
#[derive(Clone, Copy, Debug, PartialEq, Eq)]
pub struct Ignore {
    pub incomplete: bool,
    pub empty: bool,
}

impl<T: Ord> Range<T> {
    pub fn includes(&self, value: &T) -> bool {
        self.start <= *value && self.end.as_ref().is_none_or(|end| value < end)
    }
}

impl Area {
    pub fn includes(&self, e: &Entry) -> bool {
        self.subspace.is_none_or(|s| s == e.subspace) && is_prefix(&self.path, &e.path) && self.times.includes(&e.timestamp)
    }
}

impl Range3d {
    pub fn includes(&self, e: &Entry) -> bool {
        self.subspaces.includes(&e.subspace) && self.paths.includes(&e.path) && self.times.includes(&e.timestamp)
    }
}

impl Query {
    pub fn includes(&self, e: &Entry) -> bool {
        match self {
            Query::Area(a) => a.includes(e),
            Query::Range(r) => r.includes(e),
        }
    }
    /// Its paths that are looked at.
    pub fn paths(&self) -> Vec<&Path> {
        match self {
            Query::Area(a) => vec![&a.path],
            Query::Range(r) => [Some(&r.paths.start), r.paths.end.as_ref()].into_iter().flatten().collect(),
        }
    }
}

impl Ignore {
    /// Whether a query with these flags passes over the entry.
    pub fn passes_over(&self, x: &Stored) -> bool {
        self.incomplete && x.available < x.entry.payload_length || self.empty && x.entry.payload_length == 0
    }
}

/// How recent an entry is beside another.
#[derive(Clone, Copy, Debug, PartialEq, Eq)]
pub enum Recency {
    Newer,
    Older,
    Same,
}

/// By whole components.
pub fn is_prefix(a: &Path, b: &Path) -> bool {
    b.starts_with(a)
}

impl Entry {
    /// By timestamp, then digest as bytes, then payload length: 02's U2.
    pub fn compare(&self, other: &Entry) -> Recency {
        match self.rank().cmp(&other.rank()) {
            Ordering::Greater => Recency::Newer,
            Ordering::Less => Recency::Older,
            Ordering::Equal => Recency::Same,
        }
    }
    /// Of one namespace and subspace, the path being the other's or prefixing it, and newer.
    pub fn prunes(&self, other: &Entry) -> bool {
        self.namespace == other.namespace && self.covers(other) && self.compare(other) == Recency::Newer
    }
    /// Of one subspace, the path being the other's or prefixing it.
    pub fn covers(&self, other: &Entry) -> bool {
        self.subspace == other.subspace && is_prefix(&self.path, &other.path)
    }
    /// Of one subspace, one path extending the other, and neither newer nor older.
    pub fn ties(&self, other: &Entry) -> bool {
        self.path != other.path && (self.covers(other) || other.covers(self)) && self.compare(other) == Recency::Same
    }
    fn rank(&self) -> (u64, Digest, u64) {
        (self.timestamp, self.payload_digest, self.payload_length)
    }
}
