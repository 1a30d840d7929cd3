//! Ranges, areas, 3d ranges and areas of interest.
use crate::{raw, Entry, Path, SubspaceId, Timestamp};

/// Where a range ends.
#[derive(Clone, Copy, Debug, PartialEq, Eq, Hash)]
pub enum RangeEnd<T> {
    /// At a value, which is outside.
    Closed(T),
    /// Nowhere.
    Open,
}

/// Values from a start on, up to an end.
#[derive(Clone, Copy, Debug, PartialEq, Eq, Hash)]
pub struct Range<T> {
    /// The first value inside.
    pub start: T,
    /// Where it ends.
    pub end: RangeEnd<T>,
}

impl<T> Range<T> {
    /// A range of a start and an end; if the end is not above the start, it includes nothing.
    pub fn new(start: T, end: RangeEnd<T>) -> Range<T> {
        Range { start, end }
    }

    /// A range without an end.
    pub fn new_open(start: T) -> Range<T> {
        Range { start, end: RangeEnd::Open }
    }

    /// A range from `start` up to `end`, which is outside; none if it would include nothing.
    pub fn new_closed(start: T, end: T) -> Option<Range<T>>
    where
        T: PartialOrd,
    {
        (start < end).then_some(Range { start, end: RangeEnd::Closed(end) })
    }

    /// Whether there is no end.
    pub fn is_open(&self) -> bool {
        matches!(self.end, RangeEnd::Open)
    }

    /// The end, if there is one.
    pub fn get_end(&self) -> Option<&T> {
        match &self.end {
            RangeEnd::Closed(end) => Some(end),
            RangeEnd::Open => None,
        }
    }

    fn of_answer(start: T, end: T, open: u8) -> Range<T> {
        Range { start, end: if open == 0 { RangeEnd::Closed(end) } else { RangeEnd::Open } }
    }
}

/// Which subspaces an area includes.
#[derive(Clone, Copy, Debug, PartialEq, Eq, Hash)]
pub enum AreaSubspace {
    /// All of them.
    Any,
    /// This one.
    Id(SubspaceId),
}

/// The entries of one subspace, or of any, whose path a path prefixes and whose timestamp is in a range.
///
/// ```
/// use virebony::{Area, AreaSubspace, Path, Range, SubspaceId};
/// let ward = Path::from_slices(&["ward"])?;
/// let area = Area::new(AreaSubspace::Any, ward, Range::new_closed(5, 10).unwrap());
/// let bed = Path::from_slices(&["ward", "3"])?;
/// assert!(area.includes_triplet(&SubspaceId::default(), &bed, 9));
/// assert!(!area.includes_triplet(&SubspaceId::default(), &bed, 10)); // a closed end is outside
/// # Ok::<(), virebony::Refusal>(())
/// ```
#[derive(Clone, Copy, Debug, PartialEq, Eq, Hash)]
pub struct Area {
    subspace: AreaSubspace,
    path: Path,
    times: Range<Timestamp>,
}

impl Area {
    /// An area of these values.
    pub fn new(subspace: AreaSubspace, path: Path, times: Range<Timestamp>) -> Area {
        Area { subspace, path, times }
    }

    /// The area that includes every entry.
    pub fn new_full() -> Area {
        Area::new(AreaSubspace::Any, Path::new_empty(), Range::new_open(0))
    }

    /// The area that includes every entry of a subspace.
    pub fn new_subspace(subspace: SubspaceId) -> Area {
        Area::new(AreaSubspace::Id(subspace), Path::new_empty(), Range::new_open(0))
    }

    /// Which subspaces it includes.
    pub fn subspace(&self) -> &AreaSubspace {
        &self.subspace
    }

    /// The path that prefixes all that it includes.
    pub fn path(&self) -> &Path {
        &self.path
    }

    /// Its times.
    pub fn times(&self) -> &Range<Timestamp> {
        &self.times
    }

    /// Whether it includes an entry.
    pub fn includes_entry(&self, entry: &Entry) -> bool {
        self.includes_triplet(entry.subspace_id(), entry.path(), entry.timestamp())
    }

    /// Whether it includes an entry of this subspace, path and timestamp.
    pub fn includes_triplet(&self, subspace_id: &SubspaceId, path: &Path, timestamp: Timestamp) -> bool {
        raw::area_includes_triplet(self.to_raw(), *subspace_id, *path.as_raw(), timestamp).yes != 0
    }

    /// As it lies in memory.
    pub fn to_raw(&self) -> raw::Area {
        let (any_subspace, subspace) = match self.subspace {
            AreaSubspace::Any => (1, SubspaceId::default()),
            AreaSubspace::Id(subspace) => (0, subspace),
        };
        raw::Area { any_subspace, subspace, path: *self.path.as_raw(), times: times_to_raw(&self.times) }
    }
}

impl Default for Area {
    /// The area that includes every entry.
    fn default() -> Area {
        Area::new_full()
    }
}

/// The entries whose subspace, path and timestamp are each in a range.
#[derive(Clone, Copy, Debug, PartialEq, Eq, Hash)]
pub struct Range3d {
    subspaces: Range<SubspaceId>,
    paths: Range<Path>,
    times: Range<Timestamp>,
}

impl Range3d {
    /// A 3d range of these ranges.
    pub fn new(subspaces: Range<SubspaceId>, paths: Range<Path>, times: Range<Timestamp>) -> Range3d {
        Range3d { subspaces, paths, times }
    }

    /// The 3d range that includes every entry.
    pub fn new_full() -> Range3d {
        Range3d::new(Range::new_open(SubspaceId::default()), Range::new_open(Path::new_empty()), Range::new_open(0))
    }

    /// Its subspaces.
    pub fn subspaces(&self) -> &Range<SubspaceId> {
        &self.subspaces
    }

    /// Its paths.
    pub fn paths(&self) -> &Range<Path> {
        &self.paths
    }

    /// Its times.
    pub fn times(&self) -> &Range<Timestamp> {
        &self.times
    }

    /// Whether it includes an entry.
    pub fn includes_entry(&self, entry: &Entry) -> bool {
        self.includes_triplet(entry.subspace_id(), entry.path(), entry.timestamp())
    }

    /// Whether it includes an entry of this subspace, path and timestamp.
    pub fn includes_triplet(&self, subspace_id: &SubspaceId, path: &Path, timestamp: Timestamp) -> bool {
        raw::range_includes_triplet(self.to_raw(), *subspace_id, *path.as_raw(), timestamp).yes != 0
    }

    /// As it lies in memory.
    pub fn to_raw(&self) -> raw::Range {
        let (subspaces, paths) = (&self.subspaces, &self.paths);
        raw::Range {
            subspaces: raw::Subspaces {
                start: subspaces.start,
                end: subspaces.get_end().copied().unwrap_or_default(),
                open: u8::from(subspaces.is_open()),
            },
            paths: raw::Paths {
                start: *paths.start.as_raw(),
                end: *paths.get_end().copied().unwrap_or_default().as_raw(),
                open: u8::from(paths.is_open()),
            },
            times: times_to_raw(&self.times),
        }
    }

    pub(crate) fn of_answer(range: raw::Range) -> Range3d {
        let raw::Range { subspaces: s, paths: p, times: t } = range;
        Range3d {
            subspaces: Range::of_answer(s.start, s.end, s.open),
            paths: Range::of_answer(Path::of_answer(p.start), Path::of_answer(p.end), p.open),
            times: Range::of_answer(t.start, t.end, t.open),
        }
    }
}

impl From<Area> for Range3d {
    /// The 3d range that includes what an area includes.
    fn from(area: Area) -> Range3d {
        Range3d::of_answer(raw::area_to_range(area.to_raw()).range)
    }
}

fn times_to_raw(times: &Range<Timestamp>) -> raw::Times {
    raw::Times { start: times.start, end: times.get_end().copied().unwrap_or_default(), open: u8::from(times.is_open()) }
}

/// The newest entries of an area, within two limits; `u64::MAX` means none.
#[derive(Clone, Copy, Debug, PartialEq, Eq, Hash)]
pub struct AreaOfInterest {
    /// The area.
    pub area: Area,
    /// At most so many entries.
    pub max_count: u64,
    /// At most so many bytes of payload.
    pub max_size: u64,
}

impl AreaOfInterest {
    /// An area of interest of these values.
    pub fn new(area: Area, max_count: u64, max_size: u64) -> AreaOfInterest {
        AreaOfInterest { area, max_count, max_size }
    }
}
