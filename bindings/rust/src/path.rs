//! Paths that are legal.
use crate::{raw, Refusal};
use std::cmp::Ordering;
use std::fmt;

/// A legal path: at most 8 components, each at most 64 bytes, at most 128 in all. Ordered component by component, components byte by byte; a proper
/// prefix is less.
///
/// ```
/// use virebony::{Path, Refusal};
/// let path = Path::from_slices(&["ward", "3"])?;
/// assert_eq!(path.component(1), Some(&b"3"[..]));
/// assert!(Path::from_slices(&["ward"])?.is_prefix_of(&path));
/// assert_eq!(Path::from_slices(&[[0; 65]]), Err(Refusal::IllegalPath));
/// # Ok::<(), Refusal>(())
/// ```
#[derive(Clone, Copy, PartialEq, Eq, Hash)]
pub struct Path(raw::Path); // ends and bytes that are not looked at are 0, so that equal components are equal values

impl Path {
    /// The path of no components.
    pub fn new_empty() -> Path {
        Path(raw::Path::default())
    }

    /// The path of these components; refused with 4 if it is not legal.
    pub fn from_slices<T: AsRef<[u8]>>(slices: &[T]) -> Result<Path, Refusal> {
        let mut path = raw::Path::default();
        let mut total = 0;
        for slice in slices.iter().map(AsRef::as_ref) {
            let room = path.bytes.get_mut(total..total + slice.len()).ok_or(Refusal::IllegalPath)?;
            room.copy_from_slice(slice);
            total += slice.len();
            *path.ends.get_mut(path.count).ok_or(Refusal::IllegalPath)? = total;
            path.count += 1;
        }
        if raw::path_is_legal(path) == 0 {
            return Err(Refusal::IllegalPath);
        }
        Ok(Path(path))
    }

    /// How many components there are.
    pub fn component_count(&self) -> usize {
        self.0.count
    }

    /// Whether there are none.
    pub fn is_empty(&self) -> bool {
        self.0.count == 0
    }

    /// How many bytes the components have together.
    pub fn path_length(&self) -> usize {
        self.components().map(<[u8]>::len).sum()
    }

    /// Component `i`, from 0 on.
    pub fn component(&self, i: usize) -> Option<&[u8]> {
        self.components().nth(i)
    }

    /// The components.
    pub fn components(&self) -> impl DoubleEndedIterator<Item = &[u8]> + ExactSizeIterator + '_ {
        let start = |i: usize| if i == 0 { 0 } else { self.0.ends[i - 1] };
        (0..self.0.count).map(move |i| &self.0.bytes[start(i)..self.0.ends[i]])
    }

    /// Whether this is `other` or a beginning of it, by whole components.
    pub fn is_prefix_of(&self, other: &Path) -> bool {
        raw::path_is_prefix_of(self.0, other.0).yes != 0
    }

    /// Whether `other` is this or a beginning of it, by whole components.
    pub fn is_prefixed_by(&self, other: &Path) -> bool {
        other.is_prefix_of(self)
    }

    /// The least legal path above this one that this one does not prefix, if there is one.
    pub fn greater_but_not_prefixed(&self) -> Option<Path> {
        let above = raw::path_greater_but_not_prefixed(self.0);
        (above.found != 0).then(|| Path::of_answer(above.path))
    }

    /// As it lies in memory.
    pub fn as_raw(&self) -> &raw::Path {
        &self.0
    }

    /// A path that the archive answered, and so a legal one with zeros behind.
    pub(crate) fn of_answer(path: raw::Path) -> Path {
        Path(path)
    }
}

impl Default for Path {
    /// The empty path.
    fn default() -> Path {
        Path::new_empty()
    }
}

impl TryFrom<raw::Path> for Path {
    type Error = Refusal;

    /// Refused with 4 if the path is not legal. What a path's calls do not look at becomes 0.
    fn try_from(path: raw::Path) -> Result<Path, Refusal> {
        if raw::path_is_legal(path) == 0 {
            return Err(Refusal::IllegalPath);
        }
        let components: Vec<_> = Path(path).components().map(<[u8]>::to_vec).collect();
        Path::from_slices(&components)
    }
}

impl Ord for Path {
    fn cmp(&self, other: &Path) -> Ordering {
        let compared = raw::path_cmp(self.0, other.0);
        compared.greater.cmp(&compared.less)
    }
}

impl PartialOrd for Path {
    fn partial_cmp(&self, other: &Path) -> Option<Ordering> {
        Some(self.cmp(other))
    }
}

/// Lower-case hex, components joined by `/`; `.` is an empty component, `-` the empty path.
impl fmt::Display for Path {
    fn fmt(&self, f: &mut fmt::Formatter<'_>) -> fmt::Result {
        if self.is_empty() {
            return f.write_str("-");
        }
        for (i, component) in self.components().enumerate() {
            f.write_str(if i == 0 { "" } else { "/" })?;
            f.write_str(if component.is_empty() { "." } else { "" })?;
            component.iter().try_for_each(|byte| write!(f, "{byte:02x}"))?;
        }
        Ok(())
    }
}

impl fmt::Debug for Path {
    fn fmt(&self, f: &mut fmt::Formatter<'_>) -> fmt::Result {
        write!(f, "Path({self})")
    }
}
