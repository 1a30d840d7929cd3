//! Stands for data-model/src/path/builder.rs of the repository, which is not among the customer's files. Rewritten from
//! its use in path/mod.rs. WHAT IT DECIDES:
//! - a path is refused if the sum of its components' lengths exceeds MPL or their number exceeds MCC, as
//!   `InvalidPathError` in path/mod.rs documents (a component above MCL is refused by `Component::new`, unchanged);
//! - which of the two errors is told where both are true: the length. The driver prints `refused 4` for either.
//! Nothing else: which bytes and components a path has is settled by the unchanged callers.
//!
//! Two functions are the driver's and no part of the original; the unchanged code calls neither:
//! - `refuse_once` makes the next `new` fail as if the path had MCC components already, so that `Path::successor` cannot
//!   append an empty component. The calls whose names end in 01 use it (README.md);
//! - `last_built` shows the path that was built last, a window onto what a key's decoder made (driver/src/probe.rs).
use super::{representation::Representation, Component, InvalidPathError, Path};
use bytes::{BufMut, Bytes, BytesMut};
use std::cell::{Cell, RefCell};
use std::mem::size_of;

thread_local! {
    static REFUSE: Cell<bool> = const { Cell::new(false) };
    static BUILT: RefCell<Option<(Bytes, usize)>> = const { RefCell::new(None) };
}

pub struct PathBuilder<const MCL: usize, const MCC: usize, const MPL: usize> {
    sums: Vec<usize>,
    bytes: Vec<u8>,
    total: usize,
    count: usize,
}

impl<const MCL: usize, const MCC: usize, const MPL: usize> PathBuilder<MCL, MCC, MPL> {
    pub fn refuse_once() {
        REFUSE.with(|r| r.set(true))
    }
    pub fn last_built() -> Option<Path<MCL, MCC, MPL>> {
        BUILT.with(|b| b.borrow().clone()).map(|(data, component_count)| Path { data, component_count })
    }

    pub fn new(total: usize, count: usize) -> Result<Self, InvalidPathError> {
        if REFUSE.with(|r| r.take()) {
            return Err(InvalidPathError::TooManyComponents);
        }
        if total > MPL {
            return Err(InvalidPathError::PathTooLong);
        }
        if count > MCC {
            return Err(InvalidPathError::TooManyComponents);
        }
        Ok(PathBuilder { sums: Vec::new(), bytes: Vec::new(), total, count })
    }

    pub fn new_from_prefix(
        total: usize,
        count: usize,
        reference: &Path<MCL, MCC, MPL>,
        prefix: usize,
    ) -> Result<Self, InvalidPathError> {
        let mut b = Self::new(total, count)?;
        for c in reference.components().take(prefix) {
            b.append_component(c);
        }
        Ok(b)
    }

    pub fn append_component(&mut self, c: Component<MCL>) {
        self.bytes.extend_from_slice(&c);
        self.sums.push(self.bytes.len());
    }

    /// Panics if what was appended is not what was announced, as `Path::new_from_iter` documents.
    pub fn build(self) -> Path<MCL, MCC, MPL> {
        assert!(self.bytes.len() == self.total && self.sums.len() == self.count);
        let mut buf = BytesMut::with_capacity(size_of::<usize>() * (self.count + 1) + self.total);
        buf.put_slice(&self.count.to_ne_bytes());
        for s in &self.sums {
            buf.put_slice(&s.to_ne_bytes());
        }
        buf.put_slice(&self.bytes);
        debug_assert_eq!(Representation::total_length(&buf, self.count), self.total);
        let data = buf.freeze();
        BUILT.with(|b| *b.borrow_mut() = Some((data.clone(), self.count)));
        Path { data, component_count: self.count }
    }
}
