//! Stands for the crate `sled`: named trees, each an ordered map of bytes, in memory. It decides nothing but what sled
//! documents: keys are ordered as bytes, a transaction writes all or nothing. Two things are from memory of sled and
//! change no answer: a range whose start is above its end is empty (every caller filters again), and iterators look the
//! next key up in the tree as it then is (nothing writes while one is open here).
//! `Tree::take_journal` is the driver's and no part of sled: the writes of the transactions, in order.

use std::cell::RefCell;
use std::collections::BTreeMap;
use std::ops::{Bound, Deref, RangeBounds};
use std::rc::Rc;

#[derive(Clone, PartialEq, Eq, PartialOrd, Ord, Hash)]
pub struct IVec(Rc<[u8]>);

impl Default for IVec {
    fn default() -> Self {
        IVec(Rc::from(&[][..]))
    }
}
impl std::fmt::Debug for IVec {
    fn fmt(&self, f: &mut std::fmt::Formatter<'_>) -> std::fmt::Result {
        self.0.fmt(f)
    }
}
impl Deref for IVec {
    type Target = [u8];
    fn deref(&self) -> &[u8] {
        &self.0
    }
}
impl AsRef<[u8]> for IVec {
    fn as_ref(&self) -> &[u8] {
        &self.0
    }
}
impl std::borrow::Borrow<[u8]> for IVec {
    fn borrow(&self) -> &[u8] {
        &self.0
    }
}
impl From<Vec<u8>> for IVec {
    fn from(v: Vec<u8>) -> Self {
        IVec(v.into())
    }
}
impl From<&[u8]> for IVec {
    fn from(v: &[u8]) -> Self {
        IVec(v.into())
    }
}
impl<const N: usize> From<&[u8; N]> for IVec {
    fn from(v: &[u8; N]) -> Self {
        IVec(v[..].into())
    }
}
impl From<&IVec> for IVec {
    fn from(v: &IVec) -> Self {
        v.clone()
    }
}

#[derive(Clone, Debug, PartialEq)]
pub enum Error {
    Unsupported(String),
}
impl std::fmt::Display for Error {
    fn fmt(&self, f: &mut std::fmt::Formatter<'_>) -> std::fmt::Result {
        write!(f, "{self:?}")
    }
}
impl std::error::Error for Error {}
pub type Result<T> = std::result::Result<T, Error>;

#[derive(Clone, Default)]
pub struct Db {
    trees: Rc<RefCell<BTreeMap<Vec<u8>, Tree>>>,
    default: Tree,
}
impl Db {
    pub fn open_tree<V: AsRef<[u8]>>(&self, name: V) -> Result<Tree> {
        Ok(self.trees.borrow_mut().entry(name.as_ref().to_vec()).or_default().clone())
    }
    pub fn flush(&self) -> Result<usize> {
        Ok(0)
    }
}
/// As in sled: what is called on a `Db` is called on its default tree.
impl Deref for Db {
    type Target = Tree;
    fn deref(&self) -> &Tree {
        &self.default
    }
}

pub type Write = (IVec, Option<IVec>);

#[derive(Clone, Default)]
pub struct Tree(Rc<RefCell<Inner>>);
#[derive(Default)]
struct Inner {
    map: BTreeMap<IVec, IVec>,
    journal: Vec<Write>,
}

impl Tree {
    pub fn get<K: AsRef<[u8]>>(&self, key: K) -> Result<Option<IVec>> {
        Ok(self.0.borrow().map.get(key.as_ref()).cloned())
    }
    pub fn insert<K: AsRef<[u8]>, V: Into<IVec>>(&self, key: K, value: V) -> Result<Option<IVec>> {
        Ok(self.0.borrow_mut().map.insert(key.as_ref().into(), value.into()))
    }
    pub fn remove<K: AsRef<[u8]>>(&self, key: K) -> Result<Option<IVec>> {
        Ok(self.0.borrow_mut().map.remove(key.as_ref()))
    }
    pub fn clear(&self) -> Result<()> {
        self.0.borrow_mut().map.clear();
        Ok(())
    }
    pub fn is_empty(&self) -> bool {
        self.0.borrow().map.is_empty()
    }
    pub fn len(&self) -> usize {
        self.0.borrow().map.len()
    }
    pub fn iter(&self) -> Iter {
        Iter { tree: self.clone(), lo: Bound::Unbounded, hi: Bound::Unbounded }
    }
    pub fn range<K: AsRef<[u8]>, R: RangeBounds<K>>(&self, r: R) -> Iter {
        let own = |b: Bound<&K>| b.map(|k| IVec::from(k.as_ref()));
        Iter { tree: self.clone(), lo: own(r.start_bound()), hi: own(r.end_bound()) }
    }
    pub fn scan_prefix<P: AsRef<[u8]>>(&self, prefix: P) -> Iter {
        let mut above = prefix.as_ref().to_vec();
        while above.last() == Some(&255) {
            above.pop();
        }
        let hi = match above.last_mut() {
            Some(b) => {
                *b += 1;
                Bound::Excluded(above.into())
            }
            None => Bound::Unbounded,
        };
        Iter { tree: self.clone(), lo: Bound::Included(prefix.as_ref().into()), hi }
    }
    pub fn take_journal(&self) -> Vec<Write> {
        std::mem::take(&mut self.0.borrow_mut().journal)
    }
}

pub struct Iter {
    tree: Tree,
    lo: Bound<IVec>,
    hi: Bound<IVec>,
}
impl Iter {
    fn step(&mut self, back: bool) -> Option<Result<(IVec, IVec)>> {
        if let (Bound::Included(a) | Bound::Excluded(a), Bound::Included(b) | Bound::Excluded(b)) =
            (&self.lo, &self.hi)
        {
            let both = matches!((&self.lo, &self.hi), (Bound::Included(_), Bound::Included(_)));
            if a > b || (a == b && !both) {
                return None;
            }
        }
        let inner = self.tree.0.borrow();
        let mut range = inner.map.range((self.lo.clone(), self.hi.clone()));
        let (k, v) = if back { range.next_back() } else { range.next() }?;
        let end = Bound::Excluded(k.clone());
        *(if back { &mut self.hi } else { &mut self.lo }) = end;
        Some(Ok((k.clone(), v.clone())))
    }
}
impl Iterator for Iter {
    type Item = Result<(IVec, IVec)>;
    fn next(&mut self) -> Option<Self::Item> {
        self.step(false)
    }
}
impl DoubleEndedIterator for Iter {
    fn next_back(&mut self) -> Option<Self::Item> {
        self.step(true)
    }
}

#[derive(Clone, Debug, Default)]
pub struct Batch(Vec<Write>);
impl Batch {
    pub fn insert<K: Into<IVec>, V: Into<IVec>>(&mut self, key: K, value: V) {
        self.0.push((key.into(), Some(value.into())))
    }
    pub fn remove<K: Into<IVec>>(&mut self, key: K) {
        self.0.push((key.into(), None))
    }
}

pub use transaction::Transactional;
pub mod transaction {
    use super::*;

    #[derive(Clone, Debug, PartialEq)]
    pub enum UnabortableTransactionError {
        Conflict,
        Storage(Error),
    }
    #[derive(Clone, Debug, PartialEq)]
    pub enum ConflictableTransactionError<T = Error> {
        Abort(T),
        Conflict,
        Storage(Error),
    }
    #[derive(Clone, Debug, PartialEq)]
    pub enum TransactionError<T = Error> {
        Abort(T),
        Storage(Error),
    }
    impl<T> From<UnabortableTransactionError> for ConflictableTransactionError<T> {
        fn from(e: UnabortableTransactionError) -> Self {
            match e {
                UnabortableTransactionError::Conflict => ConflictableTransactionError::Conflict,
                UnabortableTransactionError::Storage(e) => ConflictableTransactionError::Storage(e),
            }
        }
    }

    /// Collects writes; they reach the tree when the transaction's function has answered Ok.
    pub struct TransactionalTree(Tree, RefCell<Vec<Write>>);
    type Done<T> = std::result::Result<T, UnabortableTransactionError>;

    impl TransactionalTree {
        fn new(t: &Tree) -> Self {
            TransactionalTree(t.clone(), RefCell::default())
        }
        pub fn get(&self, key: &[u8]) -> Option<IVec> {
            match self.1.borrow().iter().rev().find(|w| w.0[..] == *key) {
                Some(w) => w.1.clone(),
                None => self.0 .0.borrow().map.get(key).cloned(),
            }
        }
        pub fn remove<K: AsRef<[u8]> + Into<IVec>>(&self, key: K) -> Done<Option<IVec>> {
            let old = self.get(key.as_ref());
            self.1.borrow_mut().push((key.into(), None));
            Ok(old)
        }
        pub fn apply_batch(&self, batch: &Batch) -> Done<()> {
            self.1.borrow_mut().extend(batch.0.iter().cloned());
            Ok(())
        }
        fn commit(self) {
            let mut inner = self.0 .0.borrow_mut();
            for (k, v) in self.1.into_inner() {
                inner.journal.push((k.clone(), v.clone()));
                match v {
                    Some(v) => inner.map.insert(k, v),
                    None => inner.map.remove(&k),
                };
            }
        }
    }

    pub trait Transactional<E = ()> {
        type View;
        fn transaction<F, A>(&self, f: F) -> std::result::Result<A, TransactionError<E>>
        where
            F: Fn(&Self::View) -> std::result::Result<A, ConflictableTransactionError<E>>;
    }
    impl<E> Transactional<E> for (&Tree, &Tree, &Tree) {
        type View = (TransactionalTree, TransactionalTree, TransactionalTree);
        fn transaction<F, A>(&self, f: F) -> std::result::Result<A, TransactionError<E>>
        where
            F: Fn(&Self::View) -> std::result::Result<A, ConflictableTransactionError<E>>,
        {
            let new = TransactionalTree::new;
            let view = (new(self.0), new(self.1), new(self.2));
            match f(&view) {
                Ok(a) => {
                    view.0.commit();
                    view.1.commit();
                    view.2.commit();
                    Ok(a)
                }
                Err(ConflictableTransactionError::Abort(e)) => Err(TransactionError::Abort(e)),
                Err(ConflictableTransactionError::Storage(e)) => Err(TransactionError::Storage(e)),
                Err(ConflictableTransactionError::Conflict) => unreachable!("one thread, no conflict"),
            }
        }
    }
}
