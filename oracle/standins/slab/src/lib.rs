//! Stands for the crate `slab`: numbered places. It decides nothing: it holds the event system's subscribers, of which
//! the driver has none.
#[derive(Debug)]
pub struct Slab<T>(Vec<Option<T>>);

impl<T> Slab<T> {
    pub fn new() -> Self {
        Slab(Vec::new())
    }
    pub fn insert(&mut self, t: T) -> usize {
        self.0.push(Some(t));
        self.0.len() - 1
    }
    pub fn remove(&mut self, at: usize) -> T {
        self.0[at].take().expect("invalid key")
    }
    pub fn iter(&self) -> impl Iterator<Item = (usize, &T)> {
        self.0.iter().enumerate().filter_map(|(i, t)| t.as_ref().map(|t| (i, t)))
    }
}
