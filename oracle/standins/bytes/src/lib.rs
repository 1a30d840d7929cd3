//! Stands for the crate `bytes`: shared immutable bytes, a growable buffer, `put_u8`. It decides nothing: bytes go in and
//! come out as they are, compared as bytes.
use std::borrow::Borrow;
use std::ops::{Deref, DerefMut, Range};
use std::sync::Arc;

#[derive(Clone, Debug)]
pub struct Bytes {
    data: Arc<Vec<u8>>,
    part: Range<usize>,
}

impl Bytes {
    pub fn new() -> Self {
        Vec::new().into()
    }
    pub fn copy_from_slice(data: &[u8]) -> Self {
        data.to_vec().into()
    }
    pub fn slice(&self, part: Range<usize>) -> Self {
        assert!(part.start <= part.end && part.end <= self.len());
        let at = self.part.start;
        Bytes { data: self.data.clone(), part: at + part.start..at + part.end }
    }
}
impl From<Vec<u8>> for Bytes {
    fn from(v: Vec<u8>) -> Self {
        let part = 0..v.len();
        Bytes { data: Arc::new(v), part }
    }
}
impl Deref for Bytes {
    type Target = [u8];
    fn deref(&self) -> &[u8] {
        &self.data[self.part.clone()]
    }
}
impl AsRef<[u8]> for Bytes {
    fn as_ref(&self) -> &[u8] {
        self
    }
}
impl Borrow<[u8]> for Bytes {
    fn borrow(&self) -> &[u8] {
        self
    }
}
impl PartialEq for Bytes {
    fn eq(&self, o: &Self) -> bool {
        self[..] == o[..]
    }
}
impl Eq for Bytes {}
impl PartialOrd for Bytes {
    fn partial_cmp(&self, o: &Self) -> Option<std::cmp::Ordering> {
        Some(self.cmp(o))
    }
}
impl Ord for Bytes {
    fn cmp(&self, o: &Self) -> std::cmp::Ordering {
        self[..].cmp(&o[..])
    }
}
impl std::hash::Hash for Bytes {
    fn hash<H: std::hash::Hasher>(&self, h: &mut H) {
        self[..].hash(h)
    }
}

#[derive(Clone, Debug, Default)]
pub struct BytesMut(Vec<u8>);

impl BytesMut {
    pub fn with_capacity(n: usize) -> Self {
        BytesMut(Vec::with_capacity(n))
    }
    pub fn extend_from_slice(&mut self, s: &[u8]) {
        self.0.extend_from_slice(s)
    }
    pub fn freeze(self) -> Bytes {
        self.0.into()
    }
}
impl Deref for BytesMut {
    type Target = [u8];
    fn deref(&self) -> &[u8] {
        &self.0
    }
}
impl DerefMut for BytesMut {
    fn deref_mut(&mut self) -> &mut [u8] {
        &mut self.0
    }
}
impl AsRef<[u8]> for BytesMut {
    fn as_ref(&self) -> &[u8] {
        &self.0
    }
}
impl AsMut<[u8]> for BytesMut {
    fn as_mut(&mut self) -> &mut [u8] {
        &mut self.0
    }
}

pub trait BufMut {
    fn put_u8(&mut self, b: u8);
    fn put_slice(&mut self, s: &[u8]);
}
impl BufMut for BytesMut {
    fn put_u8(&mut self, b: u8) {
        self.0.push(b)
    }
    fn put_slice(&mut self, s: &[u8]) {
        self.0.extend_from_slice(s)
    }
}
