//! The door to the port (bindings/c/virebony.h), as far as `beside` goes through it: one store with its buffers.
#![allow(dead_code)] // fields of answers that are not looked at
use model::{ITEM, RECORD_MOST};
use std::mem::size_of;

#[repr(C)]
#[derive(Clone, Copy)]
struct Subspace(u64, u64);
#[repr(C)]
#[derive(Clone, Copy)]
struct Path {
    bytes: [u8; 128],
    ends: [usize; 8],
    count: usize,
}
#[repr(C)]
#[derive(Clone, Copy)]
struct Entry {
    namespace_id: [u8; 16],
    subspace_id: Subspace,
    path: Path,
    timestamp: u64,
    payload_length: u64,
    payload_digest: [u8; 32],
}
#[repr(C)]
#[derive(Clone, Copy)]
struct Times {
    start: u64,
    end: u64,
    open: u8,
}
#[repr(C)]
#[derive(Clone, Copy)]
struct Area {
    any_subspace: u8,
    subspace: Subspace,
    path: Path,
    times: Times,
}
#[repr(C)]
#[derive(Clone, Copy)]
struct Interest {
    area: Area,
    max_count: u64,
    max_size: u64,
}
#[repr(C)]
#[derive(Clone, Copy)]
struct State {
    namespace_id: [u8; 16],
    count: usize,
    limit: usize,
}
#[repr(C)]
struct Opened {
    refusal: u8,
    state: State,
}
#[repr(C)]
struct Ingested {
    refusal: u8,
    obsolete: u8,
    held: u8,
    pruned: usize,
    state: State,
    newer: Entry,
    token: [u8; 64],
}
#[repr(C)]
struct AreaForgotten {
    refusal: u8,
    state: State,
    forgotten: usize,
}
#[repr(C)]
struct Listed {
    refusal: u8,
    found: u8,
}
#[repr(C)]
struct Part {
    offset: usize,
    length: usize,
}
#[repr(C)]
struct Counted {
    refusal: u8,
    count: usize,
}
#[repr(C)]
struct Decoded {
    refusal: u8,
    subspace: Subspace,
    path: Path,
    timestamp: u64,
}
#[repr(C)]
struct Subspaces {
    start: Subspace,
    end: Subspace,
    open: u8,
}
#[repr(C)]
struct Paths {
    start: Path,
    end: Path,
    open: u8,
}
#[repr(C)]
struct AreaRange {
    refusal: u8,
    subspaces: Subspaces,
    paths: Paths,
    times: Times,
}
#[repr(C)]
#[derive(Clone, Copy)]
struct Ignore(u8, u8);
#[repr(C)]
#[derive(Clone, Copy)]
struct Origin {
    remote: u8,
    session: u64,
}

const _: () = assert!(size_of::<Entry>() == 280 && size_of::<Area>() == 248 && size_of::<Interest>() == 264 && size_of::<State>() == 32);
const _: () = assert!(size_of::<Ingested>() == 392 && size_of::<AreaForgotten>() == 48 && size_of::<Decoded>() == 232 && size_of::<AreaRange>() == 480 && size_of::<Origin>() == 16);

extern "C" {
    fn vb_edition() -> u32;
    fn vb_decode_spt_entry_key(key: *const u8, len: usize) -> Decoded;
    fn vb_open(namespace_id: *const u8, limit: usize, a: *mut u8, al: usize, b: *mut u32, bl: usize, c: *mut u8, cl: usize, d: *mut u32, dl: usize, t: *mut u8, tl: usize) -> Opened;
    fn vb_ingest_entry(s: State, a: *mut u8, al: usize, b: *mut u32, bl: usize, c: *mut u8, cl: usize, d: *mut u32, dl: usize, t: *mut u8, tl: usize, prune: *mut [u32; 2], pairs: usize, entry: Entry, token: *const u8, prevent: u8, origin: Origin) -> Ingested;
    fn vb_forget_entry(s: State, a: *mut u8, al: usize, b: *mut u32, bl: usize, c: *mut u8, cl: usize, d: *mut u32, dl: usize, t: *mut u8, tl: usize, subspace: Subspace, path: Path, expects: u8, digest: *const u8) -> Opened;
    fn vb_forget_area(s: State, a: *mut u8, al: usize, b: *mut u32, bl: usize, c: *mut u8, cl: usize, d: *mut u32, dl: usize, t: *mut u8, tl: usize, area: Area, protects: u8, protected: Area) -> AreaForgotten;
    fn vb_count_area(s: State, a: *const u8, al: usize, b: *const u32, bl: usize, c: *const u8, cl: usize, d: *const u32, dl: usize, area: Area) -> Counted;
    fn vb_query_area_found(s: State, a: *const u8, al: usize, b: *const u32, bl: usize, c: *const u8, cl: usize, d: *const u32, dl: usize, area: Area, ignore: Ignore, last: *const u8, ll: usize) -> Listed;
    fn vb_query_area(s: State, a: *const u8, al: usize, b: *const u32, bl: usize, c: *const u8, cl: usize, d: *const u32, dl: usize, area: Area, ignore: Ignore, last: *const u8, ll: usize) -> Part;
    fn vb_record_key(record: *const u8, len: usize) -> Part;
    fn vb_area_of_interest_to_range(s: State, a: *const u8, al: usize, b: *const u32, bl: usize, c: *const u8, cl: usize, d: *const u32, dl: usize, interest: Interest) -> AreaRange;
}
const EDITION: u32 = 7;

/// A record's key and value, read: what a call is handed.
#[derive(Clone, Copy)]
pub struct Place {
    entry: Entry,
    token: [u8; 64],
}
/// The place of a subspace-first key, with the Rust's value that belongs to it, if any.
pub fn place(key: &[u8], value: &[u8]) -> Place {
    let d = unsafe { vb_decode_spt_entry_key(key.as_ptr(), key.len()) };
    assert_eq!(d.refusal, 0);
    let (payload_length, value) = value.split_first_chunk().unwrap_or((&[0; 8], &[]));
    let (payload_digest, value) = value.split_first_chunk().unwrap_or((&[0; 32], &[]));
    let token = value.first_chunk().unwrap_or(&[0; 64]);
    let entry = Entry {
        namespace_id: [0; 16],
        subspace_id: d.subspace,
        path: d.path,
        timestamp: d.timestamp,
        payload_length: u64::from_be_bytes(*payload_length),
        payload_digest: *payload_digest,
    };
    Place { entry, token: *token }
}

/// A store: its state and buffers.
#[derive(Clone)]
pub struct Port {
    state: State,
    spt: Vec<u8>,
    spt_dir: Vec<u32>,
    tsp: Vec<u8>,
    tsp_dir: Vec<u32>,
    tally: Vec<u8>,
    prune: Vec<[u32; 2]>,
}
macro_rules! call {
    ($f:ident, $first:expr, $s:expr $(, $x:expr)*) => {
        unsafe {
            $f($first, $s.spt.as_ptr(), $s.spt.len(), $s.spt_dir.as_ptr(), $s.spt_dir.len(), $s.tsp.as_ptr(), $s.tsp.len(),
                $s.tsp_dir.as_ptr(), $s.tsp_dir.len() $(, $x)*)
        }
    };
}
macro_rules! call_mut {
    ($f:ident, [$($first:expr),*], $s:expr $(, $x:expr)*) => {
        unsafe {
            $f($($first),*, $s.spt.as_mut_ptr(), $s.spt.len(), $s.spt_dir.as_mut_ptr(), $s.spt_dir.len(), $s.tsp.as_mut_ptr(),
                $s.tsp.len(), $s.tsp_dir.as_mut_ptr(), $s.tsp_dir.len(), $s.tally.as_mut_ptr(), $s.tally.len() $(, $x)*)
        }
    };
}
impl Port {
    pub fn open(limit: usize) -> Port {
        assert_eq!(unsafe { vb_edition() }, EDITION);
        // Not zero before it is opened.
        let mut s = Port {
            state: State { namespace_id: [0; 16], count: 0, limit },
            spt: vec![7; RECORD_MOST as usize * limit],
            spt_dir: vec![7; 2 * limit],
            tsp: vec![7; RECORD_MOST as usize * limit],
            tsp_dir: vec![7; 2 * limit],
            tally: vec![7; ITEM as usize * limit],
            prune: vec![[0; 2]; limit],
        };
        let o = call_mut!(vb_open, [[0u8; 16].as_ptr(), limit], s);
        assert_eq!(o.refusal, 0);
        s.state = o.state;
        s
    }
    /// An area of any subspace, or the place's, from a time on.
    fn area(any: bool, at: &Place, start: u64) -> Area {
        Area { any_subspace: any as u8, subspace: at.entry.subspace_id, path: at.entry.path, times: Times { start, end: 0, open: 1 } }
    }
    /// Validation alone: an illegal path is refused, with 4, once the store is known to be well-formed.
    pub fn check(&self) {
        let path = Path { bytes: [0; 128], ends: [0; 8], count: 9 };
        let area = Area { any_subspace: 1, subspace: Subspace(0, 0), path, times: Times { start: 0, end: 0, open: 1 } };
        assert_eq!(call!(vb_count_area, self.state, self, area).refusal, 4);
    }
    pub fn count(&self) -> usize {
        self.state.count
    }
    fn file(&mut self, at: &Place, held: u8) -> usize {
        let local = Origin { remote: 0, session: 0 };
        let r = call_mut!(vb_ingest_entry, [self.state], self, self.prune.as_mut_ptr(), self.prune.len(), at.entry, at.token.as_ptr(), 0, local);
        assert_eq!((r.refusal, r.obsolete, r.held), (0, 0, held));
        self.state = r.state;
        r.state.count
    }
    /// An entry that is taken: the count afterwards.
    pub fn ingest(&mut self, at: &Place) -> usize {
        self.file(at, 0)
    }
    /// An entry that is stored already: the count, as it was.
    pub fn resend(&mut self, at: &Place) -> usize {
        self.file(at, 1)
    }
    /// The count afterwards.
    pub fn forget_entry(&mut self, at: &Place) -> usize {
        let r = call_mut!(vb_forget_entry, [self.state], self, at.entry.subspace_id, at.entry.path, 0, [0u8; 32].as_ptr());
        assert_eq!(r.refusal, 0);
        self.state = r.state;
        r.state.count
    }
    /// How many are forgotten.
    pub fn forget_area(&mut self, any: bool, at: &Place, start: u64) -> usize {
        let area = Port::area(any, at, start);
        let r = call_mut!(vb_forget_area, [self.state], self, area, 0, area);
        assert_eq!(r.refusal, 0);
        self.state = r.state;
        r.forgotten
    }
    pub fn count_area(&self, any: bool, at: &Place, start: u64) -> usize {
        let r = call!(vb_count_area, self.state, self, Port::area(any, at, start));
        assert_eq!(r.refusal, 0);
        r.count
    }
    /// The record of the next match behind a key, as it lies in the tree; at the end the second call is asked whether that is one.
    pub fn list(&self, any: bool, at: &Place, start: u64, last: &[u8]) -> Option<&[u8]> {
        let r = call!(vb_query_area, self.state, self, Port::area(any, at, start), Ignore(0, 0), last.as_ptr(), last.len());
        if r.length == 0 {
            let r = call!(vb_query_area_found, self.state, self, Port::area(any, at, start), Ignore(0, 0), last.as_ptr(), last.len());
            assert_eq!((r.refusal, r.found), (0, 0));
            return None;
        }
        Some(&self.spt[r.offset..r.offset + r.length])
    }
    /// The key of a record.
    pub fn key(record: &[u8]) -> &[u8] {
        let r = unsafe { vb_record_key(record.as_ptr(), record.len()) };
        &record[r.offset..r.offset + r.length]
    }
    /// Where the range's times start.
    pub fn interest(&self, any: bool, at: &Place, start: u64, max_count: u64, max_size: u64) -> u64 {
        let r = call!(vb_area_of_interest_to_range, self.state, self, Interest { area: Port::area(any, at, start), max_count, max_size });
        assert_eq!(r.refusal, 0);
        r.times.start
    }
    /// Puts back what a call changed.
    pub fn restore(&mut self, from: &Port) {
        self.state = from.state;
        self.spt.copy_from_slice(&from.spt);
        self.spt_dir.copy_from_slice(&from.spt_dir);
        self.tsp.copy_from_slice(&from.tsp);
        self.tsp_dir.copy_from_slice(&from.tsp_dir);
        self.tally.copy_from_slice(&from.tally);
    }
    pub fn records(&self, tsp: bool) -> Vec<&[u8]> {
        let (tree, dir) = if tsp { (&self.tsp, &self.tsp_dir) } else { (&self.spt, &self.spt_dir) };
        (0..self.state.count).map(|k| &tree[dir[2 * k] as usize..][..dir[2 * k + 1] as usize]).collect()
    }
    /// The four buffers that a validation looks at, as bytes.
    pub fn bytes(&self) -> [Vec<u8>; 4] {
        let numbers = |v: &Vec<u32>| v.iter().flat_map(|x| x.to_ne_bytes()).collect();
        [self.spt.clone(), self.tsp.clone(), numbers(&self.spt_dir), numbers(&self.tsp_dir)]
    }
}
