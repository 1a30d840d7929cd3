//! Values for the tests of `raw`, and a store in buffers that are as long as asked and no longer.
#![allow(dead_code)]
use virebony::raw;

/// What lies in a path behind what a call may look at.
const GARBAGE: raw::Path = raw::Path { bytes: [0x77; raw::MPL], ends: [0x7777; raw::MCC], count: 0 };

/// A path from text: components of lower-case hex joined by slashes, a point for an empty component, nothing for the empty path; then garbage.
pub fn path(text: &str) -> raw::Path {
    let mut path = GARBAGE;
    let mut total = 0;
    for component in text.split('/').filter(|component| !component.is_empty()) {
        for digits in component.as_bytes().chunks_exact(2) {
            path.bytes[total] = u8::from_str_radix(std::str::from_utf8(digits).unwrap(), 16).unwrap();
            total += 1;
        }
        path.ends[path.count] = total;
        path.count += 1;
    }
    path
}

/// The same path as a call answers it: zeros behind.
pub fn answered(text: &str) -> raw::Path {
    let mut path = path(text);
    let total = if path.count == 0 { 0 } else { path.ends[path.count - 1] };
    path.bytes[total..].fill(0);
    path.ends[path.count..].fill(0);
    path
}

/// Paths that are none: too many components, the greatest count, ends that descend, a component of 65 bytes, 129 bytes in all.
pub fn illegal() -> [raw::Path; 5] {
    let [mut many, mut most, mut descends, mut long, mut total] = [path("61/62"); 5];
    many.count = 9;
    most.count = usize::MAX;
    descends.ends[1] = 0;
    long.ends[..2].fill(65);
    total.ends[..3].copy_from_slice(&[60, 120, 129]);
    total.count = 3;
    [many, most, descends, long, total]
}

pub fn subspace(low: u64) -> raw::Subspace {
    raw::Subspace { high: 0, low }
}

pub fn entry(low: u64, text: &str, timestamp: u64, payload_length: u64, digest: u8) -> raw::Entry {
    raw::Entry { namespace_id: [0; 16], subspace_id: subspace(low), path: path(text), timestamp, payload_length, payload_digest: [digest; 32] }
}

pub fn times(start: u64, end: u64, open: u8) -> raw::Times {
    raw::Times { start, end, open }
}

pub fn area(any_subspace: u8, low: u64, text: &str, times: raw::Times) -> raw::Area {
    raw::Area { any_subspace, subspace: subspace(low), path: path(text), times }
}

pub fn everything() -> raw::Area {
    area(1, 0, "", times(0, 0, 1))
}

/// Subspaces from 0 and times from 0, both open; paths from one up to another.
pub fn range(start: raw::Path, end: raw::Path, open: u8) -> raw::Range {
    raw::Range { subspaces: raw::Subspaces { open: 200, ..Default::default() }, paths: raw::Paths { start, end, open }, times: times(0, 0, 3) }
}

pub fn ignore(incomplete_payloads: u8, empty_payloads: u8) -> raw::Ignore {
    raw::Ignore { incomplete_payloads, empty_payloads }
}

pub const LOCAL: raw::Origin = raw::Origin { remote: 0, session: 0 };

pub fn remote(session: u64) -> raw::Origin {
    raw::Origin { remote: 1, session }
}

pub const TOKEN: [u8; 64] = [0x42; 64];
pub const UNTOUCHED: raw::Pair = raw::Pair { offset: 0xeeee_eeee, length: 0xeeee_eeee };

/// An answer of a lookup that shows nothing.
pub fn shows_nothing(refusal: u8) -> raw::EntryFound {
    let lengthy = raw::LengthyEntry { entry: raw::Entry::default(), token: [0; 64], available: 0, origin: LOCAL };
    raw::EntryFound { refusal, found: 0, lengthy }
}

/// Every call that takes a store refuses so; what each is handed beside the store has this path.
pub fn refused_by_all(state: raw::State, lent: &mut raw::BuffersMut<'_>, at: raw::Path, want: u8) {
    let all = raw::Area { path: at, ..everything() };
    let entry = raw::Entry { path: at, ..entry(1, "", 5, 3, 9) };
    let whole = range(at, path(""), 1);
    let interest = raw::Interest { area: all, max_count: 0, max_size: 0 };
    let unchanged = raw::Ingested { refusal: want, obsolete: 0, held: 0, pruned: 0, state, newer: raw::Entry::default(), token: [0; 64] };
    let (mut pairs, mut numbers) = ([UNTOUCHED; 3], [0xeeee_eeee; 6]);
    assert_eq!(raw::ingest_entry(state, lent, &mut pairs, entry, &TOKEN, 0, remote(9)), unchanged);
    assert_eq!(raw::ingest_entry_numbers(state, lent, &mut numbers, entry, &TOKEN, 0, remote(9)), unchanged);
    let by_value = raw::ingest_entry_by_value(state, lent, raw::Pairs { pairs: [UNTOUCHED; 1024] }, entry, &TOKEN, 0, remote(9));
    assert_eq!(by_value, raw::PairsIngested { ingested: unchanged, pairs: [UNTOUCHED; 1024] });
    assert_eq!((pairs, numbers), ([UNTOUCHED; 3], [0xeeee_eeee; 6]));
    assert_eq!(raw::forget_entry(state, lent, subspace(1), at, 0, &[0; 32]), raw::EntryForgotten { refusal: want, state });
    assert_eq!(raw::forget_area(state, lent, all, 0, all), raw::AreaForgotten { refusal: want, state, forgotten: 0 });
    let recorded = raw::AvailableRecorded { refusal: want, state };
    assert_eq!(raw::record_available_length(state, &mut lent.as_trees(), subspace(1), at, 1, &[0; 32], u64::MAX), recorded);
    assert_eq!(raw::forget_payload(state, &mut lent.as_trees(), subspace(1), at, 1, &[0; 32]), recorded);
    let lent = lent.as_buffers();
    assert_eq!(raw::find_entry(state, lent, subspace(1), at, ignore(0, 0)), shows_nothing(want));
    let listed = raw::Listed { refusal: want, found: 0 };
    for last in [&[][..], &[0; 25], &[0; 26]] {
        // From the start, from bytes that are no key, and from a key.
        assert_eq!(raw::query_area_found(state, lent, all, ignore(0, 0), last), listed);
        assert_eq!(raw::query_range_found(state, lent, whole, ignore(0, 0), last), listed);
        assert_eq!(raw::query_area(state, lent, all, ignore(0, 0), last), raw::Part { offset: 0, length: 0 });
        assert_eq!(raw::query_range(state, lent, whole, ignore(0, 0), last), raw::Part { offset: 0, length: 0 });
    }
    assert_eq!(raw::count_area(state, lent, all), raw::Counted { refusal: want, count: 0 });
    assert_eq!(raw::summarise(state, lent, whole), raw::Counted { refusal: want, count: 0 });
    assert_eq!(raw::area_of_interest_to_range(state, lent, interest), raw::AreaRange { refusal: want, range: raw::Range::default() });
}

/// A subspace-first key.
pub fn key(low: u64, text: &str, timestamp: u64) -> Vec<u8> {
    let mut out = vec![0xee; raw::KEY_MOST];
    let written = raw::encode_spt_entry_key(subspace(low), path(text), timestamp, &mut out);
    assert_eq!(written.refusal, 0);
    out.truncate(written.length);
    out
}

/// A store's state and its buffers.
#[derive(Clone, Debug, PartialEq)]
pub struct Kept {
    pub state: raw::State,
    pub spt: Vec<u8>,
    pub spt_dir: Vec<u32>,
    pub tsp: Vec<u8>,
    pub tsp_dir: Vec<u32>,
    pub tally: Vec<u8>,
    pub prune: Vec<raw::Pair>,
}

impl Kept {
    /// Buffers for a limit, filled with ee, and no store in them.
    pub fn lent(limit: usize) -> Kept {
        Kept {
            state: raw::State::default(),
            spt: vec![0xee; raw::RECORD_MOST * limit],
            spt_dir: vec![0xeeee_eeee; 2 * limit],
            tsp: vec![0xee; raw::RECORD_MOST * limit],
            tsp_dir: vec![0xeeee_eeee; 2 * limit],
            tally: vec![0xee; raw::ITEM * limit],
            prune: vec![UNTOUCHED; limit],
        }
    }

    pub fn open(limit: usize) -> Kept {
        let mut kept = Kept::lent(limit);
        let opened = raw::open(&[0; 16], limit, &mut kept.buffers_mut());
        assert_eq!(opened, raw::Opened { refusal: 0, state: raw::State { namespace_id: [0; 16], count: 0, limit } });
        kept.state = opened.state;
        kept
    }

    pub fn buffers(&self) -> raw::Buffers<'_> {
        raw::Buffers { spt: &self.spt, spt_dir: &self.spt_dir, tsp: &self.tsp, tsp_dir: &self.tsp_dir }
    }

    pub fn buffers_mut(&mut self) -> raw::BuffersMut<'_> {
        let Kept { spt, spt_dir, tsp, tsp_dir, tally, .. } = self;
        raw::BuffersMut { spt, spt_dir, tsp, tsp_dir, tally }
    }

    pub fn trees(&mut self) -> raw::Trees<'_> {
        let Kept { spt, spt_dir, tsp, tsp_dir, .. } = self;
        raw::Trees { spt, spt_dir, tsp, tsp_dir }
    }

    /// Where the record in a place of the subspace-first tree lies.
    pub fn part(&self, place: usize) -> raw::Part {
        raw::Part { offset: self.spt_dir[2 * place] as usize, length: self.spt_dir[2 * place + 1] as usize }
    }

    /// The bytes of a part of the subspace-first tree.
    pub fn record(&self, part: raw::Part) -> &[u8] {
        &self.spt[part.offset..part.offset + part.length]
    }

    /// Files an entry as local.
    pub fn ingest(&mut self, entry: raw::Entry, prevent_pruning: u8) -> raw::Ingested {
        self.ingest_from(entry, prevent_pruning, LOCAL)
    }

    pub fn ingest_from(&mut self, entry: raw::Entry, prevent_pruning: u8, origin: raw::Origin) -> raw::Ingested {
        let (state, mut prune) = (self.state, std::mem::take(&mut self.prune));
        let answer = raw::ingest_entry(state, &mut self.buffers_mut(), &mut prune, entry, &TOKEN, prevent_pruning, origin);
        self.prune = prune;
        self.state = answer.state;
        answer
    }
}
