//! What lies in the four buffers of a store's entries, and which of refusals 1, 2 and 3 a call on lent buffers meets.
use crate::*;

/// The most bytes of a record; the bytes of a value, the last of each record; and those of an origin, the last of each value (02, U6).
pub const RECORD_MOST: u64 = 419;
pub const VALUE: usize = 121;
pub const ORIGIN: usize = 9;

/// A kind (0 local, 1 remote) and a session number, which is 0 for local.
pub fn origin_bytes(origin: EntryOrigin) -> [u8; ORIGIN] {
    let (kind, session): (u8, u64) = match origin {
        EntryOrigin::Local => (0, 0),
        EntryOrigin::Remote(session) => (1, session),
    };
    let mut bytes = [kind; ORIGIN];
    bytes[1..].copy_from_slice(&session.to_be_bytes());
    bytes
}
/// Payload length, digest, token, available length, origin.
pub fn value(x: &Stored) -> Vec<u8> {
    [&x.entry.payload_length.to_be_bytes()[..], &x.entry.payload_digest, &x.token, &x.available.to_be_bytes(), &origin_bytes(x.origin)].concat()
}
/// The origin of nine bytes; none of another kind, and none that is local with a number.
pub fn read_origin([kind, session @ ..]: [u8; ORIGIN]) -> Option<EntryOrigin> {
    match (kind, u64::from_be_bytes(session)) {
        (0, 0) => Some(EntryOrigin::Local),
        (1, session) => Some(EntryOrigin::Remote(session)),
        _ => None,
    }
}
/// The entry of a record; none if its key is none, its value is of another length or its origin is none.
pub fn read_record(namespace: Namespace, record: &[u8], time_first: bool) -> Option<Stored> {
    let (key, value) = record.split_at(record.len().checked_sub(VALUE)?);
    let (subspace, path, timestamp) = FIELD.decode(time_first, key)?;
    let (length, value) = value.split_first_chunk()?;
    let (payload_digest, value) = value.split_first_chunk()?;
    let (token, value) = value.split_first_chunk()?;
    let (available, value) = value.split_first_chunk()?;
    let entry = Entry { namespace, subspace, path, timestamp, payload_length: u64::from_be_bytes(*length), payload_digest: *payload_digest };
    Some(Stored { entry, token: *token, available: u64::from_be_bytes(*available), origin: read_origin(value.try_into().ok()?)? })
}
pub fn key(e: &Entry, time_first: bool) -> Vec<u8> {
    let encode = if time_first { tsp } else { spt };
    encode(&e.subspace, &e.path, e.timestamp)
}
pub fn record(x: &Stored, time_first: bool) -> Vec<u8> {
    [key(&x.entry, time_first), value(x)].concat()
}

/// A tree's records, ascending by their keys.
pub fn records(list: &[Stored], time_first: bool) -> Vec<(Vec<u8>, Vec<u8>)> {
    let mut r: Vec<_> = list.iter().map(|x| (key(&x.entry, time_first), value(x))).collect();
    r.sort();
    r
}

/// A tree and its directory: the part that belongs to a store of this limit.
pub fn image(list: &[Stored], time_first: bool, limit: u64) -> (Vec<u8>, Vec<u32>) {
    layout(&records(list, time_first), limit)
}
/// These records from byte 0 on without gaps, and zeros up to the limit's room.
pub fn layout(records: &[(Vec<u8>, Vec<u8>)], limit: u64) -> (Vec<u8>, Vec<u32>) {
    let (mut tree, mut directory) = (vec![], vec![]);
    for (k, v) in records {
        directory.extend([tree.len() as u32, (k.len() + v.len()) as u32]);
        tree.extend(k);
        tree.extend(v);
    }
    tree.resize((RECORD_MOST * limit) as usize, 0);
    directory.resize(2 * limit as usize, 0);
    (tree, directory)
}

/// Kept by the caller between calls.
#[derive(Clone, Copy, Debug, PartialEq, Eq)]
pub struct State {
    pub namespace: Namespace,
    pub count: u64,
    pub limit: u64,
}

/// The four buffers as they are lent, of any length.
#[derive(Clone, Copy)]
pub struct Lent<'a> {
    pub spt: &'a [u8],
    pub spt_dir: &'a [u32],
    pub tsp: &'a [u8],
    pub tsp_dir: &'a [u32],
}

/// The entries of a tree, if it is one by 01's words on a tree alone.
fn tree(n: Namespace, bytes: &[u8], dir: &[u32], count: u64, time_first: bool) -> Option<Vec<Stored>> {
    let (used, rest) = dir.split_at(2 * count as usize);
    let (mut at, mut last, mut list): (_, Vec<u8>, Vec<Stored>) = (0, vec![], vec![]);
    for pair in used.chunks(2) {
        let (offset, length) = (pair[0] as usize, pair[1] as usize);
        if offset != at || bytes.len() - at < length {
            return None;
        }
        let x = read_record(n, &bytes[at..at + length], time_first)?;
        let key = key(&x.entry, time_first);
        if !list.is_empty() && last >= key || x.available > x.entry.payload_length {
            return None;
        }
        list.push(x);
        (at, last) = (at + length, key);
    }
    (bytes[at..].iter().all(|b| *b == 0) && rest.iter().all(|n| *n == 0)).then_some(list)
}

/// The entries of a well-formed store, in order of subspace, path and time; none (refusal 3) of any other. The limit
/// and the buffers' lengths are lawful.
pub fn well_formed(state: &State, lent: Lent) -> Option<Vec<Stored>> {
    if state.count > state.limit {
        return None;
    }
    let (room, pairs) = ((RECORD_MOST * state.limit) as usize, 2 * state.limit as usize);
    let a = tree(state.namespace, &lent.spt[..room], &lent.spt_dir[..pairs], state.count, false)?;
    let b = tree(state.namespace, &lent.tsp[..room], &lent.tsp_dir[..pairs], state.count, true)?;
    // The same entries and values, origins included, in both; no subspace and path twice; none prunes another.
    let alike = records(&a, true) == records(&b, true);
    let one = |x: &Stored, y: &Stored| x.entry.subspace == y.entry.subspace && x.entry.path == y.entry.path;
    let apart = |i: usize, x: &Stored| a[..i].iter().all(|y| !one(x, y) && !x.entry.prunes(&y.entry) && !y.entry.prunes(&x.entry));
    (alike && a.iter().enumerate().all(|(i, x)| apart(i, x))).then_some(a)
}

/// The first of refusals 1 and 2 of a call with this limit. `tally` is the length of a tally in bytes and `prune` that of a prune list in pairs, if one
/// is lent.
pub fn rooms(limit: u64, lent: Lent, tally: Option<usize>, prune: Option<usize>) -> Option<Refusal> {
    if !(1..=1024).contains(&limit) {
        return Some(1);
    }
    let short = |length: usize, needed: u64| (length as u64) < needed;
    let trees = short(lent.spt.len(), RECORD_MOST * limit) || short(lent.tsp.len(), RECORD_MOST * limit);
    let directories = short(lent.spt_dir.len(), 2 * limit) || short(lent.tsp_dir.len(), 2 * limit);
    let others = tally.is_some_and(|n| short(n, ITEM * limit)) || prune.is_some_and(|n| short(n, limit));
    (trees || directories || others).then_some(2)
}

/// A path as a value: components one after another in 128 bytes, where each ends, and how many there are. None
/// (refusal 4) if it is over a bound or its ends descend. Bytes and ends behind are not looked at.
pub fn path_of_value(bytes: &[u8; 128], ends: &[u64; 8], count: u64) -> Option<Path> {
    if count > 8 {
        return None;
    }
    let (mut at, mut p) = (0, vec![]);
    for end in &ends[..count as usize] {
        if *end < at || *end > 128 {
            return None;
        }
        p.push(bytes[at as usize..*end as usize].to_vec());
        at = *end;
    }
    Some(p).filter(|p| FIELD.legal(p))
}
