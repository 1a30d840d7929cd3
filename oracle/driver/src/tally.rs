//! The tally of the Rust's own trees, by counting.
use model::Item;

/// The items of a tree's keys, of which a subspace-first one begins with the subspace and ends with the time, and a time-first one begins with the time
/// and then the subspace; none if a key is too short for both. Sorted, the entries of a subspace stand together, the newest last.
pub fn counted<'a>(keys: impl Iterator<Item = &'a [u8]>, time_first: bool) -> Option<Vec<Item>> {
    let read = |key: &[u8]| -> Option<([u8; 16], u64)> {
        let end = key.len().checked_sub(24)?;
        let (subspace, time) = if time_first { (&key[8..24], &key[..8]) } else { (&key[..16], &key[end + 16..]) };
        Some((subspace.try_into().ok()?, u64::from_be_bytes(time.try_into().ok()?)))
    };
    let mut all = keys.map(read).collect::<Option<Vec<_>>>()?;
    all.sort();
    Some(all.chunk_by(|a, b| a.0 == b.0).map(|run| (run[0].0, run.len() as u32, run[run.len() - 1].1)).collect())
}
