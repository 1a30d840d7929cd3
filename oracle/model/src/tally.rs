//! The tally of a store, document 02's U1: of each subspace with entries how many it has, and the newest of their timestamps.
use crate::*;
use std::collections::BTreeMap;

/// Bytes of an item.
pub const ITEM: u64 = 28;

/// Subspace, number of its entries, newest of their timestamps.
pub type Item = (Subspace, u32, u64);

/// The items of a list of entries, ascending by subspace: each entry is counted, in whatever order they stand.
pub fn items(list: &[Stored]) -> Vec<Item> {
    let mut counted: BTreeMap<Subspace, (u32, u64)> = BTreeMap::new();
    for x in list {
        let (count, newest) = counted.entry(x.entry.subspace).or_insert((0, 0));
        *count += 1;
        *newest = (*newest).max(x.entry.timestamp);
    }
    counted.into_iter().map(|(subspace, (count, newest))| (subspace, count, newest)).collect()
}

/// 16 bytes subspace, 4 bytes count, 8 bytes newest timestamp, big-endian.
pub fn item_bytes((subspace, count, newest): &Item) -> Vec<u8> {
    [&subspace[..], &count.to_be_bytes(), &newest.to_be_bytes()].concat()
}

/// A tally's bytes: the items, and zeros up to the limit's room.
pub fn tally(list: &[Stored], limit: u64) -> Vec<u8> {
    let mut bytes: Vec<u8> = items(list).iter().flat_map(item_bytes).collect();
    bytes.resize((ITEM * limit) as usize, 0);
    bytes
}

/// Whether a buffer is the tally of these entries; what lies beyond the limit's room is not looked at. The buffer's length is lawful.
pub fn is_tally(list: &[Stored], limit: u64, buffer: &[u8]) -> bool {
    buffer[..(ITEM * limit) as usize] == tally(list, limit)
}
