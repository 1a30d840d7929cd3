//! Which cases of the escape table (02, U5) a reader meets in a key, up to where it stops.
use model::FIELD;

pub const ROWS: [&str; 9] = [
    "read: an ordinary byte", "read: 00 then 00", "read: 00 then 01", "read: 00 then 02", "read: 00 then anything else", "read: 00 at the end",
    "read: 00 then 00, a component has begun", "read: 00 then anything else, a component has begun", "read: 00 at the end, a component has begun",
];

/// The rows of the cases that a reader meets in a key's path. A key of fewer than 24 bytes is not read.
pub fn cases(time_first: bool, k: &[u8]) -> Vec<&'static str> {
    let mut met = vec![];
    if k.len() < 24 {
        return met;
    }
    let (path, mut at) = (&k[if time_first { 24 } else { 16 }..], 0);
    let (mut count, mut total, mut len) = (0, 0, 0);
    while let Some(b) = path.get(at) {
        let case = match (b, path.get(at + 1)) {
            (0, Some(m)) => 1 + (*m).min(3) as usize,
            (0, None) => 5,
            _ => 0,
        };
        met.push(ROWS[case]);
        met.extend([(1, 6), (4, 7), (5, 8)].iter().filter(|(c, _)| *c == case && len > 0).map(|(_, row)| ROWS[*row]));
        match case {
            0 | 3 => (at, total, len) = (at + 1 + case / 3, total + 1, len + 1),
            2 => (at, count, len) = (at + 2, count + 1, 0),
            _ => break,
        }
        if count == FIELD.count && len > 0 || len > FIELD.component || total > FIELD.total || count > FIELD.count {
            break;
        }
    }
    met.sort();
    met.dedup();
    met
}
