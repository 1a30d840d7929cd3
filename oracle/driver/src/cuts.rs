//! What the comparison with the Rust leaves out (02, U6: "the Rust comparison skips them"): where an entry came from. The Rust is handed the origin and tells it to
//! its events; it keeps none. So three things are cut, each a place of docs/DIFFERENCES.md, all of them here and nothing else (oracle/intended). Against the model
//! nothing is cut.
use crate::answer::{Answer, Records, Shown};

/// Bytes of a value of the Rust's.
pub const RUST_VALUE: usize = model::VALUE - model::ORIGIN;

/// 14.2: a value, or a record, which ends with it, without its last nine bytes.
pub fn value(v: &[u8]) -> &[u8] {
    &v[..v.len() - model::ORIGIN]
}

/// An answer of the port's or of the model's as the Rust can give it: 14.1, entries without their origins; 14.2, values without their last nine bytes.
pub fn cut(answer: &Answer) -> Answer {
    let bare = |x: &Shown| Shown { origin: None, ..x.clone() };
    let records = |r: &Records| r.iter().map(|(k, v)| (k.clone(), value(v).to_vec())).collect();
    match answer {
        Answer::Found(x) => Answer::Found(x.as_ref().map(bare)),
        Answer::List(l) => Answer::List(l.iter().map(bare).collect()),
        Answer::Next(x) => Answer::Next(x.as_ref().map(|(x, key)| (bare(x), key.clone()))),
        Answer::Dump(a, b, items) => Answer::Dump(records(a), records(b), items.clone()),
        other => other.clone(),
    }
}

/// 14.3: how much longer a record of the port's is than the Rust's. The pairs of a prune list are reckoned with so many bytes more for each record.
pub const LONGER: usize = model::ORIGIN;
