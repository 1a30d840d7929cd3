//! A call, and how it is made.
use crate::call::Call;
use model::{Entry, ORIGIN};

#[derive(Clone, Debug)]
pub struct Step {
    pub call: Call,
    pub front: Front,
    /// Junk wherever a value is not looked at, how long buffers are, which export is taken; 0: none.
    pub salt: u64,
}

/// What is wrong with what is handed in beside the call's own values. The Rust knows nothing of it: the model judges.
/// Where another limit is no fault after all, the call is made without it.
#[derive(Clone, Copy, Debug, PartialEq)]
pub enum Front {
    Plain,
    /// Another limit in the state.
    Limit(u64),
    /// Another count in the state.
    Count(u64),
    /// One of the six buffers (two trees with their directories, the tally, a prune list), or a key's, shorter than it should be.
    Short(usize, usize),
    /// A byte of a tree (0, 2) or of the tally (4), or a number of a directory (1, 3), at a place modulo its room, is changed by so much.
    Changed(usize, u64, u32),
    /// The origin of the entry at this place of the listing, in both trees: another kind, or local with a number.
    Origin(usize, [u8; ORIGIN]),
}

/// How many entries are handed in, and how many of them tie with one that was handed in before since the opening, whatever became of it. An opening that is
/// refused is none.
pub fn ties<'a>(calls: impl IntoIterator<Item = &'a Call>) -> (u64, u64) {
    let (mut handed, mut ingests, mut ties): (Vec<&Entry>, u64, u64) = (vec![], 0, 0);
    for call in calls {
        match call {
            Call::Open(_, None | Some(1..=1024)) => handed.clear(),
            Call::Ingest(e, ..) => {
                ingests += 1;
                ties += handed.iter().any(|x| x.ties(e)) as u64;
                handed.push(e);
            }
            _ => {}
        }
    }
    (ingests, ties)
}

/// Whether the call changes a store that is handed in, and so is lent its tally.
pub fn changes(c: &Call) -> bool {
    matches!(c, Call::Ingest(..) | Call::Forget(..) | Call::ForgetArea(..))
}

/// Whether the call is one of 02's U4, which write into the trees of a store that is handed in and are not lent its tally.
pub fn records(c: &Call) -> bool {
    matches!(c, Call::Record(..) | Call::Unrecord(..))
}

/// Whether the call is a step of a listing (02, U7), which the Rust has not.
pub fn steps(c: &Call) -> bool {
    matches!(c, Call::More(_) | Call::Next(..))
}

/// Whether the call is made on a store that is handed in.
pub fn on_store(c: &Call) -> bool {
    match c {
        Call::Bent(c) => on_store(c),
        c if changes(c) || records(c) => true,
        Call::Entry(..) | Call::QueryArea(..) | Call::IncludedIn(..) => true,
        Call::QueryRange(..) | Call::Count(..) | Call::Size(..) | Call::Aoi(..) => true,
        c if steps(c) => true,
        _ => false,
    }
}
