//! Virebony: an entry store for field notebooks whose behaviour is proved, linked as `libvirebony.a`. The names are those of willow-rs, whose
//! `store_simple_sled` it carries over (entries without payloads), where it has one.
//!
//! A reading may be sent as often as a tablet likes: an entry that is stored already is [held](EntryIngestionSuccess::Held), and nothing changes. Payloads are
//! kept elsewhere; how much of one has arrived is [recorded](Store::record_available_length) here, so that a listing can pass over those that are not all there.
//! With each entry stands [where it came from](EntryOrigin), as it was filed. A [`Listing`] stays open while readings come in: it remembers the last key that it
//! gave, and goes on above it in the store as it then is.
//!
//! - [`Store`] owns its buffers and takes values that are legal by their types: [`Path`], [`Entry`], [`Area`], [`Range3d`].
//! - [`raw`] has every export of the archive as one safe function, over buffers of any length and values of any kind.
//!
//! What is proved is what the archive's calls answer and leave; the Rust around them is tested. The archive is found by the variable
//! `VIREBONY_LIB_DIR`; where there is none, the build calls the repository's `tests/archive`. It links into x86-64 Linux programs.
//!
//! ```
//! use virebony::{Area, AuthorisedEntry, Entry, EntryOrigin, Path, Store, SubspaceId};
//! let mut store = Store::open([1; 16], 16)?; // namespace, and how many entries at most
//! let path = Path::from_slices(&["ward", "3"])?;
//! let entry = Entry::new([1; 16], SubspaceId { high: 0, low: 9 }, path, 100, 5, [0; 32]);
//! store.ingest_entry(AuthorisedEntry::new(entry, [7; 64]), false, EntryOrigin::Local)?;
//! for stored in store.query_area(&Area::new_full(), Default::default())? {
//!     println!("{} at {}, {:?}", stored.entry().entry().path(), stored.entry().entry().timestamp(), stored.origin());
//! }
//! assert_eq!(store.tally().next().map(|item| (item.count, item.newest)), Some((1, 100))); // of each subspace, without a walk
//! # Ok::<(), virebony::Refusal>(())
//! ```
#![deny(unsafe_code, missing_docs)]

mod entry;
mod grouping;
mod listing;
mod path;
pub mod raw;
mod refusal;
mod store;
mod sys;
mod tally;

pub use entry::{
    AuthorisationToken, AuthorisedEntry, Entry, EntryOrigin, LengthyAuthorisedEntry, NamespaceId, PayloadDigest, Recency, SubspaceId, Timestamp,
};
pub use grouping::{Area, AreaOfInterest, AreaSubspace, Range, Range3d, RangeEnd};
pub use listing::{Entries, Listing};
pub use path::Path;
pub use refusal::Refusal;
pub use store::{EntryIngestionSuccess, QueryIgnoreParams, Store};
pub use tally::{Tally, TallyItem};
