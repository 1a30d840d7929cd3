//! MODEL, no oracle: the customer's document 01 as read, with 02's U1 to U7, over a plain list of entries. It is a judge beside the
//! customer's Rust, and the only one of what the Rust does not have: refusals 1, 2, 3, 5, 8, 10, 11 and 12, the verdict held, entries that tie and stay, how much
//! of a payload has arrived, where an entry came from, buffers, the tally, the steps of a listing. It is written from the papers, leans on the standard library alone, and shares no code with the port or with the Rust.
mod image;
mod keys;
mod paths;
mod store;
mod tally;
mod values;
pub use image::*;
pub use keys::*;
pub use paths::*;
pub use store::*;
pub use tally::*;
pub use values::*;
