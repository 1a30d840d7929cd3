//! Every export of the archive as one safe function, over slices of any length and values as they lie in memory: short buffers, illegal paths, yes or no
//! as any byte, and what lies beyond a store's room can be said here. The names are those of `bindings/c/virebony.h` without their `vb_`, and a call's
//! comment lists its refusals in the order in which they are checked.
//!
//! A refused call has changed no byte of any buffer; the state in its answer is the one that it was handed (all 0 for a refused opening), and all else
//! in the answer is 0, but for a prune list by value, which comes back as it was handed in, and a reader's position and what is left from it. An entry, subspace, path or origin
//! that is answered where there is none is all 0. Handed in, every byte but 0 means yes; answered, it is 0 or 1.
//!
//! ```
//! use virebony::raw;
//! let (mut spt, mut tsp) = (vec![7; 2 * raw::RECORD_MOST], vec![7; 2 * raw::RECORD_MOST]);
//! let (mut spt_dir, mut tsp_dir, mut tally) = ([7; 4], [7; 3], [7; 2 * raw::ITEM]); // the second directory is one number too short
//! let mut store = raw::BuffersMut { spt: &mut spt, spt_dir: &mut spt_dir, tsp: &mut tsp, tsp_dir: &mut tsp_dir, tally: &mut tally };
//! assert_eq!(raw::open(&[0; 16], 2, &mut store).refusal, 2);
//! let opened = raw::open(&[0; 16], 1, &mut store);
//! assert_eq!(opened.state.limit, 1);
//! let descends = raw::Path { ends: [2, 1, 0, 0, 0, 0, 0, 0], count: 2, ..raw::Path::default() };
//! let area = raw::Area { any_subspace: 255, path: descends, ..raw::Area::default() };
//! assert_eq!(raw::count_area(opened.state, store.as_buffers(), area).refusal, 4);
//! assert_eq!((spt_dir, tsp_dir, &tally[27..29]), ([0, 0, 7, 7], [0, 0, 7], &[0, 7][..])); // what lies beyond stays
//! ```
pub use crate::sys::*;
