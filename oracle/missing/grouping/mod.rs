//! Stands for data-model/src/grouping/mod.rs of the repository, which is not among the customer's files. It decides
//! nothing: names only.
mod area;
pub use area::*;
mod area_of_interest;
pub use area_of_interest::*;
mod range;
pub use range::*;
mod range_3d;
pub use range_3d::*;
