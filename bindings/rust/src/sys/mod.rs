//! The door as C has it (`bindings/c/virebony.h`): every export declared once, and called by one safe function. This module is the only one with
//! `unsafe`; [`crate::raw`] shows it to everybody.
//!
//! Why the calls are safe: the archive is proved to answer for every value that the types below can hold. What C owes beside (pointers that are valid,
//! aligned, and do not overlap where one is written) is what Rust's slices are.
#![allow(unsafe_code)]

mod answers;
mod calls;
mod values;

pub use answers::*;
pub use calls::*;
pub use values::*;

/// Asserts a struct's size and where its fields lie, as at the end of `virebony.h`; a false one does not compile.
macro_rules! layout {
    ($($name:ident: $size:literal $(, $field:ident $offset:literal)*;)*) => {
        $(const _: () = assert!(std::mem::size_of::<$name>() == $size $(&& std::mem::offset_of!($name, $field) == $offset)*, stringify!($name));)*
    };
}
use layout;
