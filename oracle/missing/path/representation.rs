//! Stands for data-model/src/path/representation.rs of the repository, which is not among the customer's files.
//! Rewritten from its use in path/mod.rs. WHAT IT DECIDES: how a path lies in memory, and nothing that a caller of the
//! store could see. The layout is the one that `clone_prefix_and_lengthen_final_component` of path/mod.rs (unchanged)
//! writes: the number of components, then for each the sum of the lengths up to and with it, then the bytes (numbers
//! are `usize` in native order).
use super::Component;
use std::mem::size_of;

pub struct Representation;

const W: usize = size_of::<usize>();

impl Representation {
    fn number(buf: &[u8], at: usize) -> usize {
        usize::from_ne_bytes(buf[at..at + W].try_into().unwrap())
    }
    pub fn start_offset_of_sum_of_lengths_for_component(i: usize) -> usize {
        W * (i + 1)
    }
    pub fn sum_of_lengths_for_component(buf: &[u8], i: usize) -> usize {
        Self::number(buf, Self::start_offset_of_sum_of_lengths_for_component(i))
    }
    /// The sum of the lengths of the first `count` components.
    pub fn total_length(buf: &[u8], count: usize) -> usize {
        if count == 0 {
            0
        } else {
            Self::sum_of_lengths_for_component(buf, count - 1)
        }
    }
    pub fn start_offset_of_component(buf: &[u8], i: usize) -> usize {
        W * (Self::number(buf, 0) + 1) + Self::total_length(buf, i)
    }
    pub fn end_offset_of_component(buf: &[u8], i: usize) -> usize {
        Self::start_offset_of_component(buf, i + 1)
    }
    pub fn component<const MCL: usize>(buf: &[u8], i: usize) -> Component<'_, MCL> {
        let part = Self::start_offset_of_component(buf, i)..Self::end_offset_of_component(buf, i);
        Component::new(&buf[part]).unwrap()
    }
}
