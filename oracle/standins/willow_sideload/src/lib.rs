//! Stands for the crate `willow_sideload`: the trait that the store implements. It decides nothing: it has one signature,
//! read off the store's implementation, and no code.
#![allow(async_fn_in_trait)]
use willow_data_model::{grouping::Area, Store};

pub trait SideloadStore<const MCL: usize, const MCC: usize, const MPL: usize, N, S, PD, AT>:
    Store<MCL, MCC, MPL, N, S, PD, AT>
{
    async fn count_area(&self, area: &Area<MCL, MCC, MPL, S>) -> Result<usize, Self::Error>;
}
