//! Stands for the crate `wgps`: the trait that the store implements, and the types it names. It decides nothing: it has
//! signatures, read off the store's implementation, and no code.
#![allow(async_fn_in_trait)]
use std::rc::Rc;
use ufotofu::Producer;
use willow_data_model::{
    grouping::{AreaOfInterest, Range3d},
    LengthyAuthorisedEntry, QueryIgnoreParams, Store, StoreEvent,
};

pub mod parameters {
    use willow_data_model::LengthyAuthorisedEntry;

    pub trait Fingerprint<const MCL: usize, const MCC: usize, const MPL: usize, N, S, PD, AT>:
        Sized
    {
        const NEUTRAL: Self;
        fn singleton(entry: LengthyAuthorisedEntry<MCL, MCC, MPL, N, S, PD, AT>) -> Self;
        fn combine(self, other: Self) -> Self;
    }
}

pub enum SplitAction<FP> {
    SendFingerprint(FP),
    SendEntries(usize),
}
pub type RangeSplit<const MCL: usize, const MCC: usize, const MPL: usize, S, FP> =
    (Range3d<MCL, MCC, MPL, S>, SplitAction<FP>);
pub struct PartitionOpts {
    pub target_split_count: usize,
    pub min_range_size: usize,
}

pub trait RbsrStore<const MCL: usize, const MCC: usize, const MPL: usize, N, S, PD, AT, FP>:
    Store<MCL, MCC, MPL, N, S, PD, AT>
{
    fn query_range(
        self: Rc<Self>,
        range: &Range3d<MCL, MCC, MPL, S>,
        ignore: QueryIgnoreParams,
    ) -> impl Producer<Item = LengthyAuthorisedEntry<MCL, MCC, MPL, N, S, PD, AT>>;

    fn subscribe_range(
        self: Rc<Self>,
        range: &Range3d<MCL, MCC, MPL, S>,
        ignore: QueryIgnoreParams,
    ) -> impl Producer<Item = StoreEvent<MCL, MCC, MPL, N, S, PD, AT>>;

    fn query_and_subscribe_range(
        self: Rc<Self>,
        range: Range3d<MCL, MCC, MPL, S>,
        ignore: QueryIgnoreParams,
    ) -> Result<
        impl Producer<
            Item = LengthyAuthorisedEntry<MCL, MCC, MPL, N, S, PD, AT>,
            Final = impl Producer<
                Item = StoreEvent<MCL, MCC, MPL, N, S, PD, AT>,
                Final = (),
                Error = Self::Error,
            >,
            Error = Self::Error,
        >,
        Self::Error,
    >;

    async fn summarise(
        &self,
        range: &Range3d<MCL, MCC, MPL, S>,
    ) -> Result<(FP, usize), Self::Error>;

    async fn area_of_interest_to_range(
        &self,
        aoi: &AreaOfInterest<MCL, MCC, MPL, S>,
    ) -> Range3d<MCL, MCC, MPL, S>;

    async fn partition_range(
        self: Rc<Self>,
        range: Range3d<MCL, MCC, MPL, S>,
        options: PartitionOpts,
    ) -> Result<
        impl Producer<Item = RangeSplit<MCL, MCC, MPL, S, FP>, Final = (), Error = Self::Error>,
        Self::Error,
    >;
}
