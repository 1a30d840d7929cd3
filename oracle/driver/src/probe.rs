//! Keys, asked of the unchanged code. Its encoders and decoders are private, so they are reached through public calls
//! on a store of a single record:
//! - encoders: `ingest_entry` files an entry under both keys; they are read out of the two trees;
//! - `decode_spt_entry_key`: `forget_area` of everything decodes each subspace-first key, whatever it is;
//! - `decode_tsp_entry_key`: `area_of_interest_to_range` of everything decodes the time-first keys that lie in its range.
//! What a decoder made is seen at three windows: the subspace where it is made (params.rs), the path where it is built
//! (missing/path/builder.rs), the time in what the call then writes or answers.
use crate::answer::Answer;
use crate::convert::*;
use crate::cuts::RUST_VALUE;
use crate::oracle::*;
use crate::params::*;
use model::{Path as Comps, Subspace};
use ufotofu_codec::block_on;
use wgps::RbsrStore;
use willow_data_model::{grouping as g, *};

impl<const MCL: usize, const MCC: usize, const MPL: usize> Oracle<MCL, MCC, MPL> {
    /// A store whose one tree holds this key with a value of zeros.
    fn of_key(time_first: bool, key: &[u8]) -> Self {
        let o = Self::open(Ns::default(), None);
        o.tree(time_first).insert(key, &[0u8; RUST_VALUE]).unwrap();
        o
    }

    pub fn keys(s: &Subspace, p: &Comps, t: u64) -> Out<Answer> {
        let o = Self::open(Ns::default(), None);
        let e = model::Entry {
            namespace: [0; 16],
            subspace: *s,
            path: p.clone(),
            timestamp: t,
            payload_length: 0,
            payload_digest: [0; 32],
        };
        o.ingest(&e, &[0; 64], false, model::EntryOrigin::Local)?;
        let key = |time_first| o.raw(time_first)[0].0.to_vec();
        Ok(Answer::Keys(key(false), key(true)))
    }

    /// What the Rust's decoder makes of a key; `unreached` if no public call ever hands the key to it.
    pub fn decode(time_first: bool, key: &[u8]) -> Out<Answer> {
        let o = Self::of_key(time_first, key);
        let all: g::Area<MCL, MCC, MPL, Sub> = g::Area::new_full();
        SEEN.with(|s| s.take());
        let time = if time_first {
            // So that the range is open above, as the full area is (README.md, calls that end in 01).
            PathBuilder::<MCL, MCC, MPL>::refuse_once();
            let aoi = g::AreaOfInterest::new(all, u64::MAX, u64::MAX);
            let r = block_on(
                RbsrStore::<MCL, MCC, MPL, Ns, Sub, Dig, Tok, NoPrint>::area_of_interest_to_range(&*o.store, &aoi),
            );
            r.times().start
        } else {
            block_on(o.store.forget_area(&all, None)).unwrap();
            let written = o.tree(true).take_journal().remove(0).0;
            u64::from_be_bytes(written[..8].try_into().unwrap())
        };
        Ok(match SEEN.with(|s| s.take()) {
            Some(s) => Answer::Triple(s.0, comps(&PathBuilder::<MCL, MCC, MPL>::last_built().unwrap()), time),
            None => Answer::Said("unreached".into()),
        })
    }
}
