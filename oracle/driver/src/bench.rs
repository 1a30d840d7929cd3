//! The Rust's speed, in memory and on one thread: calls per second at 64, 256 and 1,024 entries, in one subspace and
//! over sixteen. Processor time of this thread is counted, since the machine may be shared.
use crate::convert::drain;
use crate::oracle::Oracle;
use crate::params::*;
use ufotofu_codec::block_on;
use wgps::RbsrStore;
use willow_data_model::{grouping as g, *};
use willow_sideload::SideloadStore;

type O = Oracle<64, 8, 128>;

fn at(i: u32, subs: u32) -> (Sub, Path<64, 8, 128>) {
    let mut sub = Sub([0; 16]);
    sub.0[15] = (i % subs) as u8;
    (sub, Path::from_slices(&[&b"season"[..], &i.to_be_bytes()[2..]]).unwrap())
}
fn ingest(o: &O, i: u32, subs: u32, t: u64) {
    let (sub, path) = at(i, subs);
    let e = Entry::new(Ns([0; 16]), sub, path, t, 3, Dig([10; 32]));
    let e = AuthorisedEntry::new(e, Tok([0; 64])).unwrap();
    let r = block_on(o.store.ingest_entry(e, false, EntryOrigin::Local));
    assert!(matches!(r, Ok(EntryIngestionSuccess::Success)));
}
fn fill(n: u32, subs: u32) -> O {
    let o = O::open(Ns([0; 16]), None);
    (0..n).for_each(|i| ingest(&o, i, subs, 5));
    o
}

/// Seconds that this thread has had a processor for.
fn cpu() -> f64 {
    match std::fs::read_to_string("/proc/thread-self/schedstat") {
        Ok(t) => t.split(' ').next().unwrap().parse::<f64>().unwrap() / 1e9,
        Err(_) => std::time::UNIX_EPOCH.elapsed().unwrap().as_secs_f64(),
    }
}
/// Rounds of `work`, each of some number of calls, for about a quarter of a second; calls per second.
fn rate(mut work: impl FnMut(u32) -> u32) -> f64 {
    let (start, mut calls, mut round) = (cpu(), 0, 0);
    while round == 0 || cpu() - start < 0.25 {
        calls += work(round);
        round += 1;
    }
    calls as f64 / (cpu() - start)
}

pub fn run() {
    println!("Calls per second. filling: a new store, each entry once. replacing: a newer entry at a stored path. resend: a");
    println!("stored entry again. forget: forget_entry of a stored path (the store is filled again, untimed). listing: the");
    println!("full 3d range, drained, in entries per second. count: count_area of everything.\n");
    println!("| subspaces | entries | filling | replacing | resend | forget | listing | count |");
    println!("|---|---|---|---|---|---|---|---|");
    for subs in [1, 16] {
        for n in [64, 256, 1024] {
            let filling = rate(|_| {
                fill(n, subs);
                n
            });
            let o = fill(n, subs);
            let any = |k: u32| k.wrapping_mul(7919) % n;
            let resend = rate(|k| {
                ingest(&o, any(k), subs, 5);
                1
            });
            let replacing = rate(|k| {
                ingest(&o, any(k), subs, 6 + k as u64);
                1
            });
            assert_eq!(o.raw(false).len(), n as usize);
            let listing = rate(|_| {
                let all = g::Range3d::new_full();
                let l = drain(RbsrStore::<64, 8, 128, Ns, Sub, Dig, Tok, NoPrint>::query_range(
                    o.store.clone(),
                    &all,
                    QueryIgnoreParams::default(),
                ));
                assert_eq!(l.len(), n as usize);
                n
            });
            let count = rate(|_| {
                assert_eq!(block_on(o.store.count_area(&g::Area::new_full())), Ok(n as usize));
                1
            });
            // Each path once, until the store is empty.
            let (mut spent, mut calls) = (0.0, 0);
            while spent < 0.01 {
                let o = fill(n, subs);
                let start = cpu();
                for i in 0..n {
                    let (sub, path) = at(i, subs);
                    assert!(block_on(o.store.forget_entry(&sub, &path, None)).is_ok());
                }
                spent += cpu() - start;
                calls += n;
                assert_eq!(o.raw(false).len(), 0);
            }
            let forget = calls as f64 / spent;
            println!("| {subs} | {n} | {filling:.0} | {replacing:.0} | {resend:.0} | {forget:.0} | {listing:.0} | {count:.0} |");
        }
    }
}
