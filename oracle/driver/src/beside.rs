//! The port and the customer's Rust side by side, in one run on one thread: the same calls on the same stores, each answer compared,
//! and the best time of many rounds of each. Built by bench/beside, which links the port's archive: the calls go through its
//! door.
mod door;
mod params;
use door::{place, Port};
use driver::cuts::value;
use either::Either;
use model::origin_bytes;
use params::*;
use std::hint::black_box;
use std::rc::Rc;
use std::time::Instant;
use ufotofu::Producer;
use ufotofu_codec::block_on;
use wgps::RbsrStore;
use willow_data_model::{grouping as g, *};
use willow_sideload::SideloadStore;
use willow_store_simple_sled::StoreSimpleSled;

type P = Path<64, 8, 128>;
type Ar = g::Area<64, 8, 128, Sub>;

extern "C" {
    fn memcmp(a: *const u8, b: *const u8, n: usize) -> i32;
}

/// The Rust's store over the stand-in for sled.
struct Rust {
    store: Rc<StoreSimpleSled<64, 8, 128, Ns, Sub, Dig, Tok>>,
    db: sled::Db,
}
type Raw = Vec<(sled::IVec, sled::IVec)>;
impl Rust {
    fn open() -> Rust {
        let db = sled::Db::default();
        Rust { store: Rc::new(StoreSimpleSled::new(&Ns([0; 16]), db.clone()).unwrap()), db }
    }
    fn tree(&self, tsp: bool) -> sled::Tree {
        self.db.open_tree([tsp as u8]).unwrap()
    }
    fn raw(&self, tsp: bool) -> Raw {
        self.tree(tsp).iter().flatten().collect()
    }
    fn ingest(&self, e: AuthorisedEntry<64, 8, 128, Ns, Sub, Dig, Tok>) {
        let r = block_on(self.store.ingest_entry(e, false, EntryOrigin::Local));
        assert!(matches!(r, Ok(EntryIngestionSuccess::Success)));
    }
    fn restore(&self, from: &[Raw; 2]) {
        for tsp in [false, true] {
            let t = self.tree(tsp);
            t.take_journal();
            t.clear().unwrap();
            for (k, v) in &from[tsp as usize] {
                t.insert(k, v).unwrap();
            }
        }
    }
    /// A listing of all: how many it gives, `most` at most.
    fn list(&self, most: usize) -> usize {
        let range = g::Range3d::new_full();
        let mut p = RbsrStore::<64, 8, 128, Ns, Sub, Dig, Tok, NoPrint>::query_range(self.store.clone(), &range, QueryIgnoreParams::default());
        let mut n = 0;
        while n < most {
            match block_on(p.produce()) {
                Ok(Either::Left(e)) => black_box(e),
                _ => break,
            };
            n += 1;
        }
        n
    }
    fn interest(&self, area: &Ar, count: u64, size: u64) -> u64 {
        let aoi = g::AreaOfInterest::new(area.clone(), count, size);
        // The area's range ending as document 01 says: oracle/README.md, "Calls that end in 01".
        PathBuilder::<64, 8, 128>::refuse_once();
        let r = block_on(RbsrStore::<64, 8, 128, Ns, Sub, Dig, Tok, NoPrint>::area_of_interest_to_range(&*self.store, &aoi));
        r.times().start
    }
}

/// How an entry's path looks: two components of 6 and 2 bytes; the same with another time for each entry; eight of 16; the same of bytes 00, each
/// of which takes two in a key; the same with every other byte 00; eight of 7, of bytes 00; two of 64 and two of 60, of bytes 00.
#[derive(Clone, Copy, PartialEq)]
enum Shape {
    Short,
    Times,
    Long,
    Zeros,
    Mixed,
    Small,
    Large,
    Odd,
}
fn sub(i: u32, subs: u32) -> Sub {
    let mut s = Sub([0; 16]);
    s.0[15] = (i % subs) as u8;
    s
}
fn path(i: u32, shape: Shape) -> P {
    let last = i.to_be_bytes();
    match shape {
        Shape::Short | Shape::Times => Path::from_slices(&[&b"season"[..], &last[2..]]).unwrap(),
        _ => {
            let (count, len) = match shape {
                Shape::Small => (8, 7),
                Shape::Large => (2, 64),
                Shape::Odd => (2, 60),
                _ => (8, 16),
            };
            let zero = |j| shape != Shape::Long && (shape != Shape::Mixed || j % 2 == 1);
            let mut c = vec![(0..len).map(|j| if zero(j) { 0 } else { b'a' }).collect::<Vec<u8>>(); count];
            c[count - 1][len - 4..].copy_from_slice(&last);
            Path::from_slices(&c.iter().map(|c| &c[..]).collect::<Vec<_>>()).unwrap()
        }
    }
}
/// Entry i at time t: the even ones are of another time than the odd ones.
fn entry(i: u32, subs: u32, shape: Shape, t: u64) -> AuthorisedEntry<64, 8, 128, Ns, Sub, Dig, Tok> {
    let e = Entry::new(Ns([0; 16]), sub(i, subs), path(i, shape), t, 3, Dig([10; 32]));
    AuthorisedEntry::new(e, Tok([5; 64])).unwrap()
}
fn time(i: u32, shape: Shape) -> u64 {
    match shape {
        Shape::Times => 1_700_000_000_000_000 + (i as u64 + 1).wrapping_mul(0x9e37_79b9_7f4a_7c15) % 100_000_000_000,
        _ => 100 + (i % 2) as u64,
    }
}
/// The subspace-first key and the value, as the Rust writes them.
fn encoded(i: u32, subs: u32, shape: Shape, t: u64) -> (Vec<u8>, Vec<u8>) {
    let one = Rust::open();
    one.ingest(entry(i, subs, shape, t));
    let (k, v) = one.raw(false).remove(0);
    (k.to_vec(), v.to_vec())
}

/// The same for a call that changes the port's store, which is put back before each round.
fn best_of(most: f64, port: &mut Port, from: &Port, work: impl Fn(&mut Port)) -> f64 {
    let port = std::cell::RefCell::new(port);
    best(most, || port.borrow_mut().restore(from), |_| work(&mut port.borrow_mut()))
}
/// Microseconds, the best of many rounds within a time.
fn best<S>(most: f64, mut before: impl FnMut() -> S, mut work: impl FnMut(S)) -> f64 {
    let (start, mut best, mut rounds) = (Instant::now(), f64::MAX, 0);
    while rounds < 9 || (start.elapsed().as_secs_f64() < most && rounds < 3000) {
        let s = before();
        let t = Instant::now();
        work(s);
        best = best.min(t.elapsed().as_secs_f64() * 1e6);
        rounds += 1;
    }
    best
}

struct Row {
    call: &'static str,
    subs: u32,
    n: u32,
    port: f64,
    rust: f64,
    check: f64,
}

/// The Rust's records and the port's without their origins, which the Rust has not; all are filed as local.
fn same(port: &Port, rust: &Rust, what: &str) {
    let local = origin_bytes(model::EntryOrigin::Local);
    for tsp in [false, true] {
        let want: Vec<Vec<u8>> = rust.raw(tsp).iter().map(|(k, v)| [&k[..], &v[..]].concat()).collect();
        let records = port.records(tsp);
        assert!(records.iter().all(|r| r.ends_with(&local)), "{what}: not all are local");
        assert!(records.into_iter().map(value).collect::<Vec<_>>() == want, "{what}: the trees differ");
    }
    port.check();
}

/// A store of n entries in both, filled by the calls themselves where that is quick.
fn filled(n: u32, subs: u32, shape: Shape, limit: usize) -> (Port, Rust) {
    let (mut port, rust) = (Port::open(limit), Rust::open());
    for i in 0..n {
        rust.ingest(entry(i, subs, shape, time(i, shape)));
    }
    for (k, v) in rust.raw(false) {
        let count = port.count() + 1;
        assert_eq!(port.ingest(&place(&k, &v)), count);
    }
    same(&port, &rust, "filled");
    (port, rust)
}

fn rows(n: u32, subs: u32, shape: Shape, secs: f64, out: &mut Vec<Row>) {
    let limit = n as usize;
    let (full, rust) = filled(n, subs, shape, limit);
    let raws = [rust.raw(false), rust.raw(true)];
    let check = best(secs, || (), |_| full.check());
    let mut port = full.clone();
    let mut push = |call, port, rust, check| out.push(Row { call, subs, n, port, rust, check });
    let i = n / 2 + 1;

    // The last of n entries: the store has one less.
    let (k, v) = encoded(i, subs, shape, time(i, shape));
    let at = place(&k, &v);
    let less = {
        let mut p = full.clone();
        assert_eq!(p.forget_entry(&at), n as usize - 1);
        p
    };
    let check_less = best(secs, || (), |_| less.check());
    let a = best_of(secs, &mut port, &less, |p| assert_eq!(p.ingest(&at), n as usize));
    let b = best(
        secs,
        || {
            block_on(rust.store.forget_entry(&sub(i, subs), &path(i, shape), None)).unwrap();
            entry(i, subs, shape, time(i, shape))
        },
        |e| rust.ingest(e),
    );
    same(&port, &rust, "ingest");
    push("ingest", a, b, check_less);

    // The port holds it already, the Rust takes it anew; the bytes are then the same.
    let a = best_of(secs, &mut port, &full, |p| assert_eq!(p.resend(&at), n as usize));
    let b = best(secs, || entry(i, subs, shape, time(i, shape)), |e| rust.ingest(e));
    same(&port, &rust, "resend");
    push("resend", a, b, check);

    // A newer one at its place.
    let (k9, v9) = encoded(i, subs, shape, 900);
    let at9 = place(&k9, &v9);
    let a = best_of(secs, &mut port, &full, |p| assert_eq!(p.ingest(&at9), n as usize));
    let b = best(
        secs,
        || {
            block_on(rust.store.forget_entry(&sub(i, subs), &path(i, shape), None)).unwrap();
            rust.ingest(entry(i, subs, shape, time(i, shape)));
            entry(i, subs, shape, 900)
        },
        |e| rust.ingest(e),
    );
    same(&port, &rust, "replace");
    push("replace", a, b, check);
    rust.restore(&raws);

    let a = best_of(secs, &mut port, &full, |p| assert_eq!(p.forget_entry(&at), n as usize - 1));
    let b = best(
        secs,
        || {
            for tsp in [false, true] {
                rust.tree(tsp).take_journal();
            }
            let (key, value) = &raws[0].iter().find(|r| r.0[..] == k[..]).unwrap();
            rust.tree(false).insert(key, value).unwrap();
            let tk = [&k[k.len() - 8..], &k[..k.len() - 8]].concat();
            rust.tree(true).insert(tk, value).unwrap();
        },
        |_| block_on(rust.store.forget_entry(&sub(i, subs), &path(i, shape), None)).unwrap(),
    );
    same(&port, &rust, "forget_entry");
    push("forget_entry", a, b, check);
    rust.restore(&raws);

    // Half: those of the later time.
    let any = place(&[0; 26], &[]);
    let half: Ar = g::Area::new(g::AreaSubspace::Any, Path::new_empty(), g::Range::new(101, g::RangeEnd::Open));
    let a = best_of(secs, &mut port, &full, |p| assert_eq!(p.forget_area(true, &any, 101), n as usize / 2));
    let b = best(
        secs,
        || rust.restore(&raws),
        |_| assert_eq!(block_on(rust.store.forget_area(&half, None)), Ok(n as usize / 2)),
    );
    same(&port, &rust, "forget_area");
    push("forget_area of half", a, b, check);
    rust.restore(&raws);
    port.restore(&full);

    let all: Ar = g::Area::new_full();
    let a = best(secs, || (), |_| assert_eq!(port.count_area(true, &any, 0), n as usize));
    let b = best(secs, || (), |_| assert_eq!(block_on(rust.store.count_area(&all)), Ok(n as usize)));
    push("count_area of all", a, b, check);

    // A small area: the one path, of the one subspace.
    let one: Ar = g::Area::new(g::AreaSubspace::Id(sub(i, subs)), path(i, shape), g::Range::new(0, g::RangeEnd::Open));
    let a = best(secs, || (), |_| assert_eq!(port.count_area(false, &at, 0), 1));
    let b = best(secs, || (), |_| assert_eq!(block_on(rust.store.count_area(&one)), Ok(1)));
    push("count_area of one", a, b, check);

    // Behind the first half, by the key of its last record.
    let half = port.records(false)[n as usize / 2 - 1..=n as usize / 2].to_vec();
    let a = best(secs, || (), |_| assert_eq!(port.list(true, &any, 0, Port::key(half[0])), Some(half[1])));
    let b = best(secs, || (), |_| assert_eq!(rust.list(1), 1));
    push("one listing step", a, b, check);

    let a = best(
        secs,
        || (),
        |_| {
            let (mut last, mut found) = (&[][..], 0);
            while let Some(record) = port.list(true, &any, 0, last) {
                found += 1;
                last = Port::key(record);
            }
            assert_eq!(found, n);
        },
    );
    let b = best(secs, || (), |_| assert_eq!(rust.list(usize::MAX), n as usize));
    push("full listing", a, b, check * (n + 2) as f64);

    let most = n as u64 / 4;
    let a = best(secs, || (), |_| assert_eq!(port.interest(true, &any, 0, most, u64::MAX), 101));
    let b = best(secs, || (), |_| assert_eq!(rust.interest(&all, most, u64::MAX), 101));
    push("area_of_interest_to_range", a, b, check);
}

fn validation(n: u32, shape: Shape, secs: f64) {
    let (port, _) = filled(n, 1, shape, n as usize);
    let other = port.clone();
    let check = best(secs, || (), |_| port.check());
    let (mine, theirs) = (port.bytes(), other.bytes());
    let cmp = best(secs, || (), |_| {
        for (a, b) in mine.iter().zip(&theirs) {
            assert_eq!(black_box(unsafe { memcmp(a.as_ptr(), b.as_ptr(), a.len()) }), 0);
        }
    });
    let used: usize = port.records(false).iter().map(|r| r.len()).sum();
    let total: usize = mine.iter().map(|p| p.len()).sum();
    println!("| {} | {} | {} | {} | {:.1} | {:.1} | {:.1} |", n, used / n as usize, 2 * used, total, check, cmp, check / cmp);
}

fn main() {
    let secs: f64 = std::env::args().nth(1).map_or(0.3, |s| s.parse().unwrap());
    println!("Microseconds, the best of many rounds. Ratio: the Rust's time by the port's, above 1 the port is ahead. Check: the share of the");
    println!("port's time that is the validation of the store. Growth: the port's time at 1,024 by that at 256.\n");
    for (shape, name) in [(Shape::Short, "paths of two components, 8 bytes"), (Shape::Long, "paths of eight components, 128 bytes")] {
        let mut all: Vec<Row> = Vec::new();
        for subs in [1, 16] {
            for n in [64, 256, 1024] {
                rows(n, subs, shape, secs, &mut all);
            }
        }
        println!("## {name}\n");
        println!("| call | subspaces | entries | port | Rust | ratio | check | growth |\n|---|---|---|---|---|---|---|---|");
        let mut calls: Vec<&str> = Vec::new();
        for r in &all {
            if !calls.contains(&r.call) {
                calls.push(r.call);
            }
        }
        for c in calls {
            for r in all.iter().filter(|r| r.call == c) {
                let at = |n| all.iter().find(|x| x.call == c && x.subs == r.subs && x.n == n).unwrap().port;
                let growth = if r.n == 1024 { format!("{:.2}", at(1024) / at(256)) } else { String::new() };
                println!("| {} | {} | {} | {:.1} | {:.1} | {:.2} | {:.0}% | {} |", c, r.subs, r.n, r.port, r.rust, r.rust / r.port, 100.0 * r.check / r.port, growth);
            }
        }
        println!();
    }
    println!("## Validation of a full store beside one memcmp pass over its buffers\n");
    println!("| entries | bytes a record | bytes of records | bytes in all | validation | memcmp | factor |\n|---|---|---|---|---|---|---|");
    for shape in [Shape::Short, Shape::Times, Shape::Long, Shape::Zeros, Shape::Mixed, Shape::Small, Shape::Large, Shape::Odd] {
        for n in [64, 256, 1024] {
            validation(n, shape, secs);
        }
    }
}
