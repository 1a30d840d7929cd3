//! Walks over everything small: the path laws over all paths of tiny instances, the Rust beside the model over all short
//! sequences of ingests.
use crate::answer::Answer;
use crate::call::{call, Call};
use crate::oracle::Way;
use crate::step;
use crate::with_model::WithModel;
use willow_data_model::Path;

/// All legal paths over all 256 bytes, in order; what `successor` and `greater_but_not_prefixed` should answer is then
/// read off the list.
fn walk<const MCL: usize, const MCC: usize, const MPL: usize>() {
    let mut comps: Vec<Vec<u8>> = vec![vec![]];
    let mut last = comps.clone();
    for _ in 0..MCL {
        last = last.iter().flat_map(|c| (0..=255).map(move |b| [&c[..], &[b]].concat())).collect();
        comps.extend(last.iter().cloned());
    }
    let mut all: Vec<Vec<Vec<u8>>> = vec![vec![]];
    let mut last = all.clone();
    for _ in 0..MCC {
        let mut next = vec![];
        for p in &last {
            let used: usize = p.iter().map(|c| c.len()).sum();
            for c in comps.iter().filter(|c| used + c.len() <= MPL) {
                next.push([&p[..], &[c.clone()]].concat());
            }
        }
        all.extend(next.iter().cloned());
        last = next;
    }
    all.sort();
    let paths: Vec<Path<MCL, MCC, MPL>> = all.iter().map(|p| Path::from_slices(p).unwrap()).collect();
    assert!(paths.is_sorted());
    let (mut succ, mut carry, mut above, mut first) = (0, 0, 0, (None, None));
    // The first later path not prefixed by i: skip the run of extensions, walking from the end.
    let mut skip = vec![0; paths.len()];
    for i in (0..paths.len()).rev() {
        let mut j = i + 1;
        while j < paths.len() && paths[i].is_prefix_of(&paths[j]) {
            j = skip[j];
        }
        skip[i] = j;
        if paths[i].successor().as_ref() != paths.get(i + 1) {
            succ += 1;
            first.0 = Some(i);
            // Each is a carry: the right answer with zeros behind it.
            let (got, want) = (paths[i].successor().unwrap(), &paths[i + 1]);
            let last = |p: &Path<MCL, MCC, MPL>| p.components().last().unwrap().to_vec();
            let (n, mut cut) = (want.component_count(), last(&got));
            cut.truncate(last(want).len());
            carry += (got.component_count() == n
                && got.create_prefix(n - 1) == want.create_prefix(n - 1)
                && cut == last(want)
                && last(&got)[cut.len()..].iter().all(|b| *b == 0)) as usize;
        }
        if paths[i].greater_but_not_prefixed().as_ref() != paths.get(j) {
            above += 1;
            first.1 = Some(i);
        }
    }
    println!(
        "{MCL}/{MCC}/{MPL}: {} paths; successor wrong at {succ} (carries: {carry}), greater_but_not_prefixed at {above}; new_max {}",
        paths.len(),
        if Path::new_max() == paths[paths.len() - 1] { "right" } else { "WRONG" }
    );
    if let Some(i) = first.0 {
        println!("  first: successor({:?}) = {:?}, the next is {:?}", paths[i], paths[i].successor(), paths.get(i + 1));
    }
    if let Some(i) = first.1 {
        println!(
            "  first: greater_but_not_prefixed({:?}) = {:?}, it is {:?}",
            paths[i],
            paths[i].greater_but_not_prefixed(),
            paths.get(skip[i])
        );
    }
}

pub fn paths() {
    walk::<0, 4, 0>();
    walk::<1, 2, 1>();
    walk::<1, 2, 2>();
    walk::<2, 1, 2>();
    walk::<2, 2, 1>();
    walk::<2, 2, 2>();
    walk::<2, 3, 2>();
    walk::<2, 4, 2>();
}

/// The ingests of the short sequences: at each of eight paths four, of which the first three differ in the digest or the length alone.
pub fn ingests() -> Vec<Call> {
    let of = |p| ["1 0 0a", "1 0 0b", "1 1 0a", "2 0 0a"].map(|rest| call(&format!("in 01 {p} {rest}")).unwrap());
    ["-", ".", "00", "61", "6162", "61/.", "61/62", "61/62/00"].into_iter().flat_map(of).collect()
}

/// The sequences of one to three of them that begin with a given one.
pub fn beginning_with<'a>(first: &'a Call, all: &'a [Call]) -> Vec<Vec<&'a Call>> {
    let two = all.iter().map(|b| vec![first, b]);
    let three = all.iter().flat_map(|b| all.iter().map(move |c| vec![first, b, c]));
    [vec![first]].into_iter().chain(two).chain(three).collect()
}

/// Every sequence of up to three of these, the Rust beside the model. Where no two entries of a sequence tie, the Rust's answers are compared as they are, but for
/// what is held; where two do, what it removes is asserted and put back.
pub fn exhaust() {
    let (set, dump) = (ingests(), call("dump").unwrap());
    let (mut n, mut with_tie, mut bad, mut held, mut back, mut removed, mut room) = (0, 0, 0, 0, 0, 0, 0);
    for calls in set.iter().flat_map(|first| beginning_with(first, &set)) {
        let mut both = WithModel::<64, 8, 128>::open(Some(2));
        let ties = step::ties(calls.iter().copied()).1 > 0;
        n += 1;
        with_tie += ties as u64;
        for c in calls.iter().copied().chain([&dump]) {
            let a = both.exec(c);
            held += matches!(a.way, Way::Held(_)) as u64;
            back += matches!(a.way, Way::Held(true)) as u64;
            removed += matches!(a.way, Way::Tied(Answer::Taken(_))) as u64;
            room += matches!(a.way, Way::Tied(Answer::Refused(8))) as u64;
            if !a.alike() || !ties && matches!(a.way, Way::Tied(_) | Way::Held(true)) {
                bad += 1;
                println!("{calls:?}\n  Rust  {:?}\n  model {:?}", a.rust, a.model);
            }
        }
    }
    println!("{n} sequences of up to 3 of {} ingests (limit 2), {} without a tie and {with_tie} with one, {bad} answers differ", set.len(), n - with_tie);
    println!("{held} resends, held, {back} of them put back in the Rust; what ties put back in the Rust after {removed} that are taken, and {room} that are refused with 8");
    if bad > 0 {
        std::process::exit(1)
    }
}
