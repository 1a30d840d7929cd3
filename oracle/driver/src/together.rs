//! together KIND FROM TO N ..: for each seed from FROM to TO, N random calls of that KIND go through the customer's Rust, the
//! model and the port in one process (three/mod.rs). KIND: keys, raw, shared, wide, refusals (the call language's), untied,
//! tied, held, full, values (gen_steps.rs), and arrivals (gen_arrivals.rs), origins (gen_origins.rs) and listings (gen_listings.rs), in which the Rust is not asked: it has not the calls. The kind `short` is not random: FROM and TO are of 1 to 32, and for each of these all
//! sequences of up to three of 32 ingests (walks.rs) that begin with it are made, each after an opening of limit N. Prints for each run
//! how many calls were judged by whom, what was skipped and how many entries tie with one before, and then how often each thing occurred in
//! all of them. Ends with 1 at the first difference, with the fewest steps that show one.
//!
//! together least M KIND FROM TO N ..: the same, and ends with 1 if any row of the table is below M.
use driver::call::{call, Call};
use driver::rng::Rng;
use driver::step::{records, ties, Front, Step};
use driver::three::run::{run, show, smallest};
use driver::three::table::Table;
use driver::three::Judged;
use driver::{gen, gen_steps, walks};
use std::collections::BTreeMap;

const LINES: [&str; 5] = ["keys", "raw", "shared", "wide", "refusals"];
/// Judged by the model alone, each with rows of its own.
const ALONE: [&str; 3] = ["arrivals", "origins", "listings"];

/// The steps of a seed, and how many lines were no call.
fn steps(seed: u64, n: u64, kind: &str) -> (Vec<Step>, u64) {
    if gen_steps::KINDS.contains(&kind) {
        return (gen_steps::steps(seed, n, kind), 0);
    }
    let (mut text, mut r) = (vec![], Rng(!seed));
    if kind == "short" {
        let (all, open) = (walks::ingests(), Call::Open([0; 16], Some(n)));
        let calls = walks::beginning_with(&all[seed as usize - 1], &all).into_iter().flat_map(|calls| [&[&open], &calls[..], &[&Call::Dump]].concat());
        return (calls.map(|call| Step { call: call.clone(), front: Front::Plain, salt: r.next() }).collect(), 0);
    }
    gen::write(seed, n, kind, &mut text);
    let lines: Vec<_> = String::from_utf8(text).unwrap().lines().map(call).collect();
    let all = lines.len();
    let steps: Vec<Step> = lines.into_iter().flatten().map(|call| Step { call, front: Front::Plain, salt: r.next() }).collect();
    let bad = all - steps.len();
    (steps, bad as u64)
}

fn usage() -> ! {
    eprintln!("together [least M] KIND FROM TO N ..");
    std::process::exit(2)
}

fn main() {
    let args: Vec<String> = std::env::args().skip(1).collect();
    let mut args: Vec<&str> = args.iter().map(|a| a.as_str()).collect();
    let number = |t: &str| t.parse::<u64>().unwrap_or_else(|_| usage());
    let mut least = 0;
    if args.first() == Some(&"least") && args.len() > 2 {
        least = number(args[1]);
        args.drain(..2);
    }
    if args.is_empty() || args.len() % 4 != 0 {
        usage()
    }
    let mut table = Table::default();
    for job in args.chunks(4) {
        let (kind, from, to, n) = (job[0], number(job[1]), number(job[2]), number(job[3]));
        let short = kind == "short" && (1..=32).contains(&from) && to <= 32;
        if !LINES.contains(&kind) && !gen_steps::KINDS.contains(&kind) && !short {
            usage()
        }
        let (mut judged, mut bad, mut occurred, mut tied) = (BTreeMap::new(), 0, Table::default(), (0, 0));
        for seed in from..=to {
            let (steps, no_call) = steps(seed, n, kind);
            bad += no_call;
            let (ingests, some) = ties(steps.iter().filter(|s| s.front == Front::Plain || !matches!(s.call, Call::Open(..))).map(|s| &s.call));
            assert!(some == 0 || !gen::UNTIED.contains(&kind) && kind != "untied", "{kind} has ties");
            tied = (tied.0 + ingests, tied.1 + some);
            assert!(ALONE.contains(&kind) || !steps.iter().any(|s| records(&s.call)), "{kind} has calls that the Rust has not");
            if let Err((at, _)) = run(&steps, &mut occurred, &mut judged) {
                println!("{kind}, seed {seed}, step {at}:");
                let (few, words) = smallest(&steps);
                println!("{}differs: {words}", show(&few));
                std::process::exit(1);
            }
        }
        table.merge(occurred);
        let by = |j: Judged| judged.get(&j).copied().unwrap_or(0);
        print!("{kind} {from} {to} {n}: {} by the Rust and the model, {} by the model", by(Judged::ByBoth), by(Judged::ByModel));
        print!("; the Rust differs in {} (1.2, 5), {} (2, read)", by(Judged::SkippedArea), by(Judged::SkippedRead));
        print!(", {} (2, panics), {} (2, unreached)", by(Judged::SkippedPanic), by(Judged::SkippedUnreached));
        print!(", {} (12, held), {} (12, held and prevented), {} (12, held and put back)", by(Judged::Held), by(Judged::HeldPrevented), by(Judged::HeldBack));
        print!(", {} (4, a tie removed), {} (4, prevented for a tie), {} (4, room by a tie)", by(Judged::TieRemoved), by(Judged::TiePrevented), by(Judged::TieRoom));
        println!("; {} of {} entries tie with one before; {bad} lines are no call", tied.1, tied.0);
    }
    let mut low = 0;
    let kinds: Vec<&str> = args.iter().step_by(4).copied().collect();
    for (row, n) in table.all(kinds.contains(&ALONE[0]), kinds.contains(&ALONE[1]), kinds.contains(&ALONE[2]), kinds.iter().any(|k| !ALONE.contains(k))) {
        let rare = n < least;
        low += rare as u64;
        println!("{n:>9}  {row}{}", if rare { "    HARDLY REACHED" } else { "" });
    }
    if low > 0 {
        println!("{low} rows below {least}");
        std::process::exit(1);
    }
}
