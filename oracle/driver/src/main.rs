//! oracle calls [hall]       the call language (README.md) from standard input, answered by the Rust
//! oracle list               document 01's listing program, likewise
//! oracle calls held [hall]  the calls with the model beside the Rust: where the model says held, `held` and the Rust's own answer, and its trees
//!                           are put back if that changed them (`held back` and the answer); above a stored extension that ties, `tied`, the
//!                           answer with that put back, and the Rust's own in brackets; origins, which the Rust has not, as the model has them
//! oracle list held          the listing program, likewise
//! oracle model [hall]       the call language, answered by the model of the papers; not the Rust
//! oracle list model         the listing program over the model; not the Rust
//! oracle like [hall]        the calls themselves, without those that the Rust answers `unlike` (for vectors/)
//! oracle gen SEED N KIND    N random calls; KIND: in, shared, hall, wide, refusals, calls, keys, raw, untied, tied, held, full, values, arrivals, origins, listings
//! oracle bench              the Rust's speed
//! oracle exhaust            all short sequences of a small set of ingests, the Rust beside the model
//! oracle paths              successor and greater_but_not_prefixed against a walk over all short paths
use driver::answer::{Answer, Shown};
use driver::call::*;
use driver::judge::Judge;
use driver::show::{short, show, show_call};
use driver::step::Front;
use driver::with_model::WithModel;
use driver::{bench, gen, gen_steps, oracle, walks};
use model::{FIELD, HALL};
use std::io::{Read, Write};

/// A line ends at a newline; the last may lack one.
fn lines(input: &[u8]) -> Vec<&[u8]> {
    let mut l: Vec<&[u8]> = input.split(|b| *b == b'\n').collect();
    if l.last() == Some(&&[][..]) {
        l.pop();
    }
    l
}

fn list(input: &[u8], out: &mut impl Write, mut exec: impl FnMut(&Call) -> Answer) {
    for line in lines(input) {
        // Here S and D have two digits, always.
        let short = |l: &&str| {
            let f: Vec<&str> = l.split(' ').collect();
            f.len() == 6 && f[0] == "in" && f[1].len() == 2 && f[5].len() == 2
        };
        let answer = match std::str::from_utf8(line).ok().filter(short).and_then(call) {
            Some(c) => show(&exec(&c)),
            None => "bad".into(),
        };
        let word = answer.split(' ').next().unwrap();
        let shown = if word == "ok" || word == "obsolete" { word } else { &answer };
        writeln!(out, "{shown}").unwrap();
    }
}

fn at_end(all: &[Shown], out: &mut impl Write) {
    writeln!(out, "list {}", all.len()).unwrap();
    for x in all {
        writeln!(out, "{}", short(&x.entry)).unwrap();
    }
}

/// The answers; or, for `like`, the calls themselves without those answered `unlike`.
fn calls(input: &[u8], like: bool, out: &mut impl Write, mut exec: impl FnMut(&Call) -> Answer) {
    for line in lines(input) {
        if line.is_empty() || line.starts_with(b"#") {
            continue;
        }
        let answer = std::str::from_utf8(line).ok().and_then(call).map_or("bad".into(), |c| show(&exec(&c)));
        if !like {
            writeln!(out, "{answer}").unwrap();
        } else if answer != "unlike" {
            out.write_all(&[line, b"\n"].concat()).unwrap();
        }
    }
}

fn usage() -> ! {
    eprintln!("oracle calls [held] [hall] | like [hall] | list [held] | list model | model [hall] | gen SEED N KIND | bench | exhaust | paths");
    std::process::exit(2)
}

fn main() {
    let args: Vec<String> = std::env::args().skip(1).collect();
    let args: Vec<&str> = args.iter().map(|a| a.as_str()).collect();
    let mut out = std::io::BufWriter::new(std::io::stdout().lock());
    let mut input = Vec::new();
    if matches!(args.first(), Some(&"list" | &"calls" | &"model" | &"like")) {
        std::io::stdin().read_to_end(&mut input).unwrap();
    }
    match args[..] {
        ["calls"] => {
            let mut o = oracle::Oracle::<64, 8, 128>::open(Default::default(), None);
            calls(&input, false, &mut out, |c| o.exec(c))
        }
        ["calls", "hall"] => {
            let mut o = oracle::Oracle::<16, 4, 32>::open(Default::default(), None);
            calls(&input, false, &mut out, |c| o.exec(c))
        }
        ["calls", "held"] | ["like"] => {
            let mut o = WithModel::<64, 8, 128>::open(None);
            calls(&input, args[0] == "like", &mut out, |c| o.told(c))
        }
        ["calls", "held", "hall"] | ["like", "hall"] => {
            let mut o = WithModel::<16, 4, 32>::open(None);
            calls(&input, args[0] == "like", &mut out, |c| o.told(c))
        }
        ["list"] => {
            let mut o = oracle::Oracle::<64, 8, 128>::open(Default::default(), Some(64));
            list(&input, &mut out, |c| o.exec(c));
            at_end(&o.list(), &mut out)
        }
        ["list", "held"] => {
            let mut o = WithModel::<64, 8, 128>::open(Some(64));
            list(&input, &mut out, |c| o.told(c));
            at_end(&o.rust.list(), &mut out)
        }
        ["model"] | ["model", "hall"] => {
            let bounds = if args.len() == 2 { HALL } else { FIELD };
            let mut m = Judge::unlimited(bounds);
            calls(&input, false, &mut out, |c| m.exec(c))
        }
        ["list", "model"] => {
            let mut m = Judge::limited(64, FIELD);
            list(&input, &mut out, |c| m.exec(c));
            at_end(&m.store.entries().iter().cloned().map(Shown::from).collect::<Vec<_>>(), &mut out)
        }
        ["gen", seed, n, kind] => match (seed.parse(), n.parse()) {
            (Ok(seed), Ok(n)) if gen::KINDS.contains(&kind) => gen::write(seed, n, kind, &mut out),
            (Ok(seed), Ok(n)) if gen_steps::KINDS.contains(&kind) => {
                for step in gen_steps::steps(seed, n, kind) {
                    let faulty = if step.front == Front::Plain { String::new() } else { format!("# {:?} ", step.front) };
                    writeln!(out, "{faulty}{}", show_call(&step.call)).unwrap();
                }
            }
            _ => usage(),
        },
        ["bench"] => bench::run(),
        ["paths"] => walks::paths(),
        ["exhaust"] => walks::exhaust(),
        _ => usage(),
    }
}
