//! Runs of steps, and the smallest one that still shows a difference.
use super::table::Table;
use super::{Judged, Three};
use crate::show::show_call;
use crate::step::{changes, records, Step};
use std::collections::BTreeMap;

/// Runs all steps; the number of the first that differs, and how.
pub fn run(steps: &[Step], table: &mut Table, judged: &mut BTreeMap<Judged, u64>) -> Result<(), (usize, String)> {
    let mut three = Three::new(steps.iter().any(|s| records(&s.call)));
    for (i, step) in steps.iter().enumerate() {
        // Where the call writes, the store before it is counted.
        let before = (changes(&step.call) || records(&step.call)).then(|| three.judge.store.clone());
        let (answer, by) = three.step(step).map_err(|words| (i, words))?;
        *judged.entry(by).or_default() += 1;
        table.count(before.as_ref().unwrap_or(&three.judge.store), step, &answer);
        three.told.iter().for_each(|row| table.add(row, true));
    }
    Ok(())
}

fn differs(steps: &[Step]) -> Option<(usize, String)> {
    run(steps, &mut Table::default(), &mut BTreeMap::new()).err()
}

/// Fewer and fewer steps that still show a difference: none after it, then without runs of steps, then without junk.
pub fn smallest(steps: &[Step]) -> (Vec<Step>, String) {
    let (last, mut words) = differs(steps).expect("a difference");
    let mut steps = steps[..=last].to_vec();
    let mut size = steps.len().div_ceil(2);
    loop {
        let (mut at, before) = (0, steps.len());
        while at < steps.len() {
            let mut fewer = steps.clone();
            fewer.drain(at..(at + size).min(fewer.len()));
            match differs(&fewer) {
                Some((last, w)) => {
                    fewer.truncate(last + 1);
                    (steps, words) = (fewer, w);
                }
                None => at += size,
            }
        }
        if size == 1 && steps.len() == before {
            break;
        }
        size = (size / 2).max(1);
    }
    for i in 0..steps.len() {
        let mut plainer = steps.clone();
        plainer[i].salt = 0;
        if let Some((_, w)) = differs(&plainer) {
            (steps, words) = (plainer, w);
        }
    }
    (steps, words)
}

pub fn show(steps: &[Step]) -> String {
    steps.iter().map(|s| format!("    {}    {:?}, salt {}\n", show_call(&s.call), s.front, s.salt)).collect()
}
