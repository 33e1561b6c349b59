//! Mistakes that are planted: each has to be found.
use crate::scenario::Run;
use crate::{compare, mistake, tolls, tolls_mistake, trial, trial_mistake};
use std::fmt::Debug;

/// All of them; whether each was found.
pub fn run(seed: u64, calls: u64) -> bool {
    let missed = in_calls(seed, calls)
        + in_answers("trial records", &trial_mistake::ALL, |planted| trial::found(seed, planted))
        + in_answers("toll bounds", &tolls_mistake::ALL, |planted| tolls::found(seed, planted));
    let all = mistake::ALL.len() + trial_mistake::ALL.len() + tolls_mistake::ALL.len();
    println!("{} planted mistakes found, {missed} missed", all - missed);
    missed == 0
}

/// In what the model answers; `found` tells where one is found. How many are missed.
fn in_answers<M: Copy + Debug>(of: &str, all: &[M], found: impl Fn(M) -> Option<String>) -> usize {
    let is_missed = |planted: &&M| match found(**planted) {
        Some(place) => {
            println!("{planted:?} in {of}: found {place}");
            false
        }
        None => {
            println!("{planted:?} in {of}: NOT FOUND");
            true
        }
    };
    all.iter().filter(is_missed).count()
}

/// In the Rust side's outcome of calls and previews, each within so many calls. How many are missed.
fn in_calls(seed: u64, calls: u64) -> usize {
    let mut missed = 0;
    for planted in mistake::ALL {
        let mut run = Run::new(seed, Some(planted));
        let mut scenario = 0;
        let found = loop {
            if run.calls >= calls {
                break None;
            }
            if let Err(failure) = run.scenario(scenario) {
                break Some(failure);
            }
            scenario += 1;
        };
        match found {
            Some(f) => {
                println!("{planted:?}: found after {} calls, by {}", run.calls, f.difference.what);
                if !f.before.image.is_empty() {
                    let (start, _) = compare::shrink(&f.before, &f.call, f.with_journal, &f.difference.what, Some(planted));
                    let left = start.image.iter().filter(|b| **b != 0).count();
                    println!("    an image with {left} bytes other than 0 is enough");
                }
            }
            None => {
                println!("{planted:?}: NOT FOUND in {} calls", run.calls);
                missed += 1;
            }
        }
    }
    missed
}
