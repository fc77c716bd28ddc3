//! One call on all its inputs, both sides held to each other.

use crate::call::{Call, Written};
use crate::chance::Chance;
use std::collections::BTreeMap;
use std::panic;
use std::sync::atomic::{AtomicBool, Ordering};

/// What was seen of a call.
#[derive(Default)]
pub struct Tally {
    pub comparisons: u64,
    /// How often the port gave each number.
    pub refusals: BTreeMap<u32, u64>,
    pub panics: u64,
    pub differences: u64,
    /// The first differences, as text.
    pub shown: Vec<String>,
}

const DIFFERENCES_SHOWN: usize = 5;

/// What the crate answers, as the port has to write it, and whether the crate panicked.
pub struct Due {
    pub written: Option<Written>,
    pub panicked: bool,
}

static CRATE_RUNS: AtomicBool = AtomicBool::new(false);

/// Panics of the crate are counted and not printed; those of the oracle itself are printed.
pub fn silence_the_crate() {
    let loud = panic::take_hook();
    panic::set_hook(Box::new(move |info| {
        if !CRATE_RUNS.load(Ordering::Relaxed) {
            loud(info);
        }
    }));
}

pub fn due(call: &Call, inputs: &[i128]) -> Due {
    CRATE_RUNS.store(true, Ordering::Relaxed);
    let outcome = panic::catch_unwind(|| (call.original)(inputs));
    CRATE_RUNS.store(false, Ordering::Relaxed);
    match outcome {
        Ok(outcome) => Due { written: Some(call.due(inputs, outcome)), panicked: false },
        Err(_) => Due { written: call.panic_is.map(|refusal| call.due(inputs, Err(refusal))), panicked: true },
    }
}

/// Compares a call on all its inputs in order, then on so many random inputs.
pub fn compare(call: &Call, seed: u64, count: u64) -> Tally {
    let mut tally = Tally::default();
    let trials = (call.trials)(call.inputs);
    for group in &trials.groups {
        for place in 0..group.len() {
            tally.compare_once(call, &group.at(place));
        }
    }
    let mut chance = Chance::of(call.name, seed);
    for _ in 0..count {
        tally.compare_once(call, &(trials.draw)(&mut chance));
    }
    tally
}

impl Tally {
    fn compare_once(&mut self, call: &Call, inputs: &[i128]) {
        let due = due(call, inputs);
        let port = (call.port)(inputs);
        self.comparisons += 1;
        self.panics += u64::from(due.panicked);
        if port.refusal != 0 {
            *self.refusals.entry(port.refusal).or_default() += 1;
        }
        if due.written.as_ref() != Some(&port) {
            self.differences += 1;
            if self.shown.len() < DIFFERENCES_SHOWN {
                self.shown.push(difference(call, inputs, &due, &port));
            }
        }
    }
}

fn difference(call: &Call, inputs: &[i128], due: &Due, port: &Written) -> String {
    let inputs: Vec<String> = call.inputs.iter().zip(inputs).map(|((name, _), n)| format!("{name} = {n}")).collect();
    let due = match &due.written {
        None => "nothing: the crate panics, and no refusal stands for that".to_string(),
        Some(written) if due.panicked => format!("the crate panics, and the port {}", said(call, written)),
        Some(written) => said(call, written),
    };
    format!("{}({})\n    due:      {due}\n    the port: {}", call.name, inputs.join(", "), said(call, port))
}

fn said(call: &Call, written: &Written) -> String {
    let results: Vec<String> =
        call.results.iter().zip(&written.results).map(|((name, _), n)| format!("{name} = {n}")).collect();
    let spilled = if written.spilled { ", and bytes next to the results" } else { "" };
    match written.refusal {
        0 => format!("answers {}{spilled}", results.join(", ")),
        refusal => format!("refuses by {refusal} and writes {}{spilled}", results.join(", ")),
    }
}
