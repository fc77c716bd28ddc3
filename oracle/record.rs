//! The recorded list: a sample of the crate's answers for a program that replays them without the crate.

use crate::call::{Call, Named, Written};
use crate::chance::Chance;
use crate::compare;
use crate::dated_questions;
use crate::images::{prepared, RECORDED};
use crate::inputs::{Group, Trials};
use crate::questions::{number_of_call, questions, WITH_EXPIRY};
use gnss_time::LeapEntry;
use std::collections::{BTreeMap, BTreeSet, HashSet};
use std::fmt::Write;

/// Of each group of a call's inputs: so many neighbours for each change from one refusal (or an answer) to another,
/// and so many others, from all over; and of each call so many random inputs.
const TURNS: usize = 4;
const OTHERS: usize = 14;
const RANDOMS: usize = 8;
/// Of the random inputs; fixed, so that the list is the same whenever it is made.
const SEED: u64 = 1;

/// What is asked of the crate and recorded.
struct Asked<'a> {
    number: usize,
    name: &'static str,
    inputs: Vec<&'static str>,
    results: Vec<&'static str>,
    trials: Trials,
    due: Box<dyn Fn(&[i128]) -> Option<Written> + 'a>,
}

impl Asked<'_> {
    fn due(&self, inputs: &[i128]) -> Written {
        (self.due)(inputs).unwrap_or_else(|| panic!("the crate panics in {} on {inputs:?}", self.name))
    }
}

/// The calls of the table that are recorded as they are, those with an expiry, and the other questions, in the order of
/// their numbers.
fn all_asked<'a>(calls: &'a [Call], with_expiries: &'a [Call]) -> Vec<Asked<'a>> {
    let names = |all: &'static [Named]| all.iter().map(|(name, _)| *name).collect();
    let of_calls = calls.iter().enumerate().filter_map(|(place, call)| {
        let told = told_by_the_crate(call.results);
        Some(Asked {
            number: number_of_call(place),
            name: call.name,
            inputs: names(call.inputs),
            results: names(told),
            trials: (call.recorded?)(call.inputs),
            due: Box::new(|inputs| {
                let written = compare::due(call, inputs).written?;
                Some(Written { results: written.results[..told.len()].to_vec(), ..written })
            }),
        })
    });
    let dated = with_expiries.iter().enumerate().filter_map(|(place, call)| {
        let trials = (call.recorded?)(call.inputs);
        Some(Asked {
            number: WITH_EXPIRY.start() + place,
            name: call.name,
            inputs: names(call.inputs),
            results: names(&call.results[..2]),
            trials,
            due: Box::new(|inputs| dated_questions::due(calls, call, inputs)),
        })
    });
    let others = questions(calls).into_iter().map(|question| Asked {
        number: question.number,
        name: question.name,
        inputs: question.inputs.to_vec(),
        results: question.results.to_vec(),
        trials: question.trials,
        due: Box::new(move |inputs| Some((question.due)(inputs))),
    });
    let mut asked: Vec<Asked> = of_calls.chain(dated).chain(others).collect();
    asked.sort_by_key(|asked| asked.number);
    assert!(asked.windows(2).all(|pair| pair[0].number < pair[1].number), "two questions have one number");
    asked
}

/// The results without the yes or no of a call by a table, which the crate does not tell.
fn told_by_the_crate(results: &'static [Named]) -> &'static [Named] {
    match results {
        [told @ .., ("stale", _)] => told,
        all => all,
    }
}

pub fn recorded(calls: &[Call], with_expiries: &[Call]) -> String {
    let asked = all_asked(calls, with_expiries);
    let mut list = legend(&asked);
    for asked in &asked {
        let mut seen = HashSet::new();
        for inputs in sample(asked) {
            if seen.insert(inputs.clone()) {
                list.push_str(&line(asked.number, &inputs, &asked.due(&inputs)));
            }
        }
    }
    list
}

fn legend(asked: &[Asked]) -> String {
    let mut legend = format!(
        "# Answers of the crate gnss-time 0.9.1, made by: oracle/run --record FILE (seed {SEED})\n\
         # Those for Galileo and BeiDou are moved to the port's counts (oracle/README.md).\n\
         # The crate has no expiry: whether an answer is stale, and a table's expiry, are by the rules (same place).\n\
         # A line: the question's number, its inputs, the number of the refusal (0: answered), the results.\n\
         # The questions, with their inputs and results:\n"
    );
    for Asked { number, name, inputs, results, .. } in asked {
        let words = |all: &[&str]| all.iter().fold(String::new(), |text, name| text + " " + name);
        let (inputs, results) = (words(inputs), words(results));
        writeln!(legend, "# {number} {name}:{inputs} ->{results}").expect("a string takes every text");
    }
    legend.push_str("# The tables, by their entries:\n");
    for number in 0..RECORDED {
        let table = prepared(number as i128).table.as_ref();
        let entry = |entry: &LeapEntry| format!(" ({}, {})", entry.tai_nanos, entry.tai_minus_utc);
        let entries = table.map_or(" no table".into(), |table| table.entries().iter().map(entry).collect::<String>());
        writeln!(legend, "# {number}:{entries}").expect("a string takes every text");
    }
    legend
}

/// The name by which the inputs of a question are drawn. The conversions by a table were recorded before their names
/// began with `table_`: drawn by the rest of the name, the recorded list stays as it is.
fn drawn_by(name: &str) -> &str {
    match name.strip_prefix("table_") {
        Some(conversion) if conversion.contains("_to_") || conversion.contains("unix") => conversion,
        _ => name,
    }
}

fn sample(asked: &Asked) -> Vec<Vec<i128>> {
    let mut chance = Chance::of(drawn_by(asked.name), SEED);
    let drawn: Vec<Vec<i128>> = (0..RANDOMS).map(|_| (asked.trials.draw)(&mut chance)).collect();
    asked.trials.groups.iter().flat_map(|group| sample_of_group(asked, group)).chain(drawn).collect()
}

fn sample_of_group(asked: &Asked, group: &Group) -> Vec<Vec<i128>> {
    let mut places: BTreeSet<usize> = thinned(group.len(), OTHERS).collect();
    for turns in turns(asked, group).values() {
        for turn in thinned(turns.len(), TURNS) {
            places.extend([turns[turn] - 1, turns[turn]]);
        }
    }
    places.into_iter().map(|place| group.at(place)).collect()
}

/// The places where the refusal is not the one before, by the two refusals.
fn turns(asked: &Asked, group: &Group) -> BTreeMap<[Option<u32>; 2], Vec<usize>> {
    let refusal = |place| (asked.due)(&group.at(place)).map(|written| written.refusal);
    let mut turns: BTreeMap<_, Vec<usize>> = BTreeMap::new();
    let mut before = refusal(0);
    for place in 1..group.len() {
        let now = refusal(place);
        if now != before {
            turns.entry([before, now]).or_default().push(place);
        }
        before = now;
    }
    turns
}

/// So many places out of `0..len`, evenly spread, the first and the last among them.
fn thinned(len: usize, wanted: usize) -> impl Iterator<Item = usize> {
    let taken = len.min(wanted);
    (0..taken).map(move |at| if taken == 1 { 0 } else { at * (len - 1) / (taken - 1) })
}

fn line(number: usize, inputs: &[i128], due: &Written) -> String {
    let mut numbers = vec![number as i128];
    numbers.extend(inputs);
    numbers.push(i128::from(due.refusal));
    numbers.extend(&due.results);
    numbers.iter().map(i128::to_string).collect::<Vec<_>>().join(" ") + "\n"
}
