//! The oracle: the crate gnss-time and the port in one process, compared call by call.
//! `oracle/run` builds it and runs it.

mod alike;
mod alike_rules;
mod by_list;
mod by_table;
mod call;
mod calls;
mod chance;
mod civil_reader;
mod compare;
mod dated_questions;
mod dated_rules;
mod dates;
mod differences;
mod epochs;
mod examples;
mod expiries;
mod header;
mod images;
mod inputs;
mod instants;
mod list_files;
mod list_reader;
mod lists;
mod number;
mod original;
mod peers;
mod published;
mod questions;
mod reading_inputs;
mod readings;
mod record;
mod shifted;
mod slips;

use std::collections::BTreeMap;
use std::process::ExitCode;

const USAGE: &str = "\
usage: oracle/run [--native] [--seed N] [--count N] [--record FILE]
  --native       as the first word: for the processor of this machine, with 20000 random inputs
  --seed N       where the random inputs start (20260101); the same seed gives the same run
  --count N      random inputs for each call, after all its edges (100000), and ten times as many lists to read
  --record FILE  first write the recorded list of the crate's answers to FILE";

struct Options {
    seed: u64,
    count: u64,
    record: Option<String>,
}

fn main() -> ExitCode {
    let Some(options) = options() else {
        eprintln!("{USAGE}");
        return ExitCode::from(2);
    };
    compare::silence_the_crate();
    images::prepare(options.seed);
    lists::prepare(options.seed);
    let (calls, with_expiries) = (calls::calls(), expiries::calls());
    if let Some(file) = options.record {
        if let Err(error) = std::fs::write(&file, record::recorded(&calls, &with_expiries)) {
            return failed(&format!("cannot write {file}: {error}"));
        }
    }
    let apart = [readings::prototypes(), vec![published::prototype(), alike::prototype()]].concat();
    let disagreements = header::disagreements(calls.iter().chain(&with_expiries), apart);
    if !disagreements.is_empty() {
        return failed(&format!("include/plaitgate.h and the oracle disagree\n{}", disagreements.join("\n")));
    }
    let other_answers = examples::differences(&calls);
    if !other_answers.is_empty() {
        return failed(&format!("examples have another answer\n{}", other_answers.join("\n")));
    }
    let other_slips = slips::differences();
    if !other_slips.is_empty() {
        return failed(&format!("slips answer otherwise\n{}", other_slips.join("\n")));
    }
    let untrue = differences::differences();
    if !untrue.is_empty() {
        return failed(&format!("docs/DIFFERENCES.md is not true of the crate\n{}", untrue.join("\n")));
    }
    run(&calls, &with_expiries, options.seed, options.count)
}

fn options() -> Option<Options> {
    let mut options = Options { seed: 20_260_101, count: 100_000, record: None };
    let mut words = std::env::args().skip(1);
    while let Some(word) = words.next() {
        let value = words.next()?;
        match word.as_str() {
            "--seed" => options.seed = value.parse().ok()?,
            "--count" => options.count = value.parse().ok()?,
            "--record" => options.record = Some(value),
            _ => return None,
        }
    }
    Some(options)
}

/// What was seen of several calls.
#[derive(Default)]
struct Seen {
    comparisons: u64,
    differences: u64,
    refusals: BTreeMap<u32, u64>,
}

impl Seen {
    fn compare(&mut self, call: &call::Call, seed: u64, count: u64) {
        let tally = compare::compare(call, seed, count);
        let refused: u64 = tally.refusals.values().sum();
        println!("{:<32} {:>11} {:>11} {:>16}", call.name, tally.comparisons, refused, tally.panics);
        for shown in &tally.shown {
            println!("DIFFERENCE {shown}");
        }
        self.comparisons += tally.comparisons;
        self.differences += tally.differences;
        for (number, times) in tally.refusals {
            *self.refusals.entry(number).or_default() += times;
        }
    }
}

fn run(calls: &[call::Call], with_expiries: &[call::Call], seed: u64, count: u64) -> ExitCode {
    let processor = std::env::consts::ARCH;
    println!("oracle: for {processor}, seed {seed}, all edges and {count} random inputs for each call");
    println!("{:<32} {:>11} {:>11} {:>16}", "call", "comparisons", "refusals", "crate panicked");
    let (mut seen, mut dated) = (Seen::default(), Seen::default());
    // what the recorded list and the examples met is left out
    shifted::laters_met();
    expiries::all_met();
    calls.iter().for_each(|call| seen.compare(call, seed, count));
    println!("oracle: by the rules, with expiries");
    with_expiries.iter().for_each(|call| dated.compare(call, seed, count));
    let Seen { comparisons, differences, refusals } = seen;
    if differences + dated.differences > 0 {
        let all = comparisons + dated.comparisons;
        return failed(&format!("{} differences in {all} comparisons", differences + dated.differences));
    }
    let each: Vec<String> = refusals.iter().map(|(number, times)| format!("{number}: {times}")).collect();
    println!("oracle: how often each refusal came, by number: {}", each.join(", "));
    let [seconds, nanos] = original::INVALID_INPUT.map(|number| refusals.get(&number).copied().unwrap_or(0));
    if seconds == 0 || nanos == 0 {
        return failed("the crate's InvalidInput did not come for both fields");
    }
    println!("oracle: the crate's InvalidInput: {seconds} times for the seconds (2), {nanos} for the nanoseconds (11)");
    for (sentence, all_came) in shifted::laters_met() {
        println!("oracle: {sentence}");
        if !all_came {
            return failed("a later count was not met in each of the three ways");
        }
    }
    let (sentence, all_came) = expiries::all_met();
    println!("oracle: {sentence}");
    if !all_came {
        return failed("an expiry was not met in each of the five ways");
    }
    println!("oracle: {} comparisons by the rules, with expiries, no difference", dated.comparisons);
    for compare in [published::compare, alike::compare, readings::compare, peers::compare] {
        match compare(seed, count) {
            Ok(sentences) => sentences.iter().for_each(|sentence| println!("oracle: {sentence}")),
            Err(reason) => return failed(&reason),
        }
    }
    println!("oracle: {} examples, answered alike by both", examples::COUNT);
    println!("oracle: {} slips, each wrong where the port is right", slips::COUNT);
    println!("oracle: {} sentences of docs/DIFFERENCES.md, true of the crate", differences::count());
    println!("oracle: {comparisons} comparisons of {} calls for {processor}, no difference", calls.len());
    ExitCode::SUCCESS
}

fn failed(reason: &str) -> ExitCode {
    println!("oracle: FAILED: {reason}");
    ExitCode::FAILURE
}
