//! Questions of the recorded list that the table of calls does not have in that form: the calls that change an image, of
//! which a line has the table's length and last entry afterwards; those on a list, which a line has itself; and the
//! constants of epoch.rs, which no call exports.

use crate::by_table::found;
use crate::call::{Call, Outcome, Written};
use crate::epochs::{DATES, LEAP_SECONDS, LENGTHS};
use crate::images::{prepared, table_in};
use crate::inputs::{Group, Trials};
use crate::instants::{recorded_extensions, recorded_tables};
use crate::lists::up_to_three;
use crate::number::Number;
use crate::original::{refusal_of, Answer, BAD_TABLE};
use gnss_time::{LeapEntry, LeapSeconds, LeapSecondsProvider, RuntimeLeapSeconds, Time};
use std::ops::RangeInclusive;

/// A question: its number and name, what it is asked with and answered by, and the crate's answer.
pub struct Question {
    pub number: usize,
    pub name: &'static str,
    pub inputs: &'static [&'static str],
    pub results: &'static [&'static str],
    pub trials: Trials,
    pub due: fn(&[i128]) -> Written,
}

/// The numbers of the calls with an expiry (expiries.rs), by their place there.
pub const WITH_EXPIRY: RangeInclusive<usize> = 158..=173;
/// Constants have numbers from here on.
const CONSTANTS: usize = 201;

/// The number of a call by its place in the table: from 1, without those of the calls with an expiry.
pub fn number_of_call(place: usize) -> usize {
    let number = place + 1;
    if number < *WITH_EXPIRY.start() {
        number
    } else {
        number + WITH_EXPIRY.count()
    }
}

pub fn questions(calls: &[Call]) -> Vec<Question> {
    let place = |name| calls.iter().position(|call| call.name == name).expect("the table has the call");
    let number = &|name| number_of_call(place(name));
    changes(number).into_iter().chain(lists(number)).chain(constants()).collect()
}

const ENTRIES: &[&str] = &["count", "tai_nanos", "tai_minus_utc", "second", "second_offset", "third", "third_offset"];
const AFTERWARDS: &[&str] = &["len", "last_tai_nanos", "last_tai_minus_utc"];

fn changes(number: impl Fn(&'static str) -> usize) -> [Question; 4] {
    let question =
        |name, inputs, trials, due| Question { number: number(name), name, inputs, results: AFTERWARDS, trials, due };
    [
        question("table_new", &["table"], recorded_tables(&[]), |_| afterwards(0, &RuntimeLeapSeconds::new())),
        question("table_from_builtin", &["table"], recorded_tables(&[]), |_| {
            afterwards(0, &RuntimeLeapSeconds::from_builtin())
        }),
        question("table_from_entries", ENTRIES, up_to_three(), |inputs| {
            match RuntimeLeapSeconds::from_slice(&entries(inputs)) {
                Ok(table) => afterwards(0, &table),
                Err(error) => afterwards(refusal_of(error), &RuntimeLeapSeconds::new()),
            }
        }),
        question("table_try_extend", &["table", "tai_nanos", "tai_minus_utc"], recorded_extensions(&[]), |inputs| {
            match table_in(prepared(inputs[0]).bytes()) {
                None => afterwards(BAD_TABLE, &RuntimeLeapSeconds::new()),
                Some(mut table) => {
                    let answer = table.try_extend(entry(inputs[1], inputs[2]));
                    afterwards(answer.err().map_or(0, refusal_of), &table)
                }
            }
        }),
    ]
}

fn entry(tai_nanos: i128, tai_minus_utc: i128) -> LeapEntry {
    LeapEntry::new(u64::narrow(tai_nanos), i32::narrow(tai_minus_utc))
}

/// As many entries as the line says: its three, followed by zeros.
fn entries(inputs: &[i128]) -> Vec<LeapEntry> {
    let mut entries: Vec<LeapEntry> = inputs[1..].chunks(2).map(|pair| entry(pair[0], pair[1])).collect();
    entries.resize(inputs[0] as usize, LeapEntry::new(0, 0));
    entries
}

fn afterwards(refusal: u32, table: &RuntimeLeapSeconds) -> Written {
    let (tai_nanos, offset) = table.entries().last().map_or((0, 0), |last| (last.tai_nanos, last.tai_minus_utc));
    Written { refusal, results: vec![table.len() as i128, tai_nanos.wide(), offset.wide()], spilled: false }
}

/// The reading at which an offset is asked for is the third threshold.
fn lists(number: impl Fn(&'static str) -> usize) -> [Question; 6] {
    let question = |name, results, due| Question {
        number: number(name),
        name,
        inputs: ENTRIES,
        results,
        trials: up_to_three(),
        due,
    };
    [
        question("list_check", &[], |inputs| {
            written(LeapSeconds::try_from_slice(lent(inputs)).map(|_| vec![]).map_err(refusal_of), 0)
        }),
        question("list_len", &["len"], |inputs| on_list(inputs, 1, |list, _| (list.len() as u64).outcome())),
        question("list_is_empty", &["yes"], |inputs| on_list(inputs, 1, |list, _| list.is_empty().outcome())),
        question("list_last_update", &["found", "tai"], |inputs| {
            on_list(inputs, 2, |list, _| found(list.last_update().map(|tai| [tai.as_nanos().wide()])))
        }),
        question("list_current_tai_minus_utc", &["offset"], |inputs| {
            on_list(inputs, 1, |list, _| list.current_tai_minus_utc().outcome())
        }),
        question("list_tai_minus_utc_at", &["offset"], |inputs| {
            on_list(inputs, 1, |list, tai| list.tai_minus_utc_at(Time::from_nanos(tai)).outcome())
        }),
    ]
}

/// The entries for good, as the crate wants them.
fn lent(inputs: &[i128]) -> &'static [LeapEntry] {
    entries(inputs).leak()
}

/// What the crate's table over a line's entries answers; 8 where the crate takes no such table.
fn on_list(inputs: &[i128], results: usize, answer: fn(&LeapSeconds, u64) -> Outcome) -> Written {
    let list = match lent(inputs) {
        [] => Ok(LeapSeconds::from_slice(&[])),
        entries => LeapSeconds::try_from_slice(entries).map_err(|_| BAD_TABLE),
    };
    written(list.and_then(|list| answer(&list, u64::narrow(inputs[5]))), results)
}

fn written(outcome: Outcome, results: usize) -> Written {
    match outcome {
        Ok(results) => Written { refusal: 0, results, spilled: false },
        Err(refusal) => Written { refusal, results: vec![0; results], spilled: false },
    }
}

fn constants() -> [Question; 3] {
    let question = |place, name, results, count, due| Question {
        number: CONSTANTS + place,
        name,
        inputs: &["which"],
        results,
        trials: each_of(count),
        due,
    };
    [
        question(0, "epoch_date", &["year", "month", "day"], DATES.len(), |inputs| given(DATES[inputs[0] as usize])),
        question(1, "epoch_span", &["length"], LENGTHS.len(), |inputs| given(LENGTHS[inputs[0] as usize])),
        question(2, "leap_seconds_at", &["seconds"], LEAP_SECONDS.len(), |inputs| {
            given(LEAP_SECONDS[inputs[0] as usize])
        }),
    ]
}

fn given(answer: impl Answer) -> Written {
    Written { refusal: 0, results: answer.outcome().expect("a constant is no refusal"), spilled: false }
}

fn each_of(count: usize) -> Trials {
    Trials {
        groups: vec![Group::new(count, |place| vec![place as i128])],
        draw: Box::new(move |chance| vec![chance.below(count as u64).into()]),
    }
}
