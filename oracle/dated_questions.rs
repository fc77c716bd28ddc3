//! Questions of the recorded list with a table, a count and an expiry. The answer that is due is the crate's, by the
//! table without its expiry, and the rules tell whether it is stale (dated_rules.rs).

use crate::call::{Call, Written};
use crate::compare;
use crate::dated_rules::Rule;
use crate::expiries::with_an_expiry;
use crate::images::{prepared, BUILTIN};
use crate::inputs::{Group, Trials};
use crate::original::BAD_TABLE;
use gnss_time::LeapEntry;
use std::collections::BTreeMap;

/// The answer by a recorded table and a count.
fn answer(table: i128, count: i128, rule: fn(&[LeapEntry], i128) -> Rule) -> Rule {
    rule(prepared(table).table.as_ref().ok_or(BAD_TABLE)?.entries(), count)
}

/// A refusal, or whether one reading is looked up, whether it is the answer's own, and whether this is the first count
/// that is answered.
type Kind = Result<[bool; 3], u32>;

fn kind(table: i128, count: i128, rule: fn(&[LeapEntry], i128) -> Rule) -> Kind {
    let told = answer(table, count, rule)?;
    Ok([told.first == told.last, told.own == told.last, answer(table, count - 1, rule).is_err()])
}

/// Of the counts of the recorded tables one of each kind, by the built-in table where that has the kind, each with all
/// its expiries in a group; then any of these counts with any of its expiries.
pub fn of_counts(counts: Trials, rule: fn(&[LeapEntry], i128) -> Rule) -> Trials {
    let Trials { groups: mut tables, draw } = counts;
    tables.swap(0, BUILTIN as usize);
    let mut chosen: BTreeMap<Kind, [i128; 2]> = BTreeMap::new();
    for group in &tables {
        let mut of_kind: BTreeMap<Kind, Vec<[i128; 2]>> = BTreeMap::new();
        for place in 0..group.len() {
            let [table, count] = group.at(place)[..] else { unreachable!("a table and a count are tried") };
            of_kind.entry(kind(table, count, rule)).or_default().push([table, count]);
        }
        for (kind, all) in of_kind {
            chosen.entry(kind).or_insert(all[all.len() / 2]);
        }
    }
    Trials {
        groups: chosen.into_values().map(|[table, count]| with_each_expiry(table, count, rule)).collect(),
        draw: Box::new(move |chance| {
            let inputs = draw(chance);
            with_an_expiry(inputs, chance.below(1 << 16) as usize, rule)
        }),
    }
}

/// The expiries at the readings, one before and one after that which was looked up last, and at the ends of their type.
fn with_each_expiry(table: i128, count: i128, rule: fn(&[LeapEntry], i128) -> Rule) -> Group {
    let greatest = i128::from(u64::MAX);
    let mut expiries = vec![0, greatest - 1, greatest];
    if let Ok(told) = answer(table, count, rule) {
        expiries.extend([told.first, told.last - 1, told.last, told.last + 1, told.own]);
    }
    expiries.retain(|expiry| (0..=greatest).contains(expiry));
    expiries.sort_unstable();
    expiries.dedup();
    Group::new(expiries.len(), move |place| vec![table, count, expiries[place]])
}

/// What is due of a question with an expiry: the answer, which must be the crate's to the same call without the expiry
/// where the crate has that call, and by the rules whether it is stale.
pub fn due(calls: &[Call], with_expiry: &Call, inputs: &[i128]) -> Option<Written> {
    let by_rules = compare::due(with_expiry, inputs).written?;
    let results = by_rules.results[..2].to_vec();
    if let Some(call) = calls.iter().find(|call| call.name == with_expiry.name) {
        let by_crate = compare::due(call, &inputs[..2]).written?;
        let agree = by_crate.refusal == by_rules.refusal && by_crate.results[0] == results[0];
        assert!(agree, "the crate and the rules differ in {} on {inputs:?}", call.name);
    }
    Some(Written { results, ..by_rules })
}
