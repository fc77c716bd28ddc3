//! The C header declares exactly the calls that are compared, with the types they are called by.

use crate::call::Call;
use std::collections::BTreeSet;

const HEADER: &str = include_str!("../include/plaitgate.h");

/// What the header does not share with the calls that are compared and those that are compared apart from them, a
/// sentence each.
pub fn disagreements<'a>(calls: impl Iterator<Item = &'a Call>, apart: Vec<String>) -> Vec<String> {
    let declared = declarations(HEADER);
    let mut compared: BTreeSet<String> = calls.map(|call| call.prototype.clone()).collect();
    compared.extend(apart);
    let only_declared = declared.difference(&compared).map(|it| format!("declared and not compared: {it}"));
    let only_compared = compared.difference(&declared).map(|it| format!("compared and not declared: {it}"));
    only_declared.chain(only_compared).collect()
}

/// The functions that a header declares, each on one line with single spaces.
fn declarations(header: &str) -> BTreeSet<String> {
    let code: Vec<&str> =
        header.split("/*").map(|part| part.split_once("*/").map_or(part, |(_comment, code)| code)).collect();
    let lines: Vec<String> = code.concat().lines().filter(|line| !line.starts_with('#')).map(str::to_string).collect();
    lines
        .join(" ")
        .split([';', '{', '}'])
        .map(|statement| statement.split_whitespace().collect::<Vec<_>>().join(" "))
        .filter(|statement| statement.contains("plaitgate_") && statement.contains('('))
        .collect()
}
