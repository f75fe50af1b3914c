//! What the cases of a seed give: counts of verdicts and outcomes.

use super::random::Random;
use super::{Case, case};
use crate::calls::Mode;
use crate::reading;
use crate::refusals::Refusal;
use crate::report::{in_order_met, number_of};
use crate::running::{self, Outcome};
use crate::typing;
use crate::values::{Ref, Value};
use std::collections::BTreeMap;
use std::fmt::Write;

/// The table of counts for `count` cases of a seed.
pub fn stats(seed: u64, count: u64) -> String {
    let mut counts: BTreeMap<String, u64> = BTreeMap::new();
    for number in 0..count {
        for name in names(&case(&mut Random::for_case(seed, number))) {
            *counts.entry(name).or_default() += 1;
        }
    }
    let mut table = String::new();
    for (name, times) in counts {
        let share = 100.0 * times as f64 / count.max(1) as f64;
        let _ = writeln!(table, "{name:<44}{times:>8}{share:>8.2}%");
    }
    table
}

/// The rows of the table that a case counts in.
fn names(case: &Case) -> Vec<String> {
    let mode = match case.mode {
        Mode::Checked => "checked",
        Mode::Trial => "trial",
    };
    let verdict = |number: u8| format!("{mode}: verdict {number:02X}");
    let refused = |refusal: Refusal| vec![verdict(refusal.number())];
    let table = match reading::read(&case.text) {
        Ok(table) => table,
        Err(refusal) => return refused(refusal),
    };
    if case.mode == Mode::Checked
        && let Err(refusal) = typing::check(&table)
    {
        return refused(refusal);
    }
    let (outcome, _, tally) = running::run_with_tally(&table, None, case.fuel);
    let mut names = vec![verdict(0), format!("{mode}: {}", outcome_name(&outcome))];
    if tally.met > 0 {
        names.push(format!("{mode}: run, met a call again"));
    }
    if tally.open > 0 {
        names.push(format!("{mode}: run, open value in a call"));
    }
    if tally.inherited > 0 {
        names.push(format!("{mode}: run, inherited method"));
    }
    if let Ok(value) = &outcome {
        let shape = if is_cyclic(value) { "cyclic" } else { "tree" };
        let size = bucket(in_order_met(value).len());
        names.push(format!("{mode}: value, {size} objects, {shape}"));
        if is_cyclic(value) {
            names.push(format!("{mode}: value, cyclic"));
        }
        if holds_numbers(value) {
            names.push(format!("{mode}: value, number in a field"));
        }
        if is_partly_undetermined(value) {
            names.push(format!("{mode}: value, undetermined in a field"));
        }
    }
    names
}

fn outcome_name(outcome: &Outcome) -> String {
    match outcome {
        Err(stop) => format!("outcome 07{:02X}", *stop as u8),
        Ok(value) if value.root() == Ref::Undetermined => "outcome 06".to_string(),
        Ok(value) if value.class().is_none() => "outcome 09".to_string(),
        Ok(_) => "outcome value".to_string(),
    }
}

fn bucket(objects: usize) -> &'static str {
    match objects {
        0 => " 0",
        1 => " 1",
        2 => " 2",
        3..=4 => " 3 to 4",
        5..=8 => " 5 to 8",
        9..=16 => " 9 to 16",
        17..=31 => "17 to 31",
        _ => "32",
    }
}

/// Whether some object of a finished value leads back to itself.
pub fn is_cyclic(value: &Value) -> bool {
    let objects = in_order_met(value);
    let next: Vec<Vec<usize>> = objects
        .iter()
        .map(|&place| {
            let fields = value.object(place).fields.iter();
            fields
                .filter_map(|&field| number_of(value, &objects, field))
                .collect()
        })
        .collect();
    (0..objects.len()).any(|start| {
        let mut seen = vec![false; objects.len()];
        let mut todo = next[start].clone();
        while let Some(place) = todo.pop() {
            if !std::mem::replace(&mut seen[place], true) {
                todo.extend(&next[place]);
            }
        }
        seen[start]
    })
}

/// Whether some field of a finished value is undetermined.
pub fn is_partly_undetermined(value: &Value) -> bool {
    in_order_met(value)
        .iter()
        .any(|&place| value.object(place).fields.contains(&Ref::Undetermined))
}

/// Whether some field of a finished value holds a number.
pub fn holds_numbers(value: &Value) -> bool {
    let number = |field: &Ref| matches!(field, Ref::Number(_));
    in_order_met(value)
        .iter()
        .any(|&place| value.object(place).fields.iter().any(number))
}
