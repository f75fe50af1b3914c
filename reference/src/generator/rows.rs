//! Small cases with their answers, a line each, for tools that evaluate them
//! slowly: mode, fuel, text, output and the fuel left, parted by tabs, with
//! `\n` for LF. Where there is a second text it stands after the first. Of
//! finding methods: class, name, text and what is found.

use super::batch;
use super::random::Random;
use super::{Case, Kind, case, text};
use crate::calls::Mode;
use crate::classes;
use crate::linerun;
use crate::reading;
use crate::syntax::{NUMBER, Table};

/// Longest text of a row, in characters, and longest second text.
const MAX_TEXT: usize = 600;
const MAX_SECOND: usize = 250;
/// Longest output of most rows: some 12 objects.
const USUAL_OUTPUT: usize = 200;

/// Row `number` of a seed, its line end included.
pub fn row(seed: u64, number: u64) -> String {
    let mut random = Random::for_case(seed, number);
    let large = random.chance(3);
    loop {
        let case = case(&mut random);
        let (output, left) = linerun::output(case.mode, case.fuel, &case.text);
        let short = case.text.len() <= MAX_TEXT && (large || output.len() <= USUAL_OUTPUT);
        if short && plain(&case.text) {
            return line(&case, &output, left);
        }
    }
}

/// Row `number` of a seed's runs on a second text.
pub fn batch_row(seed: u64, number: u64) -> String {
    let mut random = Random::for_case(seed, number);
    loop {
        let batch::Case { mode, fuel, batch } = batch::case(&mut random);
        let (text, second) = (&batch.text, &batch.second);
        let (output, left) = linerun::output_on(mode, fuel, text, second);
        let short = text.len() <= MAX_TEXT && second.len() <= MAX_SECOND;
        if short && output.len() <= USUAL_OUTPUT && plain(text) && plain(second) {
            let mode = mode_name(mode);
            let [text, second, output] = [text, second, &output].map(|text| escaped(text));
            return format!("{mode}\t{fuel}\t{text}\t{second}\t{output}\t{left}\n");
        }
    }
}

/// Row `number` of a seed's searches for methods. What is found is the owner and
/// the method's number, with a space between, or `none`.
pub fn find_row(seed: u64, number: u64) -> String {
    let mut random = Random::for_case(seed, number);
    loop {
        let kind = match random.below(100) {
            0..75 => Kind::Chains,
            _ => Kind::Plain,
        };
        let text = text(kind, &mut random);
        if text.len() <= MAX_TEXT {
            let table = reading::read(&text).expect("generated texts are read");
            let (class, name) = place(&mut random, &table);
            let found = match classes::find(&table, class, name) {
                Some(found) => format!("{} {}", found.owner, found.number),
                None => "none".to_string(),
            };
            return format!("{class}\t{name}\t{}\t{found}\n", escaped(&text));
        }
    }
}

/// A class and a name to ask for. Half are a method's name and a class from its
/// owner down; else any class, one more than there are or that of numbers, and
/// mostly some method's name.
fn place(random: &mut Random, table: &Table) -> (u8, u8) {
    let classes = 0..=table.classes.len() as u8 + 1;
    match random.pick(&table.methods) {
        Some(method) if random.chance(50) => {
            let below = |&class: &u8| classes::class_fits(table, class, method.owner);
            let classes: Vec<u8> = classes.filter(below).collect();
            let class = random.pick(&classes).unwrap_or(&method.owner);
            (*class, method.name)
        }
        method => {
            let classes: Vec<u8> = classes.chain([NUMBER]).collect();
            let class = random.pick(&classes).unwrap_or(&NUMBER);
            match method {
                Some(method) if random.chance(85) => (*class, method.name),
                _ => (*class, random.byte()),
            }
        }
    }
}

/// Texts that are no characters cannot stand in a line.
fn plain(text: &[u8]) -> bool {
    text.is_ascii() && !text.iter().any(|byte| b"\t\r\0".contains(byte))
}

fn mode_name(mode: Mode) -> &'static str {
    match mode {
        Mode::Checked => "checked",
        Mode::Trial => "trial",
    }
}

fn line(case: &Case, output: &[u8], left: u16) -> String {
    let mode = mode_name(case.mode);
    let (text, output) = (escaped(&case.text), escaped(output));
    format!("{mode}\t{}\t{text}\t{output}\t{left}\n", case.fuel)
}

fn escaped(text: &[u8]) -> String {
    String::from_utf8_lossy(text).replace('\n', "\\n")
}
