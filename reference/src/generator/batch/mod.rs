//! Programs with an `04` main and their second texts: accepted ones, graphs cut
//! at random, values that are compared, texts that earn 14 or 15, sizes at the
//! limits. What has one text only is drawn elsewhere.

pub mod cuts;
pub mod flaws;
pub mod limits;
mod misfits;
pub mod pairs;
pub mod parts;
mod programs;
mod rings;

use super::fuel_near;
use super::random::Random;
use crate::batch;
use crate::calls::Mode;
use crate::reading;
use crate::running;
use crate::syntax::Table;
use crate::values::Object;
use crate::writing;
use cuts::cut;
use flaws::Flaw;

#[derive(Clone, Copy, Debug, PartialEq, Eq)]
pub enum Kind {
    /// Accepted, the second text too.
    Fitting,
    /// Accepted: a ring that came in meets rings that are made.
    Rings,
    /// Accepted: two values are compared, alike but for one place or wholly.
    Pairs,
    /// As many lines and distinct objects as there may be, or one more.
    Limits,
    /// Refused 6 or 7, the second text sound.
    IllTyped,
    /// Refused 1 to 5, the second text sound.
    Damaged,
    /// Refused 14 or 15.
    Flawed,
}

impl Kind {
    pub const ALL: [Kind; 7] = [
        Kind::Fitting,
        Kind::Rings,
        Kind::Pairs,
        Kind::Limits,
        Kind::IllTyped,
        Kind::Damaged,
        Kind::Flawed,
    ];

    pub fn named(name: &str) -> Option<Kind> {
        match name {
            "fitting" => Some(Kind::Fitting),
            "rings" => Some(Kind::Rings),
            "pairs" => Some(Kind::Pairs),
            "limits" => Some(Kind::Limits),
            "illtyped" => Some(Kind::IllTyped),
            "damaged" => Some(Kind::Damaged),
            "flawed" => Some(Kind::Flawed),
            _ => None,
        }
    }
}

/// The two texts of a run.
#[derive(Clone, Debug, PartialEq, Eq)]
pub struct Batch {
    pub text: Vec<u8>,
    pub second: Vec<u8>,
}

/// Two texts of a kind.
pub fn draw(kind: Kind, random: &mut Random) -> Batch {
    match kind {
        Kind::Fitting => fitting(random),
        Kind::Rings => rings::draw(random),
        Kind::Pairs => pairs::draw(random).batch,
        Kind::Limits => limits::draw(random).batch,
        Kind::IllTyped => {
            let text = programs::ill_typed(random);
            on_sound_parts(random, text)
        }
        Kind::Damaged => {
            let text = programs::damaged(random);
            on_sound_parts(random, text)
        }
        Kind::Flawed => {
            let flaw = Flaw::ALL[random.below(Flaw::ALL.len())];
            flaw.draw(random)
        }
    }
}

/// An accepted program, and parts of a value that fits, cut at random.
fn fitting(random: &mut Random) -> Batch {
    let (table, parts) = sound(random);
    let parts = cut(random, &table, &parts);
    Batch {
        text: written(&table),
        second: parts::text(&parts),
    }
}

/// A program and parts that fit its classes; those of another program if it
/// cannot be read.
fn on_sound_parts(random: &mut Random, text: Vec<u8>) -> Batch {
    let (table, parts) = match reading::read(&text) {
        Ok(table) => {
            let class = table.input.map_or(0, |input| input.class);
            let parts = parts::graph(random, &table, class);
            (table, parts)
        }
        Err(_) => sound(random),
    };
    let second = parts::text(&cut(random, &table, &parts));
    Batch { text, second }
}

/// An accepted table with an `04` main, and parts of a value that fits it. Left
/// alone, too many values are one object; so a size is drawn first, and others
/// until one is as large.
pub fn sound(random: &mut Random) -> (Table, Vec<Object>) {
    let wanted = *random.pick(&[1, 1, 3, 4, 9]).unwrap_or(&1);
    let mut tries = 0;
    loop {
        tries += 1;
        let table = programs::table(random);
        let class = table.input.expect("an 04 main").class;
        let parts = parts::graph(random, &table, class);
        // More than 32 distinct objects are no value.
        let value = batch::input(&table, &parts::text(&parts)).ok().flatten();
        if value.is_some_and(|value| tries > 8 || value.size() >= wanted) {
            return (table, parts);
        }
    }
}

pub(super) fn written(table: &Table) -> Vec<u8> {
    writing::text(table).expect("generated tables have a text")
}

/// A run to compare.
#[derive(Clone, Debug)]
pub struct Case {
    pub mode: Mode,
    pub fuel: u16,
    pub batch: Batch,
}

/// A case of the usual mixture.
pub fn case(random: &mut Random) -> Case {
    let kind = match random.below(100) {
        0..40 => Kind::Fitting,
        40..50 => Kind::Rings,
        50..55 => Kind::Pairs,
        55..60 => Kind::Limits,
        60..70 => Kind::IllTyped,
        70..75 => Kind::Damaged,
        _ => Kind::Flawed,
    };
    let mode = match random.below(2) {
        0 => Mode::Checked,
        _ => Mode::Trial,
    };
    let batch = draw(kind, random);
    let fuel = fuel_near(|| spent(&batch).unwrap_or(0), random);
    Case { mode, fuel, batch }
}

/// What a trial run spends of `linerun`'s fuel, if it is not refused.
fn spent(batch: &Batch) -> Option<usize> {
    let table = reading::read(&batch.text).ok()?;
    let input = batch::input(&table, &batch.second).ok()?;
    let (_, left) = running::run_on(&table, input, 1_000);
    Some(usize::from(1_000 - left))
}
