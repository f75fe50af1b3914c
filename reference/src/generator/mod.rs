//! Seeded programs and texts for comparing engines: the kinds, and cases of a
//! mode, a fuel and a text. What the cases give is counted in `stats.rs` and
//! written down in `rows.rs`; runs on a second text are drawn in `batch`.

pub mod batch;
mod chains;
mod counting;
mod damaged;
mod exprs;
mod full;
mod graphs;
mod illtyped;
mod large;
mod limits;
mod numbers;
pub mod random;
pub mod rings;
pub mod rows;
mod signatures;
pub mod stats;
mod typed;

use crate::calls::Mode;
use crate::reading;
use crate::running::{self, Stop};
use crate::syntax::Table;
use crate::values::Ref;
use crate::writing;
use random::Random;

#[derive(Clone, Copy, Debug, PartialEq, Eq)]
pub enum Kind {
    /// Accepted by the checker, chosen so that outcomes of every sort are common.
    Typed,
    /// Accepted, as it was drawn: quicker, and plainer in what it ends in.
    Plain,
    /// Accepted, and ending just inside or just outside a limit.
    Limits,
    /// Refused 6 or 7.
    IllTyped,
    /// Refused 1 to 5.
    Damaged,
    /// Accepted, and as long as a text can be.
    Full,
    /// Accepted, with 32 classes and many methods: several programs in one.
    Large,
    /// Accepted, and full of rings that are put together.
    Rings,
    /// Accepted, with methods that are found far up chains of classes.
    Chains,
    /// Refused 5: such a method, declared again with other types.
    Overrides,
}

impl Kind {
    pub fn named(name: &str) -> Option<Kind> {
        match name {
            "typed" => Some(Kind::Typed),
            "plain" => Some(Kind::Plain),
            "limits" => Some(Kind::Limits),
            "illtyped" => Some(Kind::IllTyped),
            "damaged" => Some(Kind::Damaged),
            "full" => Some(Kind::Full),
            "large" => Some(Kind::Large),
            "rings" => Some(Kind::Rings),
            "chains" => Some(Kind::Chains),
            "overrides" => Some(Kind::Overrides),
            _ => None,
        }
    }
}

/// A text of a kind.
pub fn text(kind: Kind, random: &mut Random) -> Vec<u8> {
    match kind {
        Kind::Typed => written(&wished(random)),
        Kind::Plain => written(&typed::table(random)),
        Kind::Limits => written(&limits::table(random)),
        Kind::IllTyped => illtyped::text(random),
        Kind::Damaged => damaged::text(random),
        Kind::Full => written(&full::table(random)),
        Kind::Large => written(&large::table(random)),
        Kind::Rings => rings::Rings::draw(random).text(),
        Kind::Chains => written(&chains::table(random)),
        Kind::Overrides => chains::refused(random),
    }
}

/// An accepted table. Left alone, too many programs end in one object without
/// fields; so a wish is drawn first, and tables until one meets it.
fn wished(random: &mut Random) -> Table {
    let wish = random.below(100);
    if wish < 8 {
        return limits::table(random);
    }
    for _ in 0..40 {
        let table = typed::table(random);
        let (outcome, left, tally) = running::run_with_tally(&table, None, 1_000);
        let met = match &outcome {
            _ if wish < 12 => true,
            _ if wish < 20 => tally.open > 0,
            Ok(value) if wish < 53 => stats::is_cyclic(value),
            Ok(value) if wish < 57 => stats::is_partly_undetermined(value),
            Ok(value) if wish < 60 => value.root() == Ref::Undetermined,
            Ok(value) if wish < 65 => matches!(value.root(), Ref::Number(_)),
            Ok(value) if wish < 73 => stats::holds_numbers(value),
            Err(Stop::SumTooLarge) => (73..79).contains(&wish),
            Ok(value) => value.size() != 1 && left < 998,
            Err(_) => wish >= 79,
        };
        if met {
            return table;
        }
    }
    typed::table(random)
}

fn written(table: &Table) -> Vec<u8> {
    writing::text(table).expect("generated tables have a text")
}

/// A run to compare.
#[derive(Clone, Debug)]
pub struct Case {
    pub mode: Mode,
    pub fuel: u16,
    pub text: Vec<u8>,
}

/// A case of the usual mixture.
pub fn case(random: &mut Random) -> Case {
    let (kind, mode) = match random.below(100) {
        0..53 => (Kind::Typed, Mode::Checked),
        53..58 => (Kind::Chains, Mode::Checked),
        58..60 => (Kind::Overrides, Mode::Checked),
        60..64 => (Kind::Typed, Mode::Trial),
        64..74 => (Kind::IllTyped, Mode::Checked),
        74..84 => (Kind::IllTyped, Mode::Trial),
        84..96 => (Kind::Damaged, Mode::Checked),
        _ => (Kind::Damaged, Mode::Trial),
    };
    let text = text(kind, random);
    let fuel = fuel_for(&text, random);
    Case { mode, fuel, text }
}

/// Mostly `linerun`'s fuel; often just what the run needs, one less or more.
fn fuel_for(text: &[u8], random: &mut Random) -> u16 {
    let Ok(table) = reading::read(text) else {
        return 1_000;
    };
    let spent = || {
        let (_, left) = running::run(&table, 1_000);
        usize::from(1_000 - left)
    };
    fuel_near(spent, random)
}

/// The same for a run that spends so much.
fn fuel_near(spent: impl FnOnce() -> usize, random: &mut Random) -> u16 {
    match random.below(100) {
        0..65 => 1_000,
        65..90 => {
            let spent = spent();
            random.between(spent.saturating_sub(1), spent + 1) as u16
        }
        _ => random.below(30) as u16,
    }
}
