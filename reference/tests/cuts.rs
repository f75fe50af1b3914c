//! Values cut at random: every cut is the same value and gives the same report.
//! Also what holds of all accepted programs on fitting parts.

mod common;

use common::lent::{Buffers, Run, shown};
use reference::batch;
use reference::calls::{self, Mode};
use reference::classes::{class_fits, fields};
use reference::fast;
use reference::generator::batch::cuts::cut;
use reference::generator::batch::{Batch, Kind, draw, parts, sound};
use reference::generator::random::Random;
use reference::reading::read;
use reference::report::in_order_met;
use reference::running::{Stop, run_on};
use reference::syntax::{MINUS, NUMBER, Table, Type};
use reference::typing;
use reference::values::{Ref, Value};
use reference::writing;

const MODES: [Mode; 2] = [Mode::Checked, Mode::Trial];

/// Values cut at random, as many as wanted: each gives the report, the length
/// and the fuel of the first cut.
fn cut_again(seed: u64, values: u64, cuts: usize, runs: &[Run]) {
    let mut buffers = Buffers::new();
    for number in 0..values {
        let mut random = Random::for_case(seed, number);
        let (table, graph) = sound(&mut random);
        let text = writing::text(&table).unwrap();
        let second = parts::text(&graph);
        let first = Batch { text, second };
        let fuel = random.below(40) as u16;
        let mode = MODES[random.below(2)];
        let expected = buffers.agreed(mode, &first, fuel);
        assert_eq!(expected.answer.refusal, None);
        for _ in 0..cuts {
            let second = parts::text(&cut(&mut random, &table, &graph));
            let text = first.text.clone();
            let batch = Batch { text, second };
            for &run in runs {
                let ran = buffers.run(run, mode, &batch, fuel);
                assert_eq!(ran, expected, "{}{}", shown(&first), shown(&batch));
            }
        }
    }
}

#[test]
fn a_hundred_thousand_graphs_cut_at_random() {
    cut_again(206, 2_000, 50, &[fast::run_batch]);
}

#[test]
fn graphs_cut_at_random_in_the_simple_mode() {
    cut_again(207, 300, 5, &[calls::run_batch]);
}

/// The value that comes in equals the value of any other cut, by the equality
/// that calls are compared with, and no two of its objects are equal.
#[test]
fn cuts_are_one_value() {
    for number in 0..500 {
        let mut random = Random::for_case(208, number);
        let (table, graph) = sound(&mut random);
        let value = |second: &[u8]| batch::input(&table, second).unwrap().unwrap();
        let first = value(&parts::text(&graph));
        let other = value(&parts::text(&cut(&mut random, &table, &graph)));
        assert!(first == other);
        assert_eq!(first.size(), other.size());
    }
}

#[test]
fn what_is_read_is_written_back() {
    for number in 0..300 {
        let mut random = Random::for_case(209, number);
        for kind in [Kind::Fitting, Kind::IllTyped, Kind::Rings] {
            let text = draw(kind, &mut random).text;
            let table = read(&text).unwrap();
            assert!(table.input.is_some());
            assert_eq!(writing::text(&table), Some(text));
        }
    }
}

/// A place holds what its type allows: an object of a class that fits, or the
/// undetermined value exactly under tag 03.
fn assert_allowed(table: &Table, value: &Value, place: Ref, type_: Type) {
    match place {
        Ref::Object(object) => {
            assert!(class_fits(table, value.object(object).class, type_.class));
        }
        Ref::Number(_) => assert_eq!(type_.class, NUMBER),
        Ref::Undetermined => assert_eq!(type_.tag, MINUS),
        Ref::Mark(_) => panic!("an open mark in a finished value"),
    }
}

/// Whatever fitting parts an accepted program is given.
#[test]
fn accepted_programs_are_never_stuck_and_keep_their_types() {
    let (mut values, mut undetermined) = (0, 0);
    for number in 0..2_000 {
        let batch = draw(Kind::Fitting, &mut Random::for_case(210, number));
        let table = read(&batch.text).unwrap();
        let main = typing::check(&table).unwrap();
        let input = batch::input(&table, &batch.second).unwrap();
        let (outcome, _) = run_on(&table, input, 200);
        assert_ne!(outcome.as_ref().err(), Some(&Stop::Stuck));
        let Ok(value) = outcome else { continue };
        values += 1;
        assert_allowed(&table, &value, value.root(), main);
        for place in in_order_met(&value) {
            let object = value.object(place);
            for (&held, type_) in object.fields.iter().zip(fields(&table, object.class)) {
                undetermined += usize::from(held == Ref::Undetermined);
                assert_allowed(&table, &value, held, type_);
            }
        }
    }
    assert!(
        values > 1_000 && undetermined > 300,
        "{values} {undetermined}"
    );
}
