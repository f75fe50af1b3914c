//! Where methods are found: the nearest class from the one asked for up, or
//! none; what runs, types and overriding make of it; and that generated
//! programs have it otherwise than in the class asked for often enough.

mod common;

use common::{refuses, slashed};
use reference::calls::Mode;
use reference::classes::{Found, find};
use reference::generator::random::Random;
use reference::generator::{Kind, text};
use reference::reading::read;
use reference::refusals::Refusal;
use reference::running::run_with_tally;
use reference::syntax::Table;

fn table(lines: &str) -> Table {
    read(slashed(lines).as_bytes()).unwrap()
}

/// Class 3 below 2 below 1: names 1 and 2, and 1 again in class 3.
const CHAIN: &str = "01010000/01020100/01030200/02010101000100004040/02020201000100004040/\
                     02030101000100004040/03450000/";

#[test]
fn the_owner_is_the_nearest_class_that_has_the_name() {
    let table = table(CHAIN);
    let found = |(class, name)| find(&table, class, name);
    let places = [(1, 1), (2, 1), (2, 2), (3, 1), (3, 2)];
    let expected = [(1, 0), (1, 0), (2, 1), (3, 2), (2, 1)];
    for (place, (owner, number)) in places.into_iter().zip(expected) {
        let method = &table.methods[number];
        let answer = Found {
            owner,
            number,
            method,
        };
        assert_eq!(found(place), Some(answer), "{place:?}");
        assert_eq!(method.owner, owner);
    }
    for place in [(1, 2), (0, 1), (33, 1), (254, 1), (1, 3)] {
        assert_eq!(found(place), None, "{place:?}");
    }
}

/// Class 2's method 2 calls method 1 on this: class 1's for an object of class 2,
/// class 3's for one of class 3. The bodies of method 1 make objects of classes 4
/// and 6, so that a report tells which ran.
const DISPATCH: &str = "01010000/01020100/01030200/01040000/01050000/01060000/\
                        0201010000000000450400450400/020202000000000044010040450500/\
                        0203010000000000450600450600/";

#[test]
fn a_run_calls_what_is_found_from_the_objects_class() {
    let (inherited, own) = ("05000400/", "05000600/");
    for (main, report) in [("03440200450300/", own), ("03440200450200/", inherited)] {
        let text = slashed(&format!("{DISPATCH}{main}"));
        let run = |mode| common::run_on(mode, 1_000, text.as_bytes(), b"");
        let verdict = slashed(&format!("08000000/{report}"));
        assert_eq!(run(Mode::Checked), (verdict, 998));
        assert_eq!(run(Mode::Trial), (slashed(report), 998));
    }
}

/// Class 2 has no method 1; class 3's has another second tag than class 1's.
#[test]
fn an_override_is_held_against_the_nearest_above_it() {
    let gap = "01010000/01020100/01030200/02010101000100004040/02030101000103004040/03450000/";
    refuses(gap, "", Refusal::Override);
}

/// What is found in generated programs, by programs.
#[derive(Debug, Default)]
struct Counts {
    /// Some class has a method from above, and from further than its parent.
    inherited: usize,
    from_far: usize,
    /// A method is declared again, and with classes between that do not.
    overridden: usize,
    across: usize,
    /// A run calls a method that another class than the object's owns.
    called: usize,
}

fn counted(kind: Kind, seed: u64, count: u64) -> Counts {
    let mut counts = Counts::default();
    for number in 0..count {
        let text = text(kind, &mut Random::for_case(seed, number));
        let table = read(&text).unwrap();
        let (mut inherited, mut overridden) = (Vec::new(), Vec::new());
        for (class, parent) in (1..).zip(table.classes.iter().map(|class| class.parent)) {
            for name in 0..=255 {
                let above = find(&table, parent, name).map(|above| above.owner);
                match (find(&table, class, name), above) {
                    (Some(found), Some(above)) if found.owner == class => {
                        overridden.push(above != parent);
                    }
                    (found, Some(above)) => {
                        assert_eq!(found.unwrap().owner, above);
                        inherited.push(above != parent);
                    }
                    (found, None) => assert!(found.is_none_or(|found| found.owner == class)),
                }
            }
        }
        counts.inherited += usize::from(!inherited.is_empty());
        counts.from_far += usize::from(inherited.contains(&true));
        counts.overridden += usize::from(!overridden.is_empty());
        counts.across += usize::from(overridden.contains(&true));
        let (_, _, tally) = run_with_tally(&table, None, 1_000);
        counts.called += usize::from(tally.inherited > 0);
    }
    counts
}

#[test]
fn generated_programs_inherit_and_override_across_classes() {
    let chains = counted(Kind::Chains, 121, 500);
    assert!(
        chains.inherited > 450 && chains.from_far > 400,
        "{chains:?}"
    );
    assert!(chains.overridden > 250 && chains.across > 200, "{chains:?}");
    assert!(chains.called > 300, "{chains:?}");
    let plain = counted(Kind::Plain, 122, 500);
    assert!(plain.inherited > 100 && plain.from_far > 10, "{plain:?}");
    assert!(plain.overridden > 50 && plain.called > 25, "{plain:?}");
}
