//! Generated programs on second texts: both modes of this engine against each
//! other, texts made to earn 14 or 15, and sizes at the limits. Values cut in
//! many ways are in `cuts.rs`.

mod common;
#[allow(dead_code)] // the tests of the fast mode use the rest
#[path = "fast/programs.rs"]
mod programs;

use common::lent::{Buffers, outcome, shown};
use reference::builder::{field, param, plus};
use reference::calls::{self, Mode, open};
use reference::fast;
use reference::generator::batch::cuts::cut;
use reference::generator::batch::flaws::Flaw;
use reference::generator::batch::{Batch, Kind, case, draw, limits, parts};
use reference::generator::random::Random;
use reference::syntax::Expr;
use reference::writing;
use std::collections::BTreeMap;

const MODES: [Mode; 2] = [Mode::Checked, Mode::Trial];

#[test]
fn the_usual_mixture() {
    let mut buffers = Buffers::new();
    let mut outcomes: BTreeMap<String, usize> = BTreeMap::new();
    for number in 0..2_500 {
        let case = case(&mut Random::for_case(201, number));
        let ran = buffers.agreed(case.mode, &case.batch, case.fuel);
        *outcomes.entry(outcome(&ran)).or_default() += 1;
        assert_eq!(
            fast::check(&case.batch.text),
            calls::check(&case.batch.text)
        );
    }
    for number in [1, 2, 3, 4, 5, 6, 7, 14, 15] {
        let count = outcomes.get(&format!("refusal {number}"));
        assert!(count.is_some_and(|&count| count > 5), "{outcomes:?}");
    }
    for name in ["05", "06", "09", "0701", "0702", "0703", "0704", "0705"] {
        let count = outcomes.get(name);
        assert!(count.is_some_and(|&count| count > 5), "{outcomes:?}");
    }
}

#[test]
fn every_kind_in_both_modes_with_several_fuels() {
    let mut buffers = Buffers::new();
    for kind in Kind::ALL {
        for number in 0..120 {
            let mut random = Random::for_case(202, number);
            let batch = draw(kind, &mut random);
            for mode in MODES {
                let left = buffers.agreed(mode, &batch, 1_000).answer.session.fuel;
                let spent = 1_000 - left;
                let less = random.below(usize::from(spent) + 1) as u16;
                for fuel in [spent, spent.saturating_sub(1), less, 65_535] {
                    buffers.agreed(mode, &batch, fuel);
                }
            }
        }
    }
}

#[test]
fn the_kinds_are_what_they_say() {
    let mut buffers = Buffers::new();
    for number in 0..300 {
        let mut refusal = |kind, mode| {
            let batch = draw(kind, &mut Random::for_case(203, number));
            let answer = buffers.agreed(mode, &batch, 1_000).answer;
            answer.refusal.map_or(0, |refusal| refusal.number())
        };
        for mode in MODES {
            assert_eq!(refusal(Kind::Fitting, mode), 0);
            assert_eq!(refusal(Kind::Rings, mode), 0);
            assert_eq!(refusal(Kind::Pairs, mode), 0);
            assert!((1..=5).contains(&refusal(Kind::Damaged, mode)));
            assert!([14, 15].contains(&refusal(Kind::Flawed, mode)));
        }
        assert!([6, 7].contains(&refusal(Kind::IllTyped, Mode::Checked)));
        assert!([0, 15].contains(&refusal(Kind::IllTyped, Mode::Trial)));
    }
}

#[test]
fn each_flaw_earns_its_number() {
    let mut buffers = Buffers::new();
    for flaw in Flaw::ALL {
        for number in 0..150 {
            let batch = flaw.draw(&mut Random::for_case(204, number));
            for mode in MODES {
                let ran = buffers.agreed(mode, &batch, 1_000);
                let given = ran.answer.refusal.map(|refusal| refusal.number());
                let shown = || format!("{flaw:?} {mode:?}\n{}", shown(&batch));
                assert_eq!(given, Some(flaw.number()), "{}", shown());
                assert_eq!((ran.answer.session, ran.answer.length), (open(1_000), 0));
            }
        }
    }
}

#[test]
fn lines_and_objects_at_the_limits() {
    let mut buffers = Buffers::new();
    let mut seen: BTreeMap<(usize, usize), usize> = BTreeMap::new();
    for number in 0..900 {
        let sized = limits::draw(&mut Random::for_case(205, number));
        let wanted = match (sized.lines, sized.objects) {
            (255.., _) => 14,
            (_, 33..) => 15,
            _ => 0,
        };
        for mode in MODES {
            let answer = buffers.agreed(mode, &sized.batch, 1_000).answer;
            let given = answer.refusal.map_or(0, |refusal| refusal.number());
            let (lines, objects) = (sized.lines, sized.objects);
            assert_eq!(given, wanted, "{lines} lines, {objects} objects");
        }
        *seen.entry((sized.lines, sized.objects)).or_default() += 1;
    }
    for lines in 252..=255 {
        for objects in 31..=33 {
            assert!(seen[&(lines, objects)] > 5, "{seen:?}");
        }
    }
}

/// Programs without types in the way, given any value at all.
#[test]
fn wild_programs() {
    let mut buffers = Buffers::new();
    let mut values = 0;
    for number in 0..3_000 {
        let mut random = Random::for_case(212, number);
        let mut table = programs::wild(&mut random);
        table.input = Some(plus(0));
        let Expr::Call(_, receiver, arguments) = &mut table.main else {
            panic!("a call");
        };
        if random.chance(20) {
            **receiver = param(0);
        }
        for argument in arguments {
            match random.below(4) {
                0 => {}
                1 => *argument = field(random.below(2) as u8, param(0)),
                _ => *argument = param(0),
            }
        }
        let parts = parts::graph(&mut random, &table, 0);
        let second = parts::text(&cut(&mut random, &table, &parts));
        let text = writing::text(&table).unwrap();
        let batch = Batch { text, second };
        let ran = buffers.agreed(Mode::Trial, &batch, 1_000);
        values += usize::from(outcome(&ran) == "05");
        let spent = 1_000 - ran.answer.session.fuel;
        for fuel in [spent, spent.saturating_sub(1)] {
            buffers.agreed(Mode::Trial, &batch, fuel);
        }
    }
    assert!(values > 500, "{values}");
}

/// A place changed at a time, in both texts.
#[test]
fn every_place_of_two_texts_changed() {
    let mut buffers = Buffers::new();
    let draws = (0..).map(|number| draw(Kind::Fitting, &mut Random::for_case(211, number)));
    let short = draws.filter(|batch| batch.text.len() + batch.second.len() < 900);
    for sound in short.take(6) {
        let (text, second) = (sound.text.len(), sound.second.len());
        for place in 0..text + second {
            for character in [b'0', b'2', b'4', b'5', b'F', b'a', b'\n', 0] {
                let mut changed = sound.clone();
                match place.checked_sub(text) {
                    None => changed.text[place] = character,
                    Some(place) => changed.second[place] = character,
                }
                for mode in MODES {
                    buffers.agreed(mode, &changed, 100);
                }
            }
        }
    }
}
