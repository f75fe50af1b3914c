//! Verdicts of both engines on programs with one type changed, so that each typing rule is met just inside and just
//! outside. Verdicts of all other samples are compared in `runs.rs`, together with the runs.

use differential::compare::check;
use reference::classes::fits;
use reference::generator::random::Random;
use reference::generator::{Kind, text};
use reference::reading::read;
use reference::syntax::{MINUS, MINUS_OPEN, Method, NUMBER, PLUS, PLUS_OPEN, Table, Type};
use reference::typing::sides;
use reference::writing::encode;

/// Changes the tag or the class of one type of a method, or of a field.
fn change(random: &mut Random, table: &mut Table) {
    let known = table.classes.len() + 1;
    let place = random.below(table.methods.len());
    let method = &mut table.methods[place];
    let changed = match random.below(10) {
        0..2 => &mut method.first,
        2..8 => &mut method.second,
        8 if !method.params.is_empty() => &mut method.params[0],
        _ => {
            let class = random.below(table.classes.len());
            match table.classes[class].fields.first_mut() {
                Some(field) => field,
                None => &mut table.methods[place].second,
            }
        }
    };
    if random.chance(70) {
        changed.tag = random.below(4) as u8;
    } else {
        changed.class = match random.below(5) {
            0 => NUMBER,
            _ => random.below(known) as u8,
        };
    }
}

/// Whether a method fails by document 01's own condition alone: its left type does not fit the second result.
fn fails_by_the_last_condition(table: &Table, method: &Method) -> bool {
    let Some((left, right)) = sides(table, method) else {
        return false;
    };
    let tag = match left.tag {
        PLUS | PLUS_OPEN => PLUS,
        _ => MINUS,
    };
    fits(table, Type { tag, ..left }, method.first)
        && fits(table, right, method.second)
        && fits(table, method.first, method.second)
        && !fits(table, left, method.second)
}

#[test]
fn programs_with_a_type_changed() {
    let mut verdicts = [0; 8];
    let (mut last, mut open_results) = (0, 0);
    for number in 0..8_000 {
        let mut random = Random::for_case(401, number);
        let base = read(&text(Kind::Plain, &mut random)).expect("a program");
        for _ in 0..12 {
            let mut table = base.clone();
            change(&mut random, &mut table);
            let text = encode(&table).expect("a table with lines");
            let verdict = check(&text).unwrap_or_else(|difference| panic!("{difference}"));
            verdicts[usize::from(verdict.refusal)] += 1;
            if verdict.refusal == 6 {
                let mut methods = table.methods.iter();
                last +=
                    u32::from(methods.any(|method| fails_by_the_last_condition(&table, method)));
            }
            let open = |method: &Method| matches!(method.second.tag, PLUS_OPEN | MINUS_OPEN);
            open_results += u32::from(verdict.refusal == 0 && table.methods.iter().any(open));
        }
    }
    for refusal in [0, 4, 5, 6, 7] {
        assert!(verdicts[refusal] > 300, "{verdicts:?}");
    }
    assert!(last > 50 && open_results > 5_000, "{last} {open_results}");
}

/// A character changed at every place of a program, and every prefix of one.
#[test]
fn every_place_of_a_text() {
    let mut verdicts = [0; 8];
    for number in 0..12 {
        let base = text(Kind::Plain, &mut Random::for_case(402, number));
        for place in 0..base.len() {
            for character in b"01234F" {
                let mut changed = base.clone();
                changed[place] = *character;
                let verdict = check(&changed).unwrap_or_else(|difference| panic!("{difference}"));
                verdicts[usize::from(verdict.refusal)] += 1;
            }
            check(&base[..place]).unwrap_or_else(|difference| panic!("{difference}"));
        }
    }
    // One character puts no frame out of order.
    for refusal in [0, 1, 2, 4, 5, 6, 7] {
        assert!(verdicts[refusal] > 20, "{verdicts:?}");
    }
}
