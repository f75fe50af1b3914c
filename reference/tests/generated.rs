//! What must hold of every generated program, on fixed seeds.

mod common;

use common::{checked, trial};
use reference::calls::check;
use reference::classes::{class_fits, fields};
use reference::generator::random::Random;
use reference::generator::{Kind, rows, stats, text};
use reference::reading::read;
use reference::report::{in_order_met, report};
use reference::running::{Stop, run};
use reference::syntax::{MINUS, NUMBER, Table, Type};
use reference::values::{Ref, Value};
use reference::writing::write;

fn texts(kind: Kind, seed: u64, count: u64) -> impl Iterator<Item = Vec<u8>> {
    (0..count).map(move |case| text(kind, &mut Random::for_case(seed, case)))
}

/// Tables of accepted programs.
fn tables(seed: u64, count: u64) -> impl Iterator<Item = Table> {
    texts(Kind::Typed, seed, count).map(|text| read(&text).unwrap())
}

#[test]
fn the_kinds_are_what_they_say() {
    let small = [Kind::Typed, Kind::Plain, Kind::Limits];
    let accepted = small.into_iter().chain([Kind::Rings, Kind::Chains]);
    for text in accepted.flat_map(|kind| texts(kind, 11, 100)) {
        assert!(check(&text).is_ok());
    }
    for text in texts(Kind::Overrides, 11, 100) {
        assert_eq!(read(&text).unwrap_err().number(), 5);
    }
    for text in texts(Kind::Large, 11, 100) {
        assert!(check(&text).is_ok());
        assert_eq!(read(&text).unwrap().classes.len(), 32);
    }
    for text in texts(Kind::IllTyped, 12, 150) {
        let number = check(&text).unwrap_err().number();
        assert!(number == 6 || number == 7);
        assert!(read(&text).is_ok());
    }
    for text in texts(Kind::Damaged, 13, 200) {
        assert!(read(&text).unwrap_err().number() <= 5);
    }
    for text in texts(Kind::Full, 14, 3) {
        assert!(check(&text).is_ok());
        assert_eq!(text.len(), 33_989);
    }
}

#[test]
fn what_is_read_is_written_back() {
    let kinds = [Kind::Typed, Kind::IllTyped, Kind::Full];
    for text in kinds.into_iter().flat_map(|kind| texts(kind, 21, 60)) {
        let mut buffer = vec![0x5A; 49_600];
        let length = write(&read(&text).unwrap(), &mut buffer).unwrap();
        assert_eq!(&buffer[..length], &text[..]);
        assert!(buffer[length..].iter().all(|&byte| byte == 0x5A));
    }
}

/// A place holds what its type allows: an object of a class that fits, a number
/// where that is the class, or the undetermined value exactly under tag 03.
fn assert_allowed(table: &Table, value: &Value, place: Ref, type_: Type) {
    match place {
        Ref::Object(object) => {
            assert!(class_fits(table, value.object(object).class, type_.class));
        }
        Ref::Number(_) => assert_eq!(type_.class, NUMBER),
        Ref::Undetermined => assert_eq!(type_.tag, MINUS),
        Ref::Mark(_) => panic!("an open mark in a finished value"),
    }
}

#[test]
fn accepted_programs_are_never_stuck_and_keep_their_types() {
    let (mut values, mut undetermined, mut numbers) = (0, 0, 0);
    for table in tables(31, 300) {
        let main = reference::typing::check(&table).unwrap();
        let (outcome, _) = run(&table, 1000);
        assert_ne!(outcome.as_ref().err(), Some(&Stop::Stuck));
        let Ok(value) = outcome else { continue };
        values += 1;
        assert_allowed(&table, &value, value.root(), main);
        for place in in_order_met(&value) {
            let object = value.object(place);
            let types = fields(&table, object.class);
            assert_eq!(types.len(), object.fields.len());
            for (&field, type_) in object.fields.iter().zip(types) {
                undetermined += usize::from(field == Ref::Undetermined);
                numbers += usize::from(matches!(field, Ref::Number(_)));
                assert_allowed(&table, &value, field, type_);
            }
        }
    }
    assert!(
        values > 150 && undetermined > 5 && numbers > 30,
        "{values} {undetermined} {numbers}"
    );
}

#[test]
fn fuel_is_spent_one_unit_a_call_and_decides_nothing_else() {
    let mut tested = 0;
    for table in tables(41, 120) {
        let (outcome, left) = run(&table, 1000);
        let spent = 1000 - left;
        if outcome.as_ref().err() == Some(&Stop::OutOfFuel) || spent == 0 {
            continue;
        }
        tested += 1;
        let written = report(&outcome);
        let (exact, left) = run(&table, spent);
        assert_eq!((report(&exact), left), (written, 0));
        let (short, left) = run(&table, spent - 1);
        assert_eq!((short.err(), left), (Some(Stop::OutOfFuel), 0));
    }
    assert!(tested > 80);
}

#[test]
fn a_checked_run_of_an_accepted_text_is_its_trial_run() {
    for text in texts(Kind::Typed, 51, 100) {
        let (output, left) = checked(50, &text);
        let (verdict, report) = output.split_at(9);
        assert!(verdict.starts_with("0800"));
        assert_eq!(trial(50, &text), (report.to_string(), left));
    }
}

/// Equality by rounds: all pairs of objects are equal at first, and pairs
/// whose class, leaves or fields differ are struck out until none is left to
/// strike. Another way to the same answer than the engine's.
fn equal_by_rounds(value: &Value, objects: &[usize]) -> Vec<Vec<bool>> {
    let count = objects.len();
    let mut equal = vec![vec![true; count]; count];
    let at = |place: usize| objects.iter().position(|&other| other == place).unwrap();
    for _ in 0..=count * count {
        for one in 0..count {
            for two in 0..count {
                let (left, right) = (value.object(objects[one]), value.object(objects[two]));
                let fields = left.fields.iter().zip(&right.fields);
                let same = left.class == right.class
                    && left.fields.len() == right.fields.len()
                    && fields.into_iter().all(|pair| match pair {
                        (&Ref::Object(a), &Ref::Object(b)) => equal[at(a)][at(b)],
                        (a, b) => a == b,
                    });
                equal[one][two] &= same;
            }
        }
    }
    equal
}

/// Every object in reach, equal ones listed each.
fn all_in_reach(value: &Value) -> Vec<usize> {
    let mut found = Vec::new();
    let mut todo = vec![value.root()];
    while let Some(reference) = todo.pop() {
        if let Ref::Object(place) = reference
            && !found.contains(&place)
        {
            found.push(place);
            todo.extend(&value.object(place).fields);
        }
    }
    found
}

/// A value over two classes, two marks and two numbers, some of them closed on the way.
fn random_value(random: &mut Random) -> Value {
    let mut pool = vec![Value::mark(0), Value::mark(1), Value::undetermined()];
    for _ in 0..random.between(2, 9) {
        // Mostly the newest, so that marks are not left behind at once.
        let mut taken = || {
            let newest = pool.len() - 1;
            let place = newest.saturating_sub(random.below(3));
            pool[place].clone()
        };
        let (one, two) = (taken(), taken());
        let made = match random.below(6) {
            0 | 1 => Value::new(1, vec![one]),
            2 => Value::new(2, vec![one, two]),
            5 => Value::new(2, vec![one, Value::number(random.below(2) as u16)]),
            closed => Some(one.closed(closed as u32 - 3)),
        };
        pool.extend(made);
    }
    pool.pop().unwrap().closed(0)
}

#[test]
fn equality_agrees_with_rounds_of_striking_out() {
    let mut random = Random::new(61);
    let (mut repeated, mut equals) = (0, 0);
    for _ in 0..3000 {
        let (left, right) = (random_value(&mut random), random_value(&mut random));
        let Some(pair) = Value::new(3, vec![left.clone(), right.clone()]) else {
            continue;
        };
        let [one, two] = pair.object(all_in_reach(&pair)[0]).fields[..] else {
            panic!("a pair has two fields");
        };
        assert_eq!(pair.same(one, two), left == right);
        equals += usize::from(left == right && left.class().is_some());
        let objects = all_in_reach(&left);
        let equal = equal_by_rounds(&left, &objects);
        for (one, row) in equal.iter().enumerate() {
            for (two, &expected) in row.iter().enumerate() {
                let (one, two) = (Ref::Object(objects[one]), Ref::Object(objects[two]));
                assert_eq!(left.same(one, two), expected);
                repeated += usize::from(expected && one != two);
            }
        }
    }
    assert!(repeated > 100 && equals > 20, "{repeated} {equals}");
}

/// Document 01: "a text is a value's report when it has this form and
/// numbering, no two equal objects, at most 32 of them, ...".
fn assert_report_form(text: &str) {
    let mut counts = std::collections::HashMap::new();
    let mut next = vec![];
    for (number, line) in text.lines().enumerate() {
        let bytes: Vec<usize> = (0..line.len() / 2)
            .map(|place| usize::from_str_radix(&line[2 * place..2 * place + 2], 16).unwrap())
            .collect();
        assert_eq!(bytes[..2], [5, number]);
        assert!(number < 32 && bytes[2] <= 0x20);
        let fields = fields_of(&bytes[4..]);
        assert_eq!(fields.len(), bytes[3]);
        assert_eq!(*counts.entry(bytes[2]).or_insert(bytes[3]), bytes[3]);
        next.push(fields);
    }
    let mut met = vec![];
    let mut todo = vec![0];
    while let Some(number) = todo.pop() {
        if number < 0xFE && !met.contains(&number) {
            met.push(number);
            todo.extend(next[number].iter().rev());
        }
    }
    assert!(met.into_iter().eq(0..next.len()));
}

/// The first byte of each field; a number has two bytes after it.
fn fields_of(bytes: &[usize]) -> Vec<usize> {
    let mut fields = Vec::new();
    let mut rest = bytes;
    while let Some((&first, after)) = rest.split_first() {
        fields.push(first);
        rest = if first == 0xFE { &after[2..] } else { after };
    }
    fields
}

#[test]
fn reports_of_values_have_their_form() {
    let mut tested = 0;
    for text in texts(Kind::Typed, 71, 120) {
        let (report, _) = trial(1000, &text);
        if report.starts_with("05") {
            assert_report_form(&report);
            tested += 1;
        }
    }
    assert!(tested > 60);
}

#[test]
fn every_verdict_and_outcome_occurs() {
    let table = stats::stats(3, 500);
    for number in 0..=7 {
        assert!(table.contains(&format!("checked: verdict {number:02}")));
    }
    for outcome in ["value", "06", "09", "0702", "0703", "0704", "0705"] {
        assert!(table.contains(&format!("checked: outcome {outcome}")));
    }
    assert!(table.contains("trial: outcome 0701"));
    assert!(!table.contains("checked: outcome 0701"));
    assert!(!table.contains("trial: verdict 06") && !table.contains("trial: verdict 07"));
}

#[test]
fn rows_say_what_their_runs_give() {
    for number in 0..100 {
        let row = rows::row(81, number);
        let parts: Vec<&str> = row.trim_end_matches('\n').split('\t').collect();
        let [mode, fuel, text, output, left] = parts[..] else {
            panic!("{row}");
        };
        let text = text.replace("\\n", "\n").into_bytes();
        assert!(text.len() <= 600);
        let fuel = fuel.parse().unwrap();
        let (given, spared) = match mode {
            "checked" => checked(fuel, &text),
            _ => trial(fuel, &text),
        };
        assert_eq!(given, output.replace("\\n", "\n"));
        assert_eq!(spared.to_string(), left);
    }
}
