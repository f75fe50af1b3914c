//! Programs of shapes that the usual mixture hardly has, through both engines: those of the fast mode's own tests
//! (reference/tests/fast) and large ones. Each shape is counted, so that none is missing. Rings put together are in
//! `runs.rs`.

#[path = "../../tests/fast/paths.rs"]
mod paths;
#[path = "../../tests/fast/programs.rs"]
mod programs;

use baqolluy::open;
use differential::compare::{self, Bench};
use reference::calls::Mode;
use reference::generator::random::Random;
use reference::generator::{Kind, stats, text};
use reference::reading;
use reference::running;
use reference::syntax::{Expr, Table};
use reference::writing;

/// Programs in which a shape occurred: looked for in the table, in an accepted program if that is said, or in a report.
#[derive(Debug, Default)]
struct Shapes {
    programs: u64,
    accepted: u64,
    /// An object of class 20, the last, without fields, in a report.
    last_class: u64,
    /// A field of a field; and in an accepted program.
    two_fields: u64,
    two_fields_accepted: u64,
    /// Three fields in a row, not all of one number, in an accepted program that ends in a value.
    three_fields: u64,
    /// Accepted, with more than 7 classes, more than 20 methods, res, fields and parents.
    large: u64,
    /// Accepted, with a method whose two results have different classes.
    two_results: u64,
    /// A value of 16 objects or more that leads back to itself.
    large_cyclic: u64,
    /// Too large.
    too_large: u64,
}

fn any_part(expr: &Expr, is: impl Fn(&Expr) -> bool + Copy) -> bool {
    is(expr) || expr.parts().iter().any(|part| any_part(part, is))
}

fn any_expr(table: &Table, is: impl Fn(&Expr) -> bool + Copy) -> bool {
    let bodies = table.methods.iter().flat_map(|m| [&m.left, &m.right]);
    bodies.chain([&table.main]).any(|expr| any_part(expr, is))
}

/// The numbers of fields selected one after the other, the last first.
fn fields_in_a_row(expr: &Expr) -> Vec<u8> {
    let mut fields = Vec::new();
    let mut inner = expr;
    while let Expr::Field(field, receiver) = inner {
        fields.push(*field);
        inner = receiver;
    }
    fields
}

fn is_large(table: &Table) -> bool {
    table.classes.len() > 7
        && table.methods.len() > 20
        && table.classes.iter().any(|class| class.parent != 0)
        && any_expr(table, |expr| *expr == Expr::Res)
        && any_expr(table, |expr| matches!(expr, Expr::Field(..)))
}

fn is_large_cyclic(table: &Table) -> bool {
    let (outcome, _) = running::run(table, 1_000);
    outcome.is_ok_and(|value| value.size() >= 16 && stats::is_cyclic(&value))
}

impl Shapes {
    /// Compares the verdict, and runs in both modes with `linerun`'s fuel and with little.
    fn compare(&mut self, bench: &mut Bench, text: &[u8], little: u16) {
        let verdict = compare::check(text).unwrap_or_else(|difference| panic!("{difference}"));
        let mut report = String::new();
        for mode in [Mode::Checked, Mode::Trial] {
            for fuel in [little, 1_000] {
                let ran = bench.run_anyhow(mode, text, open(fuel));
                let ran = ran.unwrap_or_else(|difference| panic!("{difference}"));
                report = String::from_utf8_lossy(ran.report).into_owned();
            }
        }
        let table = reading::read(text).expect("a text that passes 1 to 5");
        self.count(&table, verdict.refusal == 0, &report);
    }

    fn count(&mut self, table: &Table, accepted: bool, report: &str) {
        let two_fields = any_expr(table, |expr| fields_in_a_row(expr).len() >= 2);
        let different = |fields: &[u8]| fields.len() >= 3 && fields.iter().any(|f| *f != fields[0]);
        let three_fields = any_expr(table, |expr| different(&fields_in_a_row(expr)));
        let mut methods = table.methods.iter();
        let two_results = methods.any(|method| method.first.class != method.second.class);
        // Class 20 and a count of 00 end the line.
        let is_last = |line: &str| line.len() == "05000000".len() && line.ends_with("2000");
        let last_class = report.lines().any(is_last);
        let cyclic = report.lines().count() >= 16 && is_large_cyclic(table);
        for (count, met) in [
            (&mut self.programs, true),
            (&mut self.accepted, accepted),
            (&mut self.last_class, last_class),
            (&mut self.two_fields, two_fields),
            (&mut self.two_fields_accepted, two_fields && accepted),
            (
                &mut self.three_fields,
                three_fields && accepted && report.starts_with("05"),
            ),
            (&mut self.large, is_large(table) && accepted),
            (&mut self.two_results, two_results && accepted),
            (&mut self.large_cyclic, cyclic),
            (&mut self.too_large, report == "0704\n"),
        ] {
            *count += u64::from(met);
        }
    }
}

fn of_tables(seed: u64, count: u64, draw: fn(&mut Random) -> Table) -> Shapes {
    let written = |table| writing::text(&table).expect("a table with a text");
    of_texts(seed, count, |random| written(draw(random)))
}

fn of_texts(seed: u64, count: u64, draw: impl Fn(&mut Random) -> Vec<u8>) -> Shapes {
    let mut bench = Bench::new(seed);
    let mut shapes = Shapes::default();
    for number in 0..count {
        let mut random = Random::for_case(seed, number);
        let text = draw(&mut random);
        shapes.compare(&mut bench, &text, random.below(40) as u16);
    }
    assert_eq!(shapes.programs, count);
    shapes
}

/// Any expressions at all.
#[test]
fn wild_programs() {
    let shapes = of_tables(501, 10_000, programs::wild);
    assert!(shapes.two_fields > 0 && shapes.too_large > 0, "{shapes:?}");
}

/// Graphs that are walked and grafted.
#[test]
fn graphs_of_methods() {
    let shapes = of_tables(502, 10_000, programs::graph);
    assert!(shapes.large_cyclic > 0, "{shapes:?}");
}

/// Paths of several fields.
#[test]
fn many_fields_in_a_row() {
    let shapes = of_tables(505, 2_000, paths::paths);
    assert_eq!(shapes.accepted, 2_000);
    assert!(shapes.three_fields > 1_000, "{shapes:?}");
}

/// Rings and chains of about 32 objects.
#[test]
fn values_of_about_32_objects() {
    let shapes = of_tables(503, 200, programs::sized);
    assert!(
        shapes.large_cyclic > 0 && shapes.too_large > 0,
        "{shapes:?}"
    );
}

/// Several programs in one.
#[test]
fn large_programs() {
    let shapes = of_texts(504, 1_000, |random| text(Kind::Large, random));
    assert_eq!(shapes.accepted, 1_000);
    assert!(shapes.last_class > 0 && shapes.large > 0, "{shapes:?}");
    assert!(shapes.two_fields_accepted > 0, "{shapes:?}");
    assert!(shapes.two_results > 0, "{shapes:?}");
}
