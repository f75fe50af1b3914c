//! The fast mode against the simple one: answers and every byte of both lent
//! buffers, on generated programs, on rings and graphs, and on small texts
//! with each character changed.

#[path = "fast/paths.rs"]
mod paths;
#[path = "fast/programs.rs"]
mod programs;

use reference::calls::{self, Mode, Session, open};
use reference::fast;
use reference::generator::random::Random;
use reference::generator::{Kind, case, text};
use reference::refusals::{REPORT_LENGTH, WORK_LENGTH};
use reference::syntax::Table;
use reference::writing;
use std::collections::BTreeMap;

/// Lent buffers, used again for every run.
struct Buffers {
    report: Vec<u8>,
    work: Vec<u8>,
}

impl Buffers {
    fn new(report: usize, work: usize) -> Buffers {
        Buffers {
            report: vec![0x5A; report],
            work: vec![0x5A; work],
        }
    }

    fn reset(&mut self) {
        self.report.fill(0x5A);
        self.work.fill(0x5A);
    }
}

/// Compares the two modes run by run and counts the reports' first bytes.
struct Comparison {
    simple: Buffers,
    fast: Buffers,
    outcomes: BTreeMap<String, usize>,
}

impl Comparison {
    fn new() -> Comparison {
        Comparison::in_buffers(REPORT_LENGTH + 9, WORK_LENGTH + 9)
    }

    fn in_buffers(report: usize, work: usize) -> Comparison {
        Comparison {
            simple: Buffers::new(report, work),
            fast: Buffers::new(report, work),
            outcomes: BTreeMap::new(),
        }
    }

    /// Both answers and buffers are the same; gives the fuel left.
    fn agree(&mut self, mode: Mode, session: Session, text: &[u8]) -> u16 {
        self.simple.reset();
        self.fast.reset();
        let Buffers { report, work } = &mut self.simple;
        let expected = calls::run(mode, text, session, report, work);
        let Buffers { report, work } = &mut self.fast;
        let answer = fast::run(mode, text, session, report, work);
        let shown = || format!("{mode:?} {session:?} {}", String::from_utf8_lossy(text));
        assert_eq!(answer, expected, "{}", shown());
        assert!(
            self.fast.report == self.simple.report,
            "{}",
            String::from_utf8_lossy(text)
        );
        assert!(self.fast.work == self.simple.work, "{}", shown());
        let outcome = match expected.refusal {
            Some(refusal) => format!("refusal {}", refusal.number()),
            None => {
                let report = &self.fast.report;
                let length = if report[1] == b'7' { 4 } else { 2 };
                String::from_utf8_lossy(&report[..length]).into_owned()
            }
        };
        *self.outcomes.entry(outcome).or_default() += 1;
        expected.session.fuel
    }

    /// A run with much fuel, then with just enough, one less, and some less.
    fn agree_on_fuels(&mut self, mode: Mode, text: &[u8], random: &mut Random) {
        let spent = 1_000 - self.agree(mode, open(1_000), text);
        for fuel in [spent, spent.saturating_sub(1)] {
            self.agree(mode, open(fuel), text);
        }
        let less = random.below(usize::from(spent) + 1) as u16;
        self.agree(mode, open(less), text);
    }

    fn count(&self, outcome: &str) -> usize {
        self.outcomes.get(outcome).copied().unwrap_or(0)
    }
}

#[test]
fn the_usual_mixture() {
    let mut comparison = Comparison::new();
    for number in 0..2_000 {
        let mut random = Random::for_case(101, number);
        let case = case(&mut random);
        comparison.agree(case.mode, open(case.fuel), &case.text);
        comparison.agree_on_fuels(case.mode, &case.text, &mut random);
        assert_eq!(fast::check(&case.text), calls::check(&case.text));
    }
    for refusal in 1..=7 {
        assert!(comparison.count(&format!("refusal {refusal}")) > 20);
    }
    for outcome in ["05", "06", "09", "0701", "0702", "0703", "0704", "0705"] {
        assert!(comparison.count(outcome) > 20, "{outcome}");
    }
}

#[test]
fn every_kind_in_both_modes() {
    let mut comparison = Comparison::new();
    let kinds = [
        (Kind::Typed, 500),
        (Kind::IllTyped, 700),
        (Kind::Damaged, 3_000),
        (Kind::Full, 10),
        (Kind::Chains, 1_000),
        (Kind::Overrides, 1_000),
    ];
    for (kind, count) in kinds {
        for number in 0..count {
            let mut random = Random::for_case(102, number);
            let text = text(kind, &mut random);
            for mode in [Mode::Checked, Mode::Trial] {
                comparison.agree_on_fuels(mode, &text, &mut random);
            }
        }
    }
    assert!(comparison.count("05") > 1_500);
}

/// Trial runs of tables from a seed, with several fuels each.
fn agree_on_tables(seed: u64, count: u64, draw: fn(&mut Random) -> Table) -> Comparison {
    let mut comparison = Comparison::new();
    for number in 0..count {
        let mut random = Random::for_case(seed, number);
        let text = writing::text(&draw(&mut random)).expect("a table with a text");
        comparison.agree_on_fuels(Mode::Trial, &text, &mut random);
    }
    comparison
}

#[test]
fn wild_programs() {
    let comparison = agree_on_tables(103, 12_000, programs::wild);
    for outcome in ["05", "06", "09", "0701", "0702", "0703", "0704", "0705"] {
        assert!(comparison.count(outcome) > 10, "{:?}", comparison.outcomes);
    }
}

#[test]
fn rings_and_graphs() {
    let comparison = agree_on_tables(104, 9_000, programs::graph);
    for outcome in ["05", "0701", "0702"] {
        assert!(
            comparison.count(outcome) > 1_000,
            "{:?}",
            comparison.outcomes
        );
    }
}

#[test]
fn values_of_about_32_objects() {
    let comparison = agree_on_tables(105, 300, programs::sized);
    for outcome in ["05", "0702", "0704"] {
        assert!(comparison.count(outcome) > 100, "{:?}", comparison.outcomes);
    }
}

#[test]
fn many_fields_in_a_row() {
    let comparison = agree_on_tables(108, 2_000, paths::paths);
    assert!(comparison.count("05") > 1_000, "{:?}", comparison.outcomes);
}

#[test]
fn every_place_of_a_text_changed() {
    let mut comparison = Comparison::new();
    for number in 0..12 {
        let sound = text(Kind::Typed, &mut Random::for_case(106, number));
        for place in 0..sound.len() {
            for character in [b'0', b'4', b'F', b'a', b'\n', 0] {
                let mut changed = sound.clone();
                changed[place] = character;
                comparison.agree(Mode::Checked, open(100), &changed);
            }
        }
    }
    assert!(comparison.count("05") > 100 && comparison.count("refusal 2") > 100);
}

#[test]
fn states_and_lengths() {
    let text = text(Kind::Typed, &mut Random::for_case(107, 0));
    let closed = Session {
        open: false,
        fuel: 0,
    };
    for (report, work) in [
        (1_055, 163_840),
        (1_056, 163_839),
        (1_056, 163_840),
        (1_100, 170_000),
    ] {
        let mut comparison = Comparison::in_buffers(report, work);
        for mode in [Mode::Checked, Mode::Trial] {
            comparison.agree(mode, closed, &text);
            comparison.agree(mode, open(1_000), &text);
            comparison.agree(mode, open(1_000), b"");
        }
        assert_eq!(comparison.count("refusal 11"), 2);
    }
    let mut comparison = Comparison::new();
    let long = b"00\n".repeat(16_523);
    for text in [&long[..], &long[..49_566], b"", b"\n", &[b'0'; 49_567]] {
        comparison.agree(Mode::Trial, open(9), text);
    }
    assert_eq!(comparison.count("refusal 1"), 4);
    for bytes in [1, 2, 254, 255, 256, 257] {
        let line = [&b"40".repeat(bytes)[..], b"\n"].concat();
        comparison.agree(Mode::Trial, open(9), &line);
    }
    assert_eq!(comparison.count("refusal 1"), 4 + 2);
}
