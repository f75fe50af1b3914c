//! Request 2026-04, which changes no answer, through the proved engine. First the examples of values that are compared
//! (`reference::examples::compared`), then generated pairs, whose answers `alike.rs` works out; each run is compared
//! with the reference engine too.

mod alike;

use alike::Alike;
use baqolluy::open;
use differential::compare::{Bench, output_on};
use reference::calls::Mode;
use reference::examples::compared;
use reference::generator::batch::pairs::{self, Pair};
use reference::generator::random::Random;
use reference::linerun;

const MODES: [Mode; 2] = [Mode::Checked, Mode::Trial];

#[test]
fn examples_end_as_they_say() {
    for example in compared::all() {
        let (text, second) = linerun::cut(example.input.as_bytes());
        for mode in MODES {
            for (fuel, ended) in example.runs(mode) {
                let ran = output_on(mode, fuel, text, second);
                assert_eq!(ran, ended, "{}, {mode:?} {fuel}", example.name);
            }
        }
    }
}

/// How often pairs were what they are drawn for.
#[derive(Debug, Default)]
struct Counts {
    equal: u64,
    different: u64,
    /// Equal, and of as many objects as there may be, or nearly.
    equal_large: u64,
    /// Different, and alike for many steps.
    alike_far: u64,
    /// Different, and alike for nearly as many steps as there can be.
    alike_furthest: u64,
}

impl Counts {
    fn count(&mut self, parted: Option<usize>, objects: usize) {
        let Some(steps) = parted else {
            self.equal += 1;
            self.equal_large += u64::from(objects >= 28);
            return;
        };
        self.different += 1;
        self.alike_far += u64::from(steps >= 10);
        self.alike_furthest += u64::from(steps >= 28);
    }
}

/// Both engines end in what the graph itself says, with every fuel.
fn run_pair(bench: &mut Bench, pair: &Pair, counts: &mut Counts) {
    let alike = Alike::of(&pair.objects);
    let parted = alike.parted(pair.one, pair.two);
    let (spent, root) = match parted {
        None => (2, pair.one),
        Some(_) => (3, pair.two),
    };
    let (report, objects) = alike.report(root);
    counts.count(parted, objects);
    let texts = (&pair.batch.text[..], &pair.batch.second[..]);
    for fuel in [1, 2, 3, 1_000] {
        let expected = match u16::checked_sub(fuel, spent) {
            Some(left) => (0, open(left), &report[..]),
            None => (0, open(0), "0702\n"),
        };
        for mode in MODES {
            let ran = bench.run_on_anyhow(mode, texts, open(fuel));
            let ran = ran.unwrap_or_else(|difference| panic!("{difference}"));
            let given = String::from_utf8_lossy(ran.report);
            let ended = (ran.answer.refusal, ran.answer.session, &given[..]);
            let shown = || String::from_utf8_lossy(&[texts.0, texts.1].concat()).into_owned();
            assert_eq!(ended, expected, "{mode:?} {fuel}\n{}", shown());
        }
    }
}

/// So many pairs of a seed, and how often they were what they are drawn for.
fn all(seed: u64, drawn: fn(&mut Random) -> Pair) -> Counts {
    let mut bench = Bench::new(seed);
    let mut counts = Counts::default();
    for number in 0..1_250 {
        let pair = drawn(&mut Random::for_case(seed, number));
        run_pair(&mut bench, &pair, &mut counts);
    }
    counts
}

/// In two fields of one part: a value of up to 15 objects, and one like it, which may have more where it was split and
/// then changed, or was changed and leads to the first.
#[test]
fn pairs_that_come_in() {
    let counts = all(501, pairs::given);
    assert!(counts.equal > 450 && counts.different > 450, "{counts:?}");
    assert!(counts.alike_far > 60, "{counts:?}");
}

/// Up to 32 objects come in, and main makes the other value of it or selects both.
#[test]
fn pairs_of_which_one_is_made() {
    let counts = all(502, pairs::made);
    assert!(counts.equal > 450 && counts.different > 450, "{counts:?}");
    assert!(counts.equal_large > 80, "{counts:?}");
    assert!(
        counts.alike_far > 60 && counts.alike_furthest > 40,
        "{counts:?}"
    );
}
