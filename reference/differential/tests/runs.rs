//! Generated programs and damaged texts through both engines: verdict, refusal, session, report length and every byte of
//! both buffers, checked and on trial, with seven fuels each. Each sample must also hold enough of what it is meant for.

use differential::compare::Bench;
use differential::sample;
use differential::tally::Tally;
use reference::calls::Mode::{self, Checked, Trial};
use reference::generator::Kind;

fn compared(kind: Kind, seed: u64, count: u64) -> Tally {
    let tally = sample::kind(kind, seed, count).unwrap_or_else(|difference| panic!("{difference}"));
    assert_eq!((tally.programs, tally.runs), (count, 14 * count));
    tally
}

/// At least this many runs of the mode ended in each of the outcomes.
fn assert_ended(tally: &Tally, mode: Mode, outcomes: &[&str], least: u64) {
    for outcome in outcomes {
        let runs = tally.ended(mode, outcome);
        assert!(runs >= least, "{outcome}: {runs} runs\n{tally}");
    }
}

/// No run was refused, and the checked ones were never stuck: what types are for.
fn assert_accepted(tally: &Tally) {
    for mode in [Checked, Trial] {
        assert_eq!(tally.refused(mode, 0), 7 * tally.programs);
        assert_eq!(tally.ended(mode, "0701"), 0, "{tally}");
    }
}

const LIMITS: [&str; 4] = ["0702", "0703", "0704", "0705"];

#[test]
fn typed_programs() {
    let tally = compared(Kind::Typed, 101, 7_000);
    assert_accepted(&tally);
    for mode in [Checked, Trial] {
        assert_ended(&tally, mode, &["05", "06", "09"], 2_000);
        assert_ended(&tally, mode, &LIMITS, 500);
    }
}

#[test]
fn plain_programs() {
    let tally = compared(Kind::Plain, 102, 12_000);
    assert_accepted(&tally);
    for mode in [Checked, Trial] {
        assert_ended(&tally, mode, &["05", "06", "09"], 2_000);
        assert_ended(&tally, mode, &LIMITS, 500);
    }
}

#[test]
fn programs_at_a_limit() {
    let tally = compared(Kind::Limits, 103, 2_000);
    assert_accepted(&tally);
    for mode in [Checked, Trial] {
        assert_ended(&tally, mode, &["05"], 2_000);
        assert_ended(&tally, mode, &["09"], 500);
        assert_ended(&tally, mode, &LIMITS, 400);
    }
}

/// Refused 6 or 7 when checked; on trial they run, and some are stuck.
#[test]
fn ill_typed_programs() {
    let tally = compared(Kind::IllTyped, 104, 30_000);
    assert!(tally.refused(Checked, 6) > 7 * 14_000 && tally.refused(Checked, 7) > 7 * 14_000);
    assert_eq!(tally.refused(Checked, 0), 0);
    assert_eq!(tally.refused(Trial, 0), 7 * 30_000);
    assert_ended(&tally, Trial, &["05", "06", "09", "0701"], 2_000);
    assert_ended(&tally, Trial, &LIMITS, 500);
}

#[test]
fn full_size_programs() {
    let tally = compared(Kind::Full, 105, 60);
    assert_accepted(&tally);
    assert_ended(&tally, Checked, &["0702", "0703"], 60);
}

#[test]
fn damaged_texts() {
    let tally = compared(Kind::Damaged, 106, 20_000);
    for mode in [Checked, Trial] {
        assert_eq!(tally.refused(mode, 0), 0);
        for refusal in 1..=5 {
            assert!(tally.refused(mode, refusal) > 7 * 3_500, "{tally}");
        }
    }
}

/// Methods from far up, declared again with classes between; and such ones with other types, which are refused.
#[test]
fn methods_up_chains_of_classes() {
    let tally = compared(Kind::Chains, 108, 5_000);
    assert_accepted(&tally);
    for mode in [Checked, Trial] {
        assert_ended(&tally, mode, &["05", "0702"], 5_000);
        assert_ended(&tally, mode, &["0703"], 100);
    }
    let refused = compared(Kind::Overrides, 109, 5_000);
    for mode in [Checked, Trial] {
        assert_eq!(refused.refused(mode, 5), 7 * refused.programs);
    }
}

/// Graphs that lie apart, put together: equal objects in several of them, some too large together.
#[test]
fn rings_put_together() {
    let mut bench = Bench::new(107);
    let mut tally = Tally::default();
    let mut merged = 0;
    for number in 0..2_000 {
        let (rings, fuels) = sample::rings(107, number);
        let compared = bench.program(&rings.text(), &fuels, &mut tally);
        compared.unwrap_or_else(|difference| panic!("{difference}"));
        merged += u64::from(rings.merges());
    }
    for mode in [Checked, Trial] {
        assert_eq!(tally.refused(mode, 0), 2 * tally.programs);
        assert_eq!(tally.ended(mode, "0701"), 0, "{tally}");
        assert_ended(&tally, mode, &["05"], 2_000);
        assert_ended(&tally, mode, &["0704"], 100);
    }
    assert!(merged > 1_000, "{merged}");
}
