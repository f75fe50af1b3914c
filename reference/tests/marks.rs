//! Request 2026-04, which changes no answer: the examples of values that are
//! compared (`reference::examples::compared`), in the engine and its fast mode,
//! each checked and on trial. Generated pairs are in `batches.rs` and, with the
//! proved engine, in `differential`.

mod common;

use common::run_on;
use reference::calls::Mode;
use reference::examples::compared;
use reference::linerun;

#[test]
fn examples_end_as_they_say() {
    for example in compared::all() {
        let (text, second) = linerun::cut(example.input.as_bytes());
        for mode in [Mode::Checked, Mode::Trial] {
            for (fuel, ended) in example.runs(mode) {
                let ran = run_on(mode, fuel, text, second);
                assert_eq!(ran, ended, "{}, {mode:?} {fuel}", example.name);
            }
        }
    }
}

/// The one report that is not written out.
#[test]
fn the_report_of_224_parts() {
    let report = compared::ring(32);
    assert!(report.starts_with("0500030101\n0501020102\n"));
    assert!(report.ends_with("\n051F020100\n"));
}
