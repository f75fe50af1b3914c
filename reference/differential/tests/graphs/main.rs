//! Random and exhaustive object graphs, built by programs, through the proved engine: against the report that follows
//! from the graph itself (`graph.rs`, `walk.rs`) and against the reference engine. Rings, unrolled rings, shared parts,
//! 32 and 33 objects, and values compared or taken apart while their marks are open.

mod graph;
mod large;
mod pairs;
mod program;
mod random;
mod rings;
mod walk;

use baqolluy::open;
use differential::compare::{self, Bench};
use differential::tally::Tally;
use graph::{Edge, Graph};
use reference::calls::Mode;

/// Runs of graphs, with what came out.
struct Graphs {
    bench: Bench,
    tally: Tally,
    /// Reports of at least 4 objects.
    large: u64,
}

impl Graphs {
    fn new(seed: u64) -> Graphs {
        Graphs {
            bench: Bench::new(seed),
            tally: Tally::default(),
            large: 0,
        }
    }

    /// Runs the program of a graph both ways, if it has a text, and gives its report.
    fn run(&mut self, graph: &Graph, main: &Edge, fuel: u16) -> Option<String> {
        let text = program::text(graph, main)?;
        let (report, left) = graph.expected(main, fuel);
        let shown = || {
            let text = String::from_utf8_lossy(&text);
            format!("{main:?} of {graph:?}\n{text}")
        };
        self.tally.program();
        self.large += u64::from(report.lines().count() >= 4);
        for mode in [Mode::Checked, Mode::Trial] {
            let ran = self.bench.run_anyhow(mode, &text, open(fuel));
            let ran = ran.unwrap_or_else(|difference| panic!("{difference}"));
            self.tally.run(mode, ran.answer.refusal, ran.report);
            if mode == Mode::Trial || program::is_typed(graph, main) {
                assert_eq!(ran.answer.refusal, 0, "{}", shown());
            }
            if ran.answer.refusal == 0 {
                let given = String::from_utf8_lossy(ran.report);
                assert_eq!(
                    (&*given, ran.answer.session),
                    (&*report, open(left)),
                    "{}",
                    shown()
                );
            }
        }
        compare::check(&text).unwrap_or_else(|difference| panic!("{difference}"));
        Some(report)
    }

    /// At least this many runs on trial ended so.
    fn assert_ended(&self, outcomes: &[&str], least: u64) {
        for outcome in outcomes {
            let runs = self.tally.ended(Mode::Trial, outcome);
            assert!(runs >= least, "{outcome}: {runs} runs\n{}", self.tally);
        }
    }
}
