//! Values compared by a call: equal ones are one call, whatever graph they were built as, closed or open.

use crate::Graphs;
use crate::graph::{Edge, Graph, Node, PAIR};
use crate::random::{Sorts, random_graph};
use reference::calls::Mode;
use reference::generator::random::Random;

/// Whether the pair in this line of a report has two equal fields; nothing when the run had another end.
fn fields_equal(report: &str, line: usize) -> Option<bool> {
    let line = report.lines().nth(line)?;
    let fields = line.strip_prefix("05")?.get(6..10)?;
    Some(fields[..2] == fields[2..])
}

/// How often different objects were found equal, and how often not.
#[derive(Default)]
struct Compared {
    equal: u64,
    different: u64,
}

impl Compared {
    fn count(&mut self, equal: Option<bool>) {
        self.equal += u64::from(equal == Some(true));
        self.different += u64::from(equal == Some(false));
    }

    fn assert_enough(&self) {
        let Compared { equal, different } = self;
        assert!(*equal > 300 && *different > 1_000, "{equal} {different}");
    }
}

/// Two objects of a graph, compared by a call in main, where all is closed, and then inside an object whose own call is
/// open and whose mark is in what is compared. The fuel left tells whether they were found equal.
#[test]
fn pairs_closed_and_open() {
    let sorts = Sorts {
        forward_only: false,
        select: false,
        pair: false,
    };
    let mut graphs = Graphs::new(308);
    let (mut closed, mut open) = (Compared::default(), Compared::default());
    for number in 0..6_000 {
        let mut random = Random::for_case(308, number);
        let mut graph = random_graph(&mut random, sorts);
        let size = graph.nodes.len();
        let one = random.below(size);
        let two = (one + random.between(1, size - 1)) % size;
        let fields = vec![Edge::Call(one), Edge::Call(two)];
        graph.nodes.push(Node {
            class: PAIR,
            fields,
        });
        let report = graphs.run(&graph, &Edge::Pair(size), 3_000);
        closed.count(report.and_then(|report| fields_equal(&report, 0)));
        // Another object holds the pair, and others lead back to it.
        graph.nodes.push(Node {
            class: PAIR,
            fields: vec![Edge::Pair(size), Edge::Undetermined],
        });
        for node in &mut graph.nodes[..size] {
            if let Some(field) = node.fields.first_mut() {
                *field = Edge::Call(size + 1);
            }
        }
        let report = graphs.run(&graph, &Edge::Call(size + 1), 3_000);
        open.count(report.and_then(|report| fields_equal(&report, 1)));
    }
    closed.assert_enough();
    open.assert_enough();
    assert!(graphs.tally.refused(Mode::Checked, 0) > 4_000);
}

/// Object 0 holds the pair 1 of a ring that also leads back to 0, and of what `steps` fields of that ring lead to.
fn ring_beside_itself(period: usize, steps: usize) -> Graph {
    let node = |class, fields| Node { class, fields };
    let mut nodes = vec![
        node(PAIR, vec![Edge::Pair(1), Edge::Undetermined]),
        node(PAIR, vec![Edge::Call(2), Edge::Select(2, vec![0; steps])]),
    ];
    for place in 0..period {
        let next = 2 + (place + 1) % period;
        let class = if place == 0 { 2 } else { 3 };
        nodes.push(node(class, vec![Edge::Call(next), Edge::Call(0)]));
    }
    Graph {
        counts: vec![2, 2, 2],
        nodes,
    }
}

/// A value is equal to what it unfolds to: a ring is compared with fields of itself, inside an open call whose mark it
/// holds. Only a whole turn leads back.
#[test]
fn a_ring_and_its_unfolding() {
    let mut graphs = Graphs::new(309);
    for period in 1..=3 {
        for steps in 1..=2 {
            let graph = ring_beside_itself(period, steps);
            let back = steps % period == 0;
            // 0 itself; twice the ring, its first call met again and 0 met again by each object; the comparison; the
            // undetermined value's two.
            let spent = 1 + 2 * (2 * period + 1) + if back { 2 } else { 3 } + 2;
            let (_, left) = graph.expected(&Edge::Call(0), 1_000);
            assert_eq!(usize::from(left), 1_000 - spent, "{period} {steps}");
            let report = graphs.run(&graph, &Edge::Call(0), 1_000);
            let report = report.expect("a short program");
            assert_eq!(fields_equal(&report, 1), Some(back), "{period} {steps}");
        }
    }
    assert_eq!(graphs.tally.programs, 6);
}
