//! Random graphs: with a type, without a way back, and with fields taken and pairs compared while marks are open.

use crate::Graphs;
use crate::graph::{Edge, Graph, Node, PAIR};
use reference::calls::Mode;
use reference::generator::random::Random;

/// Which edges a random graph may have.
#[derive(Clone, Copy)]
pub struct Sorts {
    pub forward_only: bool,
    pub select: bool,
    pub pair: bool,
}

/// A graph of 3 to 8 objects over a few classes, so that many are equal.
pub fn random_graph(random: &mut Random, sorts: Sorts) -> Graph {
    let mut counts = vec![2];
    counts.extend((0..random.between(1, 3)).map(|_| random.between(1, 3)));
    counts.push(0);
    let size = random.between(3, 8);
    let classes: Vec<u8> = (0..size)
        .map(|_| random.between(1, counts.len()) as u8)
        .collect();
    let last = (size - 1, counts.len() as u8);
    let mut nodes = Vec::new();
    for (place, &class) in classes.iter().enumerate() {
        // The last object has no fields, so that a graph without a way back has an end.
        let class = if place == last.0 { last.1 } else { class };
        let fields = (0..counts[usize::from(class) - 1])
            .map(|_| random_edge(random, &classes, place, sorts))
            .collect();
        nodes.push(Node { class, fields });
    }
    Graph { counts, nodes }
}

fn random_edge(random: &mut Random, classes: &[u8], place: usize, sorts: Sorts) -> Edge {
    let size = classes.len();
    let later = random.between(place + 1, size - 1);
    let any = if sorts.forward_only {
        later
    } else {
        random.below(size)
    };
    match random.below(100) {
        0..4 => Edge::Undetermined,
        4..30 if sorts.pair && classes[later] == PAIR && later < size - 1 => Edge::Pair(later),
        4..30 => Edge::Inline(later),
        30..40 if sorts.select => {
            let path = (0..random.between(1, 2)).map(|_| random.below(2));
            Edge::Select(any, path.collect())
        }
        _ => Edge::Call(any),
    }
}

/// Runs `count` random graphs from one of the first three objects each; the fuel is short now and then.
fn random_graphs(seed: u64, count: u64, sorts: Sorts) -> Graphs {
    let mut graphs = Graphs::new(seed);
    for number in 0..count {
        let mut random = Random::for_case(seed, number);
        let graph = random_graph(&mut random, sorts);
        let start = random.below(3);
        let fuel = match random.below(6) {
            0 => random.below(16),
            _ => 3_000,
        };
        graphs.run(&graph, &Edge::Call(start), fuel as u16);
    }
    assert!(graphs.tally.programs > count * 3 / 4, "{}", graphs.tally);
    graphs
}

#[test]
fn random_graphs_with_a_type() {
    let sorts = Sorts {
        forward_only: false,
        select: false,
        pair: false,
    };
    let graphs = random_graphs(305, 20_000, sorts);
    assert_eq!(
        graphs.tally.refused(Mode::Checked, 0),
        graphs.tally.programs
    );
    graphs.assert_ended(&["05"], 4_000);
    graphs.assert_ended(&["0702"], 200);
    assert!(graphs.large > 1_500, "{}", graphs.large);
}

#[test]
fn random_graphs_without_a_way_back() {
    let sorts = Sorts {
        forward_only: true,
        select: false,
        pair: false,
    };
    let graphs = random_graphs(306, 8_000, sorts);
    graphs.assert_ended(&["05"], 2_000);
    assert!(graphs.large > 500, "{}", graphs.large);
}

/// Fields are selected from values that are still open, and open values are compared: on trial, as such have no type.
#[test]
fn random_graphs_with_open_marks_inside() {
    let sorts = Sorts {
        forward_only: false,
        select: true,
        pair: true,
    };
    let graphs = random_graphs(307, 30_000, sorts);
    graphs.assert_ended(&["05"], 3_000);
    graphs.assert_ended(&["0701"], 1_000);
    assert!(graphs.large > 1_000, "{}\n{}", graphs.large, graphs.tally);
}
