//! Values of about 32 objects, with ways back: 32 pass, 33 are too large.

use crate::Graphs;
use crate::graph::{Edge, Graph, Node};
use reference::generator::random::Random;

/// A chain of 28 to 34 objects, a call every three or four, whose other fields lead back to calls that are open.
fn ladder(random: &mut Random) -> Graph {
    let size = random.between(28, 34);
    let stride = random.between(3, 4);
    let mut nodes = Vec::new();
    for place in 0..size {
        let next = match place + 1 {
            next if next == size => random.chance(50).then_some(Edge::Call(0)),
            next if next % stride == 0 => Some(Edge::Call(next)),
            next => Some(Edge::Inline(next)),
        };
        let more = if next.is_some() { random.below(3) } else { 0 };
        let mut fields: Vec<Edge> = next.into_iter().collect();
        for _ in 0..more {
            fields.push(Edge::Call(random.below(place / stride + 1) * stride));
        }
        // Classes 2 to 5 have 0 to 3 fields.
        let class = 2 + fields.len() as u8;
        nodes.push(Node { class, fields });
    }
    Graph {
        counts: vec![2, 0, 1, 2, 3],
        nodes,
    }
}

#[test]
fn up_to_32_objects_and_more() {
    let mut graphs = Graphs::new(310);
    let (mut full, mut fewer) = (0, 0);
    for number in 0..3_000 {
        let graph = ladder(&mut Random::for_case(310, number));
        let Some(report) = graphs.run(&graph, &Edge::Call(0), 1_000) else {
            continue;
        };
        let lines = report.lines().count();
        full += usize::from(lines == 32);
        fewer += usize::from(report.starts_with("05") && lines < 32);
    }
    graphs.assert_ended(&["0704"], 300);
    assert!(
        full > 200 && fewer > 500,
        "{full} {fewer}\n{}",
        graphs.tally
    );
}
