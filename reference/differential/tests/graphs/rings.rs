//! Rings, whole and unrolled, and trees with shared parts: shapes whose reports can be told in a line.

use crate::Graphs;
use crate::graph::{Edge, Graph, Node, PAIR};

/// Classes 2 and 3 have one field; a ring has a class for each of its objects. The bits of `inline` say which objects are
/// written in place and not called.
fn ring(classes: &[u8], inline: u64) -> Graph {
    let count = classes.len();
    let nodes = (0..count).map(|place| {
        let next = (place + 1) % count;
        let edge = if inline >> next & 1 == 1 {
            Edge::Inline(next)
        } else {
            Edge::Call(next)
        };
        Node {
            class: classes[place],
            fields: vec![edge],
        }
    });
    Graph {
        counts: vec![2, 1, 1],
        nodes: nodes.collect(),
    }
}

/// The classes of a ring, one for each bit.
fn word(bits: u32, count: usize) -> Vec<u8> {
    (0..count)
        .map(|place| 2 + (bits >> place & 1) as u8)
        .collect()
}

/// A ring's report told from its classes alone: as many objects as its shortest period.
fn ring_report(classes: &[u8], start: usize) -> String {
    let count = classes.len();
    let at = |place: usize| classes[(start + place) % count];
    let period = (1..=count)
        .find(|&period| count.is_multiple_of(period) && (0..count).all(|n| at(n) == at(n + period)))
        .expect("the whole ring is a period");
    let line = |n: usize| format!("05{n:02X}{:02X}01{:02X}\n", at(n), (n + 1) % period);
    (0..period).map(line).collect()
}

/// Every ring of up to 6 objects of two classes, begun at every object, with every choice of objects written in place.
#[test]
fn rings_cut_at_every_object() {
    let mut graphs = Graphs::new(301);
    for count in 1..=6 {
        for bits in 0..1 << count {
            let classes = word(bits, count);
            for inline in 0..1 << count {
                for start in 0..count {
                    let graph = ring(&classes, inline);
                    let report = graphs.run(&graph, &Edge::Call(start), 1_000);
                    // Five objects or more in a row, written in place, nest too deep.
                    if let Some(report) = report {
                        assert_eq!(report, ring_report(&classes, start));
                    }
                }
            }
        }
    }
    assert!(graphs.tally.programs > 15_000, "{}", graphs.tally);
    graphs.assert_ended(&["05"], 15_000);
}

/// A ring written out several times over is the same value, up to 32 objects on the way; then it is too large, though it
/// would close to a few.
#[test]
fn unrolled_rings() {
    let mut graphs = Graphs::new(302);
    for period in 1..=4 {
        for bits in 0..1 << period {
            let classes = word(bits, period);
            for times in 1..=34 / period {
                let unrolled = classes.repeat(times);
                // Every fourth object is called, the others are written in place: up to 9 calls and one met again.
                let inline = (0..34)
                    .filter(|place| place % 4 != 0)
                    .map(|place| 1_u64 << place);
                let graph = ring(&unrolled, inline.sum());
                let report = graphs.run(&graph, &Edge::Call(0), 1_000);
                let wanted = if unrolled.len() <= 32 {
                    ring_report(&classes, 0)
                } else {
                    "0704\n".to_string()
                };
                assert_eq!(report, Some(wanted));
            }
        }
    }
    graphs.assert_ended(&["05"], 200);
    graphs.assert_ended(&["0704"], 6);
}

/// Chains of 1 to 17 calls, closed to a ring: 15 objects and the call met again are 16 open calls.
#[test]
fn rings_at_the_depth_limit() {
    let mut graphs = Graphs::new(303);
    for count in 1..=17 {
        let report = graphs.run(&ring(&vec![2; count], 0), &Edge::Call(0), 1_000);
        let wanted = if count <= 15 {
            "0500020100\n"
        } else {
            "0703\n"
        };
        assert_eq!(report.as_deref(), Some(wanted), "{count} objects");
    }
    assert_eq!(graphs.tally.programs, 17);
}

/// Pairs of pairs: 2 to the power of `depth` paths, `depth` + 1 objects.
#[test]
fn trees_with_shared_parts() {
    let mut graphs = Graphs::new(304);
    for depth in 0..=11 {
        let node = |place: usize| match place < depth {
            true => Node {
                class: PAIR,
                fields: vec![Edge::Call(place + 1), Edge::Call(place + 1)],
            },
            false => Node {
                class: 2,
                fields: Vec::new(),
            },
        };
        let graph = Graph {
            counts: vec![2, 0],
            nodes: (0..=depth).map(node).collect(),
        };
        let report = graphs.run(&graph, &Edge::Call(0), 65_535);
        let pair = |n: usize| format!("05{n:02X}0102{0:02X}{0:02X}\n", n + 1);
        let pairs: String = (0..depth).map(pair).collect();
        assert_eq!(report, Some(format!("{pairs}05{depth:02X}0200\n")));
    }
    assert_eq!(graphs.tally.programs, 12);
}
