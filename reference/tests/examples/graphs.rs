//! Appendix 2.3 of 002: whether a vertex is connected to another.

use super::booleans::{NO, YES};
use super::common::{checked, lines};
use reference::builder::call;
use reference::examples::graphs::{CONNECTED, Graph, identity};

/// Vertices 1, 2, 3: 1 to 2, 2 to 1, 3 to 1 and to itself. The identities are
/// classes 5 to 7, vertices 8, empty lists 10 and other lists 11.
fn graph() -> Graph {
    Graph::new(3, &[&[2], &[1], &[1, 3]])
}

#[test]
fn two_vertices_in_a_ring() {
    // Vertex 00 (id 01, list 02); the list: vertex 03 and the empty list 06;
    // vertex 03 (id 04, list 05); its list: back to 00, and 06.
    let report = [
        "08000800",
        "050008020102",
        "05010500",
        "05020B020306",
        "050308020405",
        "05040600",
        "05050B020006",
        "05060A00",
    ];
    let graph = graph();
    let text = graph.program.text(graph.made(1));
    assert_eq!(checked(1000, &text).0, lines(&report));
}

#[test]
fn connectivity() {
    // From 1 and 2 one gets to 1 and 2 only; from 3 to all three.
    let reached = [
        (1, 1, YES),
        (1, 2, YES),
        (1, 3, NO),
        (2, 1, YES),
        (2, 3, NO),
    ];
    let from_3 = [(3, 1, YES), (3, 2, YES), (3, 3, YES)];
    let graph = graph();
    for (from, to, report) in reached.into_iter().chain(from_3) {
        let main = call(CONNECTED, graph.made(from), [identity(to)]);
        let (output, _) = checked(1000, &graph.program.text(main));
        assert_eq!(output, lines(&["08000100", report]), "{from} to {to}");
    }
}
