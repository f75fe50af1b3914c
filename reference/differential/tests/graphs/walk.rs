//! What a run that builds a graph must give and spend, from the graph and document 01's rules of calls alone: fuel, depth,
//! size, and marks that have no fields. Nothing of either engine is used here.

use crate::graph::{Edge, Graph, Ref};

/// The second byte of a report `07`.
type Stop = u8;
const STUCK: Stop = 1;
const OUT_OF_FUEL: Stop = 2;
const TOO_DEEP: Stop = 3;
const TOO_LARGE: Stop = 4;

impl Graph {
    /// The report of a program with this main, and the fuel left.
    pub fn expected(&self, main: &Edge, fuel: u16) -> (String, u16) {
        let mut walk = Walk {
            graph: self,
            fuel,
            depth: 0,
            open: Vec::new(),
        };
        let report = match walk.edge(main) {
            Ok(root) => self.report(root),
            Err(stop) => format!("07{stop:02X}\n"),
        };
        (report, walk.fuel)
    }
}

/// A run over the graph: what it spends and where it stops.
struct Walk<'a> {
    graph: &'a Graph,
    fuel: u16,
    depth: usize,
    open: Vec<usize>,
}

impl Walk<'_> {
    fn edge(&mut self, edge: &Edge) -> Result<Ref, Stop> {
        match edge {
            Edge::Inline(node) => self.make(*node),
            Edge::Call(node) => self.call(*node),
            Edge::Select(node, path) => {
                let receiver = self.call(*node)?;
                let found = self.graph.follow(receiver, path, &self.open);
                found.ok_or(STUCK)
            }
            Edge::Pair(node) => self.pair(*node),
            // The call, and the same call met again.
            Edge::Undetermined => self.nested_calls(2).map(|()| Ref::Undetermined),
        }
    }

    /// Calls that open one inside the other and close again: fuel first, then depth.
    fn nested_calls(&mut self, count: usize) -> Result<(), Stop> {
        for call in 0..count {
            self.fuel = self.fuel.checked_sub(1).ok_or(OUT_OF_FUEL)?;
            if self.depth + call == 16 {
                return Err(TOO_DEEP);
            }
        }
        Ok(())
    }

    fn call(&mut self, node: usize) -> Result<Ref, Stop> {
        self.nested_calls(1)?;
        if self.open.contains(&node) {
            return Ok(Ref::Mark(node));
        }
        self.depth += 1;
        self.open.push(node);
        let made = self.make(node);
        self.open.pop();
        self.depth -= 1;
        made
    }

    fn make(&mut self, node: usize) -> Result<Ref, Stop> {
        for edge in &self.graph.nodes[node].fields {
            self.edge(edge)?;
        }
        self.sized(node)
    }

    /// pair(x, y) calls pair(y, x). If x and y are equal that is the same call again; otherwise it calls pair(x, y), and
    /// that is. The call met again makes the pair.
    fn pair(&mut self, node: usize) -> Result<Ref, Stop> {
        let [one, two] = &self.graph.nodes[node].fields[..] else {
            panic!("a pair has two fields");
        };
        let (one, two) = (self.edge(one)?, self.edge(two)?);
        let equal = self.graph.same(one, two, &self.open);
        self.nested_calls(if equal { 2 } else { 3 })?;
        self.sized(node)
    }

    /// Too large is judged with open marks as leaves. A value has no more objects than the graph has.
    fn sized(&self, node: usize) -> Result<Ref, Stop> {
        let made = Ref::Object(node);
        if self.graph.nodes.len() > 32 && self.graph.distinct(made, &self.open) > 32 {
            return Err(TOO_LARGE);
        }
        Ok(made)
    }
}
