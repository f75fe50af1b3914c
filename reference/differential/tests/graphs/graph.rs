//! A graph of objects, which of them are equal, and its report: worked out from document 01 by rounds of colours. Nothing
//! of either engine is used here. What a run spends on the way is counted in `walk.rs`.

use std::collections::HashMap;
use std::fmt::Write;

/// The class of pairs; it has two fields.
pub const PAIR: u8 = 1;

/// How a field gets its value in the program.
#[derive(Clone, Debug)]
pub enum Edge {
    /// The object, written in place.
    Inline(usize),
    /// A call of the method that makes the object.
    Call(usize),
    /// The same call, and fields selected from its answer.
    Select(usize, Vec<usize>),
    /// A pair object, made by a method that first compares the two by calling itself with them exchanged.
    Pair(usize),
    /// A call of the method that is undetermined.
    Undetermined,
}

#[derive(Clone, Debug)]
pub struct Node {
    pub class: u8,
    pub fields: Vec<Edge>,
}

#[derive(Clone, Debug)]
pub struct Graph {
    /// Field counts of classes 1, 2, and so on.
    pub counts: Vec<usize>,
    pub nodes: Vec<Node>,
}

/// What a field holds while the calls of some objects are open.
#[derive(Clone, Copy, Debug, PartialEq, Eq, Hash)]
pub enum Ref {
    Object(usize),
    Mark(usize),
    Undetermined,
}

impl Graph {
    /// The value of a field of an object that was made, while these calls are open.
    fn resolve(&self, edge: &Edge, open: &[usize]) -> Ref {
        match edge {
            Edge::Inline(node) | Edge::Pair(node) => Ref::Object(*node),
            Edge::Call(node) if open.contains(node) => Ref::Mark(*node),
            Edge::Call(node) => Ref::Object(*node),
            Edge::Select(node, path) => {
                let found = self.follow(Ref::Object(*node), path, open);
                found.expect("the object was made, so the path was followed")
            }
            Edge::Undetermined => Ref::Undetermined,
        }
    }

    /// Where a path of fields leads, if it can be followed.
    pub fn follow(&self, from: Ref, path: &[usize], open: &[usize]) -> Option<Ref> {
        path.iter().try_fold(from, |at, &field| {
            let Ref::Object(node) = at else { return None };
            let edge = self.nodes[node].fields.get(field)?;
            Some(self.resolve(edge, open))
        })
    }

    fn fields(&self, node: usize, open: &[usize]) -> Vec<Ref> {
        let edges = self.nodes[node].fields.iter();
        edges.map(|edge| self.resolve(edge, open)).collect()
    }

    /// The objects in reach.
    fn reached(&self, from: &[Ref], open: &[usize]) -> Vec<usize> {
        let mut met = Vec::new();
        let mut todo = from.to_vec();
        while let Some(reference) = todo.pop() {
            if let Ref::Object(node) = reference
                && !met.contains(&node)
            {
                met.push(node);
                todo.extend(self.fields(node, open));
            }
        }
        met
    }

    /// A colour for each object in reach: the same one exactly for equal objects. All are equal at first; each round parts
    /// those whose class or fields differ, until a round parts none.
    fn colours(&self, from: &[Ref], open: &[usize]) -> HashMap<usize, usize> {
        let nodes = self.reached(from, open);
        let mut colours: HashMap<usize, usize> = nodes.iter().map(|&node| (node, 0)).collect();
        let mut count = 1;
        loop {
            let mut keys = HashMap::new();
            let mut next = HashMap::new();
            for &node in &nodes {
                let coloured = |reference| match reference {
                    Ref::Object(node) => Ref::Object(colours[&node]),
                    leaf => leaf,
                };
                let fields = self.fields(node, open).into_iter().map(coloured);
                let key = (self.nodes[node].class, fields.collect::<Vec<_>>());
                let fresh = keys.len();
                next.insert(node, *keys.entry(key).or_insert(fresh));
            }
            colours = next;
            if keys.len() <= count {
                return colours;
            }
            count = keys.len();
        }
    }

    pub fn same(&self, one: Ref, two: Ref, open: &[usize]) -> bool {
        match (one, two) {
            (Ref::Object(left), Ref::Object(right)) => {
                let colours = self.colours(&[one, two], open);
                colours[&left] == colours[&right]
            }
            _ => one == two,
        }
    }

    /// How many distinct objects are in a value.
    pub fn distinct(&self, value: Ref, open: &[usize]) -> usize {
        let colours = self.colours(&[value], open);
        let mut all: Vec<usize> = colours.into_values().collect();
        all.sort_unstable();
        all.dedup();
        all.len()
    }

    /// One object for each colour in reach, in the order first met: root first, then fields in order, depth first.
    fn numbered(&self, root: Ref, colours: &HashMap<usize, usize>) -> Vec<usize> {
        let mut numbered: Vec<usize> = Vec::new();
        let mut todo = vec![root];
        while let Some(reference) = todo.pop() {
            let Ref::Object(node) = reference else {
                continue;
            };
            // An equal object has been met before: its fields too.
            let same = |other: &usize| colours[other] == colours[&node];
            if !numbered.iter().any(same) {
                numbered.push(node);
                todo.extend(self.fields(node, &[]).into_iter().rev());
            }
        }
        numbered
    }

    /// The report of a finished value.
    pub fn report(&self, root: Ref) -> String {
        let colours = self.colours(&[root], &[]);
        let numbered = self.numbered(root, &colours);
        if numbered.is_empty() {
            return "06\n".to_string();
        }
        let number = |reference| match reference {
            Ref::Object(node) => numbered
                .iter()
                .position(|other| colours[other] == colours[&node])
                .expect("every colour has a number"),
            Ref::Mark(_) => panic!("no call is open at the end"),
            Ref::Undetermined => 0xFF,
        };
        let mut report = String::new();
        for (place, &node) in numbered.iter().enumerate() {
            let fields = self.fields(node, &[]);
            let class = self.nodes[node].class;
            let _ = write!(report, "05{place:02X}{class:02X}{:02X}", fields.len());
            for field in fields {
                let _ = write!(report, "{:02X}", number(field));
            }
            report.push('\n');
        }
        report
    }
}
