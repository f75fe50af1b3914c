//! Values: a graph of objects with a root, in which a reference may be the
//! mark of an open call, the undetermined value or a number.
//!
//! A graph is not kept in a canonical form. Two values are equal when their
//! unfoldings are, which is found by following both graphs in step; numbering
//! for a report is done in `report.rs`. How a second text gives a graph is in
//! `batch.rs`.

/// Most distinct objects a value may hold.
pub const MAX_OBJECTS: usize = 32;

#[derive(Clone, Copy, Debug, PartialEq, Eq)]
pub enum Ref {
    /// An object of the same graph.
    Object(usize),
    /// The mark of an open call; each call has its own number in a run.
    Mark(u32),
    Undetermined,
    /// A leaf that agrees only with the same number.
    Number(u16),
}

#[derive(Clone, Debug)]
pub struct Object {
    pub class: u8,
    pub fields: Vec<Ref>,
}

/// Its `==` is equality of unfoldings, never of graphs.
#[derive(Clone, Debug)]
pub struct Value {
    objects: Vec<Object>,
    root: Ref,
}

impl PartialEq for Value {
    fn eq(&self, other: &Value) -> bool {
        same_unfolding((&self.objects, self.root), (&other.objects, other.root))
    }
}

impl Value {
    fn leaf(root: Ref) -> Value {
        let objects = Vec::new();
        Value { objects, root }
    }

    pub fn mark(mark: u32) -> Value {
        Value::leaf(Ref::Mark(mark))
    }

    pub fn undetermined() -> Value {
        Value::leaf(Ref::Undetermined)
    }

    pub fn number(number: u16) -> Value {
        Value::leaf(Ref::Number(number))
    }

    pub fn root(&self) -> Ref {
        self.root
    }

    pub fn object(&self, place: usize) -> &Object {
        &self.objects[place]
    }

    /// The class of an object; leaves have none, a number too.
    pub fn class(&self) -> Option<u8> {
        match self.root {
            Ref::Object(place) => Some(self.objects[place].class),
            Ref::Mark(_) | Ref::Undetermined | Ref::Number(_) => None,
        }
    }

    /// The value of a field. The whole graph comes along, so a way back to
    /// the receiver still leads there: that is the unfolding.
    pub fn field(&self, field: u8) -> Option<Value> {
        let Ref::Object(place) = self.root else {
            return None;
        };
        let root = *self.objects[place].fields.get(usize::from(field))?;
        let objects = self.objects.clone();
        Some(Value { objects, root })
    }

    /// A new object over the given values, or nothing when it is too large.
    pub fn new(class: u8, values: Vec<Value>) -> Option<Value> {
        let mut objects = Vec::new();
        let mut fields = Vec::new();
        for value in values {
            let shift = objects.len();
            objects.extend(
                value
                    .objects
                    .into_iter()
                    .map(|object| shifted(object, shift)),
            );
            fields.push(shifted_ref(value.root, shift));
        }
        objects.push(Object { class, fields });
        let root = Ref::Object(objects.len() - 1);
        Value::of_graph(&objects, root)
    }

    /// The value of a graph from a root, or nothing when it is too large.
    /// Objects out of reach are dropped and equal ones shared, so that a graph
    /// never grows beyond its distinct objects.
    pub fn of_graph(objects: &[Object], root: Ref) -> Option<Value> {
        let (kept, places) = distinct(objects, root)?;
        let moved = |reference: &Ref| match *reference {
            Ref::Object(place) => Ref::Object(places[place]),
            other => other,
        };
        let object = |&place: &usize| Object {
            class: objects[place].class,
            fields: objects[place].fields.iter().map(moved).collect(),
        };
        Some(Value {
            objects: kept.iter().map(object).collect(),
            root: moved(&root),
        })
    }

    /// The answer of the call with this mark: X = u.
    pub fn closed(mut self, mark: u32) -> Value {
        let own = Ref::Mark(mark);
        if self.root == own {
            return Value::undetermined();
        }
        for object in &mut self.objects {
            for field in &mut object.fields {
                if *field == own {
                    *field = self.root;
                }
            }
        }
        self
    }

    /// How many distinct objects are in the value; marks are leaves.
    pub fn size(&self) -> usize {
        let merged = Value::of_graph(&self.objects, self.root);
        merged.expect("no value is too large").objects.len()
    }

    /// Whether the mark of an open call is in the value.
    pub fn is_open(&self) -> bool {
        let is_mark = |reference: &Ref| matches!(reference, Ref::Mark(_));
        let places = reached(&self.objects, self.root);
        let mut objects = places.into_iter().map(|place| &self.objects[place]);
        is_mark(&self.root) || objects.any(|object| object.fields.iter().any(is_mark))
    }

    /// Whether two references of this value unfold alike.
    pub fn same(&self, left: Ref, right: Ref) -> bool {
        same_unfolding((&self.objects, left), (&self.objects, right))
    }
}

fn shifted_ref(reference: Ref, shift: usize) -> Ref {
    match reference {
        Ref::Object(place) => Ref::Object(place + shift),
        other => other,
    }
}

fn shifted(mut object: Object, shift: usize) -> Object {
    for field in &mut object.fields {
        *field = shifted_ref(*field, shift);
    }
    object
}

/// Follows two graphs in step. Pairs met before are taken as equal: only a
/// difference reached by some path can part two unfoldings.
fn same_unfolding(left: (&[Object], Ref), right: (&[Object], Ref)) -> bool {
    let mut met = vec![false; left.0.len() * right.0.len()];
    let mut todo = vec![(left.1, right.1)];
    while let Some(pair) = todo.pop() {
        let (Ref::Object(one), Ref::Object(two)) = pair else {
            if pair.0 == pair.1 {
                continue;
            }
            return false;
        };
        if std::mem::replace(&mut met[one * right.0.len() + two], true) {
            continue;
        }
        let (one, two) = (&left.0[one], &right.0[two]);
        if one.class != two.class || one.fields.len() != two.fields.len() {
            return false;
        }
        todo.extend(one.fields.iter().copied().zip(two.fields.iter().copied()));
    }
    true
}

/// The first of each object in reach that equals others, and at each place
/// which of these it is. Nothing when there are more than 32.
fn distinct(objects: &[Object], root: Ref) -> Option<(Vec<usize>, Vec<usize>)> {
    let mut kept: Vec<usize> = Vec::new();
    let mut places = vec![0; objects.len()];
    for place in reached(objects, root) {
        let here = Ref::Object(place);
        let equal = kept
            .iter()
            .position(|&other| same_unfolding((objects, here), (objects, Ref::Object(other))));
        places[place] = equal.unwrap_or(kept.len());
        if equal.is_none() {
            kept.push(place);
        }
        if kept.len() > MAX_OBJECTS {
            return None;
        }
    }
    Some((kept, places))
}

/// The places in reach of the root, in the order of the graph.
pub fn reached(objects: &[Object], root: Ref) -> Vec<usize> {
    let mut seen = vec![false; objects.len()];
    let mut todo = vec![root];
    while let Some(reference) = todo.pop() {
        let Ref::Object(place) = reference else {
            continue;
        };
        if !std::mem::replace(&mut seen[place], true) {
            todo.extend(&objects[place].fields);
        }
    }
    (0..objects.len()).filter(|&place| seen[place]).collect()
}
