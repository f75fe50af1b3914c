//! Which objects of a graph unfold to the same tree, and the report of one of them, by document 01 alone: all pairs of
//! objects are taken as equal at first, and those that are not are struck out round by round. Nothing of either engine
//! is used here but the form of a graph.

use reference::values::{Object, Ref};
use std::fmt::Write;

pub struct Alike<'a> {
    objects: &'a [Object],
    /// For each pair of objects the round in which it was struck out, if it was.
    struck: Vec<Option<usize>>,
}

impl Alike<'_> {
    pub fn of(objects: &[Object]) -> Alike<'_> {
        let count = objects.len();
        let struck = vec![None; count * count];
        let mut alike = Alike { objects, struck };
        for round in 1.. {
            let differs = |&(one, two): &(usize, usize)| alike.differ_now(one, two);
            let pairs = (0..count).flat_map(|one| (0..count).map(move |two| (one, two)));
            let fallen: Vec<(usize, usize)> = pairs.filter(differs).collect();
            if fallen.is_empty() {
                break;
            }
            for (one, two) in fallen {
                alike.struck[one * count + two] = Some(round);
            }
        }
        alike
    }

    /// Whether a pair that still stands must fall, by what stood after the last round.
    fn differ_now(&self, one: usize, two: usize) -> bool {
        let (left, right) = (&self.objects[one], &self.objects[two]);
        let mut fields = left.fields.iter().zip(&right.fields);
        self.struck[one * self.objects.len() + two].is_none()
            && (left.class != right.class
                || left.fields.len() != right.fields.len()
                || fields.any(|(&one, &two)| self.parted(one, two).is_some()))
    }

    /// The steps from two places to a difference, the one at the place itself included; nothing if they are equal.
    pub fn parted(&self, one: Ref, two: Ref) -> Option<usize> {
        match (one, two) {
            (Ref::Object(one), Ref::Object(two)) => self.struck[one * self.objects.len() + two],
            _ => (one != two).then_some(1),
        }
    }

    /// One object for each tree in reach: root first, then fields in order, depth first.
    fn numbered(&self, root: Ref) -> Vec<usize> {
        let mut numbered = Vec::new();
        let mut todo = vec![root];
        while let Some(reference) = todo.pop() {
            if let Ref::Object(place) = reference
                && self.number(&numbered, reference).is_none()
            {
                numbered.push(place);
                todo.extend(self.objects[place].fields.iter().rev());
            }
        }
        numbered
    }

    fn number(&self, numbered: &[usize], reference: Ref) -> Option<usize> {
        let equal = |&place: &usize| self.parted(Ref::Object(place), reference).is_none();
        numbered.iter().position(equal)
    }

    /// The report of an object, and how many distinct ones are in it.
    pub fn report(&self, root: Ref) -> (String, usize) {
        let numbered = self.numbered(root);
        let mut report = String::new();
        for (number, &place) in numbered.iter().enumerate() {
            let Object { class, fields } = &self.objects[place];
            let _ = write!(report, "05{number:02X}{class:02X}{:02X}", fields.len());
            for &field in fields {
                let _ = match field {
                    Ref::Number(number) => write!(report, "FE{number:04X}"),
                    _ => {
                        let number = self.number(&numbered, field).unwrap_or(0xFF);
                        write!(report, "{number:02X}")
                    }
                };
            }
            report.push('\n');
        }
        (report, numbered.len())
    }
}
