//! Where both engines find methods in one table, at every class and every name. Which tables are asked is decided in
//! `sample.rs` or a test.

use crate::compare::Difference;
use crate::table;
use baqolluy::{ClassTable, Found, TABLE_LENGTH};
use reference::classes;
use reference::reading;

/// How many places have a method, and in how many it comes from a class above.
#[derive(Clone, Copy, Debug, Default)]
pub struct Finds {
    pub found: u64,
    pub inherited: u64,
}

impl Finds {
    pub fn add(&mut self, other: Finds) {
        self.found += other.found;
        self.inherited += other.inherited;
    }
}

/// The table of a text that both engines read: the proved engine finds what the reference engine does, for every class and
/// some class bytes above.
pub fn text(text: &[u8]) -> Result<Finds, Difference> {
    let shown = || String::from_utf8_lossy(text);
    let reading = baqolluy::read(text);
    let table = reading::read(text).map_err(|refusal| format!("{refusal:?}\n{}", shown()))?;
    let expected = |class, name| {
        let found = classes::find(&table, class, name)?;
        let method = u8::try_from(found.number).expect("at most 64 methods");
        Some(Found {
            owner: found.owner,
            method,
        })
    };
    let classes = (0..=33).chain([254, 255]);
    let finds = compared(&reading.table, classes, expected);
    finds.map_err(|place| format!("{place}\n{}", shown()))
}

/// Any bytes: the proved engine finds what a search in them does, for every class byte.
pub fn bytes(bytes: &[u8; TABLE_LENGTH]) -> Result<Finds, Difference> {
    let expected = |class, name| table::find(bytes, class, name);
    compared(&ClassTable { bytes: *bytes }, 0..=255, expected)
}

fn compared(
    table: &ClassTable,
    classes: impl Iterator<Item = u8>,
    expected: impl Fn(u8, u8) -> Option<Found>,
) -> Result<Finds, Difference> {
    let mut finds = Finds::default();
    for class in classes {
        for name in 0..=255 {
            let answer = baqolluy::find(table, class, name);
            let expected = expected(class, name);
            if answer != expected {
                return Err(format!(
                    "class {class} name {name}: proved {answer:?}, expected {expected:?}"
                ));
            }
            finds.found += u64::from(answer.is_some());
            finds.inherited += u64::from(answer.is_some_and(|found| found.owner != class));
        }
    }
    Ok(finds)
}
