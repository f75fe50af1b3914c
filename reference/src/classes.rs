//! Questions to a class table: fit, fields and methods along the chain of
//! parents. The table is one the reader has passed, so every parent has a
//! smaller number and each chain ends at class 00. `FE`, the class byte of
//! numbers, is on no chain: it fits itself, and has no fields and no methods.

use crate::syntax::{Method, NUMBER, Table, Type};

/// Whether the table has a class of this number.
pub fn known(table: &Table, class: u8) -> bool {
    usize::from(class) <= table.classes.len()
}

/// Whether a field, a parameter or a result may have a type of this class.
pub fn typed_class(table: &Table, class: u8) -> bool {
    class == NUMBER || known(table, class)
}

/// The parent of a class; class 00 and `FE` have none.
fn parent(table: &Table, class: u8) -> Option<u8> {
    let place = usize::from(class).checked_sub(1)?;
    table.classes.get(place).map(|class| class.parent)
}

/// Whether `class` is `above` or stands below it.
pub fn class_fits(table: &Table, class: u8, above: u8) -> bool {
    class == above || parent(table, class).is_some_and(|parent| class_fits(table, parent, above))
}

/// Whether a type fits another: its class fits and its tag is not larger.
pub fn fits(table: &Table, type_: Type, wanted: Type) -> bool {
    class_fits(table, type_.class, wanted.class) && type_.tag <= wanted.tag
}

/// All fields of a class, inherited ones first.
pub fn fields(table: &Table, class: u8) -> Vec<Type> {
    let Some(parent) = parent(table, class) else {
        return Vec::new();
    };
    let mut all = fields(table, parent);
    all.extend(&table.classes[usize::from(class) - 1].fields);
    all
}

/// A method and where it was found: the class that owns it, and its number among
/// the text's methods, from 0.
#[derive(Clone, Copy, Debug, PartialEq, Eq)]
pub struct Found<'a> {
    pub owner: u8,
    pub number: usize,
    pub method: &'a Method,
}

/// The method of a name from a class: of the class itself, or of the nearest
/// above it that has one. Whoever looks for a method asks here.
pub fn find(table: &Table, class: u8, name: u8) -> Option<Found<'_>> {
    let parent = parent(table, class)?;
    let mut methods = table.methods.iter().enumerate();
    let own = methods.find(|(_, method)| method.owner == class && method.name == name);
    match own {
        Some((number, method)) => Some(Found {
            owner: class,
            number,
            method,
        }),
        None => find(table, parent, name),
    }
}
