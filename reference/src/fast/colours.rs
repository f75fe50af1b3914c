//! Which parts of a batch are equal: parts of one colour look alike, and
//! colours are split until they do as far as fields lead. Only parts with a
//! field that has just changed its colour are looked at again.

use super::groups::{Group, Groups};
use super::numbers::Numbers;
use super::parts::{Part, Parts};
use crate::batch::MAX_PARTS;
use crate::syntax::NUMBER;
use crate::values::MAX_OBJECTS;

/// The colour of what is undetermined, and the colours of numbers.
pub const NO_COLOUR: u8 = 63;
pub const FIRST_NUMBER: u8 = 64;
/// A part's field has one byte.
const BYTES: usize = 256;
const COLOURS: usize = MAX_OBJECTS + 1;
/// In place of a number of an edge.
const END: u16 = u16::MAX;

/// One part for each colour, its fields leading to colours.
pub struct Colours {
    pub nodes: [Part; MAX_OBJECTS],
    pub len: usize,
    pub root: u8,
    /// By colour, from `FIRST_NUMBER` on.
    pub numbers: [u16; Numbers::MOST],
}

impl Colours {
    /// The colours of these parts, the root first; nothing when there are more
    /// than 32.
    pub fn of(parts: &Parts, reached: &[u8]) -> Option<Colours> {
        let mut split = Split::by_class(parts, reached)?;
        let (mut one, mut other) = (List::new(), List::new());
        let (mut dirty, mut next) = (&mut one, &mut other);
        split.round(reached, dirty)?;
        while dirty.len > 0 {
            next.clear();
            split.round(dirty.list(), next)?;
            std::mem::swap(&mut dirty, &mut next);
        }
        let nothing = Part {
            class: 0,
            count: 0,
            fields: [NO_COLOUR; 4],
            numbers: [0; 4],
            numbered: false,
        };
        let mut colours = Colours {
            nodes: [nothing; MAX_OBJECTS],
            len: split.len,
            root: split.colours[0],
            numbers: split.numbers.list,
        };
        for &number in reached {
            let part = parts.parts[usize::from(number)];
            let fields = std::array::from_fn(|field| split.field_colour(number, field));
            let colour = split.colours[usize::from(number)];
            colours.nodes[usize::from(colour)] = Part { fields, ..part };
        }
        Some(colours)
    }
}

/// Numbers of parts, each once.
struct List {
    numbers: [u8; MAX_PARTS],
    len: usize,
    /// Bit n for number n.
    listed: [u64; 4],
}

impl List {
    fn new() -> List {
        List {
            numbers: [0; MAX_PARTS],
            len: 0,
            listed: [0; 4],
        }
    }

    fn list(&self) -> &[u8] {
        &self.numbers[..self.len]
    }

    fn clear(&mut self) {
        self.len = 0;
        self.listed = [0; 4];
    }

    #[inline]
    fn add(&mut self, number: u8) {
        let (word, bit) = (
            &mut self.listed[usize::from(number / 64)],
            1 << (number % 64),
        );
        if *word & bit == 0 {
            *word |= bit;
            self.numbers[self.len] = number;
            self.len += 1;
        }
    }
}

/// Colours being split.
struct Split<'a> {
    parts: &'a Parts,
    /// By a part's number; `FF` has a colour too.
    colours: [u8; BYTES],
    /// The colours of numbers held in fields.
    of_numbers: [[u8; 4]; MAX_PARTS],
    numbers: Numbers,
    /// Parts of each colour.
    sizes: [u8; COLOURS],
    len: usize,
    /// The edges that lead to a part, as lists: edge 4 p + k is field k of p.
    heads: [u16; BYTES],
    others: [u16; 4 * MAX_PARTS],
    /// For one round: the groups, and the group of each part looked at.
    groups: Groups,
    group_of: [u8; MAX_PARTS],
}

impl Split<'_> {
    /// One colour for each class.
    fn by_class<'a>(parts: &'a Parts, reached: &[u8]) -> Option<Split<'a>> {
        let mut split = Split {
            parts,
            colours: [NO_COLOUR; BYTES],
            of_numbers: [[NO_COLOUR; 4]; MAX_PARTS],
            numbers: Numbers::new(),
            sizes: [0; COLOURS],
            len: 0,
            heads: [END; BYTES],
            others: [END; 4 * MAX_PARTS],
            groups: Groups::new(),
            group_of: [0; MAX_PARTS],
        };
        let mut of_class = [NO_COLOUR; COLOURS];
        for &number in reached {
            let place = usize::from(number);
            let part = &parts.parts[place];
            let colour = &mut of_class[usize::from(part.class)];
            if *colour == NO_COLOUR {
                *colour = split.fresh()?;
            }
            split.colours[place] = *colour;
            split.sizes[usize::from(*colour)] += 1;
            for (edge, &field) in (4 * place..).zip(part.fields()) {
                if field == NUMBER {
                    let number = split.numbers.enter(part.numbers[edge % 4])?;
                    split.of_numbers[place][edge % 4] = FIRST_NUMBER + number;
                    continue;
                }
                let head = &mut split.heads[usize::from(field)];
                split.others[edge] = *head;
                *head = edge as u16;
            }
        }
        Some(split)
    }

    /// A colour that no part has, unless 32 are in use.
    fn fresh(&mut self) -> Option<u8> {
        let colour = self.len;
        self.len += 1;
        (colour < MAX_OBJECTS).then_some(colour as u8)
    }

    /// Gives parts that no longer look alike colours of their own, and lists
    /// the parts that lead to them. The others of a colour still look alike,
    /// and other than these: their fields have none of the newest colours.
    fn round(&mut self, dirty: &[u8], next: &mut List) -> Option<()> {
        self.groups.clear();
        for (place, &number) in dirty.iter().enumerate() {
            let colour = self.colours[usize::from(number)];
            self.group_of[place] = self.groups.enter(self.look(number), colour)?;
        }
        self.colour_groups()?;
        for (&group, &number) in self.group_of.iter().zip(dirty) {
            let colour = self.groups.groups[usize::from(group)].new_colour;
            if self.colours[usize::from(number)] != colour {
                self.colours[usize::from(number)] = colour;
                self.list_before(number, next);
            }
        }
        Some(())
    }

    /// What a part looks like: its colour and those of its fields.
    #[inline]
    fn look(&self, number: u8) -> u64 {
        let own = u64::from(self.colours[usize::from(number)]);
        let part = &self.parts.parts[usize::from(number)];
        if part.numbered {
            return (0..4).fold(own, |look, field| {
                look << 8 | u64::from(self.field_colour(number, field))
            });
        }
        part.fields.iter().fold(own, |look, &field| {
            look << 8 | u64::from(self.colours[usize::from(field)])
        })
    }

    /// The colour of what a field of a part holds.
    #[inline]
    fn field_colour(&self, number: u8, field: usize) -> u8 {
        let place = usize::from(number);
        match self.parts.parts[place].fields[field] {
            NUMBER => self.of_numbers[place][field],
            held => self.colours[usize::from(held)],
        }
    }

    /// A new colour for each group. Where none of a colour is left out, its
    /// largest group keeps it.
    fn colour_groups(&mut self) -> Option<()> {
        let mut entered = [0; COLOURS];
        let mut largest = [0; COLOURS];
        for group in self.groups.list() {
            let colour = usize::from(group.colour);
            entered[colour] += group.size;
            largest[colour] = group.size.max(largest[colour]);
        }
        for place in 0..self.groups.len {
            let Group { colour, size, .. } = self.groups.groups[place];
            let old = usize::from(colour);
            if entered[old] == self.sizes[old] && largest[old] == size {
                // No other group is as large as this.
                largest[old] = 0;
                continue;
            }
            let fresh = self.fresh()?;
            self.groups.groups[place].new_colour = fresh;
            self.sizes[usize::from(fresh)] = size;
            entered[old] -= size;
            self.sizes[old] -= size;
        }
        Some(())
    }

    /// Lists the parts with a field that leads to this one.
    #[inline]
    fn list_before(&self, number: u8, list: &mut List) {
        let mut edge = self.heads[usize::from(number)];
        while edge != END {
            list.add((edge / 4) as u8);
            edge = self.others[usize::from(edge)];
        }
    }
}
