//! Second texts with one flaw: each way in which a run earns 14 or 15, in a text
//! that is sound otherwise and cut at random. Flaws for 14 are made here, in any
//! part; those for 15, in parts that the root reaches, in `misfits.rs`.

use super::super::random::Random;
use super::cuts::{add_unreached, cut};
use super::parts::line;
use super::{Batch, misfits, sound, written};
use crate::batch::{MAX_PARTS, NO_PART};
use crate::syntax::{Expr, NUMBER, Table};
use crate::text::push_line;
use crate::values::Object;

#[derive(Clone, Copy, Debug, PartialEq, Eq)]
pub enum Flaw {
    // These earn 14.
    Missing,
    NotAsked,
    LineForm,
    FirstByte,
    Short,
    Long,
    ManyLines,
    UnknownClass,
    FieldCount,
    Number,
    NoSuchPart,
    CutNumber,
    // These earn 15.
    Root,
    Held,
    HeldNumber,
    Plus,
    ManyObjects,
}

impl Flaw {
    pub const ALL: [Flaw; 17] = [
        Flaw::Missing,
        Flaw::NotAsked,
        Flaw::LineForm,
        Flaw::FirstByte,
        Flaw::Short,
        Flaw::Long,
        Flaw::ManyLines,
        Flaw::UnknownClass,
        Flaw::FieldCount,
        Flaw::Number,
        Flaw::NoSuchPart,
        Flaw::CutNumber,
        Flaw::Root,
        Flaw::Held,
        Flaw::HeldNumber,
        Flaw::Plus,
        Flaw::ManyObjects,
    ];

    /// The refusal that it earns.
    pub fn number(self) -> u8 {
        match self {
            Flaw::Root | Flaw::Held | Flaw::HeldNumber | Flaw::Plus | Flaw::ManyObjects => 15,
            _ => 14,
        }
    }

    /// An accepted program and a second text with this flaw. Some programs and
    /// values have no room for it: others are drawn.
    pub fn draw(self, random: &mut Random) -> Batch {
        loop {
            let (table, parts) = sound(random);
            let flawed = match self.number() {
                14 => self.no_list(random, table, parts),
                _ => misfits::batch(self, random, table, parts),
            };
            if let Some(batch) = flawed {
                return batch;
            }
        }
    }

    fn no_list(self, random: &mut Random, mut table: Table, parts: Vec<Object>) -> Option<Batch> {
        let mut parts = cut(random, &table, &parts);
        if self == Flaw::ManyLines {
            let missing = MAX_PARTS + 1 - parts.len();
            add_unreached(random, &table, &mut parts, missing);
        }
        let numbered = parts.iter().enumerate();
        let mut lines: Vec<Vec<u8>> = numbered.map(|(place, part)| line(place, part)).collect();
        let place = random.below(lines.len());
        let count = lines.len();
        self.change_line(random, &table, &mut lines[place], count)?;
        let mut second = Vec::new();
        lines.iter().for_each(|line| push_line(&mut second, line));
        match self {
            Flaw::Missing => second.clear(),
            Flaw::LineForm => spoil(random, &mut second)?,
            Flaw::NotAsked => {
                table.input = None;
                table.main = Expr::New(0, Vec::new());
            }
            _ => {}
        }
        let text = written(&table);
        Some(Batch { text, second })
    }

    /// Changes one of so many lines, for a flaw of that sort.
    fn change_line(
        self,
        random: &mut Random,
        table: &Table,
        line: &mut Vec<u8>,
        count: usize,
    ) -> Option<()> {
        let own = usize::from(line[1]);
        match self {
            Flaw::FirstByte => line[0] = *random.pick(&[0, 1, 3, 4, 6, 0x45, 0xFF])?,
            Flaw::Short => line.truncate(random.between(1, line.len() - 1)),
            Flaw::Long => line.push(*random.pick(&[0, line[1], NO_PART])?),
            Flaw::UnknownClass => {
                let highest = table.classes.len() as u8;
                line[2] = *random.pick(&[highest + 1, highest + 2, 0x21, 0xFE, 0xFF])?;
            }
            Flaw::FieldCount => {
                // The line is as long as its count says, but its class is not.
                let other = (usize::from(line[3]) + random.between(1, 4)) % 5;
                line[3] = other as u8;
                line.resize(4 + other, NO_PART);
            }
            Flaw::Number => {
                let next = (own + 1) % 256;
                let other = *random.pick(&[next, own.wrapping_sub(1), own + 128, 255])?;
                line[1] = other as u8;
                return (usize::from(line[1]) != own).then_some(());
            }
            Flaw::NoSuchPart => {
                if line.len() == 4 || count == MAX_PARTS {
                    return None;
                }
                let missing = random.between(count, MAX_PARTS - 1);
                let field = *random.pick(&[count, missing, MAX_PARTS - 1])?;
                let place = *random.pick(&starts(line))?;
                line[place] = field as u8;
            }
            Flaw::CutNumber => {
                // The last field is a number that lacks one byte or both.
                let last = *starts(line).last()?;
                line.truncate(last);
                line.push(NUMBER);
                line.extend((0..random.below(2)).map(|_| random.byte()));
            }
            _ => {}
        }
        Some(())
    }
}

/// Where in a line each field starts.
fn starts(line: &[u8]) -> Vec<usize> {
    let mut places = Vec::new();
    let mut next = 4;
    while next < line.len() {
        places.push(next);
        next += if line[next] == NUMBER { 3 } else { 1 };
    }
    places
}

/// Damage after which a text is not of the line form.
fn spoil(random: &mut Random, text: &mut Vec<u8>) -> Option<()> {
    let place = random.below(text.len());
    match random.below(9) {
        0 => drop(text.pop()),
        1 => text.insert(place, *random.pick(b" \r\t\0,-")?),
        2 => text[place] = *random.pick(b"GgxZ:@/`\xFF")?,
        3 => text.push(b'\n'),
        4 => text.insert(0, b'\n'),
        5 => text.extend(b"05"),
        6 => text.insert(place, *random.pick(b"0123456789ABCDEF")?),
        7 => text.splice(place..place, b"40".repeat(256)).for_each(drop),
        _ => {
            let lower = text.to_ascii_lowercase();
            if lower == *text {
                return None;
            }
            *text = lower;
        }
    }
    Some(())
}
