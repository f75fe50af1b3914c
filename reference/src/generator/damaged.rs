//! Texts that earn one of refusals 1 to 5: a sound text with its characters,
//! frames or table damaged. A damage that earns another refusal is dropped.

use super::random::Random;
use super::{illtyped, typed};
use crate::reading;
use crate::refusals::Refusal;
use crate::syntax::{
    Class, Expr, MAX_CLASSES, MAX_METHODS, MAX_NESTING, Method, NUMBER, Table, Type,
};
use crate::text::{self, push_line};
use crate::writing;

pub fn text(random: &mut Random) -> Vec<u8> {
    text_like(random, typed::table)
}

/// The same, made of tables from this source.
pub fn text_like(random: &mut Random, draw: fn(&mut Random) -> Table) -> Vec<u8> {
    let all = [
        Refusal::LineForm,
        Refusal::Frame,
        Refusal::Order,
        Refusal::Classes,
        Refusal::Override,
    ];
    let wanted = all[random.below(all.len())];
    loop {
        let table = draw(random);
        let damaged = match wanted {
            Refusal::LineForm => characters(random, &table),
            Refusal::Frame => frames(random, &table),
            Refusal::Order => order(random, &table),
            Refusal::Classes => rules(random, table),
            _ => overrides(random, table),
        };
        if let Some(text) = damaged
            && reading::read(&text).err() == Some(wanted)
        {
            return text;
        }
    }
}

fn characters(random: &mut Random, table: &Table) -> Option<Vec<u8>> {
    let mut text = writing::text(table)?;
    let place = random.below(text.len());
    match random.below(10) {
        0 => drop(text.pop()),
        1 => drop(text.remove(place)),
        2 => text.insert(place, b'\n'),
        3 => text.insert(place, *random.pick(b" \r\t\0,-")?),
        4 => text[place] = *random.pick(b"GgxZ:@/`\xFF")?,
        5 => text.make_ascii_lowercase(),
        6 => text.insert(place, *random.pick(b"0123456789ABCDEF")?),
        7 => text.push(b'\n'),
        8 => text.clear(),
        // One line over 255 bytes.
        _ => text.splice(place..place, b"40".repeat(256)).for_each(drop),
    }
    Some(text)
}

/// The frames of a sound table as bytes.
fn frame_bytes(table: &Table) -> Option<Vec<Vec<u8>>> {
    text::lines(&writing::text(table)?)
}

fn joined(frames: &[Vec<u8>]) -> Vec<u8> {
    let mut text = Vec::new();
    for frame in frames {
        push_line(&mut text, frame);
    }
    text
}

fn frames(random: &mut Random, table: &Table) -> Option<Vec<u8>> {
    let mut frames = frame_bytes(table)?;
    let chosen = random.below(frames.len());
    let frame = &mut frames[chosen];
    let place = random.below(frame.len());
    match random.below(8) {
        0 => frame[0] = *random.pick(&[0x00, 0x04, 0x40, 0xFF])?,
        1 if frame.len() > 1 => frame.truncate(place.max(1)),
        2 => frame.push(random.byte()),
        3 => frame[place] = frame[place].wrapping_add(1),
        // Wraps what is there in levels of field selection.
        4 => frame
            .splice(place..place, [0x43, 0x00].repeat(6))
            .for_each(drop),
        5 => *frames.last_mut()? = number_main(random),
        // One more sign where a part is, which takes what follows.
        6 => frame.insert(place, *random.pick(&[0x46, 0x47, 0x48, 0x49, 0x4A])?),
        _ => frame[place] = random.byte(),
    }
    Some(joined(&frames))
}

/// A main of numbers that is one level too deep or cut short.
fn number_main(random: &mut Random) -> Vec<u8> {
    let mut main = vec![0x03];
    let levels = random.between(1, MAX_NESTING);
    push_number(random, &mut main, levels);
    if levels < MAX_NESTING {
        main.truncate(random.between(2, main.len() - 1));
    }
    main
}

/// An expression of numbers, so many levels over the last ones.
fn push_number(random: &mut Random, bytes: &mut Vec<u8>, levels: usize) {
    if levels == 0 {
        return bytes.extend([0x46, random.byte(), random.byte()]);
    }
    let sign = 0x47 + random.below(3) as u8;
    let parts = if sign == 0x49 { 3 } else { 2 };
    bytes.push(sign);
    let deep = random.below(parts);
    for part in 0..parts {
        push_number(random, bytes, if part == deep { levels - 1 } else { 0 });
    }
}

fn order(random: &mut Random, table: &Table) -> Option<Vec<u8>> {
    let mut frames = frame_bytes(table)?;
    let (one, two) = (random.below(frames.len()), random.below(frames.len()));
    match random.below(10) {
        0 => drop(frames.pop()),
        1 => frames.push(frames[one].clone()),
        2 | 3 => frames.insert(one, frames.last()?.clone()),
        4 => frames.reverse(),
        5 if random.chance(10) => many(&mut frames, table.classes.len(), MAX_CLASSES),
        6 if random.chance(10) => {
            let after = table.classes.len() + table.methods.len();
            many(&mut frames, after, MAX_METHODS + 1);
        }
        _ => frames.swap(one, two),
    }
    Some(joined(&frames))
}

/// Repeats the frame before `place` until there are too many of it.
fn many(frames: &mut Vec<Vec<u8>>, place: usize, count: usize) {
    let frame = frames[place - 1].clone();
    frames
        .splice(place..place, vec![frame; count])
        .for_each(drop);
}

fn rules(random: &mut Random, mut table: Table) -> Option<Vec<u8>> {
    let count = table.classes.len() as u8;
    let unknown = *random.pick(&[count + 1, count + 2, 0x20, 0xFF])?;
    let forbidden = *random.pick(&[1, 2])?;
    let class = random.below(table.classes.len());
    let method = random.below(table.methods.len());
    match random.below(12) {
        0 => table.classes[class].parent = random.between(class + 1, 255) as u8,
        10 => table.classes[class].parent = NUMBER,
        11 => new_of_numbers(random, &mut table.main),
        1 => table.classes[class].fields.push(Type {
            class: unknown,
            tag: 0,
        }),
        2 => table.classes[class].fields.first_mut()?.tag = forbidden,
        3 => {
            // Five fields in all, though no class has more than four.
            let fields = vec![Type { class: 0, tag: 3 }; 4];
            let parent = count + 1;
            table.classes.push(Class { parent: 0, fields });
            let fields = vec![Type { class: 0, tag: 3 }];
            table.classes.push(Class { parent, fields });
        }
        4 => return renumbered(random, &table),
        5 => table.methods.push(table.methods[method].clone()),
        _ => {
            let method = &mut table.methods[method];
            method_rules(random, method, unknown, forbidden);
        }
    }
    writing::encode(&table)
}

/// A text whose class frames carry other numbers than their places.
fn renumbered(random: &mut Random, table: &Table) -> Option<Vec<u8>> {
    let mut frames = frame_bytes(table)?;
    let place = random.below(table.classes.len());
    frames[place][1] = *random.pick(&[0, place as u8, place as u8 + 2, 0xFF])?;
    Some(joined(&frames))
}

fn method_rules(random: &mut Random, method: &mut Method, unknown: u8, forbidden: u8) {
    match random.below(9) {
        0 => method.owner = 0,
        7 => method.owner = NUMBER,
        8 => new_of_numbers(random, &mut method.right),
        1 => method.owner = unknown,
        2 => method.first.class = unknown,
        3 => method.second.class = unknown,
        4 => method.first.tag = forbidden,
        5 => {
            let class = method.owner;
            let tag = forbidden;
            method.params = vec![Type { class, tag }];
        }
        // An unknown class in some expression.
        _ => illtyped::change_expr(random, usize::from(unknown), &mut method.left),
    }
}

/// Some part becomes an object of the class of numbers.
fn new_of_numbers(random: &mut Random, expr: &mut Expr) {
    let mut parts = expr.parts_mut();
    if !parts.is_empty() && random.chance(60) {
        let place = random.below(parts.len());
        return new_of_numbers(random, parts.swap_remove(place));
    }
    *expr = Expr::New(NUMBER, Vec::new());
}

/// A method below another of its name, with one of its types changed.
fn overrides(random: &mut Random, mut table: Table) -> Option<Vec<u8>> {
    let above = random.pick(&table.methods)?.clone();
    let parent = above.owner;
    let fields = Vec::new();
    table.classes.push(Class { parent, fields });
    let owner = table.classes.len() as u8;
    let mut method = Method { owner, ..above };
    match random.below(5) {
        0 => method.first.tag = 3 - method.first.tag,
        1 => method.second.tag = random.below(4) as u8,
        2 => method.second.class = random.below(table.classes.len()) as u8,
        3 => method.params.truncate(1),
        _ => method.params.push(Type { class: 0, tag: 0 }),
    }
    let place = random.below(table.methods.len() + 1);
    table.methods.insert(place, method);
    writing::encode(&table)
}
