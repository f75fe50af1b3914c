//! The reader: refusals 1 to 5, and the tables that rules 4 and 5 are tested on
//! while they are filled. The form and order of frames is in `frames.rs`.

use super::arena::NO_CLASS;
use super::frames::frames;
use super::lines::lines;
use super::program::{NONE, Program, ROWS};
use crate::refusals::Refusal;
use crate::syntax::{MAX_FIELDS, MINUS, NUMBER, PLUS, Type};

pub fn read(text: &[u8]) -> Result<Program, Refusal> {
    let lines = lines(text).ok_or(Refusal::LineForm)?;
    let frames = frames(&lines).ok_or(Refusal::Frame)?;
    let main = frames.main.filter(|_| frames.ordered);
    let main = main.ok_or(Refusal::Order)?;
    let object = Type { class: 0, tag: 0 };
    let mut program = Program {
        bytes: lines.bytes,
        fields: [[object; 4]; ROWS],
        counts: [0; ROWS],
        fits: [0; ROWS],
        methods: frames.methods,
        columns: [NONE; 256],
        width: 0,
        found: Vec::new(),
        input: frames.input,
        main,
    };
    let highest = frames.classes.len() as u8;
    let in_rule = frames.highest_new <= highest
        && classes_in_rule(&mut program, &frames.classes)
        && methods_in_rule(&program, highest)
        && input_in_rule(&program, highest)
        && own_methods(&mut program);
    if !in_rule {
        return Err(Refusal::Classes);
    }
    if !inherited(&mut program, &frames.classes) {
        return Err(Refusal::Override);
    }
    Ok(program)
}

/// A class that the type of a field, a parameter or a result may have.
fn typed_class(class: u8, highest: u8) -> bool {
    class <= highest || class == NUMBER
}

/// Such a class at this place, under a tag that fields, parameters and first
/// results have.
fn closed(program: &Program, place: usize, highest: u8) -> bool {
    let tag = program.bytes[place + 1];
    typed_class(program.bytes[place], highest) && (tag == PLUS || tag == MINUS)
}

/// Rule 4 for the class frames; fills the tables of fields and fits.
fn classes_in_rule(program: &mut Program, classes: &[usize]) -> bool {
    program.fits[0] = 1;
    program.fits[usize::from(NO_CLASS)] = 1 << NO_CLASS;
    for (place, &frame) in classes.iter().enumerate() {
        let class = place + 1;
        let parent = usize::from(program.bytes[frame + 1]);
        if usize::from(program.bytes[frame]) != class || parent >= class {
            return false;
        }
        program.fits[class] = program.fits[parent] | 1 << class;
        program.fields[class] = program.fields[parent];
        let mut count = usize::from(program.counts[parent]);
        for own in 0..usize::from(program.bytes[frame + 2]) {
            let type_ = frame + 3 + 2 * own;
            if count == MAX_FIELDS || !closed(program, type_, classes.len() as u8) {
                return false;
            }
            program.fields[class][count] = program.type_at(type_);
            count += 1;
        }
        program.counts[class] = count as u8;
    }
    true
}

/// Rule 4 for each method frame by itself.
fn methods_in_rule(program: &Program, highest: u8) -> bool {
    program.methods.iter().all(|method| {
        let types = method.types;
        let params = 0..usize::from(method.params);
        method.owner != 0
            && method.owner <= highest
            && closed(program, types, highest)
            && typed_class(program.bytes[types + 2], highest)
            && params
                .into_iter()
                .all(|place| closed(program, types + 5 + 2 * place, highest))
    })
}

/// Rule 4 for the type of an `04` main.
fn input_in_rule(program: &Program, highest: u8) -> bool {
    program
        .input
        .is_none_or(|place| program.bytes[place] <= highest && program.bytes[place + 1] == PLUS)
}

/// Enters each method under its owner; false when a name comes twice there.
fn own_methods(program: &mut Program) -> bool {
    for method in &program.methods {
        let column = &mut program.columns[usize::from(method.name)];
        if *column == NONE {
            *column = program.width as u8;
            program.width += 1;
        }
    }
    program.found = vec![NONE; ROWS * program.width];
    for (number, method) in program.methods.iter().enumerate() {
        let column = usize::from(program.columns[usize::from(method.name)]);
        let entry = &mut program.found[usize::from(method.owner) * program.width + column];
        if *entry != NONE {
            return false;
        }
        *entry = number as u8;
    }
    true
}

/// Hands methods down; false when one differs from the one above: refusal 5.
fn inherited(program: &mut Program, classes: &[usize]) -> bool {
    let types = |number: u8| {
        let method = &program.methods[usize::from(number)];
        &program.bytes[method.types..method.types + 5 + 2 * usize::from(method.params)]
    };
    for (place, &frame) in classes.iter().enumerate() {
        let class = (place + 1) * program.width;
        let parent = usize::from(program.bytes[frame + 1]) * program.width;
        for column in 0..program.width {
            let above = program.found[parent + column];
            let own = &mut program.found[class + column];
            if *own == NONE {
                *own = above;
            } else if above != NONE && types(*own) != types(above) {
                return false;
            }
        }
    }
    true
}
