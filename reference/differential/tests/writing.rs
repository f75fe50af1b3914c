//! The proved writer: texts come back as they were read. Of tables with bytes changed, just those are written that a text
//! reads into by the reference engine's reader, and as that text.

use baqolluy::{ClassTable, TABLE_LENGTH, Written, read, write};
use differential::table;
use reference::generator::random::Random;
use reference::generator::{Kind, batch, text};

const BUFFER: usize = 49_567;

/// A refused call writes nothing.
fn assert_refused(table: &ClassTable, size: usize, refusal: u8) {
    let mut buffer = vec![0xA5; size];
    let written = write(table, &mut buffer);
    assert_eq!(written, Written { refusal, length: 0 });
    assert!(buffer.iter().all(|&byte| byte == 0xA5));
}

/// The table's text comes back, and the bytes after it stay.
fn assert_written(table: &ClassTable, text: &[u8]) {
    let mut buffer = vec![0xA5; BUFFER + 7];
    let written = write(table, &mut buffer);
    assert_eq!(written.refusal, 0);
    assert_eq!(&buffer[..usize::from(written.length)], text);
    assert!(buffer[text.len()..].iter().all(|&byte| byte == 0xA5));
}

fn written_back(kind: Kind, seed: u64, count: u64) {
    for number in 0..count {
        comes_back(&text(kind, &mut Random::for_case(seed, number)));
    }
}

fn comes_back(text: &[u8]) {
    let ours = read(text);
    assert_eq!(ours.refusal, 0);
    assert_written(&ours.table, text);
    assert_refused(&ours.table, BUFFER - 1, 9);
}

#[test]
fn typed_programs_come_back() {
    written_back(Kind::Typed, 11, 1_500);
}

#[test]
fn other_texts_come_back() {
    written_back(Kind::IllTyped, 12, 1_500);
    written_back(Kind::Full, 14, 10);
}

#[test]
fn programs_with_an_04_main_come_back() {
    for kind in [batch::Kind::Fitting, batch::Kind::IllTyped] {
        for number in 0..1_000 {
            comes_back(&batch::draw(kind, &mut Random::for_case(16, number)).text);
        }
    }
}

/// A byte or two changed, often one that is not 0, often to a small number.
fn change(random: &mut Random, table: &mut ClassTable) {
    for _ in 0..random.between(1, 2) {
        let set = |&place: &usize| table.bytes[place] != 0;
        let set: Vec<usize> = (0..TABLE_LENGTH).filter(set).collect();
        let place = match random.below(4) {
            0 => random.below(TABLE_LENGTH),
            _ => set[random.below(set.len())],
        };
        table.bytes[place] = match random.below(4) {
            0 => random.byte(),
            _ => random.below(8) as u8,
        };
    }
}

/// Whether a changed table has a text, and which, is decided apart from the proved writer (`table::text`).
#[test]
fn changed_tables() {
    let (mut accepted, mut refused) = (0, 0);
    for number in 0..8_000 {
        let mut random = Random::for_case(15, number);
        let text = match random.below(3) {
            0 => batch::draw(batch::Kind::Fitting, &mut random).text,
            _ => text(Kind::Plain, &mut random),
        };
        let before = read(&text).table;
        let mut table = before;
        change(&mut random, &mut table);
        match table::text(&table.bytes) {
            Some(text) => {
                assert_written(&table, &text);
                accepted += u32::from(table != before);
            }
            None => {
                assert_refused(&table, BUFFER, 8);
                assert_refused(&table, 0, 8);
                refused += 1;
            }
        }
    }
    assert!(accepted > 300 && refused > 2_000, "{accepted} {refused}");
}
