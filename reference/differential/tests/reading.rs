//! The proved reader against the reference engine's, on generated and damaged texts: the refusal, or every byte of the table.

use baqolluy::{TABLE_LENGTH, read};
use differential::table::layout;
use reference::generator::random::Random;
use reference::generator::{Kind, batch, text};
use reference::reading;

/// Compares both readers on one text.
fn agree(text: &[u8]) {
    let ours = read(text);
    let shown = || String::from_utf8_lossy(text).into_owned();
    match reading::read(text) {
        Ok(table) => {
            assert_eq!(ours.refusal, 0, "{}", shown());
            assert!(
                ours.table.bytes[..] == layout(&table)[..],
                "table of {}",
                shown()
            );
        }
        Err(refusal) => {
            assert_eq!(ours.refusal, refusal.number(), "{}", shown());
            assert!(ours.table.bytes == [0; TABLE_LENGTH], "{}", shown());
        }
    }
}

fn agree_on(kind: Kind, seed: u64, count: u64) {
    for number in 0..count {
        agree(&text(kind, &mut Random::for_case(seed, number)));
    }
}

#[test]
fn damaged_texts() {
    agree_on(Kind::Damaged, 1, 20_000);
}

#[test]
fn typed_programs() {
    agree_on(Kind::Typed, 2, 2_000);
}

#[test]
fn ill_typed_programs() {
    agree_on(Kind::IllTyped, 3, 2_000);
}

#[test]
fn full_size_programs() {
    agree_on(Kind::Full, 4, 20);
}

#[test]
fn programs_with_an_04_main() {
    for kind in batch::Kind::ALL {
        for number in 0..1_000 {
            agree(&batch::draw(kind, &mut Random::for_case(6, number)).text);
        }
    }
}

/// Every prefix of a full-size text, and a character changed at every place of a short one.
#[test]
fn every_prefix_and_every_place() {
    let full = text(Kind::Full, &mut Random::for_case(5, 0));
    for end in (0..=full.len()).step_by(97) {
        agree(&full[..end]);
    }
    let short = text(Kind::Typed, &mut Random::for_case(5, 1));
    let batch = batch::draw(batch::Kind::Fitting, &mut Random::for_case(5, 2));
    for short in [short, batch.text] {
        for place in 0..short.len() {
            for character in [b'0', b'3', b'4', b'F', b'a', b'G', b'\n', 0, 255] {
                let mut changed = short.clone();
                changed[place] = character;
                agree(&changed);
            }
        }
    }
}

#[test]
fn longest_and_empty_texts() {
    agree(b"");
    agree(b"\n");
    agree(&b"00\n".repeat(16_522));
    agree(&b"00\n".repeat(16_523));
    agree(&vec![b'0'; 49_567]);
    agree(&vec![b'0'; 49_568]);
}
