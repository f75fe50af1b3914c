//! Where methods are found, through the static library: three texts whole, generated tables against the reference engine, and
//! random and damaged tables against a search in their bytes.

use baqolluy::{ClassTable, Found, TABLE_LENGTH, find, read};
use differential::compare::{Difference, output, slashed};
use differential::finds::{self, Finds};
use differential::sample;
use differential::table::{INDEX, LONG, METHODS, ROW};
use reference::calls::Mode;
use reference::generator::random::Random;
use reference::syntax::{MAX_CLASSES, MAX_METHODS};

fn table(lines: &str) -> ClassTable {
    let reading = read(slashed(lines).as_bytes());
    assert_eq!(reading.refusal, 0);
    reading.table
}

/// Class 3 below 2 below 1: names 1 and 2, and 1 again in class 3.
const CHAIN: &str = "01010000/01020100/01030200/02010101000100004040/02020201000100004040/\
                     02030101000100004040/03450000/";

#[test]
fn the_owner_is_the_nearest_class_that_has_the_name() {
    let table = table(CHAIN);
    let places = [(1, 1), (2, 1), (2, 2), (3, 1), (3, 2)];
    let expected = [(1, 0), (1, 0), (2, 1), (3, 2), (2, 1)];
    for ((class, name), (owner, method)) in places.into_iter().zip(expected) {
        let answer = find(&table, class, name);
        assert_eq!(answer, Some(Found { owner, method }), "{class} {name}");
    }
    for (class, name) in [(1, 2), (0, 1), (33, 1), (254, 1), (255, 1), (1, 3)] {
        assert_eq!(find(&table, class, name), None, "{class} {name}");
    }
    let all = finds::text(slashed(CHAIN).as_bytes()).unwrap();
    assert_eq!((all.found, all.inherited), (5, 2));
}

/// Class 2's method 2 calls method 1 on this: class 1's for an object of class 2, class 3's for one of class 3. The
/// bodies of method 1 make objects of classes 4 and 6, so that a report tells which ran.
const DISPATCH: &str = "01010000/01020100/01030200/01040000/01050000/01060000/\
                        0201010000000000450400450400/020202000000000044010040450500/\
                        0203010000000000450600450600/";

#[test]
fn a_run_calls_what_is_found_from_the_objects_class() {
    for (main, report) in [
        ("03440200450300/", "05000600\n"),
        ("03440200450200/", "05000400\n"),
    ] {
        let text = slashed(&format!("{DISPATCH}{main}"));
        let checked = output(Mode::Checked, 1_000, text.as_bytes());
        assert_eq!(checked, (format!("08000000\n{report}"), 998));
        let trial = output(Mode::Trial, 1_000, text.as_bytes());
        assert_eq!(trial, (report.to_string(), 998));
    }
}

/// Class 2 has no method 1; class 3's has another second tag than class 1's.
#[test]
fn an_override_is_held_against_the_nearest_above_it() {
    let gap = "01010000/01020100/01030200/02010101000100004040/02030101000103004040/03450000/";
    let text = slashed(gap);
    assert_eq!(
        output(Mode::Checked, 1_000, text.as_bytes()),
        ("0805\n".to_string(), 1_000)
    );
    assert_eq!(read(text.as_bytes()).refusal, 5);
}

/// The sum of what was found, each table having been compared.
fn all(count: u64, compared: impl Fn(u64) -> Result<Finds, Difference>) -> Finds {
    let mut all = Finds::default();
    for number in 0..count {
        let finds = compared(number);
        all.add(finds.unwrap_or_else(|difference| panic!("table {number}: {difference}")));
    }
    all
}

#[test]
fn generated_tables() {
    let all = all(10_000, |number| finds::text(&sample::table(131, number)));
    assert!(all.found > 150_000 && all.inherited > 100_000, "{all:?}");
}

fn junk(random: &mut Random) -> [u8; TABLE_LENGTH] {
    [(); TABLE_LENGTH].map(|()| random.byte())
}

#[test]
fn random_bytes() {
    let all = all(300, |number| {
        finds::bytes(&junk(&mut Random::for_case(132, number)))
    });
    assert!(all.found > 300 * 8_000 && all.inherited > 300, "{all:?}");
}

/// Random bytes but for an index with little in it and parents that are often smaller, so that searches go far.
#[test]
fn random_bytes_with_long_searches() {
    let all = all(1_000, |number| {
        let mut random = Random::for_case(133, number);
        let mut bytes = junk(&mut random);
        let share = *random.pick(&[0, 1, 5, 30]).expect("a share");
        for entry in &mut bytes[INDEX..METHODS] {
            if !random.chance(share) {
                *entry = 0;
            }
        }
        for class in 0..=MAX_CLASSES {
            if random.chance(80) {
                bytes[ROW * class] = random.below(class + 2) as u8;
            }
        }
        finds::bytes(&bytes)
    });
    assert!(all.found > 1_000_000 && all.inherited > 500_000, "{all:?}");
}

/// Index bytes, parents, and the owners that methods' rows name, which decide nothing.
#[test]
fn damaged_tables() {
    let all = all(2_000, |number| {
        let mut random = Random::for_case(134, number);
        let mut bytes = read(&sample::table(134, number)).table.bytes;
        for _ in 0..random.between(1, 60) {
            let class = random.below(MAX_CLASSES + 1);
            let place = match random.below(4) {
                0 => ROW * class,
                1 => METHODS + LONG * random.below(MAX_METHODS) + 1,
                _ => INDEX + LONG * class + random.below(LONG),
            };
            bytes[place] = match random.below(3) {
                0 => 0,
                1 => random.below(MAX_CLASSES + 2) as u8,
                _ => random.byte(),
            };
        }
        finds::bytes(&bytes)
    });
    assert!(all.found > 50_000 && all.inherited > 30_000, "{all:?}");
}
