//! Runs on a second text, whose value main gives back: as many distinct parts
//! as there may be, many parts that are equal, parts that need long paths to be
//! told apart, and texts that are refused as late as can be. Parts of numbers
//! are in `tallies.rs`.

use super::{Call, Ending, Workload};
use crate::batch::MAX_PARTS;
use crate::builder::{Program, param, plus};
use crate::calls::Mode;
use crate::generator::batch::parts::text;
use crate::values::{MAX_OBJECTS, Object, Ref};

pub const BASE: u8 = 1;
/// A common part and an odd one; the wide ones lead to the next by four fields.
const COMMON: u8 = 2;
const ODD: u8 = 3;
const WIDE: u8 = 4;
const ODD_WIDE: u8 = 5;

/// Rows of second texts without numbers: main gives back its parameter, and two are refused.
pub fn batch() -> Vec<Workload> {
    let thin = (COMMON, ODD);
    let full = MAX_PARTS;
    let objects = Ending::Objects;
    let ring = |count, period| text(&parts(count, period, thin));
    let wide = text(&parts(full, 31, (WIDE, ODD_WIDE)));
    vec![
        row("batch, 32 distinct parts", ring(32, 32), objects(32)),
        row("batch, 254 equal parts", ring(full, 1), objects(1)),
        row("batch, 254 parts, period 31", ring(full, 31), objects(31)),
        row("batch, 254 wide, period 31", wide, objects(31)),
        row(
            "batch, 254 parts, refused 15",
            too_many(),
            Ending::Refused(15),
        ),
        row(
            "batch, 14 at the last line",
            flawed(full - 1),
            Ending::Refused(14),
        ),
    ]
}

/// A checked run of a main that gives back its parameter.
fn row(name: &str, second: Vec<u8>, ending: Ending) -> Workload {
    let mut p = Program::start();
    let base = plus(BASE);
    p.class(0, &[]);
    p.class(BASE, &[base]);
    p.class(BASE, &[base]);
    p.class(BASE, &[base; 4]);
    p.class(BASE, &[base; 4]);
    row_of(p, name, second, ending)
}

/// The same over these classes.
pub fn row_of(p: Program, name: &str, second: Vec<u8>, ending: Ending) -> Workload {
    Workload {
        name: name.to_string(),
        call: Call::Run(Mode::Checked),
        text: p.batch_text(BASE, param(0)),
        second,
        fuel: 1_000,
        spends: 0,
        ending,
    }
}

/// So many parts, each leading to the next and the last to one that is a whole
/// number of periods before; one of each period is odd.
fn parts(count: usize, period: usize, (common, odd): (u8, u8)) -> Vec<Object> {
    let fields = if common == WIDE { 4 } else { 1 };
    let part = |place: usize| {
        let next = if place + 1 < count {
            place + 1
        } else {
            count % period
        };
        Object {
            class: if place.is_multiple_of(period) {
                odd
            } else {
                common
            },
            fields: vec![Ref::Object(next); fields],
        }
    };
    (0..count).map(part).collect()
}

/// One distinct object more than there may be, among as many parts as can be.
fn too_many() -> Vec<u8> {
    text(&parts(MAX_PARTS, MAX_OBJECTS + 1, (COMMON, ODD)))
}

/// The last line leads to a part that is not there.
fn flawed(count: usize) -> Vec<u8> {
    let mut parts = parts(count, 31, (COMMON, ODD));
    parts[count - 1].fields[0] = Ref::Object(count);
    text(&parts)
}
