//! Numbers for programs and batch texts: small ones, ones near the limits, ones
//! whose bytes look like signs.

use super::random::Random;
use crate::builder::{difference, number, sum};
use crate::syntax::Expr;

pub fn draw(random: &mut Random) -> u16 {
    const SIGNS: [u16; 6] = [0x4546, 0x45FF, 0x4747, 0x49FE, 0xFEFE, 0xFF00];
    match random.below(30) {
        0..12 => random.below(2) as u16,
        12..24 => random.below(6) as u16,
        24 => u16::MAX - random.below(3) as u16,
        25 => 0x7FFF + random.below(3) as u16,
        26 => SIGNS[random.below(SIGNS.len())],
        27..29 => random.below(300) as u16,
        _ => random.below(65_536) as u16,
    }
}

pub fn literal(random: &mut Random) -> Expr {
    number(draw(random))
}

/// The number that comes after another one: below it, above it, or 1 and 0 in
/// turns.
pub fn turned(random: &mut Random, before: Expr) -> Expr {
    let step = number(random.between(1, 3) as u16);
    match random.below(10) {
        0..4 => difference(before, step),
        4..8 => difference(step, before),
        8 => sum(before.clone(), before),
        _ => sum(before, step),
    }
}
