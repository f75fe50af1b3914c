//! Which programs are compared, and with which fuels. The programs are made by the reference engine's generator.

use crate::compare::{Bench, Difference};
use crate::tally::Tally;
use reference::generator::batch::{self, Batch};
use reference::generator::random::Random;
use reference::generator::rings::Rings;
use reference::generator::{Kind, text};

/// Nothing at all, the first calls, a few, `linerun`'s fuel, all that a session can have.
pub fn fuels(random: &mut Random) -> [u16; 7] {
    let few = random.between(4, 40) as u16;
    [0, 1, 2, 3, few, 1_000, 65_535]
}

/// Compares `count` programs of a kind, each in both modes with every fuel.
pub fn kind(kind: Kind, seed: u64, count: u64) -> Result<Tally, Difference> {
    let mut bench = Bench::new(seed);
    let mut tally = Tally::default();
    for number in 0..count {
        let mut random = Random::for_case(seed, number);
        let text = text(kind, &mut random);
        bench.program(&text, &fuels(&mut random), &mut tally)?;
    }
    Ok(tally)
}

/// Program `number` of a seed's mixture, and two fuels for it. Most are of the kinds that are quickly made.
pub fn mixed(seed: u64, number: u64) -> (Vec<u8>, [u16; 2]) {
    let mut random = Random::for_case(seed, number);
    let kind = match random.below(1_000) {
        0..350 => Kind::Plain,
        350..390 => Kind::Chains,
        390..400 => Kind::Overrides,
        400..450 => Kind::Typed,
        450..480 => Kind::Limits,
        480..738 => Kind::IllTyped,
        738..748 => Kind::Large,
        748..750 => Kind::Full,
        _ => Kind::Damaged,
    };
    let text = text(kind, &mut random);
    let all = fuels(&mut random);
    let fuel = |random: &mut Random| all[random.below(all.len())];
    (text, [fuel(&mut random), fuel(&mut random)])
}

/// Text `number` of a seed that passes 1 to 5, for where its methods are found: chains of classes most often.
pub fn table(seed: u64, number: u64) -> Vec<u8> {
    let mut random = Random::for_case(seed, number);
    let kind = match random.below(100) {
        0..50 => Kind::Chains,
        50..75 => Kind::Plain,
        75..85 => Kind::IllTyped,
        85..90 => Kind::Large,
        _ => return batch::draw(batch::Kind::Fitting, &mut random).text,
    };
    text(kind, &mut random)
}

/// Program `number` of a seed's rings, and two fuels: one under which some stop half-way, and one that most end with.
pub fn rings(seed: u64, number: u64) -> (Rings, [u16; 2]) {
    let mut random = Random::for_case(seed, number);
    let rings = Rings::draw(&mut random);
    (rings, [random.below(60) as u16, 1_000])
}

/// Program `number` of a seed's mixture on second texts, and two fuels for it.
pub fn batch(seed: u64, number: u64) -> (Batch, [u16; 2]) {
    let mut random = Random::for_case(seed, number);
    let case = batch::case(&mut random);
    let all = fuels(&mut random);
    (case.batch, [case.fuel, all[random.below(all.len())]])
}
