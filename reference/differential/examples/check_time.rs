//! Median time of checking a full-size text, by the proved engine and by the reference engine.

use differential::compare;
use differential::timing::median;
use reference::calls;
use reference::generator::random::Random;
use reference::generator::{Kind, text};
use std::hint::black_box;

fn main() {
    let full = text(Kind::Full, &mut Random::for_case(1, 0));
    let verdict = compare::check(&full).expect("both engines give one verdict");
    assert_eq!(verdict.refusal, 0, "a full-size text is accepted");
    let proved = median(|| baqolluy::check(black_box(&full)));
    let reference = median(|| calls::check(black_box(&full)));
    println!(
        "{} characters: proved {proved:.0} us, reference {reference:.0} us",
        full.len()
    );
}
