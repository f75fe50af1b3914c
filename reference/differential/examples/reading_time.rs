//! Median time of reading a full-size text, by the proved reader and by the reference engine.

use differential::timing::median;
use reference::generator::random::Random;
use reference::generator::{Kind, text};
use std::hint::black_box;

fn main() {
    let full = text(Kind::Full, &mut Random::for_case(1, 0));
    let proved = median(|| baqolluy::read(black_box(&full)));
    let reference = median(|| reference::reading::read(black_box(&full)));
    println!(
        "{} characters: proved {proved:.0} us, reference {reference:.0} us",
        full.len()
    );
}
