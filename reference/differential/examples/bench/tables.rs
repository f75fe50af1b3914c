//! The tables: every row, then time against fuel and against objects.

use crate::engines::assert_agreed;
use crate::timing::{SAMPLES, medians};
use reference::workloads::{self, Workload};

pub fn print() {
    println!("CPU time of one call: medians of up to {SAMPLES} samples, the engines in turn.");
    println!("Each run zeroes the first 163,840 bytes of its work buffer itself, in all engines,");
    println!("and that is in the times; no buffer is cleared in between. Fuel is what is spent.\n");
    print_rows("");
    print_fuel();
    print_objects(&[1, 2, 4, 8, 16, 24, 32], workloads::by_objects);
    print_objects(&[4, 8, 16, 31], workloads::by_objects_of_a_ring);
}

fn measured(workloads: &[Workload]) -> Vec<[f64; 3]> {
    workloads.iter().for_each(assert_agreed);
    medians(workloads)
}

/// A time with its unit, in four digits at most.
fn time(nanoseconds: f64) -> String {
    match nanoseconds {
        ..1e4 => format!("{nanoseconds:.0} ns"),
        1e4..1e7 => format!("{:.1} us", nanoseconds / 1e3),
        _ => format!("{:.1} ms", nanoseconds / 1e6),
    }
}

/// The rows with this word in their names.
pub fn print_rows(word: &str) {
    println!(
        "{:<30}{:>7}{:>12}{:>12}{:>12}{:>13}{:>15}",
        "row", "fuel", "proved", "fast", "simple", "proved/fast", "proved/simple"
    );
    let all = workloads::all().into_iter();
    for row in all.filter(|row| row.name.contains(word)) {
        let [proved, fast, simple] = measured(std::slice::from_ref(&row))[0];
        println!(
            "{:<30}{:>7}{:>12}{:>12}{:>12}{:>13.2}{:>15.3}",
            row.name,
            row.spends,
            time(proved),
            time(fast),
            time(simple),
            proved / fast,
            proved / simple
        );
    }
}

/// Linear growth shows as the same time for each unit.
fn print_fuel() {
    const FUELS: [u16; 4] = [1_000, 4_000, 16_000, 64_000];
    println!("\nTime for each unit of fuel, all of it spent");
    println!(
        "{:<30}{:>7}{:>12}{:>12}{:>12}",
        "row", "fuel", "proved", "fast", "simple"
    );
    for place in 0..workloads::by_fuel(1).len() {
        let rows = FUELS.map(|fuel| workloads::by_fuel(fuel).swap_remove(place));
        for (fuel, taken) in FUELS.into_iter().zip(measured(&rows)) {
            let each = taken.map(|taken| time(taken / f64::from(fuel)));
            let [proved, fast, simple] = each;
            let name = &rows[0].name;
            println!("{name:<30}{fuel:>7}{proved:>12}{fast:>12}{simple:>12}");
        }
    }
}

/// Beside each time, the power of the objects that it grew with since the line
/// before: 1 is linear growth.
fn print_objects(counts: &[usize], rows: fn(usize) -> Vec<Workload>) {
    println!(
        "\nTime against objects, and the power of them that it grew with since the line before"
    );
    println!(
        "{:<20}{:>9}{:>12}{:>7}{:>12}{:>7}{:>12}{:>7}",
        "row", "objects", "proved", "", "fast", "", "simple", ""
    );
    for place in 0..rows(counts[0]).len() {
        let each = counts
            .iter()
            .map(|&objects| rows(objects).swap_remove(place));
        let each: Vec<Workload> = each.collect();
        let name = each[0].name.replace(&format!(" of {},", counts[0]), ",");
        let mut before: Option<(f64, [f64; 3])> = None;
        for (&objects, taken) in counts.iter().zip(measured(&each)) {
            let objects = objects as f64;
            print!("{name:<20}{objects:>9}");
            for engine in 0..taken.len() {
                let power = before.map(|(fewer, less)| {
                    (taken[engine] / less[engine]).ln() / (objects / fewer).ln()
                });
                let power = power.map_or(String::new(), |power| format!("{power:.1}"));
                print!("{:>12}{power:>7}", time(taken[engine]));
            }
            println!();
            before = Some((objects, taken));
        }
    }
}
