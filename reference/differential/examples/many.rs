//! The long comparison: `many SEED COUNT` compares COUNT programs and damaged texts of a seed, each checked and on
//! trial with two fuels, and prints what came out; `many SEED COUNT rings` compares programs that put rings together, and
//! counts those that got too large and those with equal objects in different parts; `many SEED COUNT batch` compares runs
//! on second texts. Any difference is printed with its text and makes it fail.

use differential::compare::Bench;
use differential::sample;
use differential::tally::Tally;
use reference::calls::Mode;
use std::process::ExitCode;

/// Differences printed in full; all are counted.
const SHOWN: u64 = 10;

fn main() -> ExitCode {
    let words: Vec<String> = std::env::args().skip(1).collect();
    let words: Vec<&str> = words.iter().map(String::as_str).collect();
    let (numbers, compare): (_, fn(&mut Many, u64, u64)) = match words[..] {
        [ref numbers @ .., "rings"] => (numbers, Many::rings),
        [ref numbers @ .., "batch"] => (numbers, Many::batches),
        ref numbers => (numbers, Many::mixed),
    };
    let numbers: Vec<u64> = numbers.iter().flat_map(|word| word.parse()).collect();
    let [seed, count] = numbers[..] else {
        eprintln!("usage: many SEED COUNT [rings|batch]");
        return ExitCode::from(2);
    };
    let mut many = Many {
        bench: Bench::new(seed),
        tally: Tally::default(),
        differences: 0,
    };
    compare(&mut many, seed, count);
    print!("{}", many.tally);
    println!("differences {}", many.differences);
    if many.differences == 0 {
        ExitCode::SUCCESS
    } else {
        ExitCode::FAILURE
    }
}

/// The comparison so far.
struct Many {
    bench: Bench,
    tally: Tally,
    differences: u64,
}

impl Many {
    fn mixed(&mut self, seed: u64, count: u64) {
        for number in 0..count {
            let (text, fuels) = sample::mixed(seed, number);
            self.compare(number, (&text, &[]), &fuels);
        }
    }

    fn batches(&mut self, seed: u64, count: u64) {
        for number in 0..count {
            let (batch, fuels) = sample::batch(seed, number);
            self.compare(number, (&batch.text, &batch.second), &fuels);
        }
    }

    fn rings(&mut self, seed: u64, count: u64) {
        let (mut merged, mut large) = (0, 0);
        for number in 0..count {
            let (rings, fuels) = sample::rings(seed, number);
            let before = self.tally.ended(Mode::Trial, "0704");
            self.compare(number, (&rings.text(), &[]), &fuels);
            large += u64::from(self.tally.ended(Mode::Trial, "0704") > before);
            merged += u64::from(rings.merges());
        }
        println!("programs too large {large}, with equal objects in different parts {merged}");
    }

    fn compare(&mut self, number: u64, texts: (&[u8], &[u8]), fuels: &[u16]) {
        if let Err(difference) = self.bench.program_on(texts, fuels, &mut self.tally) {
            self.differences += 1;
            if self.differences <= SHOWN {
                println!("program {number}: {difference}");
            }
        }
    }
}
