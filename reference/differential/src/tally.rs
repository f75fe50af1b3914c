//! Counts of what was compared: programs, runs, refusals and outcomes, each mode by itself. It judges nothing.

use reference::calls::Mode;
use std::fmt;

/// Sorts of report: a value, undetermined, a number, stuck, out of fuel, too deep, too large, a sum too large.
pub const OUTCOMES: [&str; 8] = ["05", "06", "09", "0701", "0702", "0703", "0704", "0705"];
/// Refusals are numbered up to 15.
const REFUSALS: usize = 16;

#[derive(Default)]
struct Counts {
    refusals: [u64; REFUSALS],
    outcomes: [u64; OUTCOMES.len()],
}

#[derive(Default)]
pub struct Tally {
    pub programs: u64,
    pub runs: u64,
    modes: [Counts; 2],
}

impl Tally {
    pub fn program(&mut self) {
        self.programs += 1;
    }

    /// Counts a run: its refusal, and its outcome if it had one.
    pub fn run(&mut self, mode: Mode, refusal: u8, report: &[u8]) {
        self.runs += 1;
        let counts = &mut self.modes[mode as usize];
        counts.refusals[usize::from(refusal)] += 1;
        let outcome = OUTCOMES
            .iter()
            .position(|name| report.starts_with(name.as_bytes()));
        if let Some(place) = outcome {
            counts.outcomes[place] += 1;
        }
    }

    /// Runs of a mode with this refusal, 0 for accepted ones.
    pub fn refused(&self, mode: Mode, refusal: usize) -> u64 {
        self.modes[mode as usize].refusals[refusal]
    }

    /// Runs of a mode with this outcome, one of [`OUTCOMES`].
    pub fn ended(&self, mode: Mode, outcome: &str) -> u64 {
        let place = OUTCOMES.iter().position(|&name| name == outcome);
        self.modes[mode as usize].outcomes[place.expect("an outcome")]
    }
}

impl fmt::Display for Tally {
    fn fmt(&self, to: &mut fmt::Formatter) -> fmt::Result {
        writeln!(to, "programs {}", self.programs)?;
        writeln!(to, "runs {}", self.runs)?;
        for mode in [Mode::Checked, Mode::Trial] {
            write!(to, "{mode:?} refusals:")?;
            for refusal in (0..REFUSALS).filter(|&number| self.refused(mode, number) > 0) {
                write!(to, " {refusal}: {}", self.refused(mode, refusal))?;
            }
            write!(to, "\n{mode:?} outcomes:")?;
            for outcome in OUTCOMES {
                write!(to, " {outcome}: {}", self.ended(mode, outcome))?;
            }
            writeln!(to)?;
        }
        Ok(())
    }
}
