//! Medians of repeated runs, the engines in turn, so that a slow spell of the
//! machine falls on all of them. What is measured is decided elsewhere.

use crate::clock::now;
use crate::engines::{Buffers, ENGINES, Engine};
use reference::workloads::Workload;
use std::hint::black_box;
use std::time::Duration;

/// Samples of each engine; fewer, but odd and at least 5, where one takes so
/// long that they would need more than the budget.
pub const SAMPLES: usize = 31;
const BUDGET: Duration = Duration::from_secs(3);
/// A sample repeats its run until it takes about this long.
const SAMPLE: Duration = Duration::from_millis(2);

struct Plan<'a> {
    engine: Engine,
    workload: &'a Workload,
    repeats: u32,
    samples: usize,
    times: Vec<f64>,
}

/// Median nanoseconds of one run, for each of `ENGINES`, of each workload.
/// All that are given at once are sampled in turn.
pub fn medians(workloads: &[Workload]) -> Vec<[f64; 3]> {
    let mut buffers = Buffers::new();
    let mut plans: Vec<Plan> = workloads
        .iter()
        .flat_map(|workload| ENGINES.map(|engine| (engine, workload)))
        .map(|(engine, workload)| plan(engine, workload, &mut buffers))
        .collect();
    for round in 0..SAMPLES {
        for plan in plans.iter_mut().filter(|plan| round < plan.samples) {
            let taken = sample(plan.engine, plan.workload, plan.repeats, &mut buffers);
            plan.times
                .push(taken.as_nanos() as f64 / f64::from(plan.repeats));
        }
    }
    let each = plans.chunks_exact_mut(ENGINES.len());
    each.map(|plans| [0, 1, 2].map(|place| median(&mut plans[place].times)))
        .collect()
}

fn median(times: &mut [f64]) -> f64 {
    times.sort_by(f64::total_cmp);
    times[times.len() / 2]
}

/// Warms up, and finds how often to repeat.
fn plan<'a>(engine: Engine, workload: &'a Workload, buffers: &mut Buffers) -> Plan<'a> {
    let mut repeats = 1;
    let mut taken = sample(engine, workload, repeats, buffers);
    while taken < SAMPLE {
        repeats *= 2;
        taken = sample(engine, workload, repeats, buffers);
    }
    let affordable = (BUDGET.as_nanos() / taken.as_nanos().max(1)) as usize | 1;
    Plan {
        engine,
        workload,
        repeats,
        samples: affordable.clamp(5, SAMPLES),
        times: Vec::new(),
    }
}

fn sample(engine: Engine, workload: &Workload, repeats: u32, buffers: &mut Buffers) -> Duration {
    let start = now();
    for _ in 0..repeats {
        black_box(engine.call(black_box(workload), buffers));
    }
    now() - start
}
