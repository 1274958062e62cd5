//! The cost of a step as a report grows.

use crate::race::{race, Times};
use crate::work_judge::{long, short, Judging};

/// What a step may cost in the longer report, beside one in the shorter.
const ALLOWED: f64 = 1.2;
const ROUNDS: usize = 60;

pub fn measure() {
    println!("\njudging by the number of steps: nanoseconds a step, and beside the line before");
    println!("{:34}{:>10}{:>12}{:>12}", "", "steps", "library", "plain");
    series(
        "short steps over few clauses",
        [10_000, 100_000, 1_000_000].map(short),
    );
    series("all ten times as large", [3, 30].map(long));
}

fn series<const N: usize>(name: &str, mut jobs: [Judging; N]) {
    // All lengths in turn too, so that what else the machine does meets all.
    let mut best = [Times::LONGEST; N];
    for _ in 0..ROUNDS {
        for (job, best) in jobs.iter_mut().zip(&mut best) {
            *best = best.min(race(job, 1));
        }
    }
    let mut before: Option<(f64, f64)> = None;
    for (job, best) in jobs.iter().zip(best) {
        let steps = job.steps() as f64;
        let library = best.library.as_secs_f64() * 1e9 / steps;
        let plain = best.plain.as_secs_f64() * 1e9 / steps;
        let beside = match before {
            None => String::new(),
            Some((earlier, earlier_plain)) => {
                let (grown, grown_plain) = (library / earlier, plain / earlier_plain);
                let verdict = if grown <= ALLOWED { "" } else { "  over 1.20" };
                format!("   {grown:.2} ({grown_plain:.2}){verdict}")
            }
        };
        println!("{name:34}{steps:>10}{library:>12.1}{plain:>12.1}{beside}");
        before = Some((library, plain));
    }
}
