//! The library and plain Rust in turn.

use std::time::{Duration, Instant};

/// The same work for both.
pub trait Job {
    /// What a turn needs before it, the library's (0) or plain Rust's (1); it is
    /// not timed.
    fn prepare(&mut self, _turn: usize) {}
    fn library(&mut self);
    fn plain(&mut self);
    /// Panics where the two gave different answers or left different buffers.
    fn compare(&self);
}

#[derive(Clone, Copy)]
pub struct Times {
    pub library: Duration,
    pub plain: Duration,
}

impl Times {
    pub const LONGEST: Times = Times {
        library: Duration::MAX,
        plain: Duration::MAX,
    };

    /// The best of both, each for itself.
    pub fn min(self, other: Times) -> Times {
        Times {
            library: self.library.min(other.library),
            plain: self.plain.min(other.plain),
        }
    }

    pub fn ratio(&self) -> f64 {
        self.library.as_secs_f64() / self.plain.as_secs_f64()
    }
}

/// The best time of each out of so many rounds. The two take turns, so that
/// what else the machine does meets both.
pub fn race(job: &mut impl Job, rounds: usize) -> Times {
    let mut best = Times::LONGEST;
    for _ in 0..rounds {
        job.prepare(0);
        let library = timed(|| job.library());
        job.prepare(1);
        let plain = timed(|| job.plain());
        job.compare();
        best = best.min(Times { library, plain });
    }
    best
}

fn timed(turn: impl FnOnce()) -> Duration {
    let start = Instant::now();
    turn();
    start.elapsed()
}
