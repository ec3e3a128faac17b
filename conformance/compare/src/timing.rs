//! How long a call takes, and a line of a table of such times.

use std::hint::black_box;
use std::time::{Duration, Instant};

/// How many calls take some two milliseconds.
fn batch(mut call: impl FnMut() -> usize) -> u32 {
    let began = Instant::now();
    black_box(call());
    let once = began.elapsed().max(Duration::from_nanos(50));
    (Duration::from_millis(2).as_nanos() / once.as_nanos()).clamp(1, 20_000) as u32
}

/// The least time of one call among many batches.
pub fn time(mut call: impl FnMut() -> usize) -> Duration {
    let batch = batch(&mut call);
    (0..60)
        .map(|_| {
            let began = Instant::now();
            for _ in 0..batch {
                black_box(call());
            }
            began.elapsed() / batch
        })
        .min()
        .unwrap()
}

/// The least time of each of several calls, told by their numbers, in nanoseconds. They are measured in turns, so that what else the machine does falls
/// on all of them.
pub fn in_turns(count: usize, mut call: impl FnMut(usize) -> usize) -> Vec<f64> {
    let batch = batch(|| call(0));
    let mut least = vec![f64::INFINITY; count];
    for _ in 0..200 {
        for (at, least) in least.iter_mut().enumerate() {
            let began = Instant::now();
            for _ in 0..batch {
                black_box(call(at));
            }
            *least = least.min(began.elapsed().as_nanos() as f64 / f64::from(batch));
        }
    }
    least
}

/// What is timed, and how long both sides take for it.
pub struct Line {
    pub name: String,
    pub proved: Duration,
    pub model: Duration,
}

impl Line {
    pub fn ratio(&self) -> f64 {
        self.proved.as_secs_f64() / self.model.as_secs_f64()
    }

    /// Both times and their ratio, as a table has them.
    pub fn times(&self) -> String {
        let (proved, model) = (self.proved, self.model);
        format!("{proved:.1?} | {model:.1?} | {:.2}", self.ratio())
    }
}
