//! What came up in a random test: how often each thing did, and what must.

use std::collections::BTreeMap;
use std::env;
use std::thread;

use crate::random::Random;

/// How often each thing came.
pub type Seen = BTreeMap<String, u64>;

pub fn note(seen: &mut Seen, key: &str) {
    *seen.entry(key.to_string()).or_default() += 1;
}

/// A number that the environment may set.
pub fn setting(name: &str, otherwise: u64) -> u64 {
    env::var(name).ok().and_then(|text| text.parse().ok()).unwrap_or(otherwise)
}

/// The workers of a run, and so the number that tells each from the other.
pub const WORKERS: u64 = 2;

/// Two runs side by side, of the worker 0 and of the worker 1: what came in both together, which is printed.
pub fn side_by_side(run: impl Fn(u64) -> Seen + Sync) -> Seen {
    let run = &run;
    let both = thread::scope(|scope| {
        let workers: Vec<_> = (0..WORKERS).map(|worker| scope.spawn(move || run(worker))).collect();
        workers.into_iter().map(|worker| worker.join().expect("the two sides differ")).collect::<Vec<Seen>>()
    });
    let mut seen = Seen::new();
    for (key, times) in both.into_iter().flatten() {
        *seen.entry(key).or_default() += times;
    }
    seen.iter().for_each(|(key, times)| println!("{key}: {times}"));
    seen
}

/// So many runs, side by side, each with numbers of its own that its place and the seed give: what came in all of them, which is printed.
pub fn each_seeded(count: u64, seed: u64, run: impl Fn(&mut Seen, &mut Random) + Sync) -> Seen {
    side_by_side(|worker| {
        let mut seen = Seen::new();
        for at in (worker..count).step_by(WORKERS as usize) {
            run(&mut seen, &mut Random(seed.wrapping_mul(1_000_003).wrapping_add(at)));
        }
        seen
    })
}

/// A test in which one of these never came has shown nothing of it.
pub fn must_come<'a>(seen: &Seen, keys: impl IntoIterator<Item = &'a &'a str>) {
    for key in keys {
        assert!(seen.contains_key(*key), "never came: {key}");
    }
}
