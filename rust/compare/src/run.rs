//! Many cases on two threads. What is counted does not depend on which thread takes which case.
use crate::case;
use crate::counts::Counts;
use crate::difference::Difference;
use crate::first::First;
use std::sync::atomic::{AtomicBool, AtomicU64, Ordering};
use std::sync::Mutex;
use std::time::{Duration, Instant};

const THREADS: usize = 2;

// A long run says that it goes on.
const SAID_EVERY: u64 = 10_000;

/// When a run ends.
#[derive(Debug, Clone, Copy, PartialEq, Eq)]
pub enum Until {
    Cases(u64),
    Minutes(u64),
}

/// What a run found.
#[derive(Default)]
pub struct Found {
    pub cases: u64,
    pub counts: Counts,
    /// The difference at the lowest case at which one was seen.
    pub difference: Option<(u64, Difference)>,
}

impl Found {
    fn add(&mut self, case: u64, counts: &Counts, difference: Option<Difference>) {
        self.cases += 1;
        self.counts.join(counts);
        if let Some(difference) = difference {
            if self.difference.as_ref().is_none_or(|(other, _)| case < *other) {
                self.difference = Some((case, difference));
            }
        }
    }
}

impl Until {
    fn reached(self, case: u64, start: Instant) -> bool {
        match self {
            Until::Cases(n) => case >= n,
            Until::Minutes(n) => start.elapsed() >= Duration::from_secs(60 * n),
        }
    }
}

/// The cases of a seed from 0 on, until the end or until the first difference.
pub fn run(first: &dyn First, seed: u64, until: Until) -> Found {
    let (next, stop, start) = (AtomicU64::new(0), AtomicBool::new(false), Instant::now());
    let found = Mutex::new(Found::default());
    let work = || loop {
        let case = next.fetch_add(1, Ordering::Relaxed);
        if stop.load(Ordering::Relaxed) || until.reached(case, start) {
            return;
        }
        if case > 0 && case % SAID_EVERY == 0 {
            eprintln!("{case} cases, no difference so far");
        }
        let (counts, difference) = case::compare(first, seed, case);
        if difference.is_some() {
            stop.store(true, Ordering::Relaxed);
        }
        found
            .lock()
            .expect("no thread panics while it adds")
            .add(case, &counts, difference);
    };
    std::thread::scope(|scope| {
        (0..THREADS).for_each(|_| drop(scope.spawn(work)));
    });
    found.into_inner().expect("no thread panics while it adds")
}

/// One case of a seed alone.
pub fn alone(first: &dyn First, seed: u64, case: u64) -> Found {
    let mut found = Found::default();
    let (counts, difference) = case::compare(first, seed, case);
    found.add(case, &counts, difference);
    found
}
