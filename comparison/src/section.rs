//! One section of a plan, run part by part on a few threads.

use crate::tally::Tally;
use std::sync::atomic::{AtomicU64, Ordering};
use std::thread;
use std::time::{Duration, Instant};

/// How often a long section says how far it is.
const PROGRESS: Duration = Duration::from_secs(5);

/// What one part does: its number, and where it counts.
type Part = Box<dyn Fn(u64, &mut Tally) + Sync>;

pub struct Section {
    pub name: &'static str,
    /// What is counted: requests, or calls of the other functions.
    pub unit: &'static str,
    parts: u64,
    part: Part,
}

impl Section {
    pub fn of_requests(
        name: &'static str,
        parts: u64,
        part: impl Fn(u64, &mut Tally) + Sync + 'static,
    ) -> Section {
        Section {
            name,
            unit: "requests",
            parts,
            part: Box::new(part),
        }
    }

    pub fn of_calls(
        name: &'static str,
        parts: u64,
        part: impl Fn(u64, &mut Tally) + Sync + 'static,
    ) -> Section {
        Section {
            unit: "calls",
            ..Section::of_requests(name, parts, part)
        }
    }

    /// Runs all parts. Each thread takes the next part that nobody has taken.
    pub fn run(&self, threads: usize, tally: &Tally) -> Tally {
        let next = AtomicU64::new(0);
        let mut sum = tally.fresh();
        thread::scope(|scope| {
            let work = |thread| self.work(&next, tally.fresh(), thread == 0);
            let workers: Vec<_> = (0..threads)
                .map(|thread| scope.spawn(move || work(thread)))
                .collect();
            for worker in workers {
                sum.add(worker.join().expect("a thread of the comparison panicked"));
            }
        });
        sum
    }

    /// One part alone.
    pub fn run_part(&self, part: u64, tally: &Tally) -> Tally {
        let mut seen = tally.fresh();
        (self.part)(part, &mut seen);
        seen
    }

    fn work(&self, next: &AtomicU64, mut tally: Tally, speaks: bool) -> Tally {
        let mut spoke = Instant::now();
        loop {
            let part = next.fetch_add(1, Ordering::Relaxed);
            if part >= self.parts {
                return tally;
            }
            (self.part)(part, &mut tally);
            if speaks && spoke.elapsed() >= PROGRESS {
                spoke = Instant::now();
                eprintln!("  {}: {} %", self.name, (part + 1) * 100 / self.parts);
            }
        }
    }
}
