//! Many cases on several threads, a chunk at a time.

use std::sync::Mutex;
use std::sync::atomic::{AtomicUsize, Ordering};
use std::thread;
use std::time::{Duration, Instant};

/// How often progress is shown.
const PAUSE: Duration = Duration::from_secs(15);

/// Says on stderr how far it has come, from time to time.
struct Progress {
    name: &'static str,
    cases: usize,
    start: Instant,
    state: Mutex<(usize, Instant)>,
}

impl Progress {
    fn new(name: &'static str, cases: usize) -> Self {
        let start = Instant::now();
        Self { name, cases, start, state: Mutex::new((0, start)) }
    }

    fn add(&self, cases: usize) {
        let mut state = self.state.lock().expect("no thread panics here");
        state.0 += cases;
        if state.1.elapsed() >= PAUSE {
            state.1 = Instant::now();
            let (done, gone) = (state.0, self.start.elapsed().as_secs_f64());
            let left = gone * (self.cases - done) as f64 / done as f64;
            let (name, cases) = (self.name, self.cases);
            eprintln!("{name}: {done} of {cases}, {gone:.0} s gone, about {left:.0} s left");
        }
    }
}

/// Gives each chunk's number and how many cases it has to `work`, on so many threads. The chunks are the same however many there are.
pub fn in_chunks(
    name: &'static str,
    cases: usize,
    chunk: usize,
    threads: usize,
    work: impl Fn(usize, usize) + Sync,
) {
    let (next, progress) = (AtomicUsize::new(0), Progress::new(name, cases));
    let take = || {
        loop {
            let number = next.fetch_add(1, Ordering::Relaxed);
            let done = number * chunk;
            if done >= cases {
                return;
            }
            let size = chunk.min(cases - done);
            work(number, size);
            progress.add(size);
        }
    };
    thread::scope(|scope| (0..threads.max(1)).for_each(|_| drop(scope.spawn(take))));
}

#[cfg(test)]
mod tests {
    use super::*;

    #[test]
    fn every_case_has_its_chunk() {
        for threads in [0, 1, 2, 5] {
            let chunks = Mutex::new(vec![]);
            in_chunks("cases", 23, 10, threads, |number, size| {
                chunks.lock().unwrap().push((number, size));
            });
            let mut chunks = chunks.into_inner().unwrap();
            chunks.sort_unstable();
            assert_eq!(chunks, [(0, 10), (1, 10), (2, 3)]);
        }
    }
}
