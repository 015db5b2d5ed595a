//! The calls of a run other than Start and Answer, compared with plain Rust over the same record.

use super::Bench;
use super::operation::{Same, called, returned, written};
use super::runs::{LIST_LEN, most_seeds};
use super::scoring::library_camera;
use crate::calls as plain;
use jinnychair::record::{self, Best, Run, answer, next, start};
use jinnychair::{Finding, Handed, Rows};
use random::Random;
use std::fmt::Debug;
use stored::library::library_inputs;

/// The records of a whole run after each answer, and the list as it was at first.
fn records(random: &mut Random) -> (Vec<Run>, Vec<f64>) {
    let inputs = most_seeds();
    let mut list = vec![0.0; LIST_LEN];
    let mut run = start(&library_inputs(&inputs), &mut list).expect("good inputs");
    let (mut records, first_list) = (vec![run], list.clone());
    while let Ok(Handed::Candidate { number, .. }) = next(&mut run, &list) {
        let numbers = [0.0, 0.0, 320.5 + random.unit(), 239.25];
        let rows = Rows { numbers: &numbers, flags: &[1] };
        let solved = Finding::Solved { camera: library_camera(), rows };
        let finding = if number % 9 == 8 { Finding::Failed } else { solved };
        answer(&mut run, &finding, &mut list).expect("a good answer");
        records.push(run);
    }
    (records, first_list)
}

/// Every seed of a list, handed out and then asked for; the record is made ready for it in its place.
fn next_and_seed(bench: &mut Bench, ready: &Run, list: &[f64]) {
    let places: Vec<usize> = (0..ready.place.len).collect();
    let set = |run: &mut Run, at: usize| (run.place.at, run.waiting.is_waiting) = (at, 0);
    let place = || Same((*ready, None, None));
    let sides = [
        written(&places, place(), |at, Same((run, handed, seed))| {
            set(run, *at);
            *handed = record::next(run, list).ok();
            *seed = record::seed(run, list);
        }),
        written(&places, place(), |at, Same((run, handed, seed))| {
            set(run, *at);
            *handed = plain::next(run, list).ok();
            *seed = plain::seed(run, list);
        }),
    ];
    bench.row("Next and the seed call (plain Rust)", sides);
}

/// A call that only reads records.
fn reading<T: Debug>(
    bench: &mut Bench,
    name: &str,
    records: &[Run],
    library: impl Fn(&Run) -> T,
    rust: impl Fn(&Run) -> T,
) {
    let sides =
        [returned(records, |run| Same(library(run))), called(records, |run| Same(rust(run)))];
    bench.row(&format!("{name} (plain Rust)"), sides);
}

/// Winners of stretches, by their records.
fn winners(bench: &mut Bench, records: &[Run]) {
    let pairs: Vec<[Best; 2]> =
        records.windows(2).map(|pair| [pair[0].round_best, pair[1].round_best]).collect();
    let sides = [
        returned(&pairs, |[first, second]| Same(record::winner(*first, *second))),
        called(&pairs, |[first, second]| Same(plain::winner(first, second))),
    ];
    bench.row("the winner of two (plain Rust)", sides);
}

pub fn all(bench: &mut Bench) {
    let (records, list) = records(&mut bench.random);
    let (over, middle) = (&records[656..], &records[200..216]);
    next_and_seed(bench, &records[0], &list);
    reading(bench, "Result", over, record::result, plain::result);
    reading(bench, "progress", middle, record::progress, plain::progress);
    reading(bench, "counts", middle, record::counts, plain::counts);
    reading(bench, "last line", middle, record::last_line, plain::last_line);
    for (left, at) in [(512, 0), (1, 511)] {
        let stop = |run: &Run| record::stop(run, &list);
        let name = format!("stop with {left} left of 512 seeds");
        reading(bench, &name, &records[at..=at], stop, |run| plain::stop(run, &list));
    }
    winners(bench, &records[512..544]);
}
