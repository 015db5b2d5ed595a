//! A run's record as words, from the library and as the reference model says that it must be.

use book::{Book, Entry, Outcome, Seed as BookSeed, Winner as BookWinner};
use jinnychair::record::{Best, Counts, FlatLine, Progress, Run};
use jinnychair::{Stopped, Winner};
use words::{float_words, word};

/// How many words a line has.
pub const LINE_WORDS: usize = 17;

/// Every number of a record.
pub fn of_run(run: &Run) -> Vec<u64> {
    let (o, p, w) = (run.options, run.place, run.waiting);
    let mut words = vec![o.refine_rounds as u64, o.one_axis.into(), o.min_counted as u64];
    words.extend(float_words(&[o.refine_step, o.max_abs_tilt, run.center.x, run.center.y]));
    words.extend([p.demand as u64, p.round as u64, word(p.step)]);
    words.extend([p.len as u64, p.at as u64, p.number as u64, p.over.into()]);
    words.push(w.is_waiting.into());
    words.extend(float_words(&w.seed.numbers()));
    words.extend(of_best(&run.round_best));
    words.extend(of_best(&run.run_best));
    words.push(run.last.found.into());
    words.extend(of_line(&run.last.line));
    words.extend(of_counts(&run.counts));
    words
}

/// The five counts.
pub fn of_counts(counts: &Counts) -> Vec<u64> {
    let Counts { scored, host_failed, bad_camera, no_mean, no_number } = *counts;
    [scored, host_failed, bad_camera, no_mean, no_number].map(|count| count as u64).to_vec()
}

/// The same as the reference model counts them.
pub fn of_book_counts(counts: &book::Counts) -> Vec<u64> {
    counts.numbers().map(|count| count as u64).to_vec()
}

/// Every number of a line; with zeros for what a skipped candidate doesn't have.
pub fn of_line(line: &FlatLine) -> Vec<u64> {
    let k = line.k;
    let mut words = vec![line.number as u64, line.round as u64];
    words.extend(float_words(&line.seed.numbers()));
    words.push(line.skipped.into());
    words.extend(float_words(&[line.score, line.mean, k.fx, k.fy, k.cx, k.cy, line.p1, line.p2]));
    words
}

/// The same for an entry.
pub fn of_entry(entry: &Entry) -> Vec<u64> {
    let mut words = vec![entry.number as u64, entry.round as u64];
    words.extend(float_words(&entry.seed.numbers()));
    match entry.outcome {
        Outcome::Skipped(reason) => words.extend([u64::from(reason), 0, 0, 0, 0, 0, 0, 0, 0]),
        Outcome::Scored(scored) => {
            words.extend([0, word(scored.score), word(scored.mean)]);
            words.extend(float_words(&scored.camera.k));
            words.extend(float_words(&scored.camera.tangential));
        }
    }
    words
}

fn of_best(best: &Best) -> Vec<u64> {
    [vec![best.found.into()], of_candidate(&best.candidate)].concat()
}

/// Every number of a scored candidate.
pub fn of_candidate(c: &Winner) -> Vec<u64> {
    let (k, d, sensor) = (c.camera.k, c.camera.dist, c.sensor);
    let camera = [k.fx, k.fy, k.cx, k.cy, d.k1, d.k2, d.k3, d.p1, d.p2];
    let others = [sensor.tilt_x, sensor.tilt_y, c.mean_reproj_error, c.score];
    [vec![c.number as u64], float_words(&camera), float_words(&others)].concat()
}

/// A reply of the stop call, with zeros for what it doesn't have.
pub fn of_stopped(stopped: &Stopped) -> Vec<u64> {
    let best = stopped.best.as_ref();
    let best = best.map_or(vec![0; 15], |best| [vec![1], of_candidate(best)].concat());
    let floor = stopped.floor.map_or([0; 2], |floor| [1, word(floor)]);
    [&best[..], &floor, &[stopped.no_gain.into()]].concat()
}

/// The record that a run with this model must have.
pub fn of_book(book: &Book) -> Vec<u64> {
    let inputs = book.inputs();
    let mut words = vec![inputs.rounds as u64, inputs.one_axis.into(), inputs.min_counted as u64];
    words.extend(float_words(&[inputs.refine_step, inputs.max_abs_tilt]));
    words.extend(float_words(&inputs.centre));
    words.extend([inputs.demand() as u64, book.round() as u64, word(inputs.step(book.round()))]);
    words.extend([book.list_len() as u64, book.position() as u64]);
    words.extend([book.entries().len() as u64, book.is_over().into()]);
    words.push(book.waiting().is_some().into());
    words.extend(book.waiting().map_or(vec![0; 6], |seed: BookSeed| float_words(&seed.numbers())));
    words.extend(of_winner(book.round_best()));
    words.extend(of_winner(book.run_best()));
    words.push(u64::from(!book.entries().is_empty()));
    words.extend(book.entries().last().map_or(vec![0; LINE_WORDS], of_entry));
    words.extend(of_book_counts(&book.counts()));
    words
}

/// Zeros where there is no best.
fn of_winner(winner: Option<BookWinner>) -> Vec<u64> {
    winner.map_or(vec![0; 15], |winner| [vec![1], of_book_candidate(&winner)].concat())
}

/// Every number of a candidate that the reference model has scored.
pub fn of_book_candidate(w: &BookWinner) -> Vec<u64> {
    let (c, s) = (w.scored.camera, w.scored);
    let numbers = [&c.k[..], &c.radial, &c.tangential, &w.tilts, &[s.mean, s.score]].concat();
    [vec![w.number as u64], float_words(&numbers)].concat()
}

/// The reference model's reply when it is stopped.
pub fn of_book_stopped(stopped: &book::Stopped) -> Vec<u64> {
    let floor = stopped.floor.map_or([0; 2], |floor| [1, word(floor)]);
    [&of_winner(stopped.best)[..], &floor, &[stopped.no_gain.into()]].concat()
}

/// The five numbers of the progress call.
pub fn of_progress(p: Progress) -> Vec<u64> {
    [p.round, p.rounds, p.answered, p.total, p.answered_in_run].map(|number| number as u64).to_vec()
}

/// The same as the reference model counts them.
pub fn of_book_progress(p: book::Progress) -> Vec<u64> {
    [p.round, p.rounds, p.answered, p.total, p.answered_in_run].map(|number| number as u64).to_vec()
}
