//! A journal's lines, reports, and journals that are run again; plain Rust stands in the column of the Rust.

use super::Bench;
use super::operation::{Answer, Same, Tried, written};
use super::runs::{LIST_LEN, most_seeds};
use super::scoring::library_camera;
use super::timing::{Side, keep};
use crate::journal as plain;
use crate::walk::{Walk, walk};
use jinnychair::journal::{self, Line, Replayed};
use jinnychair::record::{self, answer, next, start};
use jinnychair::{Counts, Finding, FxFyCxCy, Handed, Rows};
use random::Random;
use std::hint::black_box;
use stored::library::library_inputs;
use words::start::Inputs;

/// A run's 656 lines, one in nine of a skipped candidate, each scored one with a camera of its own.
pub fn run_lines(inputs: &record::Inputs, random: &mut Random) -> Vec<Line> {
    let (mut lines, mut list) = (vec![], vec![0.0; LIST_LEN]);
    let mut run = start(inputs, &mut list).expect("good inputs");
    while let Ok(Handed::Candidate { number, seed }) = next(&mut run, &list) {
        let error = 1.0 + 10.0 * seed.sensor.tilt_x.hypot(seed.sensor.tilt_y - 0.03);
        let mut camera = library_camera();
        let FxFyCxCy { fx, fy, cx, cy } = camera.k;
        let [fx, fy, cx, cy] = [fx, fy, cx, cy].map(|number| number + random.within(9.0));
        camera.k = FxFyCxCy { fx, fy, cx, cy };
        let rows = Rows { numbers: &[0.0, 0.0, cx + error, cy], flags: &[1] };
        let solved = Finding::Solved { camera, rows };
        let finding = if number % 9 == 8 { Finding::Failed } else { solved };
        answer(&mut run, &finding, &mut list).expect("a good answer");
        lines.push(record::last_line(&run).expect("an answered candidate has a line"));
    }
    assert_eq!(run.place.number, 656);
    lines
}

/// The lines as bytes.
pub fn bytes(lines: &[Line]) -> Vec<u8> {
    let (mut text, mut buffer) = (vec![], [0; plain::LINE_LEN]);
    for line in lines {
        let len = journal::write_line(line, &mut buffer).expect("the journal has such a line");
        text.extend_from_slice(&buffer[..len]);
    }
    text
}

/// Gives each line that is read.
fn for_each_line(
    text: &[u8],
    read: impl Fn(&[u8]) -> Option<(Line, usize)>,
    mut taken: impl FnMut(&Line),
) {
    let mut at = 0;
    while let Some((line, len)) = read(&black_box(text)[at..]) {
        taken(&line);
        at += len;
    }
}

/// Reads a journal, by the function by which a walk over one reads.
fn reading<'a>(
    text: &'a [u8],
    count: usize,
    read: impl Fn(&[u8]) -> Option<(Line, usize)> + Copy + 'a,
) -> Tried<'a> {
    let mut lines = vec![];
    for_each_line(text, read, |line| lines.push(*line));
    assert_eq!(lines.len(), count);
    let turn = move || for_each_line(text, read, |line| keep(line));
    Tried::new(&Same(lines), Side::of_many(count, turn))
}

/// Writes and reads a journal.
fn journals(bench: &mut Bench, lines: &[Line]) {
    let place = || Same(([0; plain::LINE_LEN], 0));
    let sides = [
        written(lines, place(), |line, Same((to, len))| {
            *len = journal::write_line(line, to).expect("the journal has such a line");
        }),
        written(lines, place(), |line, Same((to, len))| {
            *len = plain::write_line(line, to).expect("the journal has such a line");
        }),
    ];
    bench.row("writing a line of a journal of 656 (plain Rust)", sides);
    let text = bytes(lines);
    let library = |rest: &[u8]| journal::read_line(rest, 0).ok().flatten();
    let sides =
        [reading(&text, lines.len(), library), reading(&text, lines.len(), plain::read_line)];
    bench.row("reading one (plain Rust)", sides);
}

/// How far a walk over a journal came: its lines, their bytes, and the winner's number and score.
type Reached = Same<(usize, usize, Option<(usize, u64)>)>;

/// The library, which runs a journal again.
fn replayed<'a>(inputs: &'a record::Inputs, journal: &'a [u8]) -> Tried<'a> {
    let mut list = vec![0.0; LIST_LEN];
    let answer = match record::replay(inputs, journal, &mut list) {
        Ok(Replayed::Winner { number, score }) => (number, score.to_bits()),
        other => panic!("a whole journal has a winner: {other:?}"),
    };
    let turn = move || keep(record::replay(inputs, black_box(journal), &mut list));
    Tried::new(&Same(answer), Side::new(turn))
}

/// The book, which does the same.
fn replayed_by_the_book<'a>(inputs: &'a book::Inputs, journal: &'a [u8]) -> Tried<'a> {
    let mut list = vec![0.0; LIST_LEN];
    let answer = match book::replay(inputs.clone(), journal, &mut list) {
        book::Replayed::Winner(number, score) => (number, score.to_bits()),
        other => panic!("a whole journal has a winner: {other:?}"),
    };
    let turn = move || keep(book::replay(inputs.clone(), black_box(journal), &mut list));
    Tried::new(&Same(answer), Side::new(turn))
}

/// Plain Rust, which runs a journal again and knows how far it came.
fn walked<'a, A: Answer>(
    inputs: &'a book::Inputs,
    journal: &'a [u8],
    read: impl Fn(&[u8]) -> Option<(Line, usize)> + Copy + 'a,
    answer: impl Fn(&Walk) -> A,
) -> Tried<'a> {
    let mut list = vec![0.0; LIST_LEN];
    let answer = answer(&walk(inputs, journal, &mut list, read).expect("good inputs"));
    let turn = move || keep(walk(inputs, black_box(journal), &mut list, read));
    Tried::new(&answer, Side::new(turn))
}

/// The library, which goes on from a journal.
fn resumed<'a>(inputs: &'a record::Inputs, journal: &'a [u8]) -> Tried<'a> {
    let mut list = vec![0.0; LIST_LEN];
    let (run, resumed) = record::resume(inputs, journal, &mut list).expect("good inputs");
    let best = record::result(&run).ok().map(|winner| (winner.number, winner.score.to_bits()));
    let answer: Reached = Same((resumed.lines, resumed.kept, best));
    let turn = move || keep(record::resume(inputs, black_box(journal), &mut list));
    Tried::new(&answer, Side::new(turn))
}

/// Runs a journal again and goes on from it, compared with plain Rust that reads in the same way.
fn beside_rust(
    bench: &mut Bench,
    (for_library, for_book, journal): (&record::Inputs, &book::Inputs, &[u8]),
    rust: &str,
    read: impl Fn(&[u8]) -> Option<(Line, usize)> + Copy,
) {
    let winner = |walk: &Walk| Same(best_of(walk).expect("a winner"));
    let sides = [replayed(for_library, journal), walked(for_book, journal, read, winner)];
    bench.row(&format!("running a journal of 656 lines again ({rust})"), sides);
    let reached = |walk: &Walk| -> Reached { Same((walk.lines, walk.bytes, best_of(walk))) };
    let sides = [resumed(for_library, journal), walked(for_book, journal, read, reached)];
    bench.row(&format!("going on from it ({rust})"), sides);
}

fn best_of(walk: &Walk) -> Option<(usize, u64)> {
    walk.run_best.map(|best| (best.number, best.score.to_bits()))
}

/// Runs a journal again and goes on from it, compared with plain Rust and with the reference model.
fn replays(bench: &mut Bench, inputs: &Inputs, journal: &[u8]) {
    let (for_library, for_book) = (library_inputs(inputs), book_inputs(inputs));
    let run = (&for_library, &for_book, journal);
    beside_rust(bench, run, "plain Rust of the same steps", plain::read_and_write_line);
    beside_rust(bench, run, "plain Rust, each line read once", plain::read_line);
    let sides = [replayed(&for_library, journal), replayed_by_the_book(&for_book, journal)];
    bench.row("running it again (the book)", sides);
}

/// Writes the morning report.
fn reports(bench: &mut Bench) {
    let all = [[530, 60, 40, 20, 6]];
    let place = || Same([0; 24]);
    let sides = [
        written(&all, place(), |counts, Same(to)| {
            let [scored, host_failed, bad_camera, no_mean, no_number] = *counts;
            let counts = Counts { scored, host_failed, bad_camera, no_mean, no_number };
            keep(journal::write_report(&counts, to));
        }),
        written(&all, place(), |counts, Same(to)| keep(plain::write_report(counts, to))),
    ];
    bench.row("writing a report (plain Rust)", sides);
}

fn book_inputs(inputs: &Inputs) -> book::Inputs {
    book::Inputs {
        views: inputs.views,
        tilt_x_seeds: inputs.tilt_x_seeds.clone(),
        tilt_y_seeds: inputs.tilt_y_seeds.clone(),
        rounds: inputs.rounds,
        refine_step: inputs.refine_step,
        max_abs_tilt: inputs.max_abs_tilt,
        one_axis: false,
        min_counted: 0,
        decomposition: inputs.decomposition.clone(),
        base: inputs.base,
        centre: inputs.center,
    }
}

pub fn all(bench: &mut Bench) {
    let inputs = most_seeds();
    let lines = run_lines(&library_inputs(&inputs), &mut bench.random);
    journals(bench, &lines);
    reports(bench);
    replays(bench, &inputs, &bytes(&lines));
}
