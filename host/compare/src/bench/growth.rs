//! How the library's times grow with their work: an answer with its rows, Start with its seeds, a journal with its lines.

use super::journal::{bytes, run_lines};
use super::runs::LIST_LEN;
use super::scoring::{flat, library_camera, row_list};
use super::timing::{Side, keep, medians};
use jinnychair::journal::{self, Line};
use jinnychair::record::{self, Inputs, Options, answer, next, start};
use jinnychair::{Finding, FxFyCxCy, Pt2, Rows};
use random::Random;
use std::hint::black_box;

/// Median nanoseconds of a turn.
fn time(turn: impl FnMut()) -> f64 {
    medians(2e8, [Side::new(turn)])[0]
}

/// A table of times by size, each also compared with the row above, and for one unit of its work.
fn table(
    [what, size, unit]: [&str; 3],
    sizes: &[usize],
    work: impl Fn(usize) -> usize,
    mut of: impl FnMut(usize) -> f64,
) {
    println!("| {what}: {size} | µs | beside the row above | ns a {unit} |\n|---|---|---|---|");
    let mut last: Option<f64> = None;
    for &size in sizes {
        let ns = of(size);
        let beside = last.map_or(String::new(), |last| format!("{:.2}", ns / last));
        println!("| {size} | {:.2} | {beside} | {:.1} |", ns / 1e3, ns / work(size) as f64);
        last = Some(ns);
    }
    println!();
}

/// All tables.
pub fn all(random: &mut Random) {
    answers(random);
    starts();
    let seeds = Seeds::new(512);
    let lines = run_lines(&seeds.inputs(), random);
    journals(&lines);
    replays(&seeds, &bytes(&lines));
}

const CAMERA: FxFyCxCy = FxFyCxCy { fx: 800.0, fy: 790.0, cx: 320.5, cy: 239.25 };

/// A search with so many seeds in round 0's list, none near another: one decomposition seed for each up to 256, the rest typed.
struct Seeds {
    tilt_x: Vec<f64>,
    tilt_y: Vec<f64>,
    decomposition: Vec<f64>,
}

impl Seeds {
    fn new(count: usize) -> Self {
        let tilts = |count: usize| (0..count).map(|i| 0.015625 * i as f64 - 0.125).collect();
        // A row of typed tilts, or as many rows of sixteen as are needed.
        let typed = (count.div_ceil(2)).min(256);
        let (x, y) = if typed <= 16 { (typed, 1) } else { (16, typed / 16) };
        let seed = |i: usize| {
            let (column, row) = ((i % 16) as f64, (i / 16) as f64);
            [750.0 + column, 800.0, 320.0, 240.0, 0.0078125 * row, 0.0625]
        };
        let decomposition = (0..count - x * y).flat_map(seed).collect();
        Self { tilt_x: tilts(x), tilt_y: tilts(y), decomposition }
    }

    /// How often Start compares two seeds: decomposition seeds among themselves, typed ones by tilt, and then with the former.
    fn comparisons(&self) -> usize {
        let pairs = |n: usize| n * n.saturating_sub(1) / 2;
        let (of, typed) = (self.decomposition.len() / 6, self.tilt_x.len() * self.tilt_y.len());
        1 + pairs(of) + pairs(typed) + of * typed
    }

    fn inputs(&self) -> Inputs<'_> {
        let (refine_rounds, refine_step, max_abs_tilt) = (16, 0.0625, 0.25);
        Inputs {
            views: 3,
            options: Options {
                refine_rounds,
                refine_step,
                max_abs_tilt,
                one_axis: 0,
                min_counted: 0,
            },
            tilt_x_seeds: &self.tilt_x,
            tilt_y_seeds: &self.tilt_y,
            decomposition: &self.decomposition,
            base: CAMERA,
            center: Pt2 { x: 320.0, y: 240.0 },
        }
    }
}

/// One Answer, which enters a scored candidate and ends no round.
fn answers(random: &mut Random) {
    let rows = row_list(1024, random);
    let seeds = Seeds::new(512);
    let mut list = vec![0.0; LIST_LEN];
    let mut waiting = start(&seeds.inputs(), &mut list).expect("good inputs");
    let _ = next(&mut waiting, &list).expect("a seed");
    let sizes: Vec<usize> = (0..=10).map(|power| 1 << power).collect();
    let words = ["an answer", "rows", "row"];
    table(
        words,
        &sizes,
        |count| count,
        |count| {
            let (numbers, flags) = flat(&rows[..count]);
            let finding = Finding::Solved {
                camera: library_camera(),
                rows: Rows { numbers: &numbers, flags: &flags },
            };
            time(|| {
                let mut run = black_box(waiting);
                keep(answer(&mut run, &finding, &mut list));
            })
        },
    );
}

fn starts() {
    let sizes: Vec<usize> = (0..=9).map(|power| 1 << power).collect();
    let mut list = vec![0.0; LIST_LEN];
    let words = ["Start", "seeds", "comparison"];
    table(
        words,
        &sizes,
        |count| Seeds::new(count).comparisons(),
        |count| {
            let seeds = Seeds::new(count);
            let run = start(&seeds.inputs(), &mut list).expect("good inputs");
            assert_eq!(run.place.len, count);
            time(|| keep(start(black_box(&seeds.inputs()), &mut list)))
        },
    );
}

/// A journal's lines, each written and each read; and the refusal of what follows them, which counts the newlines before.
fn journals(all: &[Line]) {
    let sizes = [1, 2, 4, 8, 16, 32, 64, 128, 256, 512, 656];
    let bytes = |count: usize| bytes(&all[..count]);
    let words = |what| [what, "lines", "line"];
    table(words("writing a journal"), &sizes, |count| count, |count| time(|| keep(bytes(count))));
    table(
        words("reading a journal"),
        &sizes,
        |count| count,
        |count| {
            let text = bytes(count);
            time(|| {
                let mut at = 0;
                while let Ok(Some((line, next))) = journal::read_line(black_box(&text), at) {
                    keep(line);
                    at = next;
                }
            })
        },
    );
    table(
        words("refusing what stands behind a journal"),
        &sizes,
        |count| count,
        |count| {
            let text = [bytes(count), b"x\n".to_vec()].concat();
            time(|| keep(journal::read_line(black_box(&text), text.len() - 2)))
        },
    );
}

/// A run's journal of so many lines run again, and gone on from.
fn replays(seeds: &Seeds, text: &[u8]) {
    let mut ends = vec![0];
    ends.extend((0..text.len()).filter(|at| text[*at] == b'\n').map(|at| at + 1));
    let sizes = [1, 2, 4, 8, 16, 32, 64, 128, 256, 512, 656];
    let mut list = vec![0.0; LIST_LEN];
    let words = |what| [what, "lines", "line"];
    let alone = time(|| keep(start(black_box(&seeds.inputs()), &mut list)));
    println!("Start alone, of 512 seeds: {:.1} µs\n", alone / 1e3);
    table(
        words("running a journal again"),
        &sizes,
        |count| count,
        |count| {
            let front = &text[..ends[count]];
            time(|| keep(record::replay(&seeds.inputs(), black_box(front), &mut list)))
        },
    );
    table(
        ["going on from a journal", "bytes", "byte"],
        &ends_of(&sizes, &ends),
        |bytes| bytes,
        |bytes| {
            time(|| keep(record::resume(&seeds.inputs(), black_box(&text[..bytes]), &mut list)))
        },
    );
}

fn ends_of(sizes: &[usize], ends: &[usize]) -> Vec<usize> {
    sizes.iter().map(|count| ends[*count]).collect()
}
