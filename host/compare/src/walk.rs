//! A journal run again in plain Rust, as one would write it: the benchmark sets the library beside it. The lists stand in lent memory,
//! six numbers a seed, as the library's do.

use book::Inputs;
use jinnychair::journal::{Line, Recorded, ScoredFields};

/// Seeds in lent memory, none near another.
#[derive(Debug)]
struct List<'a> {
    numbers: &'a mut [f64],
    len: usize,
}

fn are_near(a: &[f64], b: &[f64], limit: f64) -> bool {
    a.iter().zip(b).all(|(a, b)| (a - b).abs() < limit)
}

impl List<'_> {
    fn seed(&self, at: usize) -> Option<&[f64]> {
        self.numbers[..6 * self.len].chunks_exact(6).nth(at)
    }

    /// Adds a seed unless a kept one is near it.
    fn push(&mut self, seed: [f64; 6]) {
        let (kept, rest) = self.numbers.split_at_mut(6 * self.len);
        let is_near = |old: &[f64]| {
            are_near(&old[4..], &seed[4..], 1e-12) && are_near(&old[..4], &seed[..4], 1e-9)
        };
        if !kept.chunks_exact(6).any(is_near) {
            rest[..6].copy_from_slice(&seed);
            self.len += 1;
        }
    }

    /// Round 0's: the decomposition seeds, then the grid, which is merged by its tilts alone before.
    fn first(&mut self, inputs: &Inputs) {
        for seed in inputs.decomposition.chunks_exact(6) {
            self.push(seed.try_into().expect("six numbers a seed"));
        }
        let (mut grid, mut len) = ([[0.0; 2]; 256], 0);
        for &x in &inputs.tilt_x_seeds {
            for &y in &inputs.tilt_y_seeds {
                let is_near = |old: &[f64; 2]| are_near(old, &[x, y], 1e-12);
                if is_within(inputs, [x, y]) && !grid[..len].iter().any(is_near) {
                    grid[len] = [x, y];
                    len += 1;
                }
            }
        }
        let [fx, fy, cx, cy] = inputs.base;
        grid[..len].iter().for_each(|[x, y]| self.push([fx, fy, cx, cy, *x, *y]));
    }

    /// A later round's, around the best one's tilts with its camera.
    fn next(&mut self, inputs: &Inputs, round: usize, best: &Best) {
        self.len = 0;
        let ([fx, fy, cx, cy], step) = (best.k, inputs.step(round));
        let both_ways = [-step, 0.0, step];
        for dx in both_ways {
            for &dy in if inputs.one_axis { &both_ways[1..2] } else { &both_ways[..] } {
                let [x, y] = [best.tilts[0] + dx, best.tilts[1] + dy];
                if is_within(inputs, [x, y]) {
                    self.push([fx, fy, cx, cy, x, y]);
                }
            }
        }
    }
}

fn is_within(inputs: &Inputs, tilts: [f64; 2]) -> bool {
    tilts.iter().all(|tilt| tilt.abs() <= inputs.max_abs_tilt)
}

/// The best of a round or run: its number, score, camera and tilts.
#[derive(Clone, Copy, Debug)]
pub struct Best {
    /// The candidate's number.
    pub number: usize,
    /// Its score.
    pub score: f64,
    k: [f64; 4],
    tilts: [f64; 2],
}

/// A run that lines are entered into.
#[derive(Debug)]
pub struct Walk<'a> {
    inputs: &'a Inputs,
    list: List<'a>,
    at: usize,
    round: usize,
    is_over: bool,
    round_best: Option<Best>,
    /// The best so far.
    pub run_best: Option<Best>,
    /// How many lines were taken.
    pub lines: usize,
    /// How many bytes they have.
    pub bytes: usize,
    /// Scored ones, and skipped ones by their reason.
    pub counts: [usize; 5],
}

fn same(a: f64, b: f64) -> bool {
    a.to_bits() == b.to_bits() || (a.is_nan() && b.is_nan())
}

fn penalised(fields: &ScoredFields, tilts: [f64; 2], [x, y]: [f64; 2]) -> f64 {
    let ScoredFields { mean_reproj_error: mean, k, p1, p2, .. } = *fields;
    let (dx, dy) = ((k.cx - x) / k.fx.max(1.0), (k.cy - y) / k.fy.max(1.0));
    let tilt = 0.25 * (tilts[0] * tilts[0] + tilts[1] * tilts[1]);
    mean + 0.25 * (p1 * p1 + p2 * p2) + tilt + 0.0 * (dx * dx + dy * dy)
}

impl<'a> Walk<'a> {
    fn start(inputs: &'a Inputs, list: &'a mut [f64]) -> Option<Self> {
        if inputs.refusal(list.len()).is_some() {
            return None;
        }
        let mut list = List { numbers: list, len: 0 };
        list.first(inputs);
        let is_over = list.len == 0;
        Some(Self {
            inputs,
            list,
            at: 0,
            round: 0,
            is_over,
            round_best: None,
            run_best: None,
            lines: 0,
            bytes: 0,
            counts: [0; 5],
        })
    }

    fn is_next(&self, line: &Line) -> bool {
        let Some(seed) = self.list.seed(self.at).filter(|_| !self.is_over) else { return false };
        let mut pairs = seed.iter().zip(line.seed.numbers());
        line.number == self.lines && line.round == self.round && pairs.all(|(a, b)| same(*a, b))
    }

    fn best_of(&self, line: &Line) -> Option<Option<Best>> {
        let Recorded::Scored(fields) = &line.outcome else { return Some(None) };
        let ScoredFields { score, mean_reproj_error: mean, k, p1, p2 } = *fields;
        let numbers = [k.fx, k.fy, k.cx, k.cy, p1, p2, mean];
        let is_good = numbers.iter().all(|number| number.is_finite())
            && k.fx > 0.0
            && k.fy > 0.0
            && p1.abs() <= 0.05
            && p2.abs() <= 0.05
            && mean >= 0.0;
        let tilts = [line.seed.sensor.tilt_x, line.seed.sensor.tilt_y];
        let is_scored = is_good && same(score, penalised(fields, tilts, self.inputs.centre));
        let k = [k.fx, k.fy, k.cx, k.cy];
        is_scored.then_some(Some(Best { number: line.number, score, k, tilts }))
    }

    fn enter(&mut self, line: &Line, new: Option<Best>) {
        let better = |old: Option<Best>| match (old, new) {
            (Some(old), Some(new)) if new.score < old.score => Some(new),
            (old, new) => old.or(new),
        };
        (self.round_best, self.run_best) = (better(self.round_best), better(self.run_best));
        let kind = match line.outcome {
            Recorded::Scored(_) => 0,
            Recorded::Skipped(reason) => usize::from(reason.number()),
        };
        self.counts[kind] += 1;
        self.lines += 1;
        self.at += 1;
        while !self.is_over && self.at == self.list.len {
            self.end_round();
        }
    }

    fn end_round(&mut self) {
        let Some(best) = self.round_best.or(self.run_best) else {
            self.is_over = true;
            return;
        };
        if self.round == self.inputs.rounds {
            self.is_over = true;
            return;
        }
        (self.round, self.at, self.round_best) = (self.round + 1, 0, None);
        self.list.next(self.inputs, self.round, &best);
    }
}

/// Takes lines, which `read` finds at the front of bytes, as long as they are the run's; nothing where Start refuses.
pub fn walk<'a>(
    inputs: &'a Inputs,
    journal: &[u8],
    list: &'a mut [f64],
    read: impl Fn(&[u8]) -> Option<(Line, usize)>,
) -> Option<Walk<'a>> {
    let mut walk = Walk::start(inputs, list)?;
    while let Some((line, len)) = read(&journal[walk.bytes..]) {
        let Some(best) = walk.is_next(&line).then(|| walk.best_of(&line)).flatten() else { break };
        walk.enter(&line, best);
        walk.bytes += len;
    }
    Some(walk)
}
