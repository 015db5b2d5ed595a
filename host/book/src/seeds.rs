//! Seeds, Start's inputs and refusals, and the lists of seeds that a round tries.

/// A camera and two tilts to start from.
#[derive(Clone, Copy, Debug, PartialEq)]
pub struct Seed {
    /// fx, fy, cx, cy in pixels.
    pub k: [f64; 4],
    /// Tilt about x, then y, in radians.
    pub tilts: [f64; 2],
}

impl Seed {
    /// The seed's six numbers, in the order of a lent list.
    pub fn numbers(&self) -> [f64; 6] {
        let ([fx, fy, cx, cy], [x, y]) = (self.k, self.tilts);
        [fx, fy, cx, cy, x, y]
    }

    /// The seed that six numbers of a lent list stand for.
    pub fn from_numbers(numbers: &[f64]) -> Self {
        let [fx, fy, cx, cy, x, y] = numbers.try_into().expect("six numbers a seed");
        Self { k: [fx, fy, cx, cy], tilts: [x, y] }
    }

    fn is_near(&self, other: &Self) -> bool {
        are_tilts_near(self.tilts, other.tilts)
            && self.k.iter().zip(other.k).all(|(a, b)| (a - b).abs() < 1e-9)
    }
}

fn are_tilts_near(a: [f64; 2], b: [f64; 2]) -> bool {
    a.iter().zip(b).all(|(a, b)| (a - b).abs() < 1e-12)
}

/// Adds an element unless a kept one is near it.
fn push<T>(kept: &mut Vec<T>, new: T, is_near: impl Fn(&T, &T) -> bool) {
    if !kept.iter().any(|old| is_near(old, &new)) {
        kept.push(new);
    }
}

/// What Start takes.
#[derive(Clone, Debug)]
pub struct Inputs {
    /// How many views of the plate there are.
    pub views: usize,
    /// The tilts about x of the grid, in radians.
    pub tilt_x_seeds: Vec<f64>,
    /// The tilts about y of the grid, in radians.
    pub tilt_y_seeds: Vec<f64>,
    /// How many rounds follow round 0.
    pub rounds: usize,
    /// The step of round 1's list; each later one has half the step of the one before.
    pub refine_step: f64,
    /// The bound on either tilt.
    pub max_abs_tilt: f64,
    /// Whether the tilt about y is fixed at 0.
    pub one_axis: bool,
    /// How many per cent of its rows must be counted for a candidate to be scored.
    pub min_counted: usize,
    /// The host's decomposition seeds, six numbers each.
    pub decomposition: Vec<f64>,
    /// The camera of the grid's seeds.
    pub base: [f64; 4],
    /// The observed centre.
    pub centre: [f64; 2],
}

impl Inputs {
    /// How many numbers the lent list must have.
    pub fn demand(&self) -> usize {
        let possible =
            self.decomposition.len() / 6 + self.tilt_x_seeds.len() * self.tilt_y_seeds.len();
        (6 * possible).max(54)
    }

    /// The number with which Start refuses, if it does.
    pub fn refusal(&self, list_len: usize) -> Option<u8> {
        let is_positive = |x: f64| x.is_finite() && x > 0.0;
        let grids = [&self.tilt_x_seeds, &self.tilt_y_seeds];
        let decomposition = &self.decomposition;
        let is_beyond_limits = || {
            grids.iter().any(|grid| grid.len() > 16)
                || decomposition.len() > 6 * 256
                || self.rounds > 16
                || !decomposition.len().is_multiple_of(6)
        };
        let is_bad_seed = |seed: &Seed| {
            seed.numbers().iter().any(|number| !number.is_finite())
                || !(seed.k[0] > 0.0 && seed.k[1] > 0.0)
                || !self.is_within_bound(seed.tilts)
        };
        let refusals: [(u8, &dyn Fn() -> bool); 12] = [
            (1, &|| self.views < 3),
            (2, &|| grids.iter().any(|grid| grid.is_empty())),
            (3, &|| !is_positive(self.max_abs_tilt)),
            (4, &|| self.rounds > 0 && !is_positive(self.refine_step)),
            (5, &is_beyond_limits),
            (6, &|| self.decomposition_seeds().any(|seed| is_bad_seed(&seed))),
            (7, &|| grids.iter().any(|grid| grid.iter().any(|tilt| !tilt.is_finite()))),
            (8, &|| list_len < self.demand()),
            (27, &|| self.max_abs_tilt > 0.5),
            // A zero of either sign equals 0.
            (31, &|| self.one_axis && self.tilt_y_seeds != [0.0]),
            (32, &|| self.one_axis && self.decomposition_seeds().any(|seed| seed.tilts[1] != 0.0)),
            (33, &|| self.min_counted > 100),
        ];
        refusals.iter().find(|(_, holds)| holds()).map(|(number, _)| *number)
    }

    fn decomposition_seeds(&self) -> impl Iterator<Item = Seed> {
        self.decomposition.chunks_exact(6).map(Seed::from_numbers)
    }

    fn is_within_bound(&self, tilts: [f64; 2]) -> bool {
        tilts.iter().all(|tilt| tilt.abs() <= self.max_abs_tilt)
    }

    /// Round 0's list: the decomposition seeds, then the grid with the base camera. The grid is
    /// merged by its tilts alone before the whole list is merged.
    pub fn first_list(&self) -> Vec<Seed> {
        let mut grid = Vec::new();
        for &x in &self.tilt_x_seeds {
            for &y in &self.tilt_y_seeds {
                if self.is_within_bound([x, y]) {
                    push(&mut grid, [x, y], |a, b| are_tilts_near(*a, *b));
                }
            }
        }
        let from_grid = grid.into_iter().map(|tilts| Seed { k: self.base, tilts });
        let mut list = Vec::new();
        for seed in self.decomposition_seeds().chain(from_grid) {
            push(&mut list, seed, Seed::is_near);
        }
        list
    }

    /// What is added to the tilt about x, and to that about y, for the list of the given round.
    fn offsets(&self, round: usize) -> [Vec<f64>; 2] {
        let s = self.step(round);
        let both_ways = vec![-s, 0.0, s];
        [both_ways.clone(), if self.one_axis { vec![0.0] } else { both_ways }]
    }

    /// The list of the given round, at least 1, around the best one's tilts with its camera.
    pub fn next_list(&self, round: usize, k: [f64; 4], around: [f64; 2]) -> Vec<Seed> {
        let [x_offsets, y_offsets] = self.offsets(round);
        let mut list = Vec::new();
        for dx in x_offsets {
            for &dy in &y_offsets {
                let tilts = [around[0] + dx, around[1] + dy];
                if self.is_within_bound(tilts) {
                    push(&mut list, Seed { k, tilts }, Seed::is_near);
                }
            }
        }
        list
    }

    /// How many seeds the list of the given round, at least 1, has, counted without the list where docs/SPECIFICATION.md, 4.9,
    /// gives a product: with a step from 1e-11 to 1 the admissible tilts about x times those about y, else by the merging rule.
    pub(crate) fn next_len(&self, round: usize, k: [f64; 4], around: [f64; 2]) -> usize {
        if !(1e-11..=1.0).contains(&self.step(round)) {
            return self.next_list(round, k, around).len();
        }
        let [x_offsets, y_offsets] = self.offsets(round);
        let admissible = |centre: f64, offsets: Vec<f64>| {
            offsets.iter().filter(|offset| (centre + *offset).abs() <= self.max_abs_tilt).count()
        };
        admissible(around[0], x_offsets) * admissible(around[1], y_offsets)
    }

    /// The step that the given round's list is made with; 0 in round 0, which has none.
    pub fn step(&self, round: usize) -> f64 {
        if round == 0 { 0.0 } else { (1..round).fold(self.refine_step, |s, _| s * 0.5) }
    }
}
