//! Do neighbouring dots err alike, more than chance and the fit make them? A plate that isn't flat, or a lens of another kind.
//!
//! The sum of the products of neighbours' errors over the sum of squares is Moran's I for regression residuals; its mean and
//! variance, with the fitted numbers taken into account, are exact for Gaussian noise (Cliff and Ord 1981, chapter 8).

use crate::distribution::student_below;
use crate::influence::{Influence, of_views};
use crate::lean::{ByModel, Lean, Optimum, by_model};
use crate::least_squares::Problem;
use crate::solve::Host;
use crate::views::View;

/// The level: chance alone passes once in five hundred sets of views.
pub const LEVEL: f64 = 0.002;
/// Dots are neighbours up to so many times the distance to the nearest, in the middle of a view: on a square grid eight are.
const NEAR: f64 = 1.5;

/// The sums of the statistic's mean and variance.
struct Sums<const N: usize> {
    products: f64,
    squares: f64,
    /// Of W × W, of H × W, of H × W × W and, of what the poses take, of H × W × H × W, with W the neighbours' matrix and H
    /// the projection onto what is solved for.
    neighbours: f64,
    taken: f64,
    taken_twice: f64,
    both: f64,
    shared: [[f64; N]; N],
}

/// The chance that errors without a cause are so much alike; nothing where no dots are neighbours.
#[must_use]
pub fn chance<const N: usize>(
    views: &[&View],
    influences: &[Influence<N>],
    freedom: usize,
) -> Option<f64> {
    let mut sums = Sums {
        products: 0.0,
        squares: 0.0,
        neighbours: 0.0,
        taken: 0.0,
        taken_twice: 0.0,
        both: 0.0,
        shared: [[0.0; N]; N],
    };
    for (view, influence) in views.iter().zip(influences) {
        sums.add(&neighbours(view), influence);
    }
    let n = freedom as f64;
    let both = sums.both + squares(&sums.shared);
    let (mean, square) = (-sums.taken, sums.neighbours - 2.0 * sums.taken_twice + both);
    let variance = 2.0 * (n * square - mean * mean) / (n * n * (n + 2.0));
    let above = (sums.products / sums.squares - mean / n) / variance.sqrt();
    above.is_finite().then(|| 1.0 - student_below(above, n))
}

impl<const N: usize> Sums<N> {
    fn add(&mut self, pairs: &[[usize; 2]], influence: &Influence<N>) {
        let Influence { errors, own, shared } = influence;
        let (mut near_own, mut near_shared) =
            (vec![[0.0; 6]; errors.len()], vec![[0.0; N]; errors.len()]);
        for (i, j) in
            pairs.iter().flat_map(|[a, b]| [0, 1].map(|axis| (2 * a + axis, 2 * b + axis)))
        {
            self.products += errors[i] * errors[j];
            self.neighbours += 0.5;
            for (to, from) in [(i, j), (j, i)] {
                add_half(&mut near_own[to], &own[from]);
                add_half(&mut near_shared[to], &shared[from]);
            }
        }
        self.squares += errors.iter().map(|error| error * error).sum::<f64>();
        let (by_own, by_shared) = (gram(own, &near_own), gram(shared, &near_shared));
        self.taken += trace(&by_own) + trace(&by_shared);
        self.taken_twice +=
            trace(&gram(&near_own, &near_own)) + trace(&gram(&near_shared, &near_shared));
        self.both += squares(&by_own) + 2.0 * squares(&gram(own, &near_shared));
        for (sum, row) in self.shared.as_flattened_mut().iter_mut().zip(by_shared.as_flattened()) {
            *sum += row;
        }
    }
}

fn add_half<const A: usize>(to: &mut [f64; A], from: &[f64; A]) {
    to.iter_mut().zip(from).for_each(|(to, from)| *to += 0.5 * from);
}

/// Aᵀ × B of two lists of rows.
fn gram<const A: usize, const B: usize>(a: &[[f64; A]], b: &[[f64; B]]) -> [[f64; B]; A] {
    let sum = |i: usize, j: usize| a.iter().zip(b).map(|(a, b)| a[i] * b[j]).sum();
    std::array::from_fn(|i| std::array::from_fn(|j| sum(i, j)))
}

fn trace<const A: usize>(m: &[[f64; A]; A]) -> f64 {
    (0..A).map(|i| m[i][i]).sum()
}

fn squares<const A: usize, const B: usize>(m: &[[f64; B]; A]) -> f64 {
    m.as_flattened().iter().map(|entry| entry * entry).sum()
}

/// The pairs of dots of a view that are neighbours on the plate.
fn neighbours(view: &View) -> Vec<[usize; 2]> {
    let count = view.dots();
    let distance = |i: usize, j: usize| {
        let (a, b) = (view.board[i], view.board[j]);
        (a.x - b.x).hypot(a.y - b.y)
    };
    let nearest = |i: usize| {
        (0..count).filter(|j| *j != i).map(|j| distance(i, j)).fold(f64::INFINITY, f64::min)
    };
    let mut nearest: Vec<f64> = (0..count).map(nearest).collect();
    nearest.sort_by(f64::total_cmp);
    let reach = NEAR * nearest[count / 2];
    let pairs = (0..count).flat_map(|i| (0..i).map(move |j| [i, j]));
    pairs.filter(|&[i, j]| distance(i, j) <= reach).collect()
}

/// The chance for the errors that the model leaves which explains the views.
#[must_use]
pub fn chance_for(host: &Host, lean: &Lean) -> Option<f64> {
    let numbers = host.distinct_numbers();
    by_model(host, lean, &Alike(numbers.iter().map(|view| &host.plate().views[*view]).collect()))
}

struct Alike<'a>(Vec<&'a View>);

impl ByModel for Alike<'_> {
    type Out = Option<f64>;

    fn run<const N: usize>(&self, problem: &Problem, free: [usize; N], at: &Optimum) -> Self::Out {
        chance(&self.0, &of_views(problem, free, &at.fitted)?, at.freedom)
    }
}
