//! What a fit makes of errors: each row's part in the projection onto what is solved for. With it errors can be judged with
//! the fitted numbers taken into account: they are smaller than the noise, and alike where there is little else.

use crate::lean::total;
use crate::least_squares::{Fitted, Problem, Row};
use crate::linear::{factor, solve_factored, solve_lower};

/// A view's errors, and its rows of an orthonormal basis of what is solved for.
#[derive(Clone, Debug)]
pub struct Influence<const N: usize> {
    /// The errors, x and y of each dot in turn.
    pub errors: Vec<f64>,
    /// For each of these what the view's own pose takes of it.
    pub own: Vec<[f64; 6]>,
    /// And what the shared numbers take.
    pub shared: Vec<[f64; N]>,
}

/// That of each view; nothing where the views don't determine what is solved for.
#[must_use]
pub fn of_views<const N: usize>(
    problem: &Problem,
    free: [usize; N],
    at: &Fitted,
) -> Option<Vec<Influence<N>>> {
    let shared = factor(&total(problem, free, at)?.matrix)?;
    let view = |i: usize| {
        let mut rows = vec![];
        problem.rows(free, at, i, |row| rows.push(row))?;
        of_rows(&rows, &shared)
    };
    (0..problem.views.len()).map(view).collect()
}

fn of_rows<const N: usize>(rows: &[Row<N>], shared: &[[f64; N]; N]) -> Option<Influence<N>> {
    let sum = |k: usize, l: usize| rows.iter().map(|row| row.own[k] * row.own[l]).sum::<f64>();
    let own: [[f64; 6]; 6] = std::array::from_fn(|k| std::array::from_fn(|l| sum(k, l)));
    let own = factor(&own)?;
    let mixed: [[f64; 6]; N] = std::array::from_fn(|n| {
        let sum = |k: usize| rows.iter().map(|row| row.own[k] * row.shared[n]).sum::<f64>();
        solve_factored(&own, std::array::from_fn(sum))
    });
    let left = |row: &Row<N>| -> [f64; N] {
        let by_pose = |n: usize| (0..6).map(|k| row.own[k] * mixed[n][k]).sum::<f64>();
        std::array::from_fn(|n| row.shared[n] - by_pose(n))
    };
    Some(Influence {
        errors: rows.iter().map(|row| row.error).collect(),
        own: rows.iter().map(|row| solve_lower(&own, row.own)).collect(),
        shared: rows.iter().map(|row| solve_lower(shared, left(row))).collect(),
    })
}

impl<const N: usize> Influence<N> {
    /// How much smaller the squares would be without a dot.
    #[must_use]
    pub fn gain_without(&self, dot: usize) -> f64 {
        let (i, j) = (2 * dot, 2 * dot + 1);
        let kept = |i: usize, j: usize| {
            let own: f64 = (0..6).map(|k| self.own[i][k] * self.own[j][k]).sum();
            let shared: f64 = (0..N).map(|n| self.shared[i][n] * self.shared[j][n]).sum();
            f64::from(i == j) - own - shared
        };
        let (a, b, d) = (kept(i, i), kept(i, j), kept(j, j));
        let [x, y] = [self.errors[i], self.errors[j]];
        let gain = (d * x * x - 2.0 * b * x * y + a * y * y) / (a * d - b * b);
        if gain.is_finite() { gain.max(0.0) } else { 0.0 }
    }
}
