//! Has a module moved? The difference of two leans that hold the same centre, with a ± of its own: an error of the centre moves
//! both alike, and so does a lens, which is the same in both.

use crate::again;
use crate::angle::degrees;
use crate::case::{Case, Judged};
use crate::distribution::{COVERED, bound};
use crate::drive::as_it_stands;
use crate::lean::{Lean, Lens, Optimum, total, unknown_lens};
use crate::least_squares::{ALL, Equations, Prior};
use crate::linear::{factor, solve_factored};
use crate::solve::Host;
use crate::walk::Walked;

/// Both runs' focal lengths and tilts, and the lens that they share.
const NUMBERS: usize = 12;

/// A journal's search, judged by its views.
pub struct Told {
    case: Case,
    judged: Judged,
}

impl Told {
    /// From a journal that was run again, and its views.
    ///
    /// # Errors
    ///
    /// Says what is missing, or that the journal isn't the run's.
    pub fn new(walked: &Walked) -> Result<Self, String> {
        let path = walked.path.as_path();
        let (Some(inputs), Some(search), true) =
            (&walked.inputs, &walked.search, walked.is_the_runs())
        else {
            return Err(format!("{}: {}", path.display(), walked.found()));
        };
        let plate = again::plate(inputs, path, None)?;
        let case = Case::of_inputs(inputs, plate, None)?;
        let finished = as_it_stands(search, case.tried(&walked.journal.lines));
        let winner =
            finished.winner.map_err(|error| format!("{}: no winner: {error}", path.display()))?;
        let judged = case.judge(&finished, &winner)?;
        Ok(Self { case, judged })
    }

    /// How many points speak against the result.
    #[must_use]
    pub fn points(&self) -> usize {
        self.judged.against.len()
    }
}

/// How far a lean lies from an earlier one.
#[derive(Clone, Copy, Debug, PartialEq)]
pub struct Drift {
    /// Both leans.
    pub leans: [[f64; 2]; 2],
    /// By how much the second is larger, in radians.
    pub by: [f64; 2],
    /// How far the true difference may lie from that.
    pub within: [f64; 2],
}

/// The difference of two leans.
///
/// # Errors
///
/// Says why there is none.
pub fn drift(first: &Told, second: &Told) -> Result<Drift, String> {
    let both = [first, second];
    let hosts = both.map(|told| told.case.host());
    let [a, b] = hosts.map(Host::held_centre);
    if both.iter().any(|told| told.case.is_guessed()) {
        return Err("a centre is guessed".into());
    }
    if a != b {
        let [[a_x, a_y], [b_x, b_y]] = [a, b];
        return Err(format!(
            "{a_x} {a_y} and {b_x} {b_y} are held for the centre, and it must be one"
        ));
    }
    let none = || "the views determine no lean".to_owned();
    let leans = both.map(|told| told.judged.lean.as_ref());
    let [Some(a), Some(b)] = leans else { return Err(none()) };
    let within = [both[0], both[1]].map(|told| told.judged.open.centre_within);
    let centre = within.into_iter().flatten().fold(0.0, f64::max);
    let of_leans = [a.tilts(), b.tilts()];
    let by = [0, 1].map(|i| of_leans[1][i] - of_leans[0][i]);
    let noise = noise(by, [(hosts[0], a), (hosts[1], b)]).ok_or_else(none)?;
    let by_centre = [0, 1].map(|i| {
        let [x, y] = [0, 1].map(|axis| b.plain.by_centre[i][axis] - a.plain.by_centre[i][axis]);
        centre * x.hypot(y)
    });
    Ok(Drift { leans: of_leans, by, within: [0, 1].map(|i| noise[i] + by_centre[i]) })
}

/// What noise and the lens leave open of a difference.
fn noise(by: [f64; 2], [(host_a, a), (host_b, b)]: [(&Host, &Lean); 2]) -> Option<[f64; 2]> {
    let freedom = a.plain.freedom.min(b.plain.freedom);
    let variance = |i: usize| Some(a.plain.covariance?[i][i] + b.plain.covariance?[i][i]);
    let plain = [0, 1].map(|i| Some(bound(0.0, variance(i)?.sqrt(), freedom, COVERED)));
    let [Some(x), Some(y)] = plain else { return None };
    if a.lens == Lens::Exact && b.lens == Lens::Exact {
        return Some([x, y]);
    }
    let sides = [(host_a, a, a.open.as_ref()?), (host_b, b, b.open.as_ref()?)];
    let (joint, deviations) = with_one_lens(sides)?;
    let open = [0, 1].map(|i| bound(by[i] - joint[i], deviations[i], freedom, COVERED));
    Some([x.max(open[0]), y.max(open[1])])
}

/// The difference of the tilts where both runs have one lens, and its deviations.
fn with_one_lens(sides: [(&Host, &Lean, &Optimum); 2]) -> Option<([f64; 2], [f64; 2])> {
    let mut matrix = [[0.0; NUMBERS]; NUMBERS];
    let mut right = [0.0; NUMBERS];
    for (side, (host, _, open)) in sides.iter().enumerate() {
        let views = host.distinct();
        let problem = host.problem(&views, Prior::default());
        let Equations { matrix: said, slope, .. } = total(&problem, ALL, &open.fitted)?;
        let place = |n: usize| if n < 4 { 4 * side + n } else { 4 + n };
        for n in 0..ALL.len() {
            let along: f64 = (0..ALL.len()).map(|m| said[n][m] * open.fitted.shared[m]).sum();
            right[place(n)] += (along - slope[n]) / open.variance;
            for m in 0..ALL.len() {
                matrix[place(n)][place(m)] += said[n][m] / open.variance;
            }
        }
    }
    let (host, lean, _) = sides[0];
    for (n, (mean, most)) in unknown_lens(host, lean.lens).into_iter().enumerate() {
        matrix[8 + n][8 + n] += 1.0 / (most * most);
        right[8 + n] += mean / (most * most);
    }
    let l = factor(&matrix)?;
    let found = solve_factored(&l, right);
    let difference = |i: usize| {
        let mut difference = [0.0; NUMBERS];
        (difference[2 + i], difference[6 + i]) = (-1.0, 1.0);
        let column = solve_factored(&l, difference);
        (column[6 + i] - column[2 + i]).sqrt()
    };
    Some(([found[6] - found[2], found[7] - found[3]], [difference(0), difference(1)]))
}

/// The difference in words.
#[must_use]
pub fn text(drift: &Drift) -> String {
    let both = |[x, y]: [f64; 2]| format!("{:+.4}° x, {:+.4}° y", x.to_degrees(), y.to_degrees());
    let moved = ["x", "y"].iter().zip(0..2).filter(|(_, i)| drift.by[*i].abs() > drift.within[*i]);
    let moved: Vec<_> = moved.map(|(axis, _)| format!("tilt {axis}")).collect();
    let verdict = if moved.is_empty() {
        "no more than noise explains".into()
    } else {
        let have = if moved.len() == 1 { "has" } else { "have" };
        format!("{} {have} moved, by more than noise explains", moved.join(" and "))
    };
    let [a, b] = drift.leans;
    let [x, y] = [0, 1]
        .map(|i| format!("{:+.4}° ± {}°", drift.by[i].to_degrees(), degrees(drift.within[i])));
    format!(
        "leans           {} and {}\ndrift           {x} x, {y} y: {verdict}\n                the same centre is held in both, so that its error cancels",
        both(a),
        both(b)
    )
}
