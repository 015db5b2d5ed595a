//! The lean: the least-squares optimum with its tilts free, from the search's winner on, between the search's steps; with the
//! lens as it is stated, and with one that may be anything that isn't excluded. All bounds come from here.

use crate::camera::LENS;
use crate::distribution::{COVERED, bound, f_above};
use crate::least_squares::{
    ALL, Equations, FOR_THE_LEAN, Fitted, Prior, Problem, TILTED, TILTED_TANGENTIAL,
};
use crate::solve::Host;
use jinnychair::Seed;

/// What is known of a lens of which nothing is said, in k1, k2, p1, p2: the tangential part is within the model's own bounds,
/// the radial one within what lenses have. It matters only where the views say nothing.
const UNKNOWN: [f64; 4] = [1.0, 10.0, 0.05, 0.05];
/// Errors below this, in pixels, are rounding: nothing is tested below.
const ROUNDING: f64 = 1e-6;
/// The level of the test for a lens that isn't the stated one: chance alone passes once in a hundred.
pub const LENS_LEVEL: f64 = 0.01;
/// The level at which a winner's distance from the lean, and a held tilt's, is more than chance.
pub const OFF_LEVEL: f64 = 0.01;
/// Slope of the score's penalty on a tilt, 0.25·tilt².
const PENALTY_SLOPE: f64 = 0.5;

/// What is said of the lens for the bounds.
#[derive(Clone, Copy, Debug, Default, PartialEq)]
pub enum Lens {
    /// Nothing.
    #[default]
    Open,
    /// Its tangential distortion is within so much of what the solution has.
    Within(f64),
    /// It is what the solution has.
    Exact,
}

/// An optimum, and how far chance moves its tilts.
#[derive(Clone, Debug)]
pub struct Optimum {
    /// The camera and the poses of the views that differ.
    pub fitted: Fitted,
    /// How many numbers the dots bring beyond those that are solved for.
    pub freedom: usize,
    /// The variance of a pixel's coordinate.
    pub variance: f64,
    /// The tilts' covariance, s²·(JᵀJ)⁻¹, with s no less than rounding, in square radians; nothing where the views don't determine them.
    pub covariance: Option<[[f64; 2]; 2]>,
    /// How tilt x and tilt y move with the held centre's x and y, in radians a pixel.
    pub by_centre: [[f64; 2]; 2],
}

impl Optimum {
    /// Over the free numbers, with the tilts among them at the places 2 and 3.
    fn new<const N: usize>(problem: &Problem, free: [usize; N], start: Fitted) -> Option<Self> {
        let fitted = problem.optimum(free, start, FOR_THE_LEAN)?;
        let numbers: usize = problem.views.iter().map(|view| 2 * view.dots()).sum();
        let freedom = numbers.checked_sub(6 * problem.views.len() + N).filter(|left| *left > 0)?;
        let variance = fitted.squares / freedom as f64;
        let covariance = total(problem, free, &fitted).and_then(|all| all.covariance());
        // Rounding moves the tilts too, where there is no noise.
        let of_pixel = variance.max(ROUNDING * ROUNDING);
        let covariance = covariance.map(|c| [2, 3].map(|i| [2, 3].map(|j| of_pixel * c[i][j])));
        let by_centre = problem.by_centre(free, &fitted).unwrap_or([[f64::NAN; N]; 2]);
        let by_centre = [2, 3].map(|i| [0, 1].map(|axis| by_centre[axis][i]));
        Some(Self { fitted, freedom, variance, covariance, by_centre })
    }

    /// The tilts, in radians.
    #[must_use]
    pub fn tilts(&self) -> [f64; 2] {
        [self.fitted.shared[2], self.fitted.shared[3]]
    }

    /// Their standard deviations.
    #[must_use]
    pub fn deviations(&self) -> Option<[f64; 2]> {
        let deviations = self.covariance.map(|c| [c[0][0].sqrt(), c[1][1].sqrt()])?;
        deviations.iter().all(|one| one.is_finite()).then_some(deviations)
    }

    /// How far two pairs of tilts lie from each other by the covariance, as the F of two numbers.
    #[must_use]
    pub fn distance(&self, from: [f64; 2], to: [f64; 2]) -> Option<f64> {
        let [[xx, xy], [_, yy]] = inverse_2(&self.covariance?)?;
        let [x, y] = [to[0] - from[0], to[1] - from[1]];
        Some(0.5 * (xx * x * x + 2.0 * xy * x * y + yy * y * y))
    }

    /// How far the truth may lie from given tilts, with this chance.
    #[must_use]
    pub fn bounds(&self, around: [f64; 2], chance: f64) -> Option<[f64; 2]> {
        let (here, deviations) = (self.tilts(), self.deviations()?);
        let of = |i: usize| bound(around[i] - here[i], deviations[i], self.freedom, chance);
        let bounds = [of(0), of(1)];
        bounds.iter().all(|bound| bound.is_finite()).then_some(bounds)
    }
}

impl Optimum {
    /// Whether the errors are above what rounding makes of pixels.
    #[must_use]
    pub fn has_noise(&self) -> bool {
        self.variance > ROUNDING * ROUNDING
    }
}

/// All views' equations with what is known beforehand.
pub(crate) fn total<const N: usize>(
    problem: &Problem,
    free: [usize; N],
    at: &Fitted,
) -> Option<Equations<N>> {
    let (views, prior) = problem.equations(free, at)?;
    Some(views.iter().fold(prior, |sum, view| sum.with(1.0, view)))
}

/// The lean, and what a lens makes of it.
#[derive(Clone, Debug)]
pub struct Lean {
    /// With the lens as it is stated, straight where nothing is.
    pub plain: Optimum,
    /// With k1, k2, p1 and p2 free.
    pub open: Option<Optimum>,
    /// How many dots are solved for.
    pub dots: usize,
    /// How likely chance alone makes the free lens fit so much better; nothing where there are too few dots to tell.
    pub chance: Option<f64>,
    /// What is said of the lens.
    pub lens: Lens,
}

impl Lean {
    /// From the winner's seed on; nothing where it leads nowhere, or no dot is left over.
    #[must_use]
    pub fn new(host: &Host, seed: &Seed, lens: Lens) -> Option<Self> {
        let views = host.distinct();
        let start = host.distinct_of(host.fitted(seed)?);
        let problem = host.problem(&views, Prior::default());
        let (plain, solved) = if host.model().tangential {
            (Optimum::new(&problem, TILTED_TANGENTIAL, start)?, TILTED_TANGENTIAL.len())
        } else {
            (Optimum::new(&problem, TILTED, start)?, TILTED.len())
        };
        let problem = host.problem(&views, prior(host, &plain, lens));
        let open = Optimum::new(&problem, ALL, plain.fitted.clone());
        let chance = open.as_ref().map(|open| {
            let more = (ALL.len() - solved) as f64;
            let f = (plain.fitted.squares - open.fitted.squares) / more / open.variance;
            f_above(f, more, open.freedom as f64)
        });
        // With too few dots to tell a lens it is as open as is known beforehand.
        let open = open.or_else(|| Self::hardly_determined(&problem, &plain));
        Some(Self { plain, open, dots: views.iter().map(|view| view.dots()).sum(), chance, lens })
    }

    /// The optimum with a lens where its numbers are no fewer than the dots': the pixel's variance is the plain one's.
    fn hardly_determined(problem: &Problem, plain: &Optimum) -> Option<Optimum> {
        let fitted = problem.optimum(ALL, plain.fitted.clone(), FOR_THE_LEAN)?;
        let covariance = total(problem, ALL, &fitted)?.covariance()?;
        let covariance = [2, 3].map(|i| [2, 3].map(|j| plain.variance * covariance[i][j]));
        Some(Optimum { fitted, covariance: Some(covariance), ..plain.clone() })
    }

    /// The tilts, in radians.
    #[must_use]
    pub fn tilts(&self) -> [f64; 2] {
        self.plain.tilts()
    }

    /// The optimum whose bounds count where the lens is open.
    #[must_use]
    pub fn open(&self) -> Option<&Optimum> {
        self.open.as_ref().filter(|_| self.lens != Lens::Exact)
    }

    /// How far noise may have moved the lean, if the lens is as stated.
    #[must_use]
    pub fn by_noise(&self) -> Option<[f64; 2]> {
        self.plain.bounds(self.tilts(), COVERED)
    }

    /// The same where the views determine the bounds of an open lens too: where a lens may be anything, noise may as well.
    #[must_use]
    pub fn noise_share(&self) -> Option<[f64; 2]> {
        self.by_noise().filter(|_| self.bounds(self.tilts()).is_some())
    }

    /// How far noise and the lens may have moved given tilts: wide enough around them for both optima. Nothing where the views
    /// determine too little.
    #[must_use]
    pub fn bounds(&self, around: [f64; 2]) -> Option<[f64; 2]> {
        self.bounds_at(around, COVERED)
    }

    /// The same with this chance.
    #[must_use]
    pub fn bounds_at(&self, around: [f64; 2], chance: f64) -> Option<[f64; 2]> {
        let plain = self.plain.bounds(around, chance)?;
        match self.lens {
            Lens::Exact => Some(plain),
            _ => {
                let open = self.open()?.bounds(around, chance)?;
                Some([plain[0].max(open[0]), plain[1].max(open[1])])
            }
        }
    }

    /// Whether the errors are above what rounding makes of pixels.
    #[must_use]
    pub fn has_noise(&self) -> bool {
        self.plain.has_noise()
    }

    /// The lens that isn't the stated one, by the test, with how likely chance alone passes it.
    #[must_use]
    pub fn other_lens(&self) -> Option<(&Optimum, f64)> {
        let chance = self.chance.filter(|chance| *chance < LENS_LEVEL && self.has_noise())?;
        Some((self.open.as_ref()?, chance))
    }

    /// The tilts with the lowest score around the lean: that is the mean error, which grows as the covariance says, and the
    /// penalty on tilts; tilt y is 0 where it is held.
    #[must_use]
    pub fn lowest_score(&self, mean_error: f64, is_held: bool) -> Option<[f64; 2]> {
        let (lean, freedom) = (self.tilts(), self.plain.freedom as f64);
        let [[xx, xy], [_, yy]] = inverse_2(&self.plain.covariance?)?;
        let mut at = lean;
        for _ in 0..20 {
            let [x, y] = [at[0] - lean[0], at[1] - lean[1]];
            let grown = (1.0 + (xx * x * x + 2.0 * xy * x * y + yy * y * y) / freedom).sqrt();
            let pull = PENALTY_SLOPE * freedom * grown / mean_error;
            let pull = if pull.is_finite() { pull } else { 0.0 };
            let wanted = [xx * lean[0] + xy * lean[1], xy * lean[0] + yy * lean[1]];
            at = if is_held {
                [wanted[0] / (xx + pull), 0.0]
            } else {
                let c = inverse_2(&[[xx + pull, xy], [xy, yy + pull]])?;
                c.map(|row| row[0] * wanted[0] + row[1] * wanted[1])
            };
        }
        at.iter().all(|tilt| tilt.is_finite()).then_some(at)
    }

    /// How far from the lowest score a search that ends with these steps may end: what is lower than its neighbours at a
    /// distance of twice the steps lies so near, where the tilts are correlated too.
    #[must_use]
    pub fn by_steps(&self, steps: [f64; 2], is_held: bool) -> Option<[f64; 2]> {
        if is_held {
            return Some([steps[0], 0.0]);
        }
        let covariance = self.plain.covariance?;
        let inverse = inverse_2(&covariance)?;
        let of = |i: usize| (0..2).map(|j| covariance[i][j].abs() * inverse[j][j] * steps[j]).sum();
        Some([of(0), of(1)])
    }
}

/// What is worked out for a model, whichever numbers it solves for.
pub(crate) trait ByModel {
    /// What comes out.
    type Out;
    /// Around an optimum over these numbers.
    fn run<const N: usize>(&self, problem: &Problem, free: [usize; N], at: &Optimum) -> Self::Out;
}

/// For the lean's own model.
pub(crate) fn by_plain<J: ByModel>(host: &Host, lean: &Lean, job: &J) -> J::Out {
    let views = host.distinct();
    let problem = host.problem(&views, Prior::default());
    if host.model().tangential {
        job.run(&problem, TILTED_TANGENTIAL, &lean.plain)
    } else {
        job.run(&problem, TILTED, &lean.plain)
    }
}

/// For the model that explains the views: the lean's own, or where the test finds a lens, that with one.
pub(crate) fn by_model<J: ByModel>(host: &Host, lean: &Lean, job: &J) -> J::Out {
    let Some((open, _)) = lean.other_lens() else { return by_plain(host, lean, job) };
    let views = host.distinct();
    job.run(&host.problem(&views, prior(host, &lean.plain, lean.lens)), ALL, open)
}

/// What is known of the lens: its numbers are those of the solution, within what is said, in units of a pixel's variance.
pub(crate) fn prior(host: &Host, plain: &Optimum, lens: Lens) -> Prior {
    let mut prior = Prior::default();
    for (place, (mean, most)) in LENS.zip(unknown_lens(host, lens)) {
        prior.means[place] = mean;
        prior.weights[place] = plain.variance / (most * most);
    }
    prior
}

/// For k1, k2, p1 and p2 what is stated, and how far it may be off.
pub(crate) fn unknown_lens(host: &Host, lens: Lens) -> [(f64, f64); 4] {
    let mut known = UNKNOWN;
    if let Lens::Within(most) = lens {
        known[2..].fill(most);
    }
    let stated = host.model().lens;
    let means = [stated.k1, stated.k2, stated.p1, stated.p2];
    std::array::from_fn(|i| (means[i], known[i]))
}

/// The inverse of a symmetric matrix; nothing where it has none.
fn inverse_2(m: &[[f64; 2]; 2]) -> Option<[[f64; 2]; 2]> {
    let determinant = m[0][0] * m[1][1] - m[0][1] * m[1][0];
    let inverse = [
        [m[1][1] / determinant, -m[0][1] / determinant],
        [-m[1][0] / determinant, m[0][0] / determinant],
    ];
    inverse.as_flattened().iter().all(|entry| entry.is_finite()).then_some(inverse)
}
