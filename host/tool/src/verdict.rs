//! What speaks against a winner, and what to do. None of this is an error: the search did what it was asked.

use crate::angle::degrees;
use crate::choices::Choices;
use crate::drive::{Dots, Finished, JOURNAL_END, Stop, Tried, best, last_step, reach};
use crate::fit_test::{self, misfit};
use crate::lean::Lean;
use crate::neighbour_test;
use crate::next_view::NextView;
use crate::open::Open;
use crate::outliers::{Outliers, Stray};
use crate::plan::Plan;
use crate::residuals::Fit;
use crate::solve::Host;
use jinnychair::{Options, Outcome, Progress, ScheimpflugParams, SkipReason, Winner};

/// The most that noise may leave open, in degrees.
const MOST_OPEN: f64 = 0.5;

/// Something that speaks against a winner.
#[derive(Clone, Debug, PartialEq, Eq)]
pub struct Point {
    /// A word for programs.
    pub code: &'static str,
    /// What it is.
    pub what: String,
    /// What to do.
    pub remedy: String,
}

impl std::fmt::Display for Point {
    fn fmt(&self, f: &mut std::fmt::Formatter) -> std::fmt::Result {
        write!(f, "{}. {}", self.what, self.remedy)
    }
}

fn point(code: &'static str, what: String, remedy: &str) -> Point {
    Point { code, what, remedy: remedy.into() }
}

/// Limits that service sets.
#[derive(Clone, Copy, Debug, Default, PartialEq)]
pub struct Limits {
    /// On either tilt, in radians.
    pub tilt: Option<f64>,
    /// On the mean error, in pixels.
    pub mean: Option<f64>,
}

fn tilts(sensor: ScheimpflugParams) -> [f64; 2] {
    [sensor.tilt_x, sensor.tilt_y]
}

fn at(one: &Tried) -> String {
    let [x, y] = tilts(one.seed.sensor).map(degrees);
    format!("{x}° {y}°")
}

/// What speaks against the winner in the search itself: where it lies among the tried tilts.
#[must_use]
pub fn of_search(finished: &Finished, winner: &Winner, options: &Options) -> Vec<Point> {
    let mut points = vec![];
    for i in 0..2 {
        points.extend(at_edge(finished, winner, options, i));
    }
    points.extend(skipped(finished));
    points
}

fn at_edge(finished: &Finished, winner: &Winner, options: &Options, i: usize) -> Option<Point> {
    let axis = ["x", "y"][i];
    let tilt = tilts(winner.sensor)[i];
    let of_tried = || finished.tried.iter().map(|one| tilts(one.seed.sensor)[i]);
    let least = of_tried().fold(f64::INFINITY, f64::min);
    let most = of_tried().fold(f64::NEG_INFINITY, f64::max);
    if least == most {
        return None;
    }
    if tilt.abs() >= options.max_abs_tilt - last_step(options) {
        let what = format!(
            "tilt {axis}, {}°, is at the bound, {}°",
            degrees(tilt),
            degrees(options.max_abs_tilt)
        );
        return Some(point(
            "at-the-bound",
            what,
            "Look at the centre and the views; if the mount allows more, raise --bound.",
        ));
    }
    if tilt <= least || tilt >= most {
        let what = format!(
            "tilt {axis} is the outermost that was tried, {}°: a better one may lie beyond it",
            degrees(tilt)
        );
        return Some(point("outermost", what, "Type tilts beyond it (--tilts-x, --tilts-y)."));
    }
    let first = best(finished.tried.iter().filter(|one| one.round == 0))?;
    let moved = (tilt - tilts(first.seed.sensor)[i]).abs();
    (options.refine_rounds > 0 && moved >= reach(options) - 0.5 * last_step(options)).then(|| {
        let what = format!(
            "tilt {axis} lies as far from its seed as the rounds reach, {}°: a better one may lie beyond it",
            degrees(reach(options))
        );
        point("out-of-reach", what, "Type tilts near it (--tilts-x, --tilts-y), or take a larger --step.")
    })
}

fn skipped(finished: &Finished) -> Option<Point> {
    let tried = finished.tried.len();
    let skipped = finished.tried.iter().filter(|one| one.outcome.score().is_none()).count();
    (skipped > 0).then(|| {
        let what = format!("{skipped} of {tried} tilts were skipped: a lean there is missed");
        point("skipped", what, "Look at the reasons in the table or the chart, and at the views.")
    })
}

/// Tilts that were skipped because too few of their dots are counted.
#[must_use]
pub fn too_few_counted(tried: &[Tried], options: &Options) -> Option<Point> {
    let per_cent = options.min_counted;
    let no_mean = Outcome::Skipped(SkipReason::NoMean);
    let skipped = tried.iter().filter(|one| one.outcome == no_mean).filter_map(|one| one.dots);
    let is_short = |dots: &Dots| 100 * dots.counted < per_cent * dots.all;
    let short: Vec<Dots> = skipped.filter(is_short).collect();
    let most = short.iter().max_by_key(|dots| dots.counted)?;
    let what = format!(
        "{} of {} tilts have fewer than {per_cent} % of their dots counted, the fullest of these {} of {}",
        short.len(),
        tried.len(),
        most.counted,
        most.all
    );
    Some(point(
        "too-few-counted",
        what,
        "Look which views lie behind the camera, and at the poses; --min-counted asks for fewer.",
    ))
}

/// Tried tilts that fit the views as well as the lean does, and lie where its ± excludes them: another valley.
#[must_use]
pub fn of_rivals(rivals: &[&Tried]) -> Option<Point> {
    let rival = best(rivals.iter().copied())?;
    let what = format!(
        "{} other tilts fit the views as well, by chance's measure, as no. {} at {}, where the lean's ± excludes them",
        rivals.len(),
        rival.number,
        at(rival),
    );
    Some(point("alike", what, "Take views with the plate turned further."))
}

/// What speaks against the winner in the dots that its camera sees, and from which side.
#[must_use]
pub fn of_fit(fit: &Fit, is_left_handed: bool) -> Vec<Point> {
    [mirrored(fit, is_left_handed), not_counted(fit)].into_iter().flatten().collect()
}

/// Dots and views that disagree with all others, with the lean without them.
#[must_use]
pub fn of_outliers(outliers: &Outliers, fit: &Fit) -> Vec<Point> {
    let without = |lean: [f64; 2]| lean.map(degrees).join("° ") + "°";
    let mut points = vec![];
    if let Some(one) = &outliers.view {
        let what = format!(
            "view {} disagrees with the others, by more than chance; without it the lean would be {}",
            fit.called(one.view),
            without(one.tilts)
        );
        let remedy = "Look at its dots and at its plate; take the view again, or leave it out.";
        points.push(point("view", what, remedy));
    }
    if let Some((first, rest)) = outliers.dots.first().zip(outliers.rest.as_ref()) {
        let others = outliers.dots[1..].iter();
        let place = |dot: &Stray| {
            format!(
                "view {} place {} {}, {:.2} px",
                fit.called(dot.view),
                dot.place.x,
                dot.place.y,
                dot.off
            )
        };
        let others: String = others.map(|dot| format!("; {}", place(dot))).collect();
        let what = format!(
            "a dot disagrees with all others, by more than chance: {} off{others}; without that the lean would be {}",
            place(first),
            without(rest.1.tilts())
        );
        let remedy = "Look whether it was taken for another; leave it out and search again.";
        points.push(point("stray-dot", what, remedy));
    }
    points
}

/// What speaks against the model: another lens, a fit that isn't one, neighbours that err alike.
#[must_use]
pub fn of_model(host: &Host, lean: &Lean) -> Vec<Point> {
    let mut points: Vec<_> =
        of_lens(host, lean).or_else(|| of_misfit(host, lean)).into_iter().collect();
    points.extend(of_neighbours(host, lean));
    points
}

fn of_misfit(host: &Host, lean: &Lean) -> Option<Point> {
    let found = misfit(host, lean).filter(|found| found.chance < fit_test::LEVEL)?;
    let what = format!(
        "the errors, {:.4} px, are larger than those of the views' own maps, {:.4} px, by more than chance: no one camera \
         explains the views",
        found.here, found.own
    );
    let remedy = "Look for views of another camera or zoom, for a lens that bends, and for a plate that isn't flat.";
    Some(point("misfit", what, remedy))
}

fn of_neighbours(host: &Host, lean: &Lean) -> Option<Point> {
    let chance = neighbour_test::chance_for(host, lean);
    chance.filter(|chance| *chance < neighbour_test::LEVEL && lean.has_noise())?;
    let what = "neighbouring dots err alike, by more than chance and the fit make them".into();
    let remedy = "Look whether the plate is flat and its places are right, and whether the lens's distortion was taken \
                  off as it is, around the right centre.";
    Some(point("neighbours", what, remedy))
}

/// How likely chance is, in words.
fn chance_text(chance: f64) -> String {
    if chance < 1e-6 {
        "less than once in a million".into()
    } else {
        format!("once in {:.0}", 1.0 / chance)
    }
}

/// A lens that isn't the stated one, by the test.
fn of_lens(host: &Host, lean: &Lean) -> Option<Point> {
    let (open, chance) = lean.other_lens()?;
    let [.., k1, k2, p1, p2] = open.fitted.shared;
    let ([x, y], plain) = (open.tilts(), lean.tilts());
    let [by_x, by_y] = [plain[0] - x, plain[1] - y].map(degrees);
    let [x, y] = [x, y].map(degrees);
    let lens =
        if host.model().lens == Default::default() { "a lens that bends" } else { "another lens" };
    let what = format!(
        "{lens} fits the views better, by more than chance ({}): k1 = {k1:.4}, k2 = {k2:.4}, p1 = {p1:.5}, p2 = {p2:.5}. \
         It would look like a lean of {by_x}° {by_y}°, and the lean would be {x}° {y}°",
        chance_text(chance)
    );
    let remedy = "State the lens with --lens K1,K2,P1,P2,K3, or take its distortion off the pixels, around the stated \
                  centre. Check the plate: is it flat?";
    Some(point("lens", what, remedy))
}

fn mirrored(fit: &Fit, is_left_handed: bool) -> Option<Point> {
    let right = fit.is_right_handed.iter().filter(|is_right| **is_right).count();
    let rare = 2 * right < fit.is_right_handed.len();
    let views = fit.is_right_handed.iter().enumerate().filter(|(_, is_right)| **is_right == rare);
    let views: Vec<String> = views.map(|(view, _)| fit.called(view)).collect();
    if right == 0 && !is_left_handed {
        let what = "all views show the plate mirrored: its axes are left-handed, or x and y are exchanged, or y is upwards".into();
        return Some(point(
            "mirrored",
            what,
            "Look at the pixels' and the plate's axes; --mirrored says that the plate's are left-handed.",
        ));
    }
    if right == fit.is_right_handed.len() && is_left_handed {
        let what =
            "no view shows the plate mirrored, and --mirrored says that its axes are left-handed"
                .into();
        return Some(point(
            "not-mirrored",
            what,
            "Leave --mirrored out, or look at the pixels' axes.",
        ));
    }
    (right > 0 && right < fit.is_right_handed.len()).then(|| {
        let what = format!(
            "view {} shows the plate from the other side than the other views",
            views.join(", ")
        );
        point(
            "other-side",
            what,
            "Look whether x and y are exchanged, or one of them negated, in these views.",
        )
    })
}

fn not_counted(fit: &Fit) -> Option<Point> {
    let (counted, all) = (fit.counted(), fit.dots.len());
    (counted < all).then(|| {
        point(
            "not-counted",
            format!("{} of {all} dots aren't counted", all - counted),
            "Look which views lie behind the camera.",
        )
    })
}

/// Two centres that disagree: the one that is held, by the words, and the file's.
#[must_use]
pub fn of_two_centres(held: [f64; 2], other: Option<[f64; 2]>, open: &Open) -> Option<Point> {
    let [x, y] = other?;
    let by = [x - held[0], y - held[1]];
    let is_within = open.centre_within.is_some_and(|within| by[0].hypot(by[1]) <= within);
    if is_within {
        return None;
    }
    let [worth_x, worth_y] = open.by_centre.map(|[a, b]| degrees(a * by[0] + b * by[1]));
    let what = format!(
        "two centres are stated: {} {} is held, and the file has {x} {y}, by which the lean would be {worth_x}° {worth_y}° \
         beside this one",
        held[0], held[1]
    );
    let remedy =
        "Take the wrong one out; or state a tolerance that has both, with --centre-within PX.";
    Some(point("two-centres", what, remedy))
}

/// What speaks against the result in the stated centre. `middle` and `half` are the middle and half the size of what is
/// seen, in pixels. The views don't tell a wrong centre from a lean: this asks for what is plausible alone.
#[must_use]
pub fn of_centre(
    centre: [f64; 2],
    is_guessed: bool,
    [middle, half]: [[f64; 2]; 2],
    open: &Open,
) -> Vec<Point> {
    if is_guessed {
        return vec![guessed()];
    }
    let [x, y] = centre;
    let seen = format!("{:.0} {:.0}", middle[0], middle[1]);
    if is_exchanged(centre, middle, open) {
        let what = format!(
            "with the centre exchanged, {y} {x} in place of {x} {y}, the lean would be far smaller, and the centre nearer to \
             the middle of what is seen, {seen}"
        );
        let remedy = "Look whether x and y are exchanged, in the centre or in the views.";
        return vec![point("centre-exchanged", what, remedy)];
    }
    if (x - middle[0]).abs() > half[0] || (y - middle[1]).abs() > half[1] {
        let what =
            format!("the centre {x} {y} lies outside of what is seen, whose middle is {seen}");
        let remedy = "Look whether centre and views are in pixels of the same picture.";
        return vec![point("centre-outside", what, remedy)];
    }
    vec![]
}

fn guessed() -> Point {
    point(
        "centre-guessed",
        "the optical centre is guessed, and a wrong centre looks exactly like a tilt".into(),
        "State it with --centre X Y, from the lens's data sheet or a calibration without tilt.",
    )
}

/// Whether the exchanged centre lies nearer to the middle of what is seen, and leaves less than a quarter of the lean.
fn is_exchanged([x, y]: [f64; 2], middle: [f64; 2], open: &Open) -> bool {
    let distance = |[x, y]: [f64; 2]| (x - middle[0]).hypot(y - middle[1]);
    let ([lean_x, lean_y], _) = open.headline();
    let moved = |[by_x, by_y]: [f64; 2]| (by_x - by_y) * (y - x);
    let [there_x, there_y] = open.by_centre.map(moved);
    let is_smaller = 4.0 * (lean_x + there_x).hypot(lean_y + there_y) < lean_x.hypot(lean_y);
    is_smaller && distance([y, x]) < distance([x, y])
}

/// What speaks against the result by service's limits, with what is left open.
#[must_use]
pub fn of_limits(winner: &Winner, open: &Open, limits: Limits) -> Vec<Point> {
    let mut points = vec![];
    let (here, bounds) = open.headline();
    let axes = if open.held.is_some() { 0..1 } else { 0..2 };
    for i in axes {
        let (axis, tilt) = (["x", "y"][i], here[i]);
        let bound = bounds.map_or(f64::INFINITY, |bounds| bounds[i]);
        if let Some(limit) = limits.tilt.filter(|limit| tilt.abs() + bound > *limit) {
            let what = format!(
                "tilt {axis}, {}° ± {}°, is or may be beyond the limit {}°",
                degrees(tilt),
                degrees(bound),
                degrees(limit)
            );
            points.push(point(
                "limit-tilt",
                what,
                "Correct the sensor's mount, or look at the limit.",
            ));
        }
    }
    if let Some(limit) = limits.mean.filter(|limit| winner.mean_reproj_error > *limit) {
        let what = format!(
            "the mean error, {:.4} px, is above the limit {limit} px",
            winner.mean_reproj_error
        );
        points.push(point("limit-mean", what, "Look at the worst dots and views."));
    }
    points
}

/// Views that leave the lean open too far, and the turn of the plate that would help most.
#[must_use]
pub fn of_noise(noise: Option<[f64; 2]>, is_held: bool, next: Option<&NextView>) -> Option<Point> {
    let noise = noise.map(|noise| noise.map(f64::to_degrees));
    let is_wide = |[x, y]: [f64; 2]| x > MOST_OPEN || (y > MOST_OPEN && !is_held);
    noise.is_none_or(is_wide).then(|| {
        let by = noise.map_or("any amount".into(), |[x, y]| match is_held {
            false => format!("±{x:.2}° and ±{y:.2}°"),
            true => format!("±{x:.2}°"),
        });
        let tilts = if is_held { "tilt x" } else { "the tilts" };
        let remedy = match next {
            Some(next) => format!(
                "Take more views, first one with the plate's {} turned away by 30°.",
                next.turned
            ),
            None => "Take more views, with the plate turned by 20° to 40°, about both axes.".into(),
        };
        point("noise", format!("noise in the pixels leaves {tilts} open by {by}"), &remedy)
    })
}

/// What speaks against a winner as far as a journal and its inputs show it.
#[must_use]
pub fn without_views(
    finished: &Finished,
    winner: &Winner,
    plan: &Plan,
    open: &Open,
    choices: &Choices,
) -> Vec<Point> {
    let against = [
        finished.stop.as_ref().map(of_stop).into_iter().collect(),
        choices.guess_centre.map(|()| guessed()).into_iter().collect(),
        of_plan(plan),
        of_search(finished, winner, plan.options()),
        of_limits(winner, open, choices.limits()),
    ];
    against.concat()
}

/// What can't be looked at without the views.
pub const ONLY_BY_VIEWS: &[&str] = &[
    "the lean, which is the least-squares optimum beside the winner, and whether noise in the pixels leaves it open too far",
    "whether other tilts fit the views as well",
    "whether the stated centre lies where the views are, and not with x and y exchanged",
    "stray dots and stray views, and dots that aren't counted",
    "whether the errors are noise, or those of a bent plate, of a lens or of another camera",
    "whether the plate is seen from one side",
];

/// A search that was stopped before its end.
#[must_use]
pub fn of_stop(stop: &Stop) -> Point {
    let Progress { round, rounds, answered, total, .. } = stop.progress;
    let later = match rounds - round {
        0 => String::new(),
        1 => "; the round after it wasn't begun".into(),
        more => format!("; the {more} rounds after it weren't begun"),
    };
    let what = format!(
        "the search was stopped by {} in round {round} of {rounds}, with {} of its {total} tilts left: this round \
         {}{later}",
        stop.why,
        total - answered,
        if stop.stopped.no_gain { "can gain nothing" } else { "may have a better one" },
    );
    let is_broken_off = stop.why == JOURNAL_END;
    let remedy = if is_broken_off {
        "Go on with it: `jinnychair resume` and the journal's name."
    } else {
        "Search with more time, with fewer tilts, or with fewer rounds."
    };
    point("stopped", what, remedy)
}

/// A winner that lies farther from the lean than steps, penalty and noise explain.
#[must_use]
pub fn of_distance(open: &Open) -> Option<Point> {
    let (off, explained, lean) = (open.off()?, open.explained?, open.lean?);
    let is_far = (0..2).any(|i| off[i].abs() > explained[i]);
    is_far.then(|| {
        let [lean, off, explained] = [lean, off, explained].map(|both| both.map(degrees).join("° "));
        let what = format!(
            "the winner lies {off}° beside the lean, {lean}°, and its steps, the penalty on tilts and noise explain no more \
             than {explained}°"
        );
        point("off-the-lean", what, "Type tilts near the lean (--tilts-x, --tilts-y); look at the views.")
    })
}

/// A tilt y that is held at 0 while the views want another, by more than noise, the lens and the centre's tolerance explain.
#[must_use]
pub fn of_held(open: &Open) -> Option<Point> {
    let [wanted, bound] = open.held?.wanted?;
    let [by_x, by_y] = open.by_centre[1];
    let by_centre = open.centre_within.unwrap_or(0.0) * by_x.hypot(by_y);
    (wanted.abs() > bound + by_centre).then(|| {
        let what = format!(
            "tilt y is held at 0, and the views want {}° ± {}°: the sensor leans about y too, or the centre's x is off by \
             {:.1} px",
            degrees(wanted),
            degrees(bound),
            wanted.abs() / by_x.abs()
        );
        let remedy =
            "Search without --one-axis; or check the centre, and state its tolerance with --centre-within PX.";
        point("held", what, remedy)
    })
}

/// Holes in the lab's own lists.
#[must_use]
pub fn of_plan(plan: &Plan) -> Vec<Point> {
    let holes = plan.axes.iter().flat_map(|axis| axis.hole_texts());
    let points =
        holes.map(|hole| point("hole", hole, "Type tilts there, or take a larger --step."));
    points.filter(|_| plan.options().refine_rounds > 0).collect()
}

#[cfg(test)]
mod tests {
    use super::*;
    use crate::residuals::Dot;
    use jinnychair::Pt2;

    fn fit(counted: usize, all: usize) -> Fit {
        let dot = |i: usize| Dot {
            view: 0,
            place: Pt2 { x: i as f64, y: 0.0 },
            error: (i < counted).then_some([0.1, if i.is_multiple_of(2) { 0.1 } else { -0.1 }]),
        };
        let names = vec!["a.png".into(), String::new()];
        Fit { dots: (0..all).map(dot).collect(), is_right_handed: vec![true, true], names }
    }

    #[test]
    fn dots_that_do_not_count_are_told() {
        assert_eq!(not_counted(&fit(10, 10)), None);
        assert!(not_counted(&fit(99, 100)).unwrap().what.contains("1 of 100 dots aren't counted"));
        assert_eq!(of_fit(&fit(40, 40), false), []);
    }
}
