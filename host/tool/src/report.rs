//! The winner and the counts in words: the numbers that people ask for first.

use crate::angle::degrees;
use crate::case::Judged;
use crate::drive::{Finished, Stop, last_step, step_of};
use crate::next_view::NextView;
use crate::open::{Held, Open};
use crate::residuals::{Dot, Fit};
use crate::table::{SKIPS, source_text};
use crate::typed::shown;
use crate::verdict::Point;
use crate::view_test::{self, Without};
use crate::views::MOST_SCORED;
use jinnychair::{Counts, Options, Progress, Stopped, Winner};

/// How many of the worst dots are shown.
const WORST: usize = 3;

/// A name, and what is said of it.
pub type Row = (String, String);

/// Rows as lines of text.
fn text(rows: &[Row]) -> String {
    let lines = rows.iter().map(|(name, value)| format!("{name:16}{value}"));
    lines.collect::<Vec<_>>().join("\n")
}

/// The lean and the winner, with what is left open, and the errors.
#[must_use]
pub fn result(finished: &Finished, winner: &Winner, judged: &Judged) -> String {
    let mut rows = lean_rows(judged);
    rows.extend(winner_rows(finished, winner, Some(&judged.fit), &judged.open));
    let without = judged.outliers.as_ref().map_or(String::new(), |found| without(&found.without));
    [text(&rows), views(&judged.fit), worst(&judged.fit)].join("\n") + &without
}

/// A tilt with its bound, in degrees and in radians.
#[must_use]
pub fn tilt_text(radians: f64, bound: Option<f64>, is_centre_open: bool) -> String {
    let bound = bound.map_or("not determined".into(), |bound| format!("± {}°", degrees(bound)));
    let exact = if is_centre_open { " if the centre is exact" } else { "" };
    format!("{:+.4}° {bound}{exact}   ({radians:+.6} rad)", radians.to_degrees())
}

/// The lean: the headline. Nothing where the views give none.
#[must_use]
pub fn lean_rows(judged: &Judged) -> Vec<Row> {
    let (open, row) = (&judged.open, |name: &str, value: String| (name.to_owned(), value));
    let (Some([x, y]), Some(lean)) = (open.lean, &judged.lean) else { return vec![] };
    let (total, is_open) = (open.lean_total(), open.centre_within.is_none());
    let tilt = |i: usize, radians: f64| tilt_text(radians, total.map(|total| total[i]), is_open);
    let lean_y = open.held.map_or_else(|| tilt(1, y), held);
    let mut rows = vec![row("lean x", tilt(0, x)), row("lean y", lean_y)];
    rows.extend(left_open(open));
    rows.push(row(
        "  pixel noise",
        format!(
            "{:.5} px, by {} numbers that are left over",
            lean.plain.variance.sqrt(),
            lean.plain.freedom
        ),
    ));
    rows.extend(judged.next.as_ref().map(|next| row("  next view", next_text(next, open))));
    rows
}

fn next_text(next: &NextView, open: &Open) -> String {
    let [x, y] = next.left.map(|left| format!("{:.0} %", 100.0 * left));
    let left = if open.held.is_some() { format!("{x} x") } else { format!("{x} x, {y} y") };
    format!(
        "with the plate's {} turned away by 30°: {left} of noise and lens would be left",
        next.turned
    )
}

/// The winner, how far it lies from the lean, and its errors in pixels as far as they are known.
#[must_use]
pub fn winner_rows(
    finished: &Finished,
    winner: &Winner,
    fit: Option<&Fit>,
    open: &Open,
) -> Vec<Row> {
    let k = winner.camera.k;
    let source = finished.tried.get(winner.number).map(|one| source_text(one.source));
    let tried = finished.tried.len();
    let of_all = format!("candidate {} of {tried} ({})", winner.number, source.unwrap_or_default());
    let name = if finished.stop.is_some() { "best so far" } else { "winner" };
    let row = |name: &str, value: String| (name.to_owned(), value);
    let [tilt_x, tilt_y] = won_tilts(open);
    let mut rows = vec![row(name, of_all), row("  tilt x", tilt_x), row("  tilt y", tilt_y)];
    rows.extend(beside(open));
    let dist = winner.camera.dist;
    if dist.p1 != 0.0 || dist.p2 != 0.0 {
        rows.push(row("  p1, p2", format!("{:+.6} {:+.6}", dist.p1, dist.p2)));
    }
    rows.extend([
        row("focal lengths", format!("{:.3} px  {:.3} px", k.fx, k.fy)),
        row("centre", format!("{:.3} px  {:.3} px  (held)", k.cx, k.cy)),
        row("mean error", mean_text(winner, fit)),
    ]);
    if let Some(fit) = fit {
        rows.push(row("RMS error", format!("{:.5} px", fit.rms())));
        rows.push(row("counted dots", format!("{} of {}", fit.counted(), fit.dots.len())));
    }
    rows.push(row("score", format!("{:.5}", winner.score)));
    rows
}

/// The winner's tilts with their bounds. Without views, or a lean, what noise leaves open isn't known.
fn won_tilts(open: &Open) -> [String; 2] {
    let (total, is_open) = (open.winner_total(), open.centre_within.is_none());
    let tilt = |i: usize| {
        let radians: f64 = open.won[i];
        match open.winner {
            Some(_) => tilt_text(radians, Some(total[i]), is_open),
            None => format!("{:+.4}°, ± not known   ({radians:+.6} rad)", radians.to_degrees()),
        }
    };
    let tilt_y = open.held.map_or_else(|| tilt(1), |_| "0° (held: one axis)".into());
    [tilt(0), tilt_y]
}

/// The mean error by which the winner is scored, and where that is of some dots, of all.
fn mean_text(winner: &Winner, fit: Option<&Fit>) -> String {
    let scored = format!("{:.5} px", winner.mean_reproj_error);
    match fit.filter(|fit| fit.dots.len() > MOST_SCORED) {
        Some(fit) => format!("{:.5} px of all dots, {scored} of those that are scored", fit.mean()),
        None => scored,
    }
}

/// How far the winner lies from the lean, and how far is explained.
fn beside(open: &Open) -> Vec<Row> {
    let Some([x, y]) = open.off() else {
        return vec![("  by the steps".into(), both(open, open.steps))];
    };
    let off = match open.held {
        None => format!("{:+.4}° x, {:+.4}° y", x.to_degrees(), y.to_degrees()),
        Some(_) => format!("{:+.4}° x", x.to_degrees()),
    };
    let explained =
        open.explained.map_or("how much is explained isn't known".into(), |explained| {
            format!("steps, penalty and noise explain {}", both(open, explained))
        });
    vec![("  off the lean".into(), format!("{off}; {explained}"))]
}

/// How many tilts were scored and how many skipped for each reason, in words, and behind `report` as the report's line.
///
/// # Errors
///
/// There are more than a search can have.
pub fn counts(counts: &Counts) -> Result<String, String> {
    let (total, scored) = (counts.total(), counts.scored);
    let mut text =
        format!("tilts           {total} tried, {scored} scored, {} skipped", total - scored);
    for &(reason, letter, words) in SKIPS {
        text += &format!("\n  skipped {letter}     {}: {words}", counts.skipped(reason));
    }
    let line = counts.report_line().map_err(|error| {
        let number = error.number();
        format!(
            "{total} lines, and a search tries at most 656 tilts ({number}). These are the lines of more than one: \
             take the journal that the search wrote"
        )
    })?;
    Ok(format!("{text}\nreport          {}", line.trim_end()))
}

/// By what a search was stopped, and where.
#[must_use]
pub fn stop_place(stop: &Stop) -> String {
    let Progress { round, rounds, answered, total, .. } = stop.progress;
    format!(
        "by {}, in round {round} of {rounds}, with {answered} of its {total} tilts tried",
        stop.why
    )
}

/// Where a search was stopped, and what could still be gained.
#[must_use]
pub fn stop(stop: &Stop, options: &Options) -> String {
    let Progress { round, rounds, .. } = stop.progress;
    let later = match rounds - round {
        0 => "none follows".into(),
        1 => format!(
            "one follows, with a step of {}°; nothing is said of it",
            degrees(last_step(options))
        ),
        more => format!(
            "{more} follow, with steps from {}° down to {}°; nothing is said of them",
            degrees(step_of(options, round + 1)),
            degrees(last_step(options))
        ),
    };
    [
        format!("stopped         {}", stop_place(stop)),
        format!("this round      {}", gain(&stop.stopped)),
        format!("later rounds    {later}"),
    ]
    .join("\n")
}

/// What a round that isn't over could still gain, in words.
#[must_use]
pub fn gain(stopped: &Stopped) -> String {
    let floor = stopped.floor.unwrap_or(f64::INFINITY);
    let text = if floor == 0.0 { "0".into() } else { format!("{floor:.5}") };
    let left = format!("no tilt left in it can score below {text}");
    match stopped.best {
        None => left,
        Some(best) if stopped.no_gain => {
            format!("can gain nothing: {left}, and the best has {:.5}", best.score)
        }
        Some(best) => format!(
            "could gain at most {:.5} in score: {left}, and the best has {:.5}",
            best.score - floor,
            best.score
        ),
    }
}

/// A tilt y that is held at 0, beside what the views want.
fn held(held: Held) -> String {
    let wanted = held.wanted.map_or(String::new(), |[tilt, open]| {
        format!("; let free, it would be {:+.4}° ± {}°", tilt.to_degrees(), degrees(open))
    });
    format!("0° (held: one axis{wanted})")
}

/// Both tilts' bounds, or the one that isn't held.
fn both(open: &Open, [x, y]: [f64; 2]) -> String {
    match open.held {
        None => format!("±{}° x, ±{}° y", degrees(x), degrees(y)),
        Some(_) => format!("±{}° x", degrees(x)),
    }
}

/// What the lean's bounds are made of.
fn left_open(open: &Open) -> Vec<Row> {
    let noise = open.noise.map_or("not determined".into(), |noise| {
        format!("{} (covers 95 of 100)", both(open, noise))
    });
    let lens = open.lens.map(|lens| {
        format!("{} more, as it isn't stated to be exact (--lens, --lens-within)", both(open, lens))
    });
    let mut rows = vec![("  by noise".into(), noise)];
    rows.extend(lens.map(|lens| ("  by the lens".into(), lens)));
    rows.extend(centre_rows(open));
    rows
}

/// What the centre leaves open, and what a pixel of it is worth.
#[must_use]
pub fn centre_rows(open: &Open) -> [Row; 2] {
    let centre = open.by_tolerance().map_or(
        "not known: give the centre's tolerance with --centre-within PX".into(),
        |tilts| {
            let within = open.centre_within.unwrap_or_default();
            format!("{} for a centre within {within} px", both(open, tilts))
        },
    );
    let [[_, x], [y, _]] = open.by_centre.map(|tilt| tilt.map(|slope| degrees(slope.abs())));
    let of_y = match open.held {
        None => format!(", 1 px of its x moves tilt y by {y}°"),
        Some(_) => String::new(),
    };
    let worth = format!("1 px of the centre's y moves tilt x by {x}°{of_y}");
    [("  by the centre".into(), centre), (String::new(), worth)]
}

fn views(fit: &Fit) -> String {
    let mut lines = vec!["view  counted  mean px   RMS px  worst px".to_owned()];
    for (i, [_, counted, mean, rms, most]) in view_rows(fit).iter().enumerate() {
        let name = fit.names.get(i).map_or("", String::as_str);
        let row =
            format!("{:>4}  {counted:>7}  {mean:>7}  {rms:>7}  {most:>8}  {}", i + 1, shown(name));
        lines.push(row.trim_end().to_owned());
    }
    lines.join("\n")
}

/// For each view what it is called, its counted dots, and their mean, RMS and worst error, in pixels.
#[must_use]
pub fn view_rows(fit: &Fit) -> Vec<[String; 5]> {
    let row = |view: usize| {
        let sizes: Vec<f64> =
            fit.view(view).filter_map(|dot| dot.error.map(|_| dot.size())).collect();
        let mean = sizes.iter().sum::<f64>() / sizes.len().max(1) as f64;
        let most = sizes.iter().copied().fold(0.0, f64::max);
        let [mean, rms, most] = [mean, fit.view_rms(view), most].map(|px| format!("{px:.4}"));
        let counted = format!("{}/{}", sizes.len(), fit.view(view).count());
        [fit.called(view), counted, mean, rms, most]
    };
    (0..fit.is_right_handed.len()).map(row).collect()
}

/// The leans without each view in turn, and what these say of the bounds.
#[must_use]
pub fn without(without: &[Without]) -> String {
    let Some(by_views) = by_views_text(without) else { return String::new() };
    let mut text = "\nwithout view  lean x °    lean y °".to_owned();
    for [view, x, y] in without.iter().map(without_row) {
        text += &format!("\n{view:>12}  {x:>8}   {y:>8}");
    }
    format!("{text}\n  {by_views}")
}

/// A view's number, and the lean without it in degrees.
#[must_use]
pub fn without_row(one: &Without) -> [String; 3] {
    let [x, y] = one.tilts.map(|tilt| format!("{:+.4}", tilt.to_degrees()));
    [(one.view + 1).to_string(), x, y]
}

/// What the views differ in, in words.
#[must_use]
pub fn by_views_text(without: &[Without]) -> Option<String> {
    let [x, y] = view_test::by_views(without)?.map(degrees);
    Some(format!(
        "by the views  ±{x}° x, ±{y}° y: two standard deviations, by what the views differ in"
    ))
}

fn worst(fit: &Fit) -> String {
    let lines = worst_texts(fit).into_iter().map(|text| format!("\n  {text}"));
    format!("worst dots{}", lines.collect::<String>())
}

/// The dots with the largest errors, in words.
#[must_use]
pub fn worst_texts(fit: &Fit) -> Vec<String> {
    let text = |dot: &&Dot| {
        let [right, down] = dot.error.unwrap_or_default();
        format!(
            "view {}, place {} {}: {:.4} px off ({right:+.3} right, {down:+.3} down)",
            fit.called(dot.view),
            dot.place.x,
            dot.place.y,
            dot.size()
        )
    };
    fit.worst().iter().take(WORST).map(text).collect()
}

/// The verdict's head line.
#[must_use]
pub fn verdict_head(against: &[Point]) -> String {
    match against.len() {
        0 => "good: nothing that was looked at speaks against the result".into(),
        1 => "doubtful: one point speaks against the result".into(),
        many => format!("doubtful: {many} points speak against the result"),
    }
}

/// The verdict.
#[must_use]
pub fn verdict(against: &[Point]) -> String {
    let points = against.iter().enumerate().map(|(i, point)| format!("\n  {}. {point}", i + 1));
    format!("verdict         {}{}", verdict_head(against), points.collect::<String>())
}
