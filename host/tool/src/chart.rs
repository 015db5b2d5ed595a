//! A search as a picture, in SVG: every tried tilt, two enlarged parts around the winner, the score along lines through
//! it, and what was asked and found, so that the sheet can be filed. A search on one axis is drawn as the score over tilt
//! x. Each mark shows more when it is pointed at.

mod legend;
mod one_axis;
mod part;
mod plot;
mod section;
mod svg;

use crate::drive::{Tried, best};
use crate::table::{LEAN as LEAN_RADIANS, Record, UNCHECKED};
use legend::Legend;
use part::{PART, Part};
use section::Section;
use svg::{ALARM, GOOD, INK, LEAN, Svg, signed};

pub use svg::HEAD;

/// Where columns and rows begin.
const COLUMNS: [f64; 3] = [70.0, 455.0, 840.0];
const PARTS_TOP: f64 = 128.0;
const SECTIONS_TOP: f64 = PARTS_TOP + PART + 122.0;
/// The room that a plot's axis takes below it.
const UNDER_A_PLOT: f64 = 36.0;

/// The lean's tilts and its bounds, in degrees.
type Lean = ([f64; 2], Option<[f64; 2]>);

const WIDTH: f64 = 1180.0;
const LINE: f64 = 17.0;
/// Where the lean stands beside the heading, and how many letters of it a line has room for.
const BESIDE_HEADING: f64 = 255.0;
const LEAN_LETTERS: usize = 130;
/// How many letters a line of notes has room for.
const LETTERS: usize = 165;

/// The chart's text.
#[must_use]
pub fn chart(record: &Record) -> String {
    let mut svg = Svg::default();
    let tried = &record.tried;
    let winner = best(tried).filter(|one| degrees(one).iter().all(|tilt| tilt.is_finite()));
    let bound = record.about("bound_rad").and_then(|bound| bound.parse::<f64>().ok());
    let bound = bound.filter(|bound| bound.is_finite() && *bound > 0.0).map(f64::to_degrees);
    heading(&mut svg, record, winner);
    let parts = parts(tried, winner);
    let one_axis = record.is_one_axis();
    let best = winner.map(|_| best_names(record)[0]);
    let lean = lean(record);
    let plots = if one_axis {
        one_axis::draw(&mut svg, tried, winner, bound, lean, &parts)
    } else {
        two_axes(&mut svg, tried, winner.zip(best), (bound, lean), &parts)
    };
    // Without a winner there are neither enlarged parts nor lines through it.
    let [left, top] = match (one_axis, winner) {
        (true, _) => [COLUMNS[2], PARTS_TOP],
        (false, None) => [COLUMNS[1], PARTS_TOP],
        (false, Some(_)) => [COLUMNS[2], SECTIONS_TOP],
    };
    let has_lean = lean.is_some();
    let legend = Legend { tried, bound, one_axis, has_lean, best, left, top }.draw(&mut svg);
    let bottom = notes(&mut svg, record, legend.max(plots));
    svg.finish([WIDTH, bottom + 24.0])
}

/// What the best tilt is called, within a text and at its begin.
fn best_names(record: &Record) -> [&'static str; 2] {
    match record.about("stopped") {
        Some(_) => ["the best so far", "Best so far"],
        None => ["the winner", "Winner"],
    }
}

/// Parts of the plane of tilts, and the score along two lines through the best tilt; gives where they end.
fn two_axes(
    svg: &mut Svg,
    tried: &[Tried],
    best: Option<(&Tried, &str)>,
    (bound, lean): (Option<f64>, Option<Lean>),
    parts: &[Part],
) -> f64 {
    for (i, part) in parts.iter().enumerate() {
        part.draw(svg, tried, best.map(|best| best.0), bound, lean, parts.get(i + 1));
    }
    let Some((winner, name)) = best else { return PARTS_TOP + PART + UNDER_A_PLOT };
    let range = parts.get(1).unwrap_or(&parts[0]);
    for (axis, left) in [0, 1].into_iter().zip(COLUMNS) {
        Section::new(tried, winner, axis, range, [left, SECTIONS_TOP]).draw(svg, name);
    }
    SECTIONS_TOP + section::HEIGHT + UNDER_A_PLOT
}

/// The lean, where all its numbers are finite.
fn lean(record: &Record) -> Option<Lean> {
    let (at, half) = record.lean()?;
    let is_finite = |both: &[f64; 2]| both.iter().all(|one| one.is_finite());
    let degrees = |both: [f64; 2]| both.map(f64::to_degrees);
    Some((at, half))
        .filter(|(at, half)| is_finite(at) && half.is_none_or(|half| is_finite(&half)))
        .map(|(at, half)| (degrees(at), half.map(degrees)))
}

fn degrees(one: &Tried) -> [f64; 2] {
    [one.seed.sensor.tilt_x.to_degrees(), one.seed.sensor.tilt_y.to_degrees()]
}

fn last_round(tried: &[Tried]) -> usize {
    tried.iter().map(|one| one.round).max().unwrap_or(0)
}

/// The whole search; then, around the winner, what the rounds after the first reach; then what the last three do.
fn parts(tried: &[Tried], winner: Option<&Tried>) -> Vec<Part> {
    let mut parts = vec![Part::around_all(tried, [COLUMNS[0], PARTS_TOP])];
    let Some(winner) = winner else { return parts };
    let last = last_round(tried);
    let asked = [("Part A", 1, last > 0), ("Part B", last.saturating_sub(2), last > 3)];
    for ((name, from, is_shown), left) in asked.into_iter().zip(&COLUMNS[1..]) {
        let rounds = tried.iter().filter(|one| one.round >= from);
        if is_shown {
            parts.extend(Part::around(winner, rounds, name, [*left, PARTS_TOP]));
        }
    }
    parts
}

/// How many tilts were tried, and the best of them.
fn summary(record: &Record, winner: Option<&Tried>) -> String {
    let tried = &record.tried;
    let skipped = tried.iter().filter(|one| one.outcome.score().is_none()).count();
    let won = winner.map_or("No winner.".into(), |winner| {
        let [x, y] = degrees(winner).map(|tilt| signed(tilt, 3));
        let errors = winner.scored.map_or(String::new(), |scored| {
            let rms = scored.rms.map_or(String::new(), |rms| format!(", RMS {rms:.3} px"));
            format!(", mean error {:.3} px{rms}", scored.mean)
        });
        let y = if record.is_one_axis() { "held at 0".into() } else { format!("{y}°") };
        let [_, name] = best_names(record);
        format!("{name}: no. {}, tilt x {x}°, tilt y {y}{errors}.", winner.number)
    });
    let counted =
        |count: usize, name: &str| format!("{count} {name}{}", if count == 1 { "" } else { "s" });
    let tilts = counted(tried.len(), "tilt");
    let rounds = match (last_round(tried), record.about("stopped")) {
        (0, Some(_)) => "stopped in the first round".into(),
        (0, None) => "no round after the first".into(),
        (rounds, _) => format!("{} after the first", counted(rounds, "round")),
    };
    format!("{tilts} tried, {skipped} skipped; {rounds}. {won}")
}

fn heading(svg: &mut Svg, record: &Record, winner: Option<&Tried>) {
    svg.text([COLUMNS[0], 34.0], "start", 20.0, INK, "Every tried tilt");
    if let Some(lean) = record.about("lean") {
        let lean = wrapped(&format!("Lean: {}.", lean.replace('-', "−")), LEAN_LETTERS);
        let top = 34.0 - 8.0 * (lean.len() - 1) as f64;
        for (i, line) in lean.iter().enumerate() {
            svg.text([BESIDE_HEADING, top + 16.0 * i as f64], "start", 12.0, LEAN, line);
        }
    }
    let summary = summary(record, winner);
    svg.text([COLUMNS[0], 58.0], "start", 13.0, INK, &summary);
    let is_guessed = record.about("centre").is_some_and(|centre| centre.contains("GUESSED"));
    if let Some(verdict) = record.about("verdict") {
        let colour = if verdict.starts_with("good") { GOOD } else { ALARM };
        svg.text([COLUMNS[0], 80.0], "start", 13.0, colour, &format!("Verdict: {verdict}."));
    }
    if let Some(mark) = record.about(UNCHECKED) {
        svg.text([COLUMNS[0], 80.0], "start", 15.0, ALARM, &format!("WARNING: {mark}"));
    }
    if is_guessed {
        svg.text(
            [COLUMNS[1], 80.0],
            "start",
            15.0,
            ALARM,
            "WARNING: the optical centre is GUESSED",
        );
    }
}

/// What was asked and found, line by line below the plots; gives where they end.
fn notes(svg: &mut Svg, record: &Record, plots: f64) -> f64 {
    let shown = record
        .about
        .iter()
        .filter(|(name, _)| !["bound_rad", LEAN_RADIANS, "lean"].contains(&name.as_str()));
    if shown.clone().count() == 0 {
        return plots;
    }
    let mut y = plots + 32.0;
    for (name, text) in shown {
        let colour = if ["against", UNCHECKED].contains(&name.as_str()) { ALARM } else { INK };
        for (i, line) in wrapped(text, LETTERS).iter().enumerate() {
            if i == 0 {
                svg.text([COLUMNS[0], y], "start", 12.0, colour, name);
            }
            svg.text([COLUMNS[0] + 62.0, y], "start", 12.0, colour, line);
            y += LINE;
        }
    }
    y
}

/// Lines of at most this many letters, split at spaces where there are any.
fn wrapped(text: &str, most: usize) -> Vec<String> {
    let mut lines = vec![String::new()];
    for word in text.split(' ') {
        let mut letters: Vec<char> = word.chars().collect();
        let last = lines.last_mut().expect("there is a line");
        if !last.is_empty() && last.chars().count() + 1 + letters.len() <= most {
            last.push(' ');
            last.extend(letters);
            continue;
        }
        if !last.is_empty() {
            lines.push(String::new());
        }
        while letters.len() > most {
            let rest = letters.split_off(most);
            lines.last_mut().expect("there is a line").extend(letters);
            lines.push(String::new());
            letters = rest;
        }
        lines.last_mut().expect("there is a line").extend(letters);
    }
    lines
}

#[cfg(test)]
mod tests {
    use super::wrapped;

    #[test]
    fn long_lines_are_parted_and_nothing_is_lost() {
        assert_eq!(wrapped("a bc def", 4), ["a bc", "def"]);
        assert_eq!(wrapped("abcdefgh i", 4), ["abcd", "efgh", "i"]);
        assert_eq!(wrapped("", 4), [""]);
    }
}
