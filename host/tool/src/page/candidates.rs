//! Every tried tilt, in a table that a click on a heading sorts.

use super::html::{escaped, paragraph, section, wide};
use crate::drive::{Finished, Scored, Source, Tried};
use crate::table::{SKIPS, letter, source_text};

/// For each column the name behind `#sort=`, its heading, and whether it holds numbers.
const COLUMNS: [(&str, &str, bool); 16] = [
    ("no", "No.", true),
    ("round", "Round", true),
    ("seed", "Seed", false),
    ("tilt-x", "Tilt x °", true),
    ("tilt-y", "Tilt y °", true),
    ("outcome", "Outcome", false),
    ("score", "Score", true),
    ("mean", "Mean px", true),
    ("rms", "RMS px", true),
    ("dots", "Dots", true),
    ("fx", "fx px", true),
    ("fy", "fy px", true),
    ("cx", "cx px", true),
    ("cy", "cy px", true),
    ("p1", "p1", true),
    ("p2", "p2", true),
];

/// What stands in a cell, and the number by which it is sorted; where it has none, a text goes by its letters.
struct Cell(String, Option<f64>);

/// The table; nothing where no tilt was tried.
pub fn table(finished: &Finished) -> String {
    if finished.tried.is_empty() {
        return String::new();
    }
    let winner = finished.winner.as_ref().ok().map(|winner| winner.number);
    let rows: String =
        finished.tried.iter().map(|one| row(one, winner == Some(one.number))).collect();
    let head = |&(name, heading, is_number): &(&str, &str, bool)| {
        let class = if is_number { " class=\"n\"" } else { "" };
        let sorted = if name == "no" { "ascending" } else { "none" };
        let heading = escaped(heading);
        format!(
            "<th scope=\"col\" id=\"by-{name}\"{class} aria-sort=\"{sorted}\"><span>{heading}</span></th>"
        )
    };
    let table = format!(
        "<table class=\"list\" id=\"candidates\"><thead><tr>{}</tr></thead><tbody>\n{rows}</tbody></table>",
        COLUMNS.iter().map(head).collect::<String>()
    );
    let click = "Click a heading to sort by it, and again for the other order.";
    let notes = paragraph("note", &notes(finished)) + &paragraph("script", click);
    section("candidates", "Candidates", &(notes + &wide(&table)))
}

/// What the table's signs mean.
fn notes(finished: &Finished) -> String {
    let star = match (&finished.winner, &finished.stop) {
        (Err(_), _) => "",
        (Ok(_), None) => "★ the winner. ",
        (Ok(_), Some(_)) => "★ the best so far. ",
    };
    let skips = SKIPS.iter().map(|(_, letter, words)| format!("{letter} skipped: {words}"));
    format!(
        "{star}S scored; {}. A cell without a number has a minus sign. Candidates are counted from 0. Numbers are \
         rounded; the journal has every bit.",
        skips.collect::<Vec<_>>().join("; ")
    )
}

fn row(one: &Tried, is_winner: bool) -> String {
    let class = match one.outcome.score() {
        _ if is_winner => " class=\"won\"",
        Some(_) => "",
        None => " class=\"skipped\"",
    };
    let cells =
        cells(one, is_winner).into_iter().zip(COLUMNS).map(|(Cell(text, value), column)| {
            let (text, value) = (escaped(&text), value.filter(|value| value.is_finite()));
            let class = if column.2 { " class=\"n\"" } else { "" };
            match value {
                Some(value) => format!("<td{class} data-v=\"{value}\">{text}</td>"),
                None if column.2 => format!("<td{class} data-v=\"\">{text}</td>"),
                None => format!("<td>{text}</td>"),
            }
        });
    format!("<tr{class}>{}</tr>\n", cells.collect::<String>())
}

fn cells(one: &Tried, is_winner: bool) -> Vec<Cell> {
    let number = |value: Option<f64>, digits: usize| {
        Cell(value.map_or("−".into(), |value| format!("{value:.digits$}")), value)
    };
    let of = |of: fn(&Scored) -> f64, digits: usize| number(one.scored.as_ref().map(of), digits);
    let sensor = one.seed.sensor;
    let star = if is_winner { "★ " } else { "" };
    let dots = one.dots.map_or(Cell("−".into(), None), |dots| {
        Cell(format!("{}/{}", dots.counted, dots.all), Some(dots.counted as f64))
    });
    vec![
        Cell(format!("{star}{}", one.number), Some(one.number as f64)),
        Cell(one.round.to_string(), Some(one.round as f64)),
        Cell(source_text(one.source), Some(source_order(one.source))),
        number(Some(sensor.tilt_x.to_degrees()), 4),
        number(Some(sensor.tilt_y.to_degrees()), 4),
        Cell(letter(&one.outcome).into(), None),
        number(one.outcome.score(), 6),
        of(|scored| scored.mean, 6),
        number(one.scored.and_then(|scored| scored.rms), 6),
        dots,
        of(|scored| scored.camera.k.fx, 3),
        of(|scored| scored.camera.k.fy, 3),
        of(|scored| scored.camera.k.cx, 3),
        of(|scored| scored.camera.k.cy, 3),
        of(|scored| scored.camera.dist.p1, 5),
        of(|scored| scored.camera.dist.p2, 5),
    ]
}

/// The decomposition's seeds, a file's, the grid's, then those of rounds by the candidate that they lie around.
fn source_order(source: Source) -> f64 {
    match source {
        Source::Decomposition => -3.0,
        Source::SeedFile => -2.0,
        Source::Grid => -1.0,
        Source::Around(number) => number as f64,
    }
}
