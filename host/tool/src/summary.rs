//! A result for programs: one object, whose form docs/RESULT.schema.json describes, and the same as a row of a table.

use crate::case::library_version;
use crate::drive::{Finished, Stop};
use crate::files::name_text;
use crate::json::Json;
use crate::open::Open;
use crate::page::{Kind, Told};
use crate::table::SKIPS;
use crate::verdict::Point;
use crate::walk::{State, Walked};
use jinnychair::journal::{StoredInputs, Views, inputs_path, sha256, stretch_winner};
use jinnychair::{Counts, SkipReason, Winner};
use std::path::Path;

/// The number of the object's form. It is raised with each change that a program would notice.
pub const FORM: usize = 1;

/// The head of an object.
#[must_use]
pub fn head(command: &str) -> Json {
    Json::Object(vec![
        ("jinnychair_result", FORM.into()),
        ("command", command.into()),
        ("program", library_version().into()),
    ])
}

/// What a command says that does nothing.
#[must_use]
pub fn of_fault(command: &str, fault: &str) -> Json {
    head(command).with("fault", fault)
}

/// A journal and what running it again says of it.
#[must_use]
pub fn journal(walked: &Walked) -> Json {
    let (state, why) = match &walked.state {
        State::Run => ("run", None),
        State::Unfinished(left) => ("unfinished", Some(left.clone())),
        State::NotTheRun { why, .. } => ("not_the_run", Some(why.clone())),
        State::NotRun(why) => ("not_run_again", Some(why.clone())),
    };
    let line = match walked.state {
        State::NotTheRun { line, .. } => Some(line),
        _ => None,
    };
    Json::Object(vec![
        ("file", name_text(&walked.path).into()),
        ("lines", walked.journal.lines.len().into()),
        ("bytes", walked.bytes.len().into()),
        ("sha256", walked.sha256().into()),
        ("state", state.into()),
        ("line", line.into()),
        ("why", why.into()),
        ("ending", walked.journal.ending_text().into()),
    ])
}

/// What a search started from.
#[must_use]
pub fn inputs(journal: &Path, stored: &StoredInputs) -> Json {
    let (views, sum) = match &stored.plate {
        Views::BuiltIn => (None, None),
        Views::File { name, sha256 } => (Some(name.clone()), Some(sha256.clone())),
    };
    Json::Object(vec![
        ("file", name_text(&inputs_path(journal)).into()),
        ("sha256", sha256(stored.text().as_bytes()).into()),
        ("date", stored.date.clone().into()),
        ("library", stored.library.clone().into()),
        ("host", stored.host.as_ref().map(ToString::to_string).into()),
        ("views_file", views.into()),
        ("views_sha256", sum.into()),
        ("views", stored.views.into()),
    ])
}

/// How many tilts were scored, and how many skipped for each reason.
#[must_use]
pub fn counts(counts: &Counts) -> Json {
    let name = |reason| match reason {
        SkipReason::HostFailed => "skipped_h",
        SkipReason::BadCamera => "skipped_c",
        SkipReason::NoMean => "skipped_e",
        SkipReason::NoNumber => "skipped_n",
        _ => "skipped",
    };
    let skipped = SKIPS.iter().map(|(reason, ..)| (name(*reason), counts.skipped(*reason).into()));
    let first = [("tried", counts.total().into()), ("scored", counts.scored.into())];
    Json::Object(first.into_iter().chain(skipped).collect())
}

fn stopped(stop: &Stop) -> Json {
    let progress = &stop.progress;
    Json::Object(vec![
        ("by", stop.why.clone().into()),
        ("round", progress.round.into()),
        ("rounds", progress.rounds.into()),
        ("tried_in_round", progress.answered.into()),
        ("of_round", progress.total.into()),
    ])
}

/// A tilt in degrees and radians, with its bound where that is known.
fn tilt(radians: f64, bound: Option<f64>) -> Json {
    Json::Object(vec![
        ("deg", radians.to_degrees().into()),
        ("rad", radians.into()),
        ("plus_minus_deg", bound.map(f64::to_degrees).into()),
        ("plus_minus_rad", bound.into()),
    ])
}

/// Both tilts with their bounds.
#[must_use]
pub fn tilts([x, y]: [f64; 2], bounds: Option<[f64; 2]>) -> Vec<(&'static str, Json)> {
    let bound = |i: usize| bounds.map(|bounds| bounds[i]);
    vec![("tilt_x", tilt(x, bound(0))), ("tilt_y", tilt(y, bound(1)))]
}

/// A winner, or the best so far; its bounds where they are known. Without the views they aren't: the steps and the centre
/// alone leave out what noise and the lens leave open.
#[must_use]
pub fn winner(won: &Winner, open: Option<&Open>) -> Json {
    let open = open.filter(|open| open.winner.is_some());
    let mut fields = vec![("number", won.number.into()), ("score", won.score.into())];
    fields.push(("mean_px", won.mean_reproj_error.into()));
    fields.extend(tilts([won.sensor.tilt_x, won.sensor.tilt_y], open.map(Open::winner_total)));
    let (k, dist) = (won.camera.k, won.camera.dist);
    let numbers = [
        ("fx_px", k.fx),
        ("fy_px", k.fy),
        ("cx_px", k.cx),
        ("cy_px", k.cy),
        ("k1", dist.k1),
        ("k2", dist.k2),
        ("p1", dist.p1),
        ("p2", dist.p2),
        ("k3", dist.k3),
    ];
    let camera = numbers.into_iter().map(|(name, number)| (name, number.into()));
    fields.push(("camera", Json::Object(camera.collect())));
    Json::Object(fields)
}

/// The lean, where the views determine one.
fn lean(open: &Open) -> Json {
    open.lean.map_or(Json::Null, |lean| {
        Json::Object(tilts(lean, open.lean_total()))
            .with("is_tilt_y_held", open.held.is_some())
            .with("is_centre_exact", open.centre_within.is_none())
            .with("centre_within_px", open.centre_within)
    })
}

/// The verdict's word, and the reasons with their codes.
fn verdict(word: &str, against: &[Point]) -> Json {
    let reason = |point: &Point| {
        Json::Object(vec![
            ("code", point.code.into()),
            ("what", point.what.clone().into()),
            ("remedy", point.remedy.clone().into()),
        ])
    };
    let reasons: Vec<Json> = against.iter().map(reason).collect();
    Json::Object(vec![("word", word.into()), ("reasons", reasons.into())])
}

/// What was found of a search: its counts, how it was stopped, winner, lean and verdict. `against` has the reasons, or why
/// there is no winner.
#[must_use]
pub fn of_search(
    head: Json,
    finished: &Finished,
    open: Option<&Open>,
    against: Result<&[Point], &str>,
) -> Json {
    let (word, points) = match against {
        Ok([]) => ("good", &[][..]),
        Ok(points) => ("doubtful", points),
        Err(_) => ("no_winner", &[][..]),
    };
    let won = finished.winner.as_ref().ok().map(|won| winner(won, open));
    head.with("counts", counts(&finished.counts))
        .with("stopped", finished.stop.as_ref().map(stopped))
        .with("winner", won)
        .with("lean", open.map(lean))
        .with("verdict", verdict(word, points).with("no_winner", against.err()))
        .with("views_missing", Json::Null)
}

/// A journal as far as it can be described without the views: what isn't known is null, and so is the winner of a journal that
/// couldn't be run again.
#[must_use]
pub fn of_walked(command: &str, walked: &Walked) -> Json {
    self::walked(head(command), walked)
}

/// The same behind another head.
#[must_use]
pub fn walked(head: Json, walked: &Walked) -> Json {
    let lines = &walked.journal.lines;
    let is_shown = walked.fault().is_none();
    let best = stretch_winner(lines).filter(|_| walked.is_the_runs());
    let stop =
        walked.search.as_ref().and_then(|search| crate::drive::as_it_stands(search, vec![]).stop);
    head.with("journal", journal(walked))
        .with("inputs", walked.inputs.as_ref().map(|stored| inputs(&walked.path, stored)))
        .with("counts", Some(counts(&Counts::of(lines))).filter(|_| is_shown))
        .with("stopped", stop.as_ref().filter(|_| is_shown).map(stopped))
        .with("winner", best.as_ref().map(|won| winner(won, None)))
}

/// A journal that is the run's, with its verdict, and the views where they are at hand.
#[must_use]
pub fn of_told(command: &str, walked: &Walked, told: &Told) -> Json {
    let (finished, open, against) = told.found();
    let word = match told.kind {
        Kind::Good => "good",
        Kind::Doubtful => "doubtful",
        Kind::Part => "not_whole",
        Kind::Failed => "no_winner",
    };
    let won = finished.winner.as_ref().ok().map(|won| winner(won, open));
    let no_winner = finished.winner.as_ref().err().map(ToString::to_string);
    head(command)
        .with("journal", journal(walked))
        .with("inputs", walked.inputs.as_ref().map(|stored| inputs(&walked.path, stored)))
        .with("counts", counts(&finished.counts))
        .with("stopped", finished.stop.as_ref().map(stopped))
        .with("winner", won)
        .with("lean", open.map(lean))
        .with("verdict", verdict(word, against).with("no_winner", no_winner))
        .with("views_missing", told.no_views())
}

/// The columns of a row, and where in the object each stands.
pub const COLUMNS: &[(&str, &str)] = &[
    ("file", "journal.file"),
    ("date", "inputs.date"),
    ("state", "journal.state"),
    ("verdict", "verdict.word"),
    ("reasons", "verdict.reasons"),
    ("lean_x_deg", "lean.tilt_x.deg"),
    ("lean_x_plus_minus_deg", "lean.tilt_x.plus_minus_deg"),
    ("lean_y_deg", "lean.tilt_y.deg"),
    ("lean_y_plus_minus_deg", "lean.tilt_y.plus_minus_deg"),
    ("winner", "winner.number"),
    ("winner_x_deg", "winner.tilt_x.deg"),
    ("winner_x_plus_minus_deg", "winner.tilt_x.plus_minus_deg"),
    ("winner_y_deg", "winner.tilt_y.deg"),
    ("winner_y_plus_minus_deg", "winner.tilt_y.plus_minus_deg"),
    ("score", "winner.score"),
    ("mean_px", "winner.mean_px"),
    ("tried", "counts.tried"),
    ("scored", "counts.scored"),
    ("skipped_h", "counts.skipped_h"),
    ("skipped_c", "counts.skipped_c"),
    ("skipped_e", "counts.skipped_e"),
    ("skipped_n", "counts.skipped_n"),
    ("views_file", "inputs.views_file"),
    ("fault", "fault"),
];

/// The first row of a table.
#[must_use]
pub fn heads() -> String {
    COLUMNS.iter().map(|column| column.0).collect::<Vec<_>>().join(",")
}

/// An object as a row (RFC 4180). What isn't known is empty; reasons are their codes, separated by spaces.
#[must_use]
pub fn row(object: &Json) -> String {
    let field = |path: &str| match object.at(path) {
        None | Some(Json::Null) => String::new(),
        Some(Json::Text(text)) => quoted(text),
        Some(Json::List(reasons)) => {
            let codes = reasons.iter().filter_map(|reason| match reason.at("code") {
                Some(Json::Text(code)) => Some(code.as_str()),
                _ => None,
            });
            quoted(&codes.collect::<Vec<_>>().join(" "))
        }
        Some(other) => other.to_string(),
    };
    COLUMNS.iter().map(|column| field(column.1)).collect::<Vec<_>>().join(",")
}

fn quoted(text: &str) -> String {
    if text.contains([',', '"', '\n', '\r']) {
        format!("\"{}\"", text.replace('"', "\"\""))
    } else {
        text.into()
    }
}
