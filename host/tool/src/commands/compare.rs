//! `compare`: where two journals part.

use super::{Asked, Command, End, Fault, Form, Words, give};
use crate::compare::{self, Comparison};
use crate::drift::{self, Drift, Told, drift};
use crate::json::Json;
use crate::screen::Screen;
use crate::summary;
use crate::walk::Walked;
use jinnychair::journal::Views;

pub(super) const COMMAND: Command = Command { name: "compare", run };

const FORM: Form = Form {
    missing: &["no journal is named", "no second journal is named"],
    most: 2,
    options: &[],
    flags: &["--json"],
};

fn run(words: Words, screen: &mut Screen) -> Result<End, Fault> {
    let asked = Asked::read(words, &FORM)?;
    let [a, b] = [Walked::read(&asked.files[0])?, Walked::read(&asked.files[1])?];
    for walked in [&a, &b] {
        if let (Some(_), Some(text)) = (walked.journal.bad_line(), walked.journal.ending_text()) {
            return Err(Fault::Failed(format!("{}: {text}", walked.path.display())));
        }
        screen.say(format!("{:15} {}", walked.path.display().to_string(), walked.found()));
    }
    let mut found = Comparison::default();
    let is_compared = compare_inputs(&a, &b, &mut found, screen);
    let [lines_a, lines_b] = [&a, &b].map(|walked| &walked.journal.lines[..]);
    compare::lines(lines_a, lines_b, &mut found);
    compare::winners(lines_a, lines_b, &mut found);
    found.said.iter().for_each(|line| screen.say(line));
    let endings = [&a, &b].into_iter();
    let cut = endings.filter_map(|walked| Some((&walked.path, walked.journal.ending_text()?)));
    let cut: Vec<String> = cut.map(|(path, text)| format!("{}: {text}", path.display())).collect();
    cut.iter().for_each(|text| screen.say(text));
    let drift = found.parted.as_ref().and_then(|_| say_drift([&a, &b], screen));
    match &found.parted {
        Some(place) => screen.say(format!("they part first {place}")),
        None => screen.say("the same, bit by bit"),
    }
    let are_the_runs = a.is_the_runs() && b.is_the_runs();
    let is_good = found.parted.is_none() && is_compared && cut.is_empty() && are_the_runs;
    let end = if is_good { End::Good } else { End::Doubtful };
    if !asked.has("--json") {
        return Ok(end);
    }
    give(object([&a, &b], found, is_compared, drift), end, screen)
}

/// What was found, for programs.
fn object(both: [&Walked; 2], found: Comparison, is_compared: bool, drift: Option<Drift>) -> Json {
    let journals = both.map(|walked| summary::walked(Json::Object(vec![]), walked));
    let drift = drift.map(|drift| Json::Object(summary::tilts(drift.by, Some(drift.within))));
    summary::head("compare")
        .with("journals", journals.to_vec())
        .with("is_same", found.parted.is_none() && is_compared)
        .with("parted", found.parted)
        .with("compared", found.said)
        .with("drift", drift)
}

/// How far the lean has moved from the first to the second, or why that isn't known.
fn say_drift(walked: [&Walked; 2], screen: &mut Screen) -> Option<Drift> {
    if have_the_same_views(walked) {
        screen.say("drift           not known: both searched the same views");
        return None;
    }
    let told = match walked.map(Told::new) {
        [Ok(a), Ok(b)] => [a, b],
        faults => {
            let why = faults.into_iter().find_map(Result::err).unwrap_or_default();
            screen.say(format!("drift           not known: {why}"));
            return None;
        }
    };
    for (walked, told) in walked.iter().zip(&told) {
        if told.points() > 0 {
            let (name, points) = (walked.path.display(), told.points());
            let points = if points == 1 { "one point".into() } else { format!("{points} points") };
            screen.say(format!("doubtful        {name}: {points} against it"));
        }
    }
    let found = drift(&told[0], &told[1]);
    screen.say(match &found {
        Ok(drift) => drift::text(drift),
        Err(why) => format!("drift           not known: {why}"),
    });
    found.ok()
}

/// Whether both searched the same views, whose errors are no measure of how far a second measurement lies off.
fn have_the_same_views(walked: [&Walked; 2]) -> bool {
    let views = walked.map(|walked| match &walked.inputs.as_ref()?.plate {
        Views::BuiltIn => Some(None),
        Views::File { sha256, .. } => Some(Some(sha256)),
    });
    views[0].is_some() && views[0] == views[1]
}

/// Compares the inputs where both have them; what is missing or damaged was reported before.
fn compare_inputs(a: &Walked, b: &Walked, found: &mut Comparison, screen: &mut Screen) -> bool {
    match (&a.inputs, &b.inputs) {
        (Some(a), Some(b)) => {
            compare::inputs(a, b, found);
            true
        }
        _ => {
            screen.say("inputs          not compared");
            false
        }
    }
}
