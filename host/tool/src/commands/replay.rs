//! `replay`: the winner of a journal, worked out again from its lines and its inputs alone.

use super::{Asked, Command, End, Fault, Form, Words, give};
use crate::angle::degrees;
use crate::files::read_bytes;
use crate::journal::{Ending, Journal, read_inputs};
use crate::screen::Screen;
use crate::stretches::winner_text;
use crate::summary;
use crate::walk::Walked;
use jinnychair::journal::{
    Line, Replayed, StoredInputs, inputs_path, replay, stretch_winner, what_differs,
};
use jinnychair::{LineRefusal, ReplayError, ResultError, Seed};
use std::path::Path;

pub(super) const COMMAND: Command = Command { name: "replay", run };

const FORM: Form =
    Form { missing: &["no journal is named"], most: 1, options: &[], flags: &["--json"] };

fn run(words: Words, screen: &mut Screen) -> Result<End, Fault> {
    let asked = Asked::read(words, &FORM)?;
    let path = asked.files[0].clone();
    let bytes = read_bytes(&path)?;
    let inputs = read_inputs(&path)?;
    let journal = Journal::parse(&bytes);
    screen.say(format!("journal         {}, {} lines", path.display(), journal.lines.len()));
    let replayed = replay(&inputs.inputs(), &bytes)
        .map_err(|error| fault(&path, error, &inputs, (&bytes, &journal)))?;
    let end = match replayed {
        Replayed::Winner { number, score } => {
            screen.say(winner(number, score, &journal.lines)?);
            End::Good
        }
        Replayed::NothingScored => {
            let cause = ResultError::NothingScored;
            return Err(Fault::Failed(format!("{}: no winner: {cause}", path.display())));
        }
        Replayed::Unfinished(next) => {
            screen.say(unfinished(&journal.lines, &next));
            let name = path.display();
            screen.say(format!("to do           `jinnychair resume {name}` goes on with it"));
            End::Doubtful
        }
    };
    if !asked.has("--json") {
        return Ok(end);
    }
    let walked = Walked::of_bytes(&path, bytes);
    give(summary::of_walked("replay", &walked), end, screen)
}

/// The winner's number and score as the run has them, its tilts and errors as its line has them.
fn winner(number: usize, score: f64, lines: &[Line]) -> Result<String, String> {
    let line = lines.get(number).ok_or("the winner isn't among the lines")?;
    let tilt = |radians: f64| format!("{:+.4}°   ({radians:+.6} rad)", radians.to_degrees());
    let sensor = line.seed.sensor;
    Ok([
        format!("winner          candidate {number} of {}, line {}", lines.len(), number + 1),
        format!("score           {score:.5}   ({score:?})"),
        format!("tilt x          {}", tilt(sensor.tilt_x)),
        format!("tilt y          {}", tilt(sensor.tilt_y)),
    ]
    .join("\n"))
}

/// What is left of a run that isn't over.
fn unfinished(lines: &[Line], next: &Seed) -> String {
    let [x, y] = [next.sensor.tilt_x, next.sensor.tilt_y].map(degrees);
    let best = stretch_winner(lines);
    let best = best.map_or("nothing is scored yet".into(), |best| winner_text(&best));
    [
        "unfinished      the journal ends before the run is over".into(),
        format!("next            no. {} at {x}° {y}°", lines.len()),
        format!("best so far     {best}"),
    ]
    .join("\n")
}

/// What is wrong with the inputs or with a line, and what to do.
fn fault(
    path: &Path,
    error: ReplayError,
    inputs: &StoredInputs,
    (bytes, journal): (&[u8], &Journal),
) -> Fault {
    let (name, beside) = (path.display(), inputs_path(path));
    Fault::Failed(match error {
        ReplayError::Start(error) => {
            format!("{}: no search can start from them: {error}", beside.display())
        }
        ReplayError::NotALine { line } if journal.ending == Ending::Cut(line) => format!(
            "{name}: line {line} has no end (29): it was cut off, or is being written. The lines before it are good: \
             `jinnychair resume {name}` goes on behind them"
        ),
        ReplayError::NotTheRun { line } => {
            let refusal = LineRefusal::NotTheRun;
            let why = what_differs(&inputs.inputs(), bytes);
            let why = why.map_or(refusal.fault().into(), |difference| difference.to_string());
            format!("{name}: line {line}: {why} ({}). {}", refusal.number(), refusal.remedy())
        }
        ReplayError::NotALine { line } => {
            let (why, remedy) = journal.not_a_line();
            format!("{name}: line {line}: {why}. {remedy}")
        }
        error => format!("{name}: {error}"),
    })
}
