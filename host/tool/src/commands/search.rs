//! `search`: reads the views, says what will be tried, runs the search, shows the winner and the verdict, writes a
//! table and a chart.

use super::outputs::{Names, Outputs};
use super::{Command, End, Fault, Word, Words, twice, unknown};
use crate::case::Case;
use crate::choices::Choices;
use crate::drive::Finished;
use crate::files::{name_text, read, read_with_checksum};
use crate::json::Json;
use crate::output::{Output, Over};
use crate::screen::Screen;
use crate::summary;
use crate::synthetic::{BUILT_IN, built_in_text};
use crate::verdict::Point;
use crate::views::{self, Plate};
use crate::walk::Walked;
use jinnychair::journal::Views;
use std::fs;
use std::path::{Path, PathBuf};

pub(super) const COMMAND: Command = Command { name: "search", run };

/// What the words ask for.
#[derive(Default)]
struct Asked {
    views: Option<PathBuf>,
    names: Names,
    write_views: Option<PathBuf>,
    journal: Option<PathBuf>,
    choices: Choices,
    choices_file: Option<PathBuf>,
}

impl Asked {
    fn read(mut words: Words) -> Result<Self, Fault> {
        let mut asked = Self::default();
        while let Some(word) = words.next()? {
            match word {
                Word::File(path) if asked.views.is_some() => {
                    return Err(unknown(&path.display().to_string()));
                }
                Word::File(path) => asked.views = Some(path.into()),
                Word::Option(option) => asked.take(&option, &mut words)?,
            }
        }
        if let Some(path) = &asked.choices_file {
            let fault = |fault: String| format!("{}: {fault}", path.display());
            asked.choices = asked.choices.or(Choices::parse(&read(path)?).map_err(fault)?);
        }
        asked.choices.check().map_err(Fault::Usage)?;
        Ok(asked)
    }

    fn take(&mut self, option: &str, words: &mut Words) -> Result<(), Fault> {
        if self.names.take(option, words)? {
            return Ok(());
        }
        let place = match option {
            "--write-views" => &mut self.write_views,
            "--journal" => &mut self.journal,
            "--options" => &mut self.choices_file,
            _ => {
                let name = option.strip_prefix("--").ok_or_else(|| unknown(option))?;
                let mut value = || match words.value(option) {
                    Ok(value) => Ok(value),
                    Err(Fault::Usage(fault) | Fault::Failed(fault)) => Err(fault),
                };
                let set = self.choices.set(name, &mut value);
                let named = |fault: String| {
                    if fault.starts_with(option) { fault } else { format!("{option}: {fault}") }
                };
                let is_known = set.map_err(|fault| Fault::Usage(named(fault)))?;
                return if is_known { Ok(()) } else { Err(unknown(option)) };
            }
        };
        match place.replace(words.file(option)?.into()) {
            Some(_) => Err(twice(option)),
            None => Ok(()),
        }
    }

    fn inputs(&self) -> Vec<&Path> {
        let all = [&self.views, &self.choices_file, &self.choices.seeds];
        all.into_iter().flatten().map(PathBuf::as_path).collect()
    }
}

fn run(words: Words, screen: &mut Screen) -> Result<End, Fault> {
    let asked = Asked::read(words)?;
    if let Some(path) = &asked.write_views {
        let over = Over::Nothing.or_all(asked.names.force);
        let out = Output::open(path, "--write-views", over, &asked.inputs())?;
        screen.leave_to([&out]);
        out.write(&BUILT_IN.plate().text())?;
        screen.say(format!("written: {}", out.name()));
        return Ok(End::Good);
    }
    let journal = asked.journal.as_deref();
    let outputs = asked.names.open(&asked.inputs(), journal)?;
    screen.leave_to(outputs.all());
    let (plate, from) = plate(&asked)?;
    let case = Case::new(plate, from, &asked.choices, screen)?;
    screen.say(case.plan().text());
    let finished = case.search(journal).map_err(|fault| way_on(fault, journal))?;
    let result = asked.names.json.then_some("search");
    conclude(&case, finished, journal, (&outputs, result), screen)
}

/// Shows how a search ended, and writes table and chart; gives the result to programs where a command's name says so.
pub(super) fn conclude(
    case: &Case,
    finished: Finished,
    journal: Option<&Path>,
    (outputs, result): (&Outputs, Option<&str>),
    screen: &mut Screen,
) -> Result<End, Fault> {
    let is_stopped = finished.stop.is_some();
    if let Some(path) = journal {
        screen.say(format!("journal         {}, {} lines", path.display(), finished.tried.len()));
    }
    let kept = result.map(|command| (command, finished.clone()));
    let (record, against) = case.show(finished, screen);
    let written = outputs.write(&record, screen);
    if is_stopped {
        screen.say(format!("to do           {}", how_to_go_on(journal)));
    }
    if let Some((command, finished)) = kept {
        let code = match (&written, &against) {
            (Err(_), _) | (_, Err(_)) => 1,
            (_, Ok(against)) => {
                if against.is_empty() {
                    0usize
                } else {
                    3
                }
            }
        };
        let object = object(case, command, &finished, journal, &against)?;
        let fault = written.as_ref().err().map(|fault| fault.text().to_owned());
        let object = object.with("written", outputs.names()).with("fault", fault);
        screen.give(&object.with("exit_code", code).to_string());
    }
    written?;
    let against = against?;
    Ok(if against.is_empty() { End::Good } else { End::Doubtful })
}

/// The result for programs.
fn object(
    case: &Case,
    command: &str,
    finished: &Finished,
    journal: Option<&Path>,
    against: &Result<Vec<Point>, String>,
) -> Result<Json, String> {
    let judged =
        finished.winner.as_ref().ok().map(|winner| case.judge(finished, winner)).transpose()?;
    let open = judged.as_ref().map(|judged| &judged.open);
    let walked = journal.map(Walked::read).transpose()?;
    let inputs = walked.as_ref().and_then(|walked| Some((&walked.path, walked.inputs.as_ref()?)));
    let head = summary::head(command)
        .with("journal", walked.as_ref().map(summary::journal))
        .with("inputs", inputs.map(|(path, inputs)| summary::inputs(path, inputs)));
    let against = against.as_ref().map(Vec::as_slice).map_err(String::as_str);
    Ok(summary::of_search(head, finished, open, against))
}

/// A fault of a disk, and what to do once there is room: the lines before it are kept.
fn way_on(fault: String, journal: Option<&Path>) -> String {
    let has_lines = |path: &&Path| fs::metadata(path).is_ok_and(|file| file.len() > 0);
    match journal.filter(has_lines).filter(|_| fault.contains(": can't be written: ")) {
        Some(path) => {
            format!("{fault}. Then `jinnychair resume {}` goes on with it", path.display())
        }
        None => fault,
    }
}

/// What to do with a search that was stopped.
fn how_to_go_on(journal: Option<&Path>) -> String {
    match journal {
        Some(path) => format!("`jinnychair resume {}` goes on with it", path.display()),
        None => "this search can't be gone on with: it has no journal (--journal FILE)".into(),
    }
}

/// The views, where they come from, and what they are in words.
fn plate(asked: &Asked) -> Result<(Plate, (Views, String)), Fault> {
    let (plate, from, input) = match &asked.views {
        None => (BUILT_IN.plate(), Views::BuiltIn, built_in_text()),
        Some(path) => {
            let fault = |fault: views::ViewsError| format!("{}: {fault}", path.display());
            let (text, sha256) = read_with_checksum(path)?;
            let name = name_text(path);
            let from = Views::File { name: name.clone(), sha256 };
            (Plate::parse(&text).map_err(fault)?, from, name)
        }
    };
    match (asked.choices.centre.or(plate.centre), asked.choices.guess_centre) {
        (None, None) => Err(Fault::Usage(format!(
            "{input}: no optical centre is stated, and a wrong centre looks exactly like a tilt. State it with \
             --centre X Y, or by a line `centre X Y` in the file. --guess-centre searches with a guess, whose tilts \
             can't be relied on"
        ))),
        (Some(_), Some(())) => {
            Err(Fault::Usage(format!("{input}: a centre is stated, so leave --guess-centre out")))
        }
        _ => Ok((plate, (from, input))),
    }
}
