//! A journal is believed only after it is run again from the inputs beside it.

use crate::drive::{self, JOURNAL_END};
use crate::files::read_bytes;
use crate::journal::{Journal, read_inputs};
use jinnychair::journal::{EndedBy, Resumed, StoredInputs, inputs_path, sha256, what_differs};
use jinnychair::{LineRefusal, ResultError, Search};
use std::path::{Path, PathBuf};
use std::sync::OnceLock;

/// What running a journal again says of it.
#[derive(Clone, Debug, PartialEq)]
pub enum State {
    /// Every line is the run's, and the run is over.
    Run,
    /// Every line is the run's, and the run isn't over: what is left of it, in words.
    Unfinished(String),
    /// From this line on, counted from 1, they aren't, and why.
    NotTheRun {
        /// The first line that isn't.
        line: usize,
        /// Why, with the number, and what to do.
        why: String,
    },
    /// It can't be run again, and why.
    NotRun(String),
}

/// A journal that was read and, where its inputs are beside it, run again.
#[derive(Debug)]
pub struct Walked {
    /// Its file.
    pub path: PathBuf,
    /// Its bytes.
    pub bytes: Vec<u8>,
    /// Its lines.
    pub journal: Journal,
    /// What it started from, where that is beside it and whole.
    pub inputs: Option<StoredInputs>,
    /// The search, as the lines leave it that are the run's.
    pub search: Option<Search>,
    /// What was found.
    pub state: State,
    sha256: OnceLock<String>,
}

impl Walked {
    /// Reads a journal, to which a search may be writing, and runs it again.
    ///
    /// # Errors
    ///
    /// Names the file and why it can't be read.
    pub fn read(path: &Path) -> Result<Self, String> {
        Ok(Self::of_bytes(path, read_bytes(path)?))
    }

    /// Runs the bytes of a journal again.
    #[must_use]
    pub fn of_bytes(path: &Path, bytes: Vec<u8>) -> Self {
        let journal = Journal::parse(&bytes);
        let beside = inputs_path(path);
        let inputs = match beside.exists() {
            true => read_inputs(path),
            false => Err(format!("{}: there is no such file", beside.display())),
        };
        let walked = inputs.and_then(|inputs| {
            let start =
                |error| format!("{}: no search can start from them: {error}", beside.display());
            let resumed = Search::resume(&inputs.inputs(), &bytes).map_err(start)?;
            Ok((inputs, resumed))
        });
        let (path, sha256) = (path.to_owned(), OnceLock::new());
        match walked {
            Ok((inputs, resumed)) => {
                let state = state(&inputs, &resumed, &journal, &bytes);
                let (inputs, search) = (Some(inputs), Some(resumed.search));
                Self { path, bytes, journal, inputs, search, state, sha256 }
            }
            Err(why) => {
                let state = match journal.bad_line() {
                    Some((line, why)) => State::NotTheRun { line, why },
                    None => State::NotRun(why),
                };
                Self { path, bytes, journal, inputs: None, search: None, state, sha256 }
            }
        }
    }

    /// The checksum of its bytes.
    #[must_use]
    pub fn sha256(&self) -> &str {
        self.sha256.get_or_init(|| sha256(&self.bytes))
    }

    /// Whether every line is the run's, as far as there are lines.
    #[must_use]
    pub fn is_the_runs(&self) -> bool {
        matches!(self.state, State::Run | State::Unfinished(_))
    }

    /// What is marked on whatever is made of a journal that isn't known to be the run's.
    #[must_use]
    pub fn mark(&self) -> Option<String> {
        match &self.state {
            State::Run | State::Unfinished(_) => None,
            State::NotTheRun { line, .. } => {
                Some(format!("UNCHECKED: not the run's from line {line} on"))
            }
            State::NotRun(_) => Some("UNCHECKED: it couldn't be run again".into()),
        }
    }

    /// What is wrong with a journal that isn't the run's.
    #[must_use]
    pub fn fault(&self) -> Option<String> {
        let State::NotTheRun { line, why } = &self.state else { return None };
        Some(format!("{}: not the run's from line {line} on: {why}", self.path.display()))
    }

    /// What was found, in words.
    #[must_use]
    pub fn found(&self) -> String {
        match &self.state {
            State::Run => {
                format!("the run's: run again from {}.inputs, bit by bit", self.path.display())
            }
            State::Unfinished(left) => format!("the run's, and unfinished: {left}"),
            State::NotTheRun { line, why } => {
                format!("UNCHECKED: not the run's from line {line} on: {why}")
            }
            State::NotRun(why) => format!("UNCHECKED: it couldn't be run again: {why}"),
        }
    }

    /// The same with the end of the file and with what to do, line by line.
    #[must_use]
    pub fn text(&self) -> String {
        let name = self.path.display();
        let mut text = format!("checked         {}", self.found());
        if let State::Unfinished(_) = self.state {
            text += &format!("\nto do           `jinnychair resume {name}` goes on with it");
        }
        match self.journal.ending_text() {
            Some(ending) if self.journal.bad_line().is_none() => {
                format!("{name}: {ending}\n{text}")
            }
            _ => text,
        }
    }

    /// Whether there is nothing to be said against it: it is the run's, over, and ends with its last line.
    #[must_use]
    pub fn is_good(&self) -> bool {
        self.state == State::Run && self.journal.ending_text().is_none()
    }
}

fn state(inputs: &StoredInputs, resumed: &Resumed, journal: &Journal, bytes: &[u8]) -> State {
    let Resumed { search, kept_lines } = resumed;
    if let Some((line, why)) = journal.bad_line().filter(|(line, _)| *line == kept_lines.lines + 1)
    {
        return State::NotTheRun { line, why };
    }
    let why = match kept_lines.ended_by {
        EndedBy::Nothing | EndedBy::MissingNewline => {
            return match search.result() {
                Err(ResultError::NotOver) => State::Unfinished(left(search)),
                _ => State::Run,
            };
        }
        EndedBy::NotALine | EndedBy::NotTheRun => {
            let refusal = LineRefusal::NotTheRun;
            let why = what_differs(&inputs.inputs(), bytes);
            let why = why.map_or(refusal.fault().into(), |why| why.to_string());
            format!("{why} ({}). {}", refusal.number(), refusal.remedy())
        }
    };
    State::NotTheRun { line: kept_lines.lines + 1, why }
}

/// What is left of a run that isn't over.
fn left(search: &Search) -> String {
    let stop = drive::as_it_stands(search, vec![]).stop;
    let place = stop.map_or(String::new(), |stop| crate::report::stop_place(&stop));
    let later = search.progress().rounds - search.progress().round;
    let place = place.strip_prefix(&format!("by {JOURNAL_END}, ")).unwrap_or(&place).to_owned();
    format!("{place}; {later} rounds follow")
}
