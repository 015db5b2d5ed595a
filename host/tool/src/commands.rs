//! The sub-commands. Each reads its own words and ends good, failed or doubtful.

mod chart;
mod compare;
mod known_camera;
mod outputs;
mod replay;
mod report;
mod resume;
mod search;
mod show;

use crate::case::library_version;
use crate::json::Json;
use crate::screen::{Screen, aside};
use crate::summary;
use crate::typed::{escaped, shown};
use crate::walk::Walked;
use std::collections::{BTreeMap, BTreeSet, VecDeque};
use std::ffi::OsString;
use std::os::unix::ffi::{OsStrExt, OsStringExt};
use std::path::PathBuf;
use std::process::ExitCode;

/// How a command ends when it does its work.
#[derive(Clone, Copy, Debug, PartialEq, Eq)]
pub enum End {
    /// Exit code 0.
    Good,
    /// Exit code 3: there is a result, and the program has said why it may be wrong.
    Doubtful,
}

impl End {
    fn code(self) -> usize {
        match self {
            Self::Good => 0,
            Self::Doubtful => 3,
        }
    }
}

/// Why a command doesn't do its work.
#[derive(Clone, Debug, PartialEq, Eq)]
pub enum Fault {
    /// Exit code 1.
    Failed(String),
    /// Exit code 2: the words are wrong.
    Usage(String),
}

impl Fault {
    fn text(&self) -> &str {
        let (Self::Failed(text) | Self::Usage(text)) = self;
        text
    }
}

impl From<String> for Fault {
    fn from(fault: String) -> Self {
        Self::Failed(fault)
    }
}

/// A sub-command.
struct Command {
    name: &'static str,
    run: fn(Words, &mut Screen) -> Result<End, Fault>,
}

const COMMANDS: &[Command] = &[
    search::COMMAND,
    resume::COMMAND,
    report::COMMAND,
    show::COMMAND,
    chart::COMMAND,
    replay::COMMAND,
    compare::COMMAND,
    known_camera::COMMAND,
];

/// What is said of the program, and then of each command. The wrapper of the repository shows these files as they are.
pub(crate) const HELPS: &[(&str, &str)] = &[
    ("", include_str!("commands/jinnychair.txt")),
    ("search", include_str!("commands/search.txt")),
    ("resume", include_str!("commands/resume.txt")),
    ("report", include_str!("commands/report.txt")),
    ("show", include_str!("commands/show.txt")),
    ("chart", include_str!("commands/chart.txt")),
    ("replay", include_str!("commands/replay.txt")),
    ("compare", include_str!("commands/compare.txt")),
    ("known-camera", include_str!("commands/known-camera.txt")),
];

/// What stands behind each of them.
pub(crate) const EXIT_CODES: &str = include_str!("commands/exit-codes.txt");

/// The words after the program's name, or after a command's.
pub struct Words {
    left: VecDeque<OsString>,
    /// An option that was written with `=` and its value, until that is taken.
    attached: Option<(String, OsString)>,
}

/// A word: an option, or the name of a file.
enum Word {
    Option(String),
    File(OsString),
}

impl Words {
    fn new(words: Vec<OsString>) -> Self {
        Self { left: words.into(), attached: None }
    }

    /// The next option or file.
    fn next(&mut self) -> Result<Option<Word>, Fault> {
        if let Some((option, _)) = &self.attached {
            return Err(Fault::Usage(format!("{option} takes no value")));
        }
        let Some(word) = self.left.pop_front() else { return Ok(None) };
        let bytes = word.as_bytes();
        if !bytes.starts_with(b"-") {
            return Ok(Some(Word::File(word)));
        }
        let split = bytes.iter().position(|byte| *byte == b'=').unwrap_or(bytes.len());
        let option = utf8(OsString::from_vec(bytes[..split].to_vec()))?;
        if split < bytes.len() {
            self.attached = Some((option.clone(), OsString::from_vec(bytes[split + 1..].to_vec())));
        }
        Ok(Some(Word::Option(option)))
    }

    fn word(&mut self, option: &str) -> Result<OsString, Fault> {
        let value = self.attached.take().map(|(_, value)| value).or_else(|| self.left.pop_front());
        value.ok_or_else(|| Fault::Usage(format!("{option} lacks a value")))
    }

    /// The value of an option, as a file's name.
    fn file(&mut self, option: &str) -> Result<OsString, Fault> {
        let name = self.word(option)?;
        if name.is_empty() {
            return Err(Fault::Usage(format!("{option}: the name is empty")));
        }
        Ok(name)
    }

    /// The value of an option.
    fn value(&mut self, option: &str) -> Result<String, Fault> {
        utf8(self.word(option)?)
    }

    fn ask_for_help(&self) -> bool {
        self.left.iter().any(|word| word == "--help" || word == "-h")
    }
}

fn utf8(word: OsString) -> Result<String, Fault> {
    word.into_string().map_err(|word| {
        Fault::Usage(format!("`{}` isn't text in UTF-8", shown(&word.display().to_string())))
    })
}

/// The words that a command takes beside `search`'s choices.
struct Form {
    /// What is said where a file that is needed isn't named.
    missing: &'static [&'static str],
    /// How many files may be named.
    most: usize,
    /// Options with a value.
    options: &'static [&'static str],
    /// Options without one.
    flags: &'static [&'static str],
}

/// What the words ask for.
struct Asked {
    files: Vec<PathBuf>,
    values: BTreeMap<&'static str, OsString>,
    flags: BTreeSet<&'static str>,
}

impl Asked {
    fn read(mut words: Words, form: &Form) -> Result<Self, Fault> {
        let mut asked = Self { files: vec![], values: BTreeMap::new(), flags: BTreeSet::new() };
        while let Some(word) = words.next()? {
            match word {
                Word::File(path) if asked.files.len() < form.most => asked.files.push(path.into()),
                Word::File(path) => return Err(unknown(&path.display().to_string())),
                Word::Option(option) => asked.take(&option, &mut words, form)?,
            }
        }
        match form.missing.get(asked.files.len()) {
            Some(missing) => Err(Fault::Usage((*missing).into())),
            None => Ok(asked),
        }
    }

    fn take(&mut self, option: &str, words: &mut Words, form: &Form) -> Result<(), Fault> {
        let find = |names: &[&'static str]| names.iter().copied().find(|name| *name == option);
        let is_new = match (find(form.options), find(form.flags)) {
            (Some(name), _) => self.values.insert(name, words.file(option)?).is_none(),
            (None, Some(name)) => self.flags.insert(name),
            (None, None) => return Err(unknown(option)),
        };
        if is_new { Ok(()) } else { Err(twice(option)) }
    }

    fn has(&self, flag: &str) -> bool {
        self.flags.contains(flag)
    }

    fn states(&self, option: &str) -> bool {
        self.flags.contains(option) || self.values.contains_key(option)
    }

    fn path(&self, option: &str) -> Option<PathBuf> {
        self.values.get(option).map(PathBuf::from)
    }

    /// A value that is text.
    fn text(&self, option: &str) -> Result<Option<String>, Fault> {
        self.values.get(option).cloned().map(utf8).transpose()
    }
}

fn twice(option: &str) -> Fault {
    Fault::Usage(format!("{option}: it is stated twice. Leave one out"))
}

/// Whether what a journal says may be shown: it is the run's, or what isn't is asked for all the same.
fn check_believed(walked: &Walked, unchecked: bool) -> Result<(), Fault> {
    match walked.fault() {
        Some(fault) if !unchecked => {
            Err(Fault::Failed(format!("{fault} --unchecked shows it all the same")))
        }
        _ => Ok(()),
    }
}

/// Gives a result to programs, with the exit code.
fn give(object: Json, end: End, screen: &mut Screen) -> Result<End, Fault> {
    screen.give(&object.with("exit_code", end.code()).to_string());
    Ok(end)
}

/// How a command ends that has shown a journal.
fn end_of(walked: &Walked) -> End {
    if walked.is_good() { End::Good } else { End::Doubtful }
}

/// A word that no option and no file is.
fn unknown(word: &str) -> Fault {
    let file =
        if word.starts_with('-') { " A file's name that begins so is written ./-NAME" } else { "" };
    Fault::Usage(format!("what is `{}`?{file}", shown(word)))
}

/// The help of a command, or of the program, with the exit codes behind it.
fn help(name: &str) -> String {
    let help = HELPS.iter().find(|(other, _)| *other == name).map_or("", |(_, text)| text);
    format!("{help}{EXIT_CODES}").trim_end().to_owned()
}

/// Performs what the words ask for.
#[must_use]
pub fn run(words: Vec<OsString>) -> ExitCode {
    let mut screen = Screen::default();
    let ended = perform(Words::new(words), &mut screen);
    let (code, fault) = match (ended, screen.fault()) {
        (Err(Fault::Usage(fault)), _) => (2, format!("{fault} (see `jinnychair --help`)")),
        (Err(Fault::Failed(fault)), _) | (Ok(_), Some(fault)) => (1, fault),
        (Ok(End::Good), None) => return ExitCode::SUCCESS,
        (Ok(End::Doubtful), None) => return ExitCode::from(3),
    };
    aside(&format!("jinnychair: {}\n", escaped(&fault)));
    ExitCode::from(code)
}

/// Runs a command; with `--json` a fault is an object as well, unless the result was given already.
fn run_command(command: &Command, words: Words, screen: &mut Screen) -> Result<End, Fault> {
    jinnychair::check_version().map_err(|error| error.to_string())?;
    let is_json = words.left.iter().any(|word| word == "--json");
    if is_json {
        screen.leave();
    }
    let ended = (command.run)(words, screen);
    if let (true, false, Err(Fault::Failed(text) | Fault::Usage(text))) =
        (is_json, screen.has_given(), &ended)
    {
        let code = if matches!(ended, Err(Fault::Usage(_))) { 2usize } else { 1 };
        screen.give(&summary::of_fault(command.name, text).with("exit_code", code).to_string());
    }
    ended
}

fn perform(mut words: Words, screen: &mut Screen) -> Result<End, Fault> {
    let Some(name) = words.left.pop_front() else {
        return Err(Fault::Usage("no command is named".into()));
    };
    if let Some(command) = COMMANDS.iter().find(|command| name == command.name) {
        if !words.ask_for_help() {
            return run_command(command, words, screen);
        }
        screen.say(help(command.name));
        return Ok(End::Good);
    }
    match utf8(name)?.as_str() {
        "--help" | "-h" | "help" => screen.say(help("")),
        "--version" | "-V" => screen.say(format!("jinnychair {}", library_version())),
        word => return Err(unknown(word)),
    }
    Ok(End::Good)
}
