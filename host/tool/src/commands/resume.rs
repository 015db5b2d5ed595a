//! `resume`: goes on with a search that was switched off, from its journal.

use super::outputs::Names;
use super::search::conclude;
use super::{Command, End, Fault, Word, Words, unknown};
use crate::again;
use crate::case::{Case, library_version, this_host};
use crate::choices::Choices;
use crate::files::{read_bytes, with_ending};
use crate::journal::{Journal, is_cut, read_inputs};
use crate::screen::Screen;
use jinnychair::journal::{
    EndedBy, JournalFileError, JournalWriter, KeptLines, Resumed, StoredInputs, inputs_path,
    what_differs,
};
use jinnychair::{LineRefusal, Search};
use std::fs::{File, OpenOptions};
use std::io::{self, Write};
use std::path::{Path, PathBuf};

pub(super) const COMMAND: Command = Command { name: "resume", run };

/// What the words ask for.
struct Asked {
    journal: PathBuf,
    views: Option<PathBuf>,
    names: Names,
    minutes: Option<f64>,
    mixed_host: bool,
}

impl Asked {
    fn read(mut words: Words) -> Result<Self, Fault> {
        let (mut files, mut names, mut choices) = (vec![], Names::default(), Choices::default());
        let mut mixed_host = false;
        while let Some(word) = words.next()? {
            match word {
                Word::File(path) if files.len() < 2 => files.push(PathBuf::from(path)),
                Word::File(path) => return Err(unknown(&path.display().to_string())),
                Word::Option(option) if names.take(&option, &mut words)? => {}
                Word::Option(option) if option == "--mixed-host" => mixed_host = true,
                Word::Option(option) if option == "--minutes" => {
                    let value = words.value(&option)?;
                    let set = choices.set("minutes", &mut || Ok(value.clone()));
                    set.map_err(|fault| Fault::Usage(format!("{option}: {fault}")))?;
                }
                Word::Option(option) => {
                    let Fault::Usage(text) = unknown(&option) else { continue };
                    return Err(Fault::Usage(format!(
                        "{text}; the options of the search are those that it began with"
                    )));
                }
            }
        }
        let mut files = files.into_iter();
        let journal = files.next().ok_or(Fault::Usage("no journal is named".into()))?;
        Ok(Self { journal, views: files.next(), names, minutes: choices.minutes, mixed_host })
    }
}

fn run(words: Words, screen: &mut Screen) -> Result<End, Fault> {
    let asked = Asked::read(words)?;
    let path = asked.journal.as_path();
    let beside = inputs_path(path);
    let outputs = asked.names.open(&Vec::from_iter(asked.views.as_deref()), Some(path))?;
    screen.leave_to(outputs.all());
    let bytes = read_bytes(path)?;
    if bytes.is_empty() && !beside.exists() {
        return Err(Fault::Failed(not_resumed(&JournalFileError::NotBegun(path.into()))));
    }
    let stored = read_inputs(path)?;
    check_host(&stored, asked.mixed_host, screen)?;
    let named = |fault: String| match asked.views {
        None => format!("{fault}. Name the views' file behind the journal if it was moved"),
        Some(_) => fault,
    };
    let plate = again::plate(&stored, path, asked.views.as_deref()).map_err(named)?;
    screen.say(format!("views           {}: those that the search began with", plate.1));
    let case = Case::of_inputs(&stored, plate, asked.minutes)?;
    say_if_changed(&case, &stored, screen);
    let dropped = keep_dropped(path, &stored, &bytes)?;
    let resumed = JournalWriter::resume(path).map_err(|error| not_resumed(&error))?;
    screen.say(kept_text(path, &resumed.kept_lines, dropped.as_deref()));
    screen.say(case.plan().text());
    let lines = Journal::read(path)?.lines;
    let finished = case.go_on(resumed.search, &lines, resumed.writer)?;
    let result = asked.names.json.then_some("resume");
    conclude(&case, finished, Some(path), (&outputs, result), screen)
}

/// A journal goes on with the host that began it, or aloud with another.
fn check_host(stored: &StoredInputs, is_allowed: bool, screen: &mut Screen) -> Result<(), Fault> {
    let here = this_host();
    if stored.host.as_ref() == Some(&here) {
        return Ok(());
    }
    let began = match &stored.host {
        Some(host) => format!("the host {host}"),
        None => "a host that isn't named".into(),
    };
    if !is_allowed {
        return Err(Fault::Failed(format!(
            "the journal was begun by {began}, and this one is {here}: its cameras may have other bits, and the winner be \
             another than without the break. Go on with the program that began it, or say --mixed-host"
        )));
    }
    screen
        .say(format!("host            the journal was begun by {began}, and goes on with {here}"));
    Ok(())
}

/// Another version or another computer is reported: the winner may differ from that of an unbroken search in the last bits.
fn say_if_changed(case: &Case, stored: &StoredInputs, screen: &mut Screen) {
    let (then, now) = (&stored.library, library_version());
    if *then != now {
        screen.say(format!(
            "version         the search began with jinnychair {then}, and goes on with {now}"
        ));
    }
    if !case.is_as_begun() {
        screen.say(
            "computer        from the same views another base camera is worked out here than where the search began: \
             scores may differ in their last digits",
        );
    }
}

/// Keeps what will be dropped from the middle of a journal, and gives why it is. A journal of which nothing would be left
/// is refused: it isn't that of its inputs.
fn keep_dropped(
    path: &Path,
    stored: &StoredInputs,
    bytes: &[u8],
) -> Result<Option<String>, String> {
    let inputs = stored.inputs();
    let fault =
        |error| format!("{}: no search can start from them: {error}", inputs_path(path).display());
    let Resumed { kept_lines, .. } = Search::resume(&inputs, bytes).map_err(fault)?;
    let (refusal, journal) = (LineRefusal::NotTheRun, Journal::parse(bytes));
    let is_cut = journal.changed.is_none() && is_cut(&bytes[kept_lines.kept..]);
    let why = match kept_lines.ended_by {
        EndedBy::Nothing => return Ok(None),
        EndedBy::MissingNewline if is_cut => return Ok(None),
        EndedBy::MissingNewline | EndedBy::NotALine => journal.not_a_line().0,
        EndedBy::NotTheRun => {
            let why = what_differs(&inputs, bytes);
            let why = why.map_or(refusal.fault().into(), |why| why.to_string());
            format!("{why} ({})", refusal.number())
        }
    };
    let why = format!("line {}: {why}", kept_lines.lines + 1);
    if kept_lines.lines == 0 {
        return Err(format!(
            "{}: {why}. Nothing of this journal would be left, so it isn't touched. Look whether it is a journal, and \
             whether {} are its own inputs",
            path.display(),
            inputs_path(path).display()
        ));
    }
    let aside = with_ending(path, ".dropped");
    write_aside(&aside, &bytes[kept_lines.kept..]).map_err(|error| {
        format!(
            "{}: can't be written, and what {} would lose isn't dropped without it: {error}. Move an older one away",
            aside.display(),
            path.display()
        )
    })?;
    Ok(Some(format!("{why}. They are in {}", aside.display())))
}

/// Writes a new file, and returns when it and its name are on the disk.
fn write_aside(path: &Path, bytes: &[u8]) -> io::Result<()> {
    let mut file = OpenOptions::new().write(true).create_new(true).open(path)?;
    file.write_all(bytes)?;
    file.sync_all()?;
    let folder = path.parent().filter(|folder| !folder.as_os_str().is_empty());
    File::open(folder.unwrap_or(Path::new(".")))?.sync_all()
}

/// What was kept and what was dropped, in words.
fn kept_text(path: &Path, kept_lines: &KeptLines, why: Option<&str>) -> String {
    let KeptLines { lines, kept, dropped, ended_by } = *kept_lines;
    let mut text = format!("kept            {}: {lines} lines, {kept} bytes", path.display());
    text += &match (ended_by, why) {
        (EndedBy::Nothing, _) => "\ndropped         nothing".into(),
        (EndedBy::MissingNewline, None) => format!(
            "\ndropped         {dropped} bytes: line {} was being written when the search was switched off",
            lines + 1
        ),
        (_, why) => format!("\ndropped         {dropped} bytes: {}", why.unwrap_or_default()),
    };
    text
}

/// Why a journal can't be gone on with, and what to do.
fn not_resumed(error: &JournalFileError) -> String {
    match error {
        JournalFileError::NotBegun(path) => format!(
            "{0}: its search was switched off before it began. Start it again: `jinnychair search --journal {0}` with the same \
             words",
            path.display()
        ),
        error => error.to_string(),
    }
}
