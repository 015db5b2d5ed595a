//! Table and chart of a search: their names as they are typed, and the files.

use super::{Fault, Words, twice};
use crate::chart::{self, chart};
use crate::files::with_ending;
use crate::output::{Output, Over};
use crate::screen::Screen;
use crate::table::{self, Record};
use jinnychair::journal::inputs_path;
use std::os::unix::ffi::OsStrExt;
use std::path::{Component, Path, PathBuf};

/// The names, as far as they are typed.
#[derive(Default)]
pub(super) struct Names {
    out: Option<PathBuf>,
    table: Option<PathBuf>,
    chart: Option<PathBuf>,
    /// Whether files that this program didn't write may be written over.
    pub force: bool,
    /// Whether the result is given to programs.
    pub json: bool,
}

/// Where table and chart go.
pub(super) struct Outputs {
    table: Output,
    chart: Output,
}

impl Names {
    /// Takes an option; false where it is none of these.
    pub fn take(&mut self, option: &str, words: &mut Words) -> Result<bool, Fault> {
        let place = match option {
            "--out" => &mut self.out,
            "--table" => &mut self.table,
            "--chart" => &mut self.chart,
            "--force" => return flag(&mut self.force, option),
            "--json" => return flag(&mut self.json, option),
            _ => return Ok(false),
        };
        match place.replace(words.file(option)?.into()) {
            Some(_) => Err(twice(option)),
            None => Ok(true),
        }
    }

    /// Finds out whether both can be written; neither is an input, the journal or what stands beside that.
    pub fn open(&self, inputs: &[&Path], journal: Option<&Path>) -> Result<Outputs, Fault> {
        if self.out.is_some() && self.table.is_some() && self.chart.is_some() {
            let text = "--out: --table and --chart name both files. Leave it out";
            return Err(Fault::Usage(text.into()));
        }
        let out = self.out.as_deref().unwrap_or(Path::new("tilts"));
        let name = name(out)?;
        let open = |typed: &Option<PathBuf>, option, ending, head| {
            let (name, option) = match typed {
                Some(typed) => (typed.clone(), option),
                None => (with_ending(&name, ending), "--out"),
            };
            Output::open(&name, option, Over::Own(head).or_all(self.force), inputs)
        };
        let outputs = Outputs {
            table: open(&self.table, "--table", ".csv", table::HEAD)?,
            chart: open(&self.chart, "--chart", ".svg", chart::HEAD)?,
        };
        outputs.check(journal)?;
        if self.json && outputs.all().iter().any(|output| output.is_stdout()) {
            let text = "--json: standard output is the table's or the chart's. Name a file for it";
            return Err(Fault::Usage(text.into()));
        }
        Ok(outputs)
    }
}

/// Takes an option without a value.
fn flag(place: &mut bool, option: &str) -> Result<bool, Fault> {
    if std::mem::replace(place, true) { Err(twice(option)) } else { Ok(true) }
}

/// The name of both without their endings: nothing of the typed one is cut off but an ending that is added again. In a folder it is
/// `tilts`.
fn name(out: &Path) -> Result<PathBuf, Fault> {
    let is_folder = matches!(
        out.components().next_back(),
        None | Some(Component::CurDir | Component::ParentDir)
    );
    if is_folder || out.as_os_str().as_bytes().ends_with(b"/") {
        return Ok(out.join("tilts"));
    }
    if std::fs::metadata(out).is_ok_and(|about| !about.is_file() && !about.is_dir()) || out == "-" {
        return Err(Fault::Usage(format!(
            "--out {}: this names two files. Name the table's with --table, and the chart's with --chart",
            out.display()
        )));
    }
    let is_ending = out.extension().is_some_and(|ending| ending == "csv" || ending == "svg");
    Ok(if is_ending { out.with_extension("") } else { out.into() })
}

impl Outputs {
    pub fn all(&self) -> [&Output; 2] {
        [&self.table, &self.chart]
    }

    fn check(&self, journal: Option<&Path>) -> Result<(), Fault> {
        if self.table.is_same(&self.chart) {
            let name = self.table.name();
            return Err(Fault::Usage(format!(
                "table and chart would both be {name}. Name another"
            )));
        }
        for path in journal.iter().flat_map(|journal| [journal.to_path_buf(), inputs_path(journal)])
        {
            if self.all().iter().any(|output| output.is_at(&path)) {
                return Err(Fault::Usage(format!(
                    "--journal: {} is the table's or the chart's name. Name another",
                    path.display()
                )));
            }
        }
        Ok(())
    }

    /// The names of both.
    pub fn names(&self) -> Vec<String> {
        self.all().map(Output::name).to_vec()
    }

    /// Writes what can be written, and then says what couldn't.
    pub fn write(&self, record: &Record, screen: &mut Screen) -> Result<(), Fault> {
        let written = [self.table.write(&record.table()), self.chart.write(&chart(record))];
        for (output, written) in self.all().into_iter().zip(&written) {
            if written.is_ok() {
                screen.say(format!("written: {}", output.name()));
            }
        }
        let faults: Vec<String> = written.into_iter().filter_map(Result::err).collect();
        if faults.is_empty() { Ok(()) } else { Err(Fault::Failed(faults.join("\njinnychair: "))) }
    }
}
