//! `chart`: draws the table or the journal that `search` wrote.

use super::{Asked, Command, End, Fault, Form, Words, check_believed, end_of};
use crate::chart::{HEAD, chart};
use crate::drive::as_it_stands;
use crate::files::{read_bytes, text_of, with_ending};
use crate::journal::{Journal, record, record_of_lines};
use crate::output::{Output, Over};
use crate::report::stop_place;
use crate::screen::Screen;
use crate::table::{self, Record};
use crate::walk::Walked;
use jinnychair::journal::inputs_path;
use std::path::{Path, PathBuf};

pub(super) const COMMAND: Command = Command { name: "chart", run };

const FORM: Form = Form {
    missing: &["no table is named"],
    most: 1,
    options: &["--out"],
    flags: &["--force", "--unchecked"],
};

fn run(words: Words, screen: &mut Screen) -> Result<End, Fault> {
    let asked = Asked::read(words, &FORM)?;
    let from = asked.files[0].as_path();
    let out = asked.path("--out").map_or_else(|| beside(from), Ok)?;
    let over = Over::Own(HEAD).or_all(asked.has("--force"));
    let out = Output::open(&out, "--out", over, &[from, &inputs_path(from)])?;
    screen.leave_to([&out]);
    let bytes = read_bytes(from)?;
    let (record, end) = if is_journal(from, &bytes) {
        let walked = Walked::of_bytes(from, bytes);
        check_believed(&walked, asked.has("--unchecked"))?;
        screen.say(walked.text());
        (of_journal(&walked), end_of(&walked))
    } else {
        let fault = |fault: String| format!("{}: {fault}", from.display());
        (text_of(bytes).and_then(|text| Record::parse(&text)).map_err(fault)?, End::Good)
    };
    out.write(&chart(&record))?;
    screen.say(format!("written: {}", out.name()));
    Ok(end)
}

/// A journal has inputs beside it, or begins with a line; a table begins as one.
fn is_journal(path: &Path, bytes: &[u8]) -> bool {
    let begins = || !Journal::parse(bytes).lines.is_empty();
    !bytes.starts_with(table::HEAD.as_bytes()) && (inputs_path(path).exists() || begins())
}

fn of_journal(walked: &Walked) -> Record {
    let lines = &walked.journal.lines;
    let mut record = walked
        .inputs
        .as_ref()
        .map_or_else(|| record_of_lines(lines), |inputs| record(inputs, lines));
    let stop = walked.search.as_ref().and_then(|search| as_it_stands(search, vec![]).stop);
    match (walked.mark(), stop) {
        (Some(mark), _) => record.add(table::UNCHECKED, &mark),
        (None, Some(stop)) => record.add("stopped", &stop_place(&stop)),
        (None, None) => {}
    }
    record
}

/// The chart's name where none is stated.
fn beside(table: &Path) -> Result<PathBuf, Fault> {
    if std::fs::metadata(table).is_ok_and(|about| !about.is_file()) {
        return Err(Fault::Usage(format!(
            "{}: this is no plain file, so name the chart with --out",
            table.display()
        )));
    }
    let is_table = table.extension().is_some_and(|ending| ending == "csv");
    Ok(if is_table { table.with_extension("svg") } else { with_ending(table, ".svg") })
}
