//! The inputs of Start, in a file of their own beside a journal. docs/JOURNAL.md describes its form.

use super::checksum::sha256;
use crate::{FxFyCxCy, Inputs, Options, Pt2, Seed};
use std::error::Error;
use std::ffi::OsString;
use std::fmt::{Display, Formatter, Result as FmtResult};
use std::fs::{self, File};
use std::io::{self, Write};
use std::path::{Path, PathBuf};

/// How a file begins that doesn't name its host, and one that does: the number is raised with each change of the form.
const HEADS: [&str; 2] = ["jinnychair inputs 1", "jinnychair inputs 2"];

const BASE: [&str; 4] = ["base-fx", "base-fy", "base-cx", "base-cy"];
const CENTER: [&str; 2] = ["centre-x", "centre-y"];
const SEED: [&str; 6] = ["seed-fx", "seed-fy", "seed-cx", "seed-cy", "seed-tilt-x", "seed-tilt-y"];

/// Where the views come from.
#[derive(Clone, Debug, PartialEq, Eq)]
pub enum Views {
    /// The host has them itself.
    BuiltIn,
    /// A file.
    File {
        /// Its name, as it was typed.
        name: String,
        /// Its checksum, by [`sha256`].
        sha256: String,
    },
}

/// The program that worked out cameras and rows for a search. Another one, or another version of it, may give other bits.
#[derive(Clone, Debug, PartialEq, Eq)]
pub struct HostVersion {
    /// Its name, one word.
    pub name: String,
    /// Its version.
    pub version: String,
}

impl Display for HostVersion {
    fn fmt(&self, f: &mut Formatter) -> FmtResult {
        write!(f, "{} {}", self.name, self.version)
    }
}

/// All that a search started from, and who started it.
#[derive(Clone, Debug, PartialEq)]
pub struct StoredInputs {
    /// The library's version.
    pub library: String,
    /// The host, if it is named.
    pub host: Option<HostVersion>,
    /// The date, as the host writes it.
    pub date: String,
    /// Where the views come from.
    pub plate: Views,
    /// How many views there are.
    pub views: usize,
    /// Which tilts are tried.
    pub options: Options,
    /// The host's decomposition seeds.
    pub decomposition: Vec<Seed>,
    /// The camera of the grid's seeds.
    pub base: FxFyCxCy,
    /// The observed centre.
    pub center: Pt2,
    /// What the host wants to find again: names, without spaces, and texts.
    pub notes: Vec<(String, String)>,
}

/// The name of the file beside a journal.
#[must_use]
pub fn inputs_path(journal: &Path) -> PathBuf {
    let mut name: OsString = journal.into();
    name.push(".inputs");
    name.into()
}

/// One line of text.
fn plain(text: &str) -> String {
    text.chars().map(|c| if c.is_control() { ' ' } else { c }).collect()
}

/// A real's bits. Every NaN has the same.
fn bits(x: f64) -> String {
    let bits = if x.is_nan() { 0x7ff8_0000_0000_0000 } else { x.to_bits() };
    format!("{bits:016x}")
}

/// A real's bits and its decimals, the shortest that are read back to these bits.
fn real(name: &str, x: f64) -> String {
    format!("{name} {} {x}\n", bits(x))
}

fn reals<const N: usize>(names: [&str; N], numbers: [f64; N]) -> String {
    names.iter().zip(numbers).map(|(name, x)| real(name, x)).collect()
}

impl StoredInputs {
    /// What a search with these inputs starts from, by this version.
    #[must_use]
    pub fn new(inputs: &Inputs, plate: Views, date: &str) -> Self {
        Self {
            library: env!("CARGO_PKG_VERSION").into(),
            host: None,
            date: plain(date),
            plate,
            views: inputs.views,
            options: inputs.options.clone(),
            decomposition: inputs.decomposition.to_vec(),
            base: inputs.base,
            center: inputs.center,
            notes: vec![],
        }
    }

    /// As a search takes them.
    #[must_use]
    pub fn inputs(&self) -> Inputs<'_> {
        Inputs {
            views: self.views,
            options: &self.options,
            decomposition: &self.decomposition,
            base: self.base,
            center: self.center,
        }
    }

    /// Adds a note; spaces in its name and line ends in its text are changed.
    pub fn add_note(&mut self, name: &str, text: &str) {
        self.notes.push((name.replace(char::is_whitespace, "-"), plain(text)));
    }

    /// The first note of a name.
    #[must_use]
    pub fn note(&self, name: &str) -> Option<&str> {
        self.notes.iter().find(|note| note.0 == name).map(|note| note.1.as_str())
    }

    /// The file's text.
    #[must_use]
    pub fn text(&self) -> String {
        let options = &self.options;
        let head = HEADS[usize::from(self.host.is_some())];
        let mut text = format!("{head}\nlibrary {}\n", self.library);
        if let Some(HostVersion { name, version }) = &self.host {
            text +=
                &format!("host {} {}\n", name.replace(char::is_whitespace, "-"), plain(version));
        }
        text += &format!("date {}\n", self.date);
        text += &match &self.plate {
            Views::BuiltIn => "views-from built-in\n".to_owned(),
            Views::File { name, sha256 } => {
                format!("views-from file {}\nviews-sha256 {sha256}\n", plain(name))
            }
        };
        text += &format!("views {}\nrounds {}\n", self.views, options.refine_rounds);
        text += &real("step", options.refine_step);
        text += &real("bound", options.max_abs_tilt);
        let one_axis = if options.one_axis { "yes" } else { "no" };
        text += &format!("one-axis {one_axis}\nmin-counted {}\n", options.min_counted);
        let FxFyCxCy { fx, fy, cx, cy } = self.base;
        text += &reals(BASE, [fx, fy, cx, cy]);
        text += &reals(CENTER, [self.center.x, self.center.y]);
        text.extend(options.tilt_x_seeds.iter().map(|x| real("tilt-x", *x)));
        text.extend(options.tilt_y_seeds.iter().map(|y| real("tilt-y", *y)));
        text.extend(self.decomposition.iter().map(|seed| reals(SEED, seed.numbers())));
        text.extend(self.notes.iter().map(|(name, note)| format!("note {name} {note}\n")));
        let sum = sha256(text.as_bytes());
        text + &format!("sha256 {sum}\n")
    }

    /// Reads the text of a file.
    ///
    /// # Errors
    ///
    /// Names the line that isn't as it was written.
    pub fn parse(text: &str) -> Result<Self, InputsError> {
        let mut fields = Fields { lines: text.split('\n').collect(), at: 0 };
        fields.head()?;
        let stored = fields.stored()?;
        fields.checksum(text)?;
        Ok(stored)
    }

    /// Writes the file beside a journal: under another name, then, when it is on the disk, under its own.
    ///
    /// # Errors
    ///
    /// It can't be written; no part of it is left.
    pub fn save(&self, journal: &Path) -> io::Result<()> {
        let path = inputs_path(journal);
        let mut hidden = OsString::from(".");
        hidden.push(path.file_name().ok_or(io::ErrorKind::InvalidFilename)?);
        hidden.push(format!(".{}", std::process::id()));
        let aside = path.with_file_name(hidden);
        let written = File::create(&aside)
            .and_then(|mut file| {
                file.write_all(self.text().as_bytes()).and_then(|()| file.sync_all())
            })
            .and_then(|()| fs::rename(&aside, &path));
        if written.is_err() {
            let _ = fs::remove_file(&aside);
        }
        written.and_then(|()| sync_folder(&path))
    }

    /// Reads the file beside a journal.
    ///
    /// # Errors
    ///
    /// It can't be read, or isn't as it was written.
    pub fn load(journal: &Path) -> Result<Self, InputsError> {
        let text = fs::read_to_string(inputs_path(journal));
        let fault = |error: io::Error| InputsError {
            line: None,
            fault: format!("can't be read: {error}. It belongs beside the journal"),
        };
        Self::parse(&text.map_err(fault)?)
    }
}

/// The names in a file's folder are on the disk.
pub(super) fn sync_folder(path: &Path) -> io::Result<()> {
    let folder = path.parent().filter(|folder| !folder.as_os_str().is_empty());
    File::open(folder.unwrap_or(Path::new(".")))?.sync_all()
}

/// What is wrong with a file of inputs, and where.
#[derive(Clone, Debug, PartialEq, Eq)]
pub struct InputsError {
    /// The line, counted from 1; none where the file as a whole is at fault.
    pub line: Option<usize>,
    /// What is wrong, and what to do.
    pub fault: String,
}

impl Display for InputsError {
    fn fmt(&self, f: &mut Formatter) -> FmtResult {
        match self.line {
            Some(line) => write!(f, "line {line}: {}", self.fault),
            None => f.write_str(&self.fault),
        }
    }
}

impl Error for InputsError {}

/// Without a control byte; what follows ASCII is left as it is.
fn is_plain(text: &str) -> bool {
    text.bytes().all(|byte| 32 <= byte && byte != 127)
}

/// Two texts around the first space.
fn pair(text: &str) -> Option<(&str, &str)> {
    text.split_once(' ').filter(|(first, second)| is_plain(first) && is_plain(second))
}

/// A whole number in decimals, without leading zeros or a sign.
fn whole(text: &str) -> Option<usize> {
    text.parse().ok().filter(|number: &usize| number.to_string() == text)
}

/// A real: its bits, and decimals that are read back to these bits.
fn real_in(text: &str) -> Option<f64> {
    let (digits, decimals) = text.split_once(' ')?;
    let x: f64 = decimals.parse().ok()?;
    let is_spelled = digits == bits(x) && (!x.is_nan() || decimals == "NaN");
    is_spelled.then_some(x)
}

/// The digits of a SHA-256.
fn is_digest(text: &str) -> bool {
    text.len() == 64 && text.bytes().all(|byte| matches!(byte, b'0'..=b'9' | b'a'..=b'f'))
}

/// The lines of a file, taken in their order.
struct Fields<'a> {
    lines: Vec<&'a str>,
    at: usize,
}

impl<'a> Fields<'a> {
    fn fault(&self, expected: &str) -> InputsError {
        let read = self.lines.get(self.at).copied().unwrap_or("");
        InputsError {
            line: Some(self.at + 1),
            fault: format!("read `{read}`; expected {expected}"),
        }
    }

    fn head(&mut self) -> Result<(), InputsError> {
        if !HEADS.contains(&self.lines[0]) {
            let [_, newest] = HEADS;
            return Err(self.fault(&format!(
                "`{newest}`. Name a file that this version wrote, or take the version that wrote it"
            )));
        }
        self.at = 1;
        Ok(())
    }

    /// The host, where the form has one.
    fn host(&mut self) -> Result<Option<HostVersion>, InputsError> {
        if self.lines[0] == HEADS[0] {
            return Ok(None);
        }
        let form = "`host`, its name and its version";
        let host = self.peek("host").and_then(pair);
        let (name, version) = host.ok_or_else(|| self.fault(form))?;
        self.at += 1;
        Ok(Some(HostVersion { name: name.into(), version: version.into() }))
    }

    /// What follows a name, if it is the next line's.
    fn peek(&self, name: &str) -> Option<&'a str> {
        self.lines.get(self.at)?.strip_prefix(name)?.strip_prefix(' ')
    }

    fn text(&mut self, name: &str) -> Result<&'a str, InputsError> {
        let text = self.peek(name).filter(|text| is_plain(text));
        let text = text.ok_or_else(|| self.fault(&format!("`{name}` and its value")))?;
        self.at += 1;
        Ok(text)
    }

    fn whole(&mut self, name: &str) -> Result<usize, InputsError> {
        let number = self.peek(name).and_then(whole);
        let number = number.ok_or_else(|| self.fault(&format!("`{name}` and a whole number")))?;
        self.at += 1;
        Ok(number)
    }

    fn real(&mut self, name: &str) -> Result<f64, InputsError> {
        let form = || format!("`{name}`, 16 hexadecimal digits and the same number in decimals");
        let number = self.peek(name).and_then(real_in).ok_or_else(|| self.fault(&form()))?;
        self.at += 1;
        Ok(number)
    }

    fn reals<const N: usize>(&mut self, names: [&str; N]) -> Result<[f64; N], InputsError> {
        let mut numbers = [0.0; N];
        for (number, name) in numbers.iter_mut().zip(names) {
            *number = self.real(name)?;
        }
        Ok(numbers)
    }

    /// As many as there are.
    fn all_reals(&mut self, name: &str) -> Result<Vec<f64>, InputsError> {
        let mut numbers = vec![];
        while self.peek(name).is_some() {
            numbers.push(self.real(name)?);
        }
        Ok(numbers)
    }

    fn plate(&mut self) -> Result<Views, InputsError> {
        let form = "`views-from built-in` or `views-from file` and its name";
        let from = self.peek("views-from").ok_or_else(|| self.fault(form))?;
        let name = from.strip_prefix("file ").filter(|name| is_plain(name));
        if name.is_none() && from != "built-in" {
            return Err(self.fault(form));
        }
        self.at += 1;
        let Some(name) = name else { return Ok(Views::BuiltIn) };
        let form = "`views-sha256` and 64 hexadecimal digits in lower case";
        let sum = self.peek("views-sha256").filter(|sum| is_digest(sum));
        let sha256 = sum.ok_or_else(|| self.fault(form))?.into();
        self.at += 1;
        Ok(Views::File { name: name.into(), sha256 })
    }

    fn flag(&mut self, name: &str) -> Result<bool, InputsError> {
        let flag = match self.peek(name) {
            Some("yes") => true,
            Some("no") => false,
            _ => return Err(self.fault(&format!("`{name}` and yes or no"))),
        };
        self.at += 1;
        Ok(flag)
    }

    /// The options' numbers; the tilts come later.
    fn options(&mut self) -> Result<Options, InputsError> {
        Ok(Options {
            refine_rounds: self.whole("rounds")?,
            refine_step: self.real("step")?,
            max_abs_tilt: self.real("bound")?,
            one_axis: self.flag("one-axis")?,
            min_counted: self.whole("min-counted")?,
            tilt_x_seeds: vec![],
            tilt_y_seeds: vec![],
        })
    }

    fn seeds(&mut self) -> Result<Vec<Seed>, InputsError> {
        let mut seeds = vec![];
        while self.peek(SEED[0]).is_some() {
            seeds.push(Seed::from_numbers(self.reals(SEED)?));
        }
        Ok(seeds)
    }

    fn notes(&mut self) -> Result<Vec<(String, String)>, InputsError> {
        let mut notes = vec![];
        while let Some(note) = self.peek("note") {
            let (name, text) = pair(note).ok_or_else(|| self.fault("a name and a text"))?;
            notes.push((name.into(), text.into()));
            self.at += 1;
        }
        Ok(notes)
    }

    fn stored(&mut self) -> Result<StoredInputs, InputsError> {
        let library = self.text("library")?.into();
        let (host, date) = (self.host()?, self.text("date")?.into());
        let (plate, views) = (self.plate()?, self.whole("views")?);
        let mut options = self.options()?;
        let [fx, fy, cx, cy] = self.reals(BASE)?;
        let [x, y] = self.reals(CENTER)?;
        options.tilt_x_seeds = self.all_reals("tilt-x")?;
        options.tilt_y_seeds = self.all_reals("tilt-y")?;
        let (decomposition, notes) = (self.seeds()?, self.notes()?);
        let (base, center) = (FxFyCxCy { fx, fy, cx, cy }, Pt2 { x, y });
        Ok(StoredInputs {
            library,
            host,
            date,
            plate,
            views,
            options,
            decomposition,
            base,
            center,
            notes,
        })
    }

    /// The last line has the checksum of the lines above it, and nothing follows it.
    fn checksum(&self, text: &str) -> Result<(), InputsError> {
        let sum = self.peek("sha256").ok_or_else(|| self.fault("`sha256` and its value"))?;
        let above: usize = self.lines[..self.at].iter().map(|line| line.len() + 1).sum();
        let fault = |behind: usize, fault: &str| {
            Err(InputsError { line: Some(self.at + behind), fault: fault.into() })
        };
        if sum != sha256(&text.as_bytes()[..above]) {
            let changed = "the checksum isn't that of the lines above: the file was changed. Take the one that the search wrote";
            return fault(1, changed);
        }
        match self.lines[self.at + 1..] {
            [] => fault(1, "the file ends before its last newline"),
            [""] => Ok(()),
            _ => fault(2, "the file goes on behind its checksum"),
        }
    }
}
