//! A journal on the disk: each line is there before the next seed is handed out.

use super::inputs::{InputsError, StoredInputs, inputs_path, sync_folder};
use super::line::{LEAST_ROOM, Line, write_line};
use super::resume::{KeptLines, Resumed};
use crate::{Ended, RunError, Search, Seed, Solution, StartError, Tried, WriteError};
use std::error::Error;
use std::fmt::{Display, Formatter, Result as FmtResult};
use std::fs::{self, File, OpenOptions, TryLockError};
use std::io::{self, Read, Write};
use std::ops::ControlFlow;
use std::path::{Path, PathBuf};

/// A journal that lines are added to. While this exists, no other writer opens the file; readers may.
#[derive(Debug)]
pub struct JournalWriter {
    file: File,
    path: PathBuf,
    len: u64,
}

/// A search that goes on in its journal.
#[derive(Debug)]
pub struct ResumedJournal {
    /// The journal, cut to what was kept.
    pub writer: JournalWriter,
    /// The search, as the kept lines leave it.
    pub search: Search,
    /// What was kept.
    pub kept_lines: KeptLines,
    /// What the search started from.
    pub inputs: StoredInputs,
}

impl JournalWriter {
    /// Begins a journal, and writes the inputs beside it. Neither file is ever written over; an empty journal without inputs, as
    /// a search leaves that was switched off before it began, is taken.
    ///
    /// # Errors
    ///
    /// There is a journal of this name, or it can't be written.
    pub fn create(path: &Path, inputs: &StoredInputs) -> Result<Self, JournalFileError> {
        let beside = inputs_path(path);
        let is_there = |path: &Path| path.symlink_metadata().is_ok();
        if is_there(&beside) && !is_there(path) {
            return Err(JournalFileError::InputsExist(beside));
        }
        let is_new = !is_there(path);
        let file = OpenOptions::new().read(true).append(true).create(true).open(path);
        let writer = Self::locked(file, path)?;
        if writer.len > 0 || is_there(&beside) {
            return Err(JournalFileError::Exists(path.into()));
        }
        // The journal's name is on the disk before that of its inputs, so that none are ever left without it.
        if let Err(error) = sync_folder(path).and_then(|()| inputs.save(path)) {
            if is_new {
                let _ = fs::remove_file(path);
            }
            return Err(JournalFileError::Io(beside, error));
        }
        Ok(writer)
    }

    /// Opens the journal of a search that was switched off, goes on with the search by the inputs beside it
    /// ([`Search::resume`]), and cuts the journal to what was kept, which is on the disk before anything is added.
    ///
    /// # Errors
    ///
    /// There is no such journal, another process writes to it, or its inputs are missing or refused; then nothing is cut.
    /// Where the search was switched off before it had written its inputs ([`JournalFileError::NotBegun`]), [`JournalWriter::create`]
    /// begins it.
    pub fn resume(path: &Path) -> Result<ResumedJournal, JournalFileError> {
        let fault = |error| JournalFileError::Io(path.into(), error);
        let file = OpenOptions::new().read(true).append(true).open(path);
        if file.as_ref().is_err_and(|error| error.kind() == io::ErrorKind::NotFound) {
            return Err(JournalFileError::Missing(path.into()));
        }
        let mut writer = Self::locked(file, path)?;
        let beside = inputs_path(path);
        if writer.len == 0 && beside.symlink_metadata().is_err() {
            return Err(JournalFileError::NotBegun(path.into()));
        }
        let inputs = StoredInputs::load(path)
            .map_err(|error| JournalFileError::Inputs(beside.clone(), error))?;
        let mut journal = vec![];
        writer.file.read_to_end(&mut journal).map_err(fault)?;
        let Resumed { search, kept_lines } = Search::resume(&inputs.inputs(), &journal)
            .map_err(|error| JournalFileError::Start(beside, error))?;
        writer.cut(kept_lines.kept as u64).map_err(fault)?;
        Ok(ResumedJournal { writer, search, kept_lines, inputs })
    }

    /// Drops what follows a place.
    fn cut(&mut self, len: u64) -> io::Result<()> {
        self.file.set_len(len)?;
        self.file.sync_all()?;
        self.len = len;
        Ok(())
    }

    /// The lock ends with the process, however the process ends.
    fn locked(file: io::Result<File>, path: &Path) -> Result<Self, JournalFileError> {
        let fault = |error| JournalFileError::Io(path.into(), error);
        let file = file.map_err(fault)?;
        match file.try_lock() {
            Ok(()) => {}
            Err(TryLockError::WouldBlock) => return Err(JournalFileError::InUse(path.into())),
            Err(TryLockError::Error(error)) => return Err(fault(error)),
        }
        let about = file.metadata().map_err(fault)?;
        if !about.is_file() {
            return Err(fault(io::Error::other("it isn't a file on a disk")));
        }
        Ok(Self { file, path: path.into(), len: about.len() })
    }

    /// Adds a line, and returns when it is on the disk.
    ///
    /// # Errors
    ///
    /// The line isn't on the disk: the journal is cut back to the lines before, as far as the disk allows. A search should stop here.
    pub fn write(&mut self, line: &Line) -> Result<(), JournalFileError> {
        let mut buffer = [0; LEAST_ROOM];
        let len = write_line(line, &mut buffer).map_err(JournalFileError::Line)?;
        let written = self.file.write_all(&buffer[..len]).and_then(|()| self.file.sync_data());
        if let Err(error) = written {
            let _ = self.file.set_len(self.len);
            return Err(JournalFileError::Io(self.path.clone(), error));
        }
        self.len += len as u64;
        Ok(())
    }

    /// Runs a search as [`Search::run_until`] does, and adds each line before the next seed is handed out.
    ///
    /// # Errors
    ///
    /// Those of the search; or a line can't be added, and the search is stopped there.
    pub fn run(
        &mut self,
        search: &mut Search,
        solve: impl FnMut(&Seed) -> Option<Solution>,
        mut watch: impl FnMut(&Tried) -> ControlFlow<()>,
    ) -> Result<Ended, JournaledRunError> {
        let mut failed = None;
        let ended = search.run_until(solve, |tried| match self.write(&tried.line) {
            Ok(()) => watch(tried),
            Err(error) => {
                failed = Some(error);
                ControlFlow::Break(())
            }
        });
        match failed {
            Some(error) => Err(JournaledRunError::Journal(error)),
            None => ended.map_err(JournaledRunError::Run),
        }
    }

    /// How many bytes the journal has.
    #[must_use]
    #[expect(clippy::len_without_is_empty, reason = "it isn't a collection")]
    pub fn len(&self) -> u64 {
        self.len
    }
}

/// Why a search with a journal ends without a winner.
#[derive(Debug)]
#[non_exhaustive]
pub enum JournaledRunError {
    /// The search itself has none.
    Run(RunError),
    /// A line can't be added to the journal.
    Journal(JournalFileError),
}

impl Display for JournaledRunError {
    fn fmt(&self, f: &mut Formatter) -> FmtResult {
        match self {
            Self::Run(error) => error.fmt(f),
            Self::Journal(error) => error.fmt(f),
        }
    }
}

impl Error for JournaledRunError {}

/// Why a journal can't be written, or its search can't go on.
#[derive(Debug)]
#[non_exhaustive]
pub enum JournalFileError {
    /// There is a journal of this name.
    Exists(PathBuf),
    /// There are inputs of a journal that isn't there.
    InputsExist(PathBuf),
    /// Another process writes to it.
    InUse(PathBuf),
    /// There is no journal of this name.
    Missing(PathBuf),
    /// Its search was switched off before it began: the journal is empty, and has no inputs.
    NotBegun(PathBuf),
    /// The inputs beside it can't be read, or aren't as they were written.
    Inputs(PathBuf, InputsError),
    /// A search refuses the inputs beside it.
    Start(PathBuf, StartError),
    /// The line can't be written.
    Line(WriteError),
    /// The system says why.
    Io(PathBuf, io::Error),
}

impl Display for JournalFileError {
    fn fmt(&self, f: &mut Formatter) -> FmtResult {
        match self {
            Self::Exists(path) => {
                write!(
                    f,
                    "{}: there is a journal of this name. Resume it, or name another",
                    path.display()
                )
            }
            Self::InputsExist(path) => write!(
                f,
                "{}: these are the inputs of a journal that isn't beside them. Move them to it, or name another journal",
                path.display()
            ),
            Self::InUse(path) => write!(
                f,
                "{}: another process writes to this journal. Wait until it ends",
                path.display()
            ),
            Self::Missing(path) => write!(
                f,
                "{}: there is no such journal. Name the one of the search that should go on",
                path.display()
            ),
            Self::NotBegun(path) => write!(
                f,
                "{}: its search was switched off before it began. Start it again with this journal",
                path.display()
            ),
            Self::Inputs(path, error) => write!(f, "{}: {error}", path.display()),
            Self::Start(path, error) => write!(f, "{}: {error}", path.display()),
            Self::Line(error) => error.fmt(f),
            Self::Io(path, error) => write!(
                f,
                "{}: can't be written: {error}. Make room there, or name another place",
                path.display()
            ),
        }
    }
}

impl Error for JournalFileError {}
