//! Where results go. Whether they can be written is found before the search. A plain file is written whole or not at all, and none
//! is written over but what this program made itself; all else (a device, a pipe) is written to as it is.

use crate::typed::escaped;
use std::ffi::OsStr;
use std::fs::{self, File, Metadata, OpenOptions};
use std::io::{self, Read, Write};
use std::os::unix::ffi::OsStrExt;
use std::os::unix::fs::{FileTypeExt, MetadataExt, OpenOptionsExt, fchown};
use std::path::{Component, Path, PathBuf};
use std::sync::atomic::{AtomicUsize, Ordering};

/// Linux: an opening of a FIFO that nobody reads comes back at once.
const NO_WAITING: i32 = 0o4000;
/// As many links as Linux follows.
const MOST_LINKS: usize = 40;
/// Linux's number for too many of them.
const TOO_MANY_LINKS: i32 = 40;

/// Which existing plain files may be written over.
#[derive(Clone, Copy, Debug, PartialEq, Eq)]
pub enum Over {
    /// None.
    Nothing,
    /// Those that begin so: this program's own.
    Own(&'static str),
    /// All, by `--force`.
    All,
}

impl Over {
    /// The same, or all of them where `--force` is stated.
    #[must_use]
    pub fn or_all(self, force: bool) -> Self {
        if force { Self::All } else { self }
    }
}

/// Where a result goes.
#[derive(Debug)]
pub struct Output {
    name: PathBuf,
    /// The option that names it.
    option: &'static str,
    over: Over,
    place: Place,
}

#[derive(Debug)]
enum Place {
    Stdout,
    Stderr,
    /// What is no plain file, open for writing; not yet where it is a FIFO that nobody reads.
    Stream(Option<File>),
    /// A plain file, behind all links.
    Plain(PathBuf),
}

impl Output {
    /// Finds out what a name leads to, and whether it can be written. `-` is standard output. Nothing is changed.
    ///
    /// # Errors
    ///
    /// Names the file, why it isn't written, and what to do.
    pub fn open(
        name: &Path,
        option: &'static str,
        over: Over,
        inputs: &[&Path],
    ) -> Result<Self, String> {
        let place = place(name, over).map_err(|error| cant(name, option, &error))?;
        let output = Self { name: name.into(), option, over, place };
        if inputs.iter().any(|input| output.is_at(input)) {
            return Err(output.fault("this is an input, and would be written over"));
        }
        match &output.place {
            Place::Plain(path) => output.check_plain(path)?,
            Place::Stream(_) if is_disk(name) && over != Over::All => {
                return Err(format!("{}: this is a disk. --force writes to it", shown(name)));
            }
            _ => {}
        }
        Ok(output)
    }

    /// Its name, as it was typed.
    #[must_use]
    pub fn name(&self) -> String {
        match self.place {
            Place::Stdout => "standard output".into(),
            _ => shown(&self.name),
        }
    }

    /// Whether it is standard output, where nothing else should then stand.
    #[must_use]
    pub fn is_stdout(&self) -> bool {
        matches!(self.place, Place::Stdout)
    }

    /// Whether it is the plain file of this name, which needn't be there.
    #[must_use]
    pub fn is_at(&self, other: &Path) -> bool {
        let Place::Plain(path) = &self.place else { return false };
        let identity =
            |path: &Path| fs::metadata(path).ok().map(|about| (about.dev(), about.ino()));
        match (identity(path), identity(other)) {
            (Some(this), Some(other)) => this == other,
            (None, None) => full(path) == behind_links(other).ok().and_then(|other| full(&other)),
            _ => false,
        }
    }

    /// Whether two results would be written to one place.
    #[must_use]
    pub fn is_same(&self, other: &Self) -> bool {
        match (&self.place, &other.place) {
            (Place::Stdout, Place::Stdout) => true,
            (Place::Plain(_), Place::Plain(path)) => self.is_at(path),
            _ => false,
        }
    }

    /// Writes the result. On a failure an older file of the name stays as it was.
    ///
    /// # Errors
    ///
    /// Names the file, why it couldn't be written, and what to do.
    pub fn write(&self, text: &str) -> Result<(), String> {
        let bytes = text.as_bytes();
        let written = match &self.place {
            Place::Stdout => {
                quietly(io::stdout().write_all(bytes).and_then(|()| io::stdout().flush()))
            }
            Place::Stderr => quietly(io::stderr().write_all(bytes)),
            Place::Stream(Some(file)) => quietly((&*file).write_all(bytes)),
            Place::Stream(None) => OpenOptions::new()
                .write(true)
                .open(&self.name)
                .and_then(|mut file| quietly(file.write_all(bytes))),
            Place::Plain(path) => {
                self.check_free(path)?;
                replace(path, bytes)
            }
        };
        written.map_err(|error| cant(&self.name, self.option, &error))
    }

    /// Whether a plain file can be written, and may be.
    fn check_plain(&self, path: &Path) -> Result<(), String> {
        let cant = |error| cant(&self.name, self.option, &error);
        if path.exists() {
            OpenOptions::new().write(true).open(path).map_err(cant)?;
        }
        let (unfinished, _) = unfinished(path).map_err(cant)?;
        fs::remove_file(&unfinished).map_err(cant)?;
        self.check_free(path)
    }

    /// Whether nothing is lost by writing a plain file.
    fn check_free(&self, path: &Path) -> Result<(), String> {
        let own = match self.over {
            Over::All => return Ok(()),
            Over::Nothing => None,
            Over::Own(head) => Some(head),
        };
        match own.map(|head| begins(path, head)) {
            _ if !path.exists() => Ok(()),
            Some(Ok(true)) => Ok(()),
            Some(Err(error)) => Err(cant(&self.name, self.option, &error)),
            Some(Ok(false)) => Err(self.fault(
                "there is such a file, and this program didn't write it. --force writes over it",
            )),
            None => Err(self.fault("there is such a file. --force writes over it")),
        }
    }

    fn fault(&self, what: &str) -> String {
        let name = shown(&self.name);
        match what.split_once(". ") {
            Some((what, remedy)) => {
                format!("{name}: {what}. {remedy}; or name another with {}", self.option)
            }
            None => format!("{name}: {what}. Name another with {}", self.option),
        }
    }
}

fn shown(name: &Path) -> String {
    escaped(&name.display().to_string())
}

fn cant(name: &Path, option: &str, error: &io::Error) -> String {
    format!(
        "{}: can't be written: {error}. Name another place with {option}, or make room there",
        shown(name)
    )
}

/// The reader of a pipe may have read enough.
fn quietly(written: io::Result<()>) -> io::Result<()> {
    match written {
        Err(error) if error.kind() == io::ErrorKind::BrokenPipe => Ok(()),
        written => written,
    }
}

fn place(name: &Path, over: Over) -> io::Result<Place> {
    if name == "-" {
        return Ok(Place::Stdout);
    }
    let bytes = name.as_os_str().as_bytes();
    let is_folder = matches!(
        name.components().next_back(),
        None | Some(Component::CurDir | Component::ParentDir)
    );
    if is_folder || bytes.ends_with(b"/") || name.is_dir() {
        return Err(io::Error::other("this is a folder's name"));
    }
    let about = fs::metadata(name).ok();
    if let Some(stream) = open_already(name, about.as_ref()) {
        return Ok(stream);
    }
    match about {
        Some(about) if about.is_file() => behind_links(name).map(Place::Plain),
        Some(about) if about.file_type().is_block_device() && over != Over::All => {
            Ok(Place::Stream(None))
        }
        Some(about) => stream(name, about.file_type().is_fifo()).map(Place::Stream),
        None => behind_links(name).map(Place::Plain),
    }
}

fn is_disk(name: &Path) -> bool {
    fs::metadata(name).is_ok_and(|about| about.file_type().is_block_device())
}

/// A file that the program was started with, under one of the names that Linux has for it. Opened anew, a plain file would be written
/// from its beginning, over what stands there.
fn open_already(name: &Path, about: Option<&Metadata>) -> Option<Place> {
    let about = about?;
    let is_same = |of: &str| {
        let other = fs::metadata(format!("/proc/self/fd/{of}")).ok();
        other.is_some_and(|other| (other.dev(), other.ino()) == (about.dev(), about.ino()))
    };
    let is_device = about.file_type().is_char_device();
    if !is_device && is_same("1") {
        return Some(Place::Stdout);
    }
    if !is_device && is_same("2") {
        return Some(Place::Stderr);
    }
    let is_number = leads_through_open_files(name) && about.is_file();
    let append = || OpenOptions::new().append(true).open(name).ok();
    is_number.then(append).flatten().map(|file| Place::Stream(Some(file)))
}

/// Whether a name is that of an open file, as `/dev/fd/3` is.
fn leads_through_open_files(name: &Path) -> bool {
    let folder = name.parent().and_then(|folder| folder.canonicalize().ok());
    let parts = folder.iter().flat_map(|folder| folder.components()).collect::<Vec<_>>();
    parts.get(1) == Some(&Component::Normal(OsStr::new("proc")))
        && parts.last() == Some(&Component::Normal(OsStr::new("fd")))
}

/// Opens what is no plain file. A FIFO that nobody reads yet is opened when it is written.
fn stream(name: &Path, is_fifo: bool) -> io::Result<Option<File>> {
    let mut how = OpenOptions::new();
    how.write(true);
    if !is_fifo {
        return how.open(name).map(Some);
    }
    // While this one is open there is a reader, so that the second opening doesn't wait; its writing does.
    match how.clone().custom_flags(NO_WAITING).open(name) {
        Ok(_reader) => how.open(name).map(Some),
        Err(error) if error.kind() == io::ErrorKind::PermissionDenied => Err(error),
        Err(_) => Ok(None),
    }
}

/// The file that a name leads to, behind all links; it needn't be there.
fn behind_links(name: &Path) -> io::Result<PathBuf> {
    let mut path = name.to_owned();
    for _ in 0..MOST_LINKS {
        let Ok(to) = fs::read_link(&path) else { return Ok(path) };
        path = folder_of(&path).join(to);
    }
    Err(io::Error::from_raw_os_error(TOO_MANY_LINKS))
}

fn folder_of(path: &Path) -> &Path {
    path.parent().filter(|folder| !folder.as_os_str().is_empty()).unwrap_or(Path::new("."))
}

/// The whole name of a file that needn't be there.
fn full(path: &Path) -> Option<PathBuf> {
    Some(folder_of(path).canonicalize().ok()?.join(path.file_name()?))
}

fn begins(path: &Path, head: &str) -> io::Result<bool> {
    let mut read = vec![];
    File::open(path)?.take(head.len() as u64).read_to_end(&mut read)?;
    Ok(read == head.as_bytes())
}

/// A new file under a hidden name in the same folder, so that renaming moves no data.
fn unfinished(path: &Path) -> io::Result<(PathBuf, File)> {
    static NUMBER: AtomicUsize = AtomicUsize::new(0);
    let number = NUMBER.fetch_add(1, Ordering::Relaxed);
    let hidden = folder_of(path).join(format!(".jinnychair-{}-{number}", std::process::id()));
    let file = OpenOptions::new().write(true).create_new(true).open(&hidden)?;
    Ok((hidden, file))
}

/// Writes a file under another name, and then gives it its own. One that has come to be there since isn't written over.
fn replace(path: &Path, bytes: &[u8]) -> io::Result<()> {
    let before = fs::metadata(path).ok();
    let (unfinished, mut file) = unfinished(path)?;
    let mut finish = || {
        file.write_all(bytes)?;
        if let Some(before) = &before {
            let _ = fchown(&file, Some(before.uid()), Some(before.gid()));
            file.set_permissions(before.permissions())?;
        }
        file.sync_all()?;
        if before.is_none() {
            match fs::hard_link(&unfinished, path) {
                Ok(()) => return fs::remove_file(&unfinished),
                Err(error) if error.kind() == io::ErrorKind::AlreadyExists => return Err(error),
                // Not every file system has hard links.
                Err(_) => {}
            }
        }
        fs::rename(&unfinished, path)
    };
    let finished = finish();
    if finished.is_err() {
        let _ = fs::remove_file(&unfinished);
    }
    finished
}

#[cfg(test)]
mod tests {
    use super::*;
    use std::os::unix::fs::{PermissionsExt, symlink};

    const OWN: Over = Over::Own("own");

    fn folder(name: &str) -> PathBuf {
        let folder = std::env::temp_dir().join(format!("jinnychair-{name}-{}", std::process::id()));
        let _ = fs::remove_dir_all(&folder);
        fs::create_dir_all(&folder).unwrap();
        folder
    }

    fn open(path: &Path, over: Over) -> Result<Output, String> {
        Output::open(path, "--out", over, &[])
    }

    #[test]
    fn nothing_stays_behind_and_nothing_foreign_is_written_over() {
        let here = folder("output");
        let good = here.join("good");
        open(&good, OWN).unwrap().write("own text").unwrap();
        assert_eq!(fs::read_dir(&here).unwrap().count(), 1);
        open(&good, OWN).unwrap().write("own other").unwrap();
        assert!(open(&good, Over::Own("other")).unwrap_err().contains("didn't write it. --force"));
        assert!(open(&good, Over::Nothing).unwrap_err().contains("there is such a file. --force"));
        assert_eq!(fs::read_to_string(&good).unwrap(), "own other");
        open(&good, Over::Nothing.or_all(true)).unwrap().write("forced").unwrap();
        assert_eq!(fs::read_to_string(&good).unwrap(), "forced");
        fs::write(here.join("empty"), "").unwrap();
        assert!(open(&here.join("empty"), OWN).is_err());
        assert_eq!(fs::read_dir(&here).unwrap().count(), 2);
        fs::remove_dir_all(&here).unwrap();
    }

    #[test]
    fn what_cant_be_written_is_found_at_once() {
        let here = folder("output-cant");
        for name in ["missing/bad", "taken", "taken/", "new/", ".", ""] {
            fs::create_dir_all(here.join("taken")).unwrap();
            let path = if name.is_empty() { PathBuf::new() } else { here.join(name) };
            let fault = open(&path, OWN).unwrap_err();
            assert!(fault.contains("can't be written"), "{fault}");
        }
        symlink("round", here.join("round")).unwrap();
        assert!(open(&here.join("round"), OWN).unwrap_err().contains("can't be written"));
        assert_eq!(fs::read_dir(&here).unwrap().count(), 2);
        fs::remove_dir_all(&here).unwrap();
    }

    #[test]
    fn a_file_that_comes_to_be_there_meanwhile_stays() {
        let here = folder("output-meanwhile");
        let output = open(&here.join("new"), OWN).unwrap();
        fs::write(here.join("new"), "somebody's").unwrap();
        assert!(output.write("own").unwrap_err().contains("didn't write it"));
        assert_eq!(fs::read_to_string(here.join("new")).unwrap(), "somebody's");
        assert_eq!(fs::read_dir(&here).unwrap().count(), 1);
        fs::remove_dir_all(&here).unwrap();
    }

    #[test]
    fn links_are_followed_and_stay() {
        let here = folder("output-links");
        fs::create_dir(here.join("below")).unwrap();
        symlink("below/file", here.join("one")).unwrap();
        symlink(here.join("one"), here.join("two")).unwrap();
        for text in ["own 1", "own 2"] {
            open(&here.join("two"), OWN).unwrap().write(text).unwrap();
            assert_eq!(fs::read_to_string(here.join("below/file")).unwrap(), text);
        }
        assert!(here.join("one").is_symlink() && here.join("two").is_symlink());
        let fault = Output::open(&here.join("two"), "--out", OWN, &[&here.join("below/file")]);
        assert!(fault.unwrap_err().contains("this is an input"));
        let [a, b] = ["one", "two"].map(|name| open(&here.join(name), OWN).unwrap());
        assert!(a.is_same(&b) && a.is_at(&here.join("below/file")));
        let mode = fs::Permissions::from_mode(0o640);
        fs::set_permissions(here.join("below/file"), mode).unwrap();
        a.write("own 3").unwrap();
        let about = fs::metadata(here.join("below/file")).unwrap();
        assert_eq!(about.permissions().mode() & 0o777, 0o640);
        fs::remove_dir_all(&here).unwrap();
    }

    #[test]
    fn two_new_files_of_one_name_are_one() {
        let here = folder("output-same");
        let dotted = here.join("./below/../new");
        fs::create_dir(here.join("below")).unwrap();
        let [a, b, c] =
            [here.join("new"), dotted, here.join("other")].map(|name| open(&name, OWN).unwrap());
        assert!(a.is_same(&b) && !a.is_same(&c));
        fs::remove_dir_all(&here).unwrap();
    }
}
