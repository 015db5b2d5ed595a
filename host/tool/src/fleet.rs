//! Many journals: what is found of each, on all processors, one after the other in their order.

use crate::files::name_text;
use crate::journal::Journal;
use crate::json::Json;
use crate::page::Told;
use crate::summary;
use crate::walk::{State, Walked};
use std::ffi::OsStr;
use std::fs::{self, File};
use std::io::Read;
use std::num::NonZeroUsize;
use std::os::unix::ffi::OsStrExt;
use std::path::{Path, PathBuf};
use std::sync::Mutex;
use std::sync::atomic::{AtomicUsize, Ordering};
use std::thread;

/// How many bytes tell whether a file begins as a journal does.
const HEAD_LEN: u64 = 512;

/// The journals below a folder, in the order of their names: files with inputs beside them, or that begin as a journal. Inputs
/// whose journal is missing take its place, so that it is reported. Links to folders aren't followed.
///
/// # Errors
///
/// Names the folder that can't be read.
pub fn below(folder: &Path) -> Result<Vec<PathBuf>, String> {
    let fault = |error| format!("{}: can't be read: {error}", folder.display());
    let (mut found, mut folders) = (vec![], vec![folder.to_owned()]);
    while let Some(folder) = folders.pop() {
        for entry in fs::read_dir(&folder).map_err(fault)? {
            let entry = entry.map_err(fault)?;
            let (path, kind) = (entry.path(), entry.file_type().map_err(fault)?);
            if kind.is_dir() {
                folders.push(path);
            } else if let Some(journal) = of_inputs(&path) {
                found.push(journal);
            } else if path.is_file() && begins_as_journal(&path) {
                found.push(path);
            }
        }
    }
    found.sort();
    found.dedup();
    Ok(found)
}

/// The journal of a file of inputs.
fn of_inputs(path: &Path) -> Option<PathBuf> {
    let name = path.as_os_str().as_bytes().strip_suffix(b".inputs")?;
    Some(OsStr::from_bytes(name).into())
}

fn begins_as_journal(path: &Path) -> bool {
    let mut head = vec![];
    let read = File::open(path).and_then(|file| file.take(HEAD_LEN).read_to_end(&mut head));
    read.is_ok() && !Journal::parse(&head).lines.is_empty()
}

/// What is found of a journal; what is wrong with it stands in its own object alone.
#[must_use]
pub fn one(path: &Path, with_views: bool) -> Json {
    let walked = match Walked::read(path) {
        Ok(walked) => walked,
        Err(fault) => {
            let file = Json::Object(vec![("file", name_text(path).into())]);
            return summary::head("report").with("journal", file).with("fault", fault);
        }
    };
    let found = match walked.is_the_runs() {
        true => Told::new(&walked, None, with_views)
            .map(|told| summary::of_told("report", &walked, &told)),
        false => Ok(summary::of_walked("report", &walked)),
    };
    let found =
        found.unwrap_or_else(|fault| summary::of_walked("report", &walked).with("fault", fault));
    match fault(&walked) {
        Some(fault) => found.with("fault", fault),
        None => found,
    }
}

/// Why a journal isn't believed.
fn fault(walked: &Walked) -> Option<String> {
    match &walked.state {
        State::NotRun(why) => {
            Some(format!("{}: it couldn't be run again: {why}", walked.path.display()))
        }
        _ => walked.fault(),
    }
}

/// Whether nothing is to be said against a journal.
#[must_use]
pub fn is_good(found: &Json) -> bool {
    let is = |path: &str, expected: &str| found.at(path) == Some(&expected.into());
    is("journal.state", "run") && is("verdict.word", "good") && found.at("fault").is_none()
}

/// Works on each journal, as many at a time as there are processors, and gives what is made of it in the journals' order, each
/// as soon as those before it are given.
pub fn each<T: Send>(
    journals: &[PathBuf],
    work: impl Fn(&Path) -> T + Sync,
    give: impl FnMut(T) + Send,
) {
    let workers = thread::available_parallelism().map_or(1, NonZeroUsize::get).min(journals.len());
    let next = AtomicUsize::new(0);
    let waiting = Mutex::new(Waiting { given: 0, done: Default::default(), give });
    thread::scope(|scope| {
        for _ in 0..workers {
            scope.spawn(|| {
                while let Some((i, path)) = take(&next, journals) {
                    let made = work(path);
                    waiting.lock().expect("no worker panics").put(i, made);
                }
            });
        }
    });
}

fn take<'a>(next: &AtomicUsize, journals: &'a [PathBuf]) -> Option<(usize, &'a Path)> {
    let i = next.fetch_add(1, Ordering::Relaxed);
    journals.get(i).map(|path| (i, path.as_path()))
}

/// What is made, until all before it is given.
struct Waiting<T, G> {
    given: usize,
    done: std::collections::BTreeMap<usize, T>,
    give: G,
}

impl<T, G: FnMut(T)> Waiting<T, G> {
    fn put(&mut self, i: usize, made: T) {
        self.done.insert(i, made);
        while let Some(made) = self.done.remove(&self.given) {
            (self.give)(made);
            self.given += 1;
        }
    }
}

#[cfg(test)]
mod tests {
    use super::*;

    #[test]
    fn all_is_given_once_and_in_order() {
        let journals: Vec<PathBuf> = (0..1000).map(|i| i.to_string().into()).collect();
        let mut given = vec![];
        each(&journals, |path| path.to_owned(), |path| given.push(path));
        assert_eq!(given, journals);
        each(&[], |_| (), |()| unreachable!("there is none"));
    }
}
