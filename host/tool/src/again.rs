//! The views of a search that began earlier, found again by its inputs.

use crate::files::{self, read_with_checksum};
use crate::synthetic::{BUILT_IN, built_in_text};
use crate::views::Plate;
use jinnychair::journal::{StoredInputs, Views, inputs_path};
use std::path::{Path, PathBuf};

/// The views that a journal's search began with, and what they are in words: those in `given`, or where none is given those
/// of the name in the inputs, here or beside the journal. Their checksum must be that of the inputs.
///
/// # Errors
///
/// Names the file, why it isn't taken, and what to do.
pub fn plate(
    stored: &StoredInputs,
    journal: &Path,
    given: Option<&Path>,
) -> Result<(Plate, String), String> {
    let Views::File { name, sha256 } = &stored.plate else {
        return match given {
            None => Ok((BUILT_IN.plate(), built_in_text())),
            Some(path) => Err(format!(
                "{}: the search began with the built-in plate. Leave the views out",
                path.display()
            )),
        };
    };
    let path = given.map_or_else(|| named(name, journal), Path::to_owned);
    let (text, found) = read_with_checksum(&path)?;
    if found != *sha256 {
        return Err(format!(
            "{}: these aren't the views that the search began with: their SHA-256 is {found}, and {} has {sha256}. \
             Name the file that it began with",
            path.display(),
            inputs_path(journal).display()
        ));
    }
    let plate = Plate::parse(&text).map_err(|fault| format!("{}: {fault}", path.display()))?;
    Ok((plate, name.clone()))
}

/// A file of the name that was typed, or where there is none, of that name beside the journal.
fn named(name: &str, journal: &Path) -> PathBuf {
    let typed = [PathBuf::from(name), files::named(name)];
    let beside = typed.iter().filter_map(|name| Some(journal.with_file_name(name.file_name()?)));
    let found = typed.iter().cloned().chain(beside).find(|path| path.exists());
    found.unwrap_or_else(|| name.into())
}
