//! The published Rust files, checked and patched for compiling.
//!
//! No published file is part of this repository. The build scripts of `published/*` call
//! [`prepare`], which takes the files from the folder that the variable `JINNYCHAIR_SOURCE`
//! names (by default `../shared/docs/src` beside the repository), compares each file's SHA-256
//! with [`files::FILES`], makes the edits of [`patches::PATCHES`], and writes the texts to the
//! build's own folder.

pub mod apply;
pub mod files;
pub mod patches;
pub mod sha256;

use files::{FILES, PublishedFile};
use patches::{Edit, PATCHES};
use std::fmt::Write;
use std::path::{Path, PathBuf};

/// The variable that names the folder with the published files.
pub const FOLDER_VARIABLE: &str = "JINNYCHAIR_SOURCE";

/// The build script of the package that compiles the published crate `krate`. Stops the build,
/// with the reason, where a file is missing, differs from its recorded hash or can't be patched.
pub fn build_script(krate: &str) {
    println!("cargo::rerun-if-env-changed={FOLDER_VARIABLE}");
    if let Err(reason) = prepare(krate) {
        eprintln!("{reason}");
        std::process::exit(1);
    }
}

fn prepare(krate: &str) -> Result<(), String> {
    let folder = folder()?;
    let out_dir = build_variable("OUT_DIR")?;
    let own_sources = format!("{}/src", build_variable("CARGO_MANIFEST_DIR")?);
    let mut declarations = String::new();
    for file in FILES.iter().filter(|file| file.krate == krate) {
        let path = folder.join("crates").join(krate).join("src").join(file.path);
        println!("cargo::rerun-if-changed={}", path.display());
        let text = checked_text(file, &read(&path)?)?;
        for module in file.modules {
            let target = format!("{out_dir}/{module}.rs");
            std::fs::write(&target, patched(file, module, &text, &own_sources)?)
                .map_err(|e| format!("can't write {target}: {e}"))?;
            declare(&mut declarations, module, &target);
        }
    }
    let target = format!("{out_dir}/modules.rs");
    std::fs::write(&target, declarations).map_err(|e| format!("can't write {target}: {e}"))
}

/// The folder with the published files.
fn folder() -> Result<PathBuf, String> {
    let beside_repository =
        || Path::new(env!("CARGO_MANIFEST_DIR")).join("../../../shared/docs/src");
    let folder = std::env::var_os(FOLDER_VARIABLE).map_or_else(beside_repository, PathBuf::from);
    if folder.join("crates").is_dir() {
        return Ok(folder);
    }
    Err(format!(
        "The oracle compiles the published files of calibration-rs (commit 1c21d7f0aa), which \
         aren't part of this repository.\nSet {FOLDER_VARIABLE} to a folder that holds them as \
         crates/NAME/src/FILE; {} has no folder `crates`.\nNothing else in the repository needs \
         the oracle.",
        folder.display()
    ))
}

fn build_variable(name: &str) -> Result<String, String> {
    std::env::var(name).map_err(|_| format!("{name} isn't set: this is a build script"))
}

fn read(path: &Path) -> Result<Vec<u8>, String> {
    std::fs::read(path).map_err(|e| format!("can't read {}: {e}", path.display()))
}

/// The file's text, if its bytes have the recorded hash.
///
/// # Errors
///
/// Names the file and both hashes.
pub fn checked_text(file: &PublishedFile, bytes: &[u8]) -> Result<String, String> {
    let found = sha256::hex_digest(bytes);
    if found != file.sha256 {
        return Err(format!(
            "{}/{} isn't the recorded file: its SHA-256 is {found}, recorded is {}",
            file.krate, file.path, file.sha256
        ));
    }
    String::from_utf8(bytes.to_vec()).map_err(|e| format!("{}: {e}", file.path))
}

/// The text of one module made from `file`, with its listed patches.
///
/// # Errors
///
/// Names the module and the patch that doesn't fit.
pub fn patched(
    file: &PublishedFile,
    module: &str,
    text: &str,
    own_sources: &str,
) -> Result<String, String> {
    let edits: Vec<&Edit> = PATCHES
        .iter()
        .filter(|patch| patch.krate == file.krate && patch.module == module)
        .map(|patch| &patch.edit)
        .collect();
    apply::apply(text, &edits, own_sources)
        .map_err(|reason| format!("patching {}, module {module}: {reason}", file.krate))
}

/// Declares a module of published text. Lints don't speak about text that isn't ours.
fn declare(declarations: &mut String, module: &str, target: &str) {
    writeln!(
        declarations,
        "#[path = {target:?}]\n#[allow(dead_code, unused_imports, unused_variables, clippy::all)]\npub mod {module};"
    )
    .expect("writing to a string");
}

#[cfg(test)]
mod tests {
    use super::{Edit, FILES, PATCHES, checked_text};
    use crate::files::PublishedFile;
    use crate::patches::Purpose;
    use crate::sha256::hex_digest;

    #[test]
    fn a_changed_file_is_refused() {
        let bytes = b"fn published() {}\n".to_vec();
        let sha256: &'static str = hex_digest(&bytes).leak();
        let file = PublishedFile { krate: "k", path: "p.rs", sha256, modules: &["p"] };
        assert_eq!(checked_text(&file, &bytes).as_deref(), Ok("fn published() {}\n"));
        for place in 0..bytes.len() {
            let mut changed = bytes.clone();
            changed[place] ^= 1;
            let reason = checked_text(&file, &changed).expect_err("one bit differs");
            assert!(reason.contains("isn't the recorded file"));
        }
    }

    #[test]
    fn every_patch_belongs_to_a_module() {
        for patch in PATCHES {
            let has_it = |file: &&PublishedFile| {
                file.krate == patch.krate && file.modules.contains(&patch.module)
            };
            assert_eq!(FILES.iter().filter(has_it).count(), 1, "{}", patch.module);
        }
    }
    /// What an observing patch looks for stays, whole or around what is put in.
    #[test]
    fn observing_patches_only_add() {
        for patch in PATCHES.iter().filter(|patch| patch.purpose == Purpose::Observes) {
            let Edit::Replace { old, new } = patch.edit else { panic!("not a replacement") };
            let stays = |place| new.starts_with(&old[..place]) && new.ends_with(&old[place..]);
            assert!((0..=old.len()).any(stays), "{old}");
        }
    }
}
