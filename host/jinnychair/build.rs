//! Links `libcapi.a`, the static library of the proved crates. It is taken from the folder that `JINNYCHAIR_STATICLIB` names; or
//! from `../lib`, where a release has it; or else it is proved and built from the repository by `rt lib` in `crates/capi`.

use std::env;
use std::fs;
use std::io;
use std::path::{Path, PathBuf};
use std::process::{Command, exit};
use std::time::SystemTime;

const ARCHIVE: &str = "libcapi.a";

fn main() {
    println!("cargo::rerun-if-env-changed=JINNYCHAIR_STATICLIB");
    let here = env::var_os("CARGO_MANIFEST_DIR").expect("cargo sets the package's folder");
    let released = Path::new(&here).join("../lib");
    let folder = match env::var_os("JINNYCHAIR_STATICLIB") {
        Some(folder) => given(PathBuf::from(folder)),
        None if released.join(ARCHIVE).is_file() => given(released),
        None => built(&Path::new(&here).join("../..")),
    };
    println!("cargo::rustc-link-search=native={}", folder.display());
    println!("cargo::rustc-link-lib=static=capi");
    println!("cargo::rustc-env=JINNYCHAIR_ARCHIVE={}", folder.join(ARCHIVE).display());
}

fn fail(fault: &str) -> ! {
    eprintln!("{fault}");
    exit(1);
}

/// An archive that someone else wrote: a newer one is linked again.
fn given(folder: PathBuf) -> PathBuf {
    let archive = folder.join(ARCHIVE);
    if !archive.is_file() {
        fail(&format!("there is no {}", archive.display()));
    }
    println!("cargo::rerun-if-changed={}", archive.display());
    folder
}

/// The archive of the repository's own crates. Their sources are watched, and neither the archive, which is written here, nor what
/// `rt` keeps in each crate's `out`.
fn built(root: &Path) -> PathBuf {
    let list = root.join("crates.txt");
    if !list.is_file() {
        fail(
            "there is neither ../lib/libcapi.a nor a repository; set JINNYCHAIR_STATICLIB to the folder of libcapi.a",
        );
    }
    let sources = match sources(&root.join("crates")) {
        Ok(folders) => [folders, vec![list]].concat(),
        Err(error) => fail(&format!("the crates can't be listed: {error}")),
    };
    for source in &sources {
        println!("cargo::rerun-if-changed={}", source.display());
    }
    let folder = root.join("target/staticlib");
    if !is_newer(&folder.join(ARCHIVE), &sources).unwrap_or(false) {
        prove(&root.join("crates/capi"), &folder);
    }
    folder
}

/// The folders of each crate that a check reads.
fn sources(crates: &Path) -> io::Result<Vec<PathBuf>> {
    let mut found = Vec::new();
    for entry in fs::read_dir(crates)? {
        let of_crate = entry?.path();
        found.extend(["src", "specs", "proofs"].map(|part| of_crate.join(part)));
    }
    found.retain(|folder| folder.is_dir());
    Ok(found)
}

/// Whether a file is newer than all that the others hold.
fn is_newer(file: &Path, others: &[PathBuf]) -> io::Result<bool> {
    let made = fs::metadata(file)?.modified()?;
    let mut last = SystemTime::UNIX_EPOCH;
    let mut left = others.to_vec();
    while let Some(path) = left.pop() {
        let about = fs::metadata(&path)?;
        last = last.max(about.modified()?);
        if about.is_dir() {
            for entry in fs::read_dir(path)? {
                left.push(entry?.path());
            }
        }
    }
    Ok(made > last)
}

fn prove(capi: &Path, folder: &Path) {
    match Command::new("rt").arg("lib").current_dir(capi).status() {
        Ok(status) if status.success() => {}
        Ok(status) => fail(&format!("`rt lib` failed in {}: {status}", capi.display())),
        Err(error) => fail(&format!(
            "`rt` can't be run ({error}); set JINNYCHAIR_STATICLIB to the folder of a built libcapi.a"
        )),
    }
    let made = capi.join("out").join(ARCHIVE);
    if let Err(error) =
        fs::create_dir_all(folder).and_then(|()| fs::copy(&made, folder.join(ARCHIVE)))
    {
        fail(&format!("{} can't be copied to {}: {error}", made.display(), folder.display()));
    }
}
