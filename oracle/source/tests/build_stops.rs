//! A build without the published files, or with files that aren't the recorded ones, stops and
//! says why.

use std::path::Path;
use std::process::Command;

/// What a build of the first published crate prints, which must fail.
fn failed_build(folder: &Path) -> String {
    let build = Command::new(env!("CARGO"))
        .args(["build", "--offline", "--package", "vision-calibration-core"])
        .current_dir(Path::new(env!("CARGO_MANIFEST_DIR")).join(".."))
        .env("CARGO_TARGET_DIR", Path::new(env!("CARGO_TARGET_TMPDIR")).join("build_stops"))
        .env(source::FOLDER_VARIABLE, folder)
        .output()
        .expect("cargo runs");
    assert!(!build.status.success());
    String::from_utf8_lossy(&build.stderr).into_owned()
}

#[test]
fn the_build_stops_and_says_why() {
    let folder = Path::new(env!("CARGO_TARGET_TMPDIR")).join("not_the_published_files");
    let missing = failed_build(&folder.join("nowhere"));
    assert!(missing.contains("Set JINNYCHAIR_SOURCE to a folder"), "{missing}");

    let sources = folder.join("crates/vision-calibration-core/src");
    std::fs::create_dir_all(&sources).expect("a folder of its own");
    std::fs::write(sources.join("error.rs"), "pub enum Error {}\n").expect("a file of its own");
    let tampered = failed_build(&folder);
    assert!(tampered.contains("error.rs isn't the recorded file"), "{tampered}");
}
