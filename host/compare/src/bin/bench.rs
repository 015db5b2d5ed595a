//! The benchmark in one command: builds the programs of the table, has each compare its sides' answers and take their times, counts
//! instructions where valgrind is installed, and prints one table. docs/PERFORMANCE.md says how it measures.
//!
//!     cargo run --release --bin bench -- [PART] [--milliseconds N]
//!     cargo run --release --bin bench -- answers [PART] | instructions [PART] | growth
//!
//! A part is one of scorings, runs, lists, calls, journal, geometry, distortions, sines, roots, values. A row takes 250 milliseconds in
//! each program unless another time is given. `answers` compares alone, `instructions` counts alone; `growth` stands by itself: the library's
//! times by the size of their work. Linux only, for its clock of a thread's time.

use compare::bench::PADS;
use compare::bench::table::{Counted, are_moved, table};
use compare::bench::valgrind::Counts;
use compare::program;
use std::path::PathBuf;
use std::process::{Command, ExitCode, Stdio};

/// Milliseconds of a row in each program.
const MILLISECONDS: &str = "250";

fn own_program() -> Result<PathBuf, String> {
    std::env::current_exe().map_err(|error| error.to_string())
}

/// The program with so many bytes in front of its code, beside this one.
fn padded(pad: usize) -> Result<PathBuf, String> {
    let program = own_program()?.with_file_name(format!("pad_{pad}"));
    if !program.is_file() {
        return Err(format!("there is no {}", program.display()));
    }
    Ok(program)
}

/// Builds the programs beside this one, which cargo has put two folders below those of its builds.
fn build() -> Result<(), String> {
    let own = own_program()?;
    let target = own.ancestors().nth(2).ok_or("cargo didn't build this program")?;
    let manifest = concat!(env!("CARGO_MANIFEST_DIR"), "/Cargo.toml");
    let status = Command::new(env!("CARGO"))
        .args(["build", "--release", "--bins", "--quiet", "--offline", "--manifest-path", manifest])
        .arg("--target-dir")
        .arg(target)
        .status();
    let built = status.map_err(|error| error.to_string())?.success();
    built.then_some(()).ok_or("the programs can't be built".to_owned())
}

/// What a program says to some words.
fn said(pad: usize, words: &[&str]) -> Result<String, String> {
    let output = Command::new(padded(pad)?).args(words).stderr(Stdio::inherit()).output();
    let output = output.map_err(|error| error.to_string())?;
    let said = String::from_utf8_lossy(&output.stdout).into_owned();
    output.status.success().then_some(said).ok_or(format!("pad_{pad} {words:?} failed"))
}

/// Compares the answers of all sides.
fn answers(part: &[&str]) -> Result<(), String> {
    let rows = said(0, &[&["answers"], part].concat())?.lines().count();
    eprintln!("{rows} rows: all sides give the same answers");
    Ok(())
}

fn places() -> Result<Vec<Vec<usize>>, String> {
    let of = |pad: &usize| {
        let said = said(*pad, &["places"])?;
        said.split_whitespace().map(|place| program::number("places", place)).collect()
    };
    PADS.iter().map(of).collect()
}

fn times(milliseconds: &str, part: &[&str]) -> Result<Vec<String>, String> {
    let places = places()?;
    if !are_moved(&places) {
        eprintln!("the linker didn't move all code by the pads: {places:?}");
    }
    let of = |pad: &usize| {
        eprintln!("times with {pad} bytes in front");
        said(*pad, &[&["times", milliseconds], part].concat())
    };
    PADS.iter().map(of).collect()
}

fn instructions(part: &[&str]) -> Result<Option<Counted>, String> {
    eprintln!("instructions");
    let Some((said, counts)) = Counts::of(&padded(0)?, &[&["instructions"], part].concat())? else {
        eprintln!("valgrind isn't installed: no instructions are counted");
        return Ok(None);
    };
    Counted::new(&said, &counts).map(Some)
}

fn all(milliseconds: &str, part: &[&str]) -> Result<(), String> {
    answers(part)?;
    let times = times(milliseconds, part)?;
    print!("{}", table(&times, instructions(part)?.as_ref())?);
    Ok(())
}

fn bench(words: Vec<String>) -> Result<ExitCode, String> {
    let words: Vec<&str> = words.iter().map(String::as_str).collect();
    build()?;
    match words[..] {
        ["growth"] => print!("{}", said(0, &["growth"])?),
        ["answers", ref part @ ..] => answers(part)?,
        ["instructions", ref part @ ..] => {
            let counted = instructions(part)?.ok_or("instructions need valgrind")?;
            print!("{}", counted.table());
        }
        [ref part @ .., "--milliseconds", milliseconds] => all(milliseconds, part)?,
        ref part => all(MILLISECONDS, part)?,
    }
    Ok(ExitCode::SUCCESS)
}

fn main() -> ExitCode {
    program::run(bench)
}
