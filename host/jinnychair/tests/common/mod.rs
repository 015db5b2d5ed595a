//! A search that journals are tried with.
#![allow(dead_code, missing_docs)]

use jinnychair::journal::{Line, StoredInputs, Views, write_line};
use jinnychair::*;
use std::fs;
use std::path::{Path, PathBuf};

pub const K: FxFyCxCy = FxFyCxCy { fx: 1000.0, fy: 1000.0, cx: 640.0, cy: 480.0 };

/// An empty folder of a test's own.
pub fn folder(name: &str) -> PathBuf {
    let folder = Path::new(env!("CARGO_TARGET_TMPDIR")).join("journal").join(name);
    let _ = fs::remove_dir_all(&folder);
    fs::create_dir_all(&folder).unwrap();
    folder
}

pub fn options() -> Options {
    let mut options = Options::default();
    options.refine_rounds = 3;
    options
}

pub fn inputs(options: &Options) -> Inputs<'_> {
    let center = Pt2 { x: K.cx, y: K.cy };
    Inputs { views: 3, options, decomposition: &[], base: K, center }
}

pub fn stored(options: &Options) -> StoredInputs {
    StoredInputs::new(&inputs(options), Views::BuiltIn, "2026-11-16")
}

/// A host with three kinds of outcomes.
pub fn solve(seed: &Seed) -> Option<Solution> {
    let ScheimpflugParams { tilt_x, tilt_y } = seed.sensor;
    let error = 1000.0 * (tilt_x + 0.05).hypot(tilt_y - 0.01);
    let k = if tilt_y > 0.03 { FxFyCxCy { fx: -1.0, ..K } } else { K };
    let dist = BrownConrady5 { k1: 0.5, p1: 0.07, p2: -0.01, ..BrownConrady5::default() };
    let camera = PinholeCamera { k, dist };
    let rows = vec![0.0, 0.0, K.cx + error, K.cy];
    (tilt_x < 0.1).then_some(Solution { camera, rows, flags: vec![1] })
}

/// The bytes of lines.
pub fn bytes(lines: &[Line]) -> Vec<u8> {
    let mut bytes = vec![];
    for line in lines {
        let mut buffer = [0; 256];
        let len = write_line(line, &mut buffer).unwrap();
        bytes.extend(&buffer[..len]);
    }
    bytes
}

/// A search with its journal's bytes.
pub fn journaled(options: &Options) -> (Winner, Vec<u8>) {
    let mut search = Search::start(&inputs(options)).unwrap();
    let mut written = vec![];
    let winner = search.run_watched(solve, |tried| written.push(tried.line)).unwrap();
    (winner, bytes(&written))
}
