//! A search whose instrument is switched off in the middle of a line: it goes on from its journal and ends as if nothing had happened. Then
//! the journal alone leads to the winner, and the morning report is written.

use jinnychair::journal::{JournalWriter, Replayed, ResumedJournal, StoredInputs, Views};
use jinnychair::*;
use std::fs::{self, OpenOptions};
use std::ops::ControlFlow;

const K: FxFyCxCy = FxFyCxCy { fx: 1400.0, fy: 1400.0, cx: 640.0, cy: 480.0 };

/// A host that finds the less error, the nearer a tilt is to −0.021, 0.007, and fails at large ones.
fn solve(seed: &Seed) -> Option<Solution> {
    let ScheimpflugParams { tilt_x, tilt_y } = seed.sensor;
    let error = 1400.0 * (tilt_x + 0.021).hypot(tilt_y - 0.007);
    let camera = PinholeCamera { k: K, dist: BrownConrady5::default() };
    let rows = vec![0.0, 0.0, K.cx + error, K.cy];
    (tilt_x.abs() < 0.15).then_some(Solution { camera, rows, flags: vec![1] })
}

fn main() -> Result<(), Box<dyn std::error::Error>> {
    let folder = std::env::temp_dir().join(format!("jinnychair-power-loss-{}", std::process::id()));
    fs::create_dir_all(&folder)?;
    let path = folder.join("night.journal");

    let options = Options::default();
    let center = Pt2 { x: K.cx, y: K.cy };
    let inputs = Inputs { views: 3, options: &options, decomposition: &[], base: K, center };
    let mut search = Search::start(&inputs)?;
    let stored = StoredInputs::new(&inputs, Views::BuiltIn, "2026-11-17");
    let mut writer = JournalWriter::create(&path, &stored)?;
    let _ = writer.run(&mut search, solve, |tried| match tried.number {
        20 => ControlFlow::Break(()),
        _ => ControlFlow::Continue(()),
    })?;
    // The last bytes never reached the disk.
    let len = writer.len() - 100;
    drop(writer);
    OpenOptions::new().write(true).open(&path)?.set_len(len)?;

    let ResumedJournal { mut writer, mut search, kept_lines, .. } = JournalWriter::resume(&path)?;
    println!(
        "{} lines kept, {} bytes dropped: {}",
        kept_lines.lines, kept_lines.dropped, kept_lines.ended_by
    );
    let ended = writer.run(&mut search, solve, |_| ControlFlow::Continue(()))?;
    let Ended::Over(winner) = ended else { return Err("nothing stops it".into()) };

    let uncut = Search::start(&inputs)?.run(solve)?;
    assert_eq!(winner, uncut);
    let replayed = journal::replay(&inputs, &fs::read(&path)?)?;
    assert_eq!(replayed, Replayed::Winner { number: winner.number, score: winner.score });
    println!("no. {} won, as in a search that was left alone", winner.number);
    print!(
        "scored, failed, bad camera, no mean, no number, all: {}",
        search.counts().report_line()?
    );
    fs::remove_dir_all(&folder)?;
    Ok(())
}
