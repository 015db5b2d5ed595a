//! A search that was switched off goes on, in memory and in its file.
#![allow(missing_docs)]

mod common;

use common::{folder, inputs, journaled, options, solve, stored};
use jinnychair::journal::{
    EndedBy, JournalFileError, JournalWriter, KeptLines, Resumed, ResumedJournal, inputs_path,
    lines,
};
use jinnychair::*;
use std::fs;
use std::ops::ControlFlow;
use std::path::{Path, PathBuf};

#[test]
fn a_search_goes_on_from_any_cut_and_ends_as_the_uncut_one() {
    let options = options();
    let (winner, journal) = journaled(&options);
    for cut in (0..journal.len()).step_by(97).chain([journal.len()]) {
        let front = &journal[..cut];
        let Resumed { mut search, kept_lines } = Search::resume(&inputs(&options), front).unwrap();
        assert_eq!(
            (kept_lines.kept + kept_lines.dropped, kept_lines.lines),
            (cut, search.answered())
        );
        let is_whole = kept_lines.dropped == 0;
        let ended_by = if is_whole { EndedBy::Nothing } else { EndedBy::MissingNewline };
        assert_eq!((kept_lines.ended_by, search.waiting()), (ended_by, None));
        let kept: Vec<_> = lines(&journal[..kept_lines.kept]).map(Result::unwrap).collect();
        assert_eq!(
            (search.counts(), search.last_line()),
            (Counts::of(&kept), kept.last().copied())
        );
        let mut written = kept;
        let ended = search.run_watched(solve, |tried| written.push(tried.line));
        assert_eq!(ended, Ok(winner));
        assert!(common::bytes(&written) == journal, "cut after {cut} bytes");
    }
}

#[test]
fn what_ended_the_lines_is_told() {
    let options = options();
    let (_, journal) = journaled(&options);
    let second = journal.iter().position(|byte| *byte == b'\n').unwrap() + 1;
    let kept_lines =
        |journal: &[u8]| Search::resume(&inputs(&options), journal).unwrap().kept_lines;
    let kept = |dropped, ended_by| KeptLines { lines: 1, kept: second, dropped, ended_by };
    let with = |end: &[u8]| kept_lines(&[&journal[..second], end].concat());
    assert_eq!(with(b""), kept(0, EndedBy::Nothing));
    assert_eq!(with(b"\0\0\0"), kept(3, EndedBy::MissingNewline));
    assert_eq!(with(b"x\n0,0"), kept(5, EndedBy::NotALine));
    assert_eq!(with(&journal[..second]), kept(second, EndedBy::NotTheRun));
    let told = [EndedBy::Nothing, EndedBy::MissingNewline, EndedBy::NotALine, EndedBy::NotTheRun];
    let [nothing, newline, no_line, not_the_run] = told.map(|ended_by| ended_by.to_string());
    assert_eq!(
        (nothing.as_str(), newline.as_str()),
        ("the whole journal was kept", "the next line was cut off")
    );
    assert!(no_line.contains("(29)") && not_the_run.contains("(30)"));
}

#[test]
fn refused_inputs_resume_nothing() {
    let mut options = options();
    options.min_counted = 101;
    let refused = Search::resume(&inputs(&options), b"").map(|_| ());
    assert_eq!(refused, Err(StartError::ShareTooLarge));
}

/// One tilt about x, then a round of three: four lines.
fn few() -> Options {
    let mut options = Options::default();
    (options.tilt_x_seeds, options.tilt_y_seeds) = (vec![-0.04], vec![0.0]);
    (options.one_axis, options.refine_rounds) = (true, 1);
    options
}

/// A journal of these bytes with the inputs of a search beside it.
fn left_behind(name: &str, options: &Options, journal: &[u8]) -> PathBuf {
    let path = folder(name).join("night.journal");
    stored(options).save(&path).unwrap();
    fs::write(&path, journal).unwrap();
    path
}

fn go_on(resumed: &mut ResumedJournal) -> Winner {
    let ResumedJournal { writer, search, .. } = resumed;
    match writer.run(search, solve, |_| ControlFlow::Continue(())) {
        Ok(Ended::Over(winner)) => winner,
        other => panic!("{other:?}"),
    }
}

#[test]
fn a_file_that_was_cut_anywhere_ends_with_the_same_bytes() {
    let options = few();
    let (winner, journal) = journaled(&options);
    let path = left_behind("cut", &options, b"");
    for cut in (0..journal.len()).step_by(5).chain([journal.len()]) {
        fs::write(&path, &journal[..cut]).unwrap();
        let mut resumed = JournalWriter::resume(&path).unwrap();
        let kept = resumed.kept_lines.kept;
        assert_eq!(resumed.writer.len(), kept as u64);
        assert!(fs::read(&path).unwrap() == journal[..kept]);
        assert_eq!(go_on(&mut resumed), winner);
        assert!(fs::read(&path).unwrap() == journal, "cut after {cut} bytes");
    }
}

#[test]
fn a_tail_that_is_not_the_runs_is_cut_before_anything_is_added() {
    let options = few();
    let (winner, journal) = journaled(&options);
    let line = journal.iter().position(|byte| *byte == b'\n').unwrap() + 1;
    let first = &journal[..line];
    for (end, ended_by) in [
        (vec![0; 4096], EndedBy::MissingNewline),
        (b"\n".repeat(9), EndedBy::NotALine),
        (first.repeat(5), EndedBy::NotTheRun),
    ] {
        let path = left_behind("tail", &options, &[first, &end].concat());
        let mut resumed = JournalWriter::resume(&path).unwrap();
        let kept_lines = KeptLines { lines: 1, kept: line, dropped: end.len(), ended_by };
        assert_eq!((resumed.kept_lines, fs::read(&path).unwrap().len()), (kept_lines, line));
        assert_eq!(go_on(&mut resumed), winner);
        assert!(fs::read(&path).unwrap() == journal);
    }
}

#[test]
fn a_whole_journal_has_its_winner_at_once() {
    let options = few();
    let (winner, journal) = journaled(&options);
    let path = left_behind("whole", &options, &journal);
    let resumed = JournalWriter::resume(&path).unwrap();
    assert_eq!(resumed.search.result(), Ok(winner));
    assert_eq!(resumed.inputs, stored(&options));
    assert!(fs::read(&path).unwrap() == journal);
}

#[test]
fn one_process_writes_and_others_may_read() {
    let options = few();
    let (_, journal) = journaled(&options);
    let path = left_behind("in-use", &options, &journal[..300]);
    let resumed = JournalWriter::resume(&path).unwrap();
    let second = JournalWriter::resume(&path).unwrap_err();
    assert!(matches!(second, JournalFileError::InUse(_)), "{second}");
    assert_eq!(lines(&fs::read(&path).unwrap()).filter_map(Result::ok).count(), 1);
    drop(resumed);
    assert!(JournalWriter::resume(&path).is_ok());
}

#[test]
fn a_search_that_was_switched_off_before_it_began_is_begun() {
    let (here, options) = (folder("not-begun"), few());
    let path = here.join("night.journal");
    fs::write(&path, "").unwrap();
    let fault = JournalWriter::resume(&path).unwrap_err();
    assert!(matches!(fault, JournalFileError::NotBegun(_)), "{fault}");
    assert!(fault.to_string().contains("Start it again with this journal"));
    drop(JournalWriter::create(&path, &stored(&options)).unwrap());
    // With its inputs on the disk it can be resumed, though it has no line.
    let mut resumed = JournalWriter::resume(&path).unwrap();
    assert_eq!((resumed.kept_lines.lines, resumed.kept_lines.ended_by), (0, EndedBy::Nothing));
    assert_eq!(go_on(&mut resumed), journaled(&options).0);
}

#[test]
fn nothing_is_cut_where_the_inputs_are_not_taken() {
    let options = few();
    let (_, journal) = journaled(&options);
    let front = &journal[..300];
    let fault = |path: &Path| {
        let fault = JournalWriter::resume(path).unwrap_err();
        assert!(fs::read(path).unwrap() == front);
        fault
    };
    let path = left_behind("inputs", &options, front);
    fs::remove_file(inputs_path(&path)).unwrap();
    assert!(matches!(fault(&path), JournalFileError::Inputs(..)));
    fs::write(inputs_path(&path), "jinnychair inputs 1\n").unwrap();
    let damaged = fault(&path).to_string();
    assert!(damaged.contains("night.journal.inputs: line 2: "), "{damaged}");
    let mut refused = few();
    refused.max_abs_tilt = 0.6;
    let path = left_behind("refused", &refused, front);
    let told = fault(&path).to_string();
    assert!(told.contains("(27)"), "{told}");
    let missing = JournalWriter::resume(&path.with_file_name("day.journal")).unwrap_err();
    assert!(matches!(missing, JournalFileError::Missing(_)), "{missing}");
}
