//! The journal as a host meets it: its lines, its file, and the inputs beside it.
#![allow(missing_docs)]

mod common;

use common::{K, bytes, folder, inputs, journaled, options, solve, stored};
use jinnychair::journal::{
    HostVersion, JournalFileError, JournalWriter, Line, Recorded, ScoredFields, StoredInputs,
    Views, inputs_path, lines, read_line, sha256, write_line, write_report,
};
use jinnychair::*;
use std::fs;
use std::ops::ControlFlow;
use std::path::Path;

#[test]
fn each_answer_has_a_line_with_its_numbers() {
    let options = options();
    let mut search = Search::start(&inputs(&options)).unwrap();
    assert_eq!(search.last_line(), None);
    let mut written = vec![];
    let winner = search
        .run_watched(solve, |tried| {
            let line = tried.line;
            assert_eq!(
                (line.number, line.round, line.seed),
                (tried.number, tried.round, tried.seed)
            );
            assert_eq!(line.outcome(), tried.outcome);
            if let Recorded::Scored(fields) = line.outcome {
                assert_eq!((fields.k, fields.p1, fields.p2), (K, 0.05, -0.01));
            }
            written.push(line);
        })
        .unwrap();
    assert_eq!(search.last_line(), written.last().copied());
    let won = written[winner.number].outcome;
    let Recorded::Scored(ScoredFields { score, mean_reproj_error, .. }) = won else {
        panic!("{won:?}");
    };
    assert_eq!((score, mean_reproj_error), (winner.score, winner.mean_reproj_error));
    let journal = bytes(&written);
    let read: Vec<Line> = lines(&journal).map(Result::unwrap).collect();
    assert_eq!(read, written);
}

#[test]
fn what_is_not_a_line_is_named_with_its_number_and_ends_the_lines() {
    let options = options();
    let mut search = Search::start(&inputs(&options)).unwrap();
    let mut written = vec![];
    let _ = search.run_watched(solve, |tried| written.push(tried.line));
    let mut journal = bytes(&written[..4]);
    let whole = journal.len();
    journal.truncate(whole - 1);
    let mut read = lines(&journal);
    assert_eq!(read.by_ref().take(3).filter_map(Result::ok).count(), 3);
    let position = read.position();
    let error = read.next().unwrap().unwrap_err();
    assert_eq!((error.line, error.refusal.number()), (4, 29));
    assert!(error.to_string().starts_with("line 4: this isn't a line of a journal (29)"));
    assert!(read.next().is_none());
    assert_eq!(read_line(&journal, position), Err(error));
    assert_eq!(read_line(&journal, journal.len()), Ok(None));
    assert_eq!(read_line(&journal, usize::MAX), Ok(None));
}

#[test]
fn a_line_that_cannot_be_written_leaves_the_buffer() {
    let seed = Seed::from_numbers([1.0, 1.0, 0.0, 0.0, 0.0, 0.0]);
    let skipped = Recorded::Skipped(SkipReason::NoNumber);
    let line = Line { number: 655, round: 16, seed, outcome: skipped };
    let mut buffer = [7; 256];
    assert_eq!(write_line(&line, &mut buffer), Ok(127));
    let fields = ScoredFields { score: f64::NAN, mean_reproj_error: 1.0, k: K, p1: 0.0, p2: 0.0 };
    for (line, room) in [
        (Line { number: 656, ..line }, 256),
        (Line { round: 17, ..line }, 256),
        (Line { outcome: Recorded::Scored(fields), ..line }, 256),
        (line, 255),
    ] {
        let mut buffer = [7; 256];
        assert_eq!(write_line(&line, &mut buffer[..room]), Err(WriteError::NotWritable));
        assert_eq!(buffer, [7; 256]);
    }
}

#[test]
fn each_line_is_in_the_file_before_the_next_seed_is_asked_for() {
    let (here, options) = (folder("as-it-goes"), options());
    let path = here.join("night.journal");
    let mut search = Search::start(&inputs(&options)).unwrap();
    let mut writer = JournalWriter::create(&path, &stored(&options)).unwrap();
    assert_eq!((writer.len(), fs::read(&path).unwrap().len()), (0, 0));
    let mut asked = 0;
    let ended = writer.run(
        &mut search,
        |seed| {
            // The lines of all that was answered before are there.
            assert_eq!(lines(&fs::read(&path).unwrap()).filter_map(Result::ok).count(), asked);
            asked += 1;
            solve(seed)
        },
        |_| ControlFlow::Continue(()),
    );
    assert!(matches!(ended, Ok(Ended::Over(_))));
    assert_eq!(writer.len(), fs::metadata(&path).unwrap().len());
    let mut names: Vec<_> = fs::read_dir(&here).unwrap().map(|e| e.unwrap().file_name()).collect();
    names.sort();
    assert_eq!(names, ["night.journal", "night.journal.inputs"]);
}

#[test]
fn a_search_that_is_stopped_goes_on_in_its_journal() {
    let (here, options) = (folder("stopped"), options());
    let path = here.join("night.journal");
    let mut search = Search::start(&inputs(&options)).unwrap();
    let mut writer = JournalWriter::create(&path, &stored(&options)).unwrap();
    let stopped = writer.run(&mut search, solve, |tried| match tried.number {
        6 => ControlFlow::Break(()),
        _ => ControlFlow::Continue(()),
    });
    assert!(matches!(stopped, Ok(Ended::Stopped(_))));
    assert_eq!(lines(&fs::read(&path).unwrap()).count(), 7);
    let ended = writer.run(&mut search, solve, |_| ControlFlow::Continue(()));
    let Ok(Ended::Over(winner)) = ended else { panic!("{ended:?}") };
    let (alone, whole) = journaled(&options);
    assert_eq!(winner, alone);
    assert!(fs::read(&path).unwrap() == whole);
}

#[test]
fn nothing_is_written_over() {
    let (here, options) = (folder("written-over"), options());
    let path = here.join("night.journal");
    let create = || JournalWriter::create(&path, &stored(&options));
    // Inputs without a journal belong to one that was moved away.
    fs::write(inputs_path(&path), "of another").unwrap();
    assert!(matches!(create(), Err(JournalFileError::InputsExist(_))));
    assert!(!path.exists());
    fs::remove_file(inputs_path(&path)).unwrap();
    // A file of another kind.
    fs::write(&path, "text").unwrap();
    assert!(matches!(create(), Err(JournalFileError::Exists(_))));
    assert_eq!(fs::read(&path).unwrap(), b"text");
    assert!(!inputs_path(&path).exists());
    // What a search leaves that was switched off between its two files.
    fs::write(&path, "").unwrap();
    let writer = create().unwrap();
    assert!(matches!(create(), Err(JournalFileError::InUse(_))));
    drop(writer);
    let fault = create().unwrap_err();
    assert!(matches!(fault, JournalFileError::Exists(_)), "{fault}");
    assert!(matches!(
        JournalWriter::create(&here.join("missing/night"), &stored(&options)),
        Err(JournalFileError::Io(..))
    ));
    let null = JournalWriter::create(Path::new("/dev/null"), &stored(&options)).unwrap_err();
    assert!(null.to_string().contains("it isn't a file on a disk"), "{null}");
}

/// Inputs with odd numbers, seeds and notes.
fn odd() -> StoredInputs {
    let mut options = options();
    options.tilt_x_seeds = vec![0.1, -0.0, f64::MIN_POSITIVE, 1e-310];
    (options.one_axis, options.min_counted) = (true, 50);
    let seed = Seed::from_numbers([900.0, 901.5, 1.0 / 3.0, -0.0, 0.02, -0.01]);
    let base = FxFyCxCy { fx: f64::NAN, fy: f64::INFINITY, ..K };
    let center = Pt2 { x: f64::NEG_INFINITY, y: -0.0 };
    let inputs = Inputs { views: 7, options: &options, decomposition: &[seed, seed], base, center };
    let plate = Views::File { name: " my views.txt".into(), sha256: sha256(b"abc") };
    let mut stored = StoredInputs::new(&inputs, plate, "2026-11-16 12:30:00 UTC\n");
    stored.add_note("centre", "655 470 stated");
    stored.add_note("two words", "two\nlines");
    stored
}

#[test]
fn inputs_are_read_back_bit_by_bit() {
    let stored = odd();
    let text = stored.text();
    let read = StoredInputs::parse(&text).unwrap();
    assert_eq!(read.text(), text);
    let bits = |stored: &StoredInputs| {
        let seeds = stored.decomposition.iter().flat_map(|seed| seed.numbers());
        let tilts = stored.options.tilt_x_seeds.iter().chain(&stored.options.tilt_y_seeds);
        seeds
            .chain(tilts.copied())
            .chain([stored.center.x, stored.center.y])
            .map(f64::to_bits)
            .collect::<Vec<_>>()
    };
    assert_eq!(bits(&read), bits(&stored));
    assert!(read.base.fx.is_nan() && read.base.fy == f64::INFINITY);
    assert_eq!(
        (read.plate, read.date.as_str()),
        (stored.plate.clone(), "2026-11-16 12:30:00 UTC ")
    );
    assert_eq!(read.notes, stored.notes);
    assert_eq!(stored.note("two-words"), Some("two lines"));
    assert!(text.contains("\nviews-from file  my views.txt\nviews-sha256 ba7816bf"));
    assert!(text.contains(
        "\nstep 3f947ae147ae147b 0.02\nbound 3fd3333333333333 0.3\none-axis yes\nmin-counted 50\n"
    ));
    let built_in = common::stored(&options());
    assert_eq!(StoredInputs::parse(&built_in.text()), Ok(built_in));
}

#[test]
fn a_host_is_named_and_a_file_without_one_has_the_older_form() {
    let mut stored = odd();
    assert!(stored.text().starts_with("jinnychair inputs 1\n"));
    let host = HostVersion { name: "a-host".into(), version: "2 (beta)".into() };
    stored.host = Some(host.clone());
    let text = stored.text();
    assert!(text.starts_with("jinnychair inputs 2\n") && text.contains("\nhost a-host 2 (beta)\n"));
    let read = StoredInputs::parse(&text).unwrap();
    assert_eq!((read.host, read.options), (Some(host), stored.options));
}

#[test]
fn damaged_inputs_are_refused_with_their_line() {
    let text = odd().text();
    let fault = |from: &str, to: &str| {
        let changed = text.replacen(from, to, 1);
        assert_ne!(changed, text, "{from}");
        StoredInputs::parse(&changed).unwrap_err().to_string()
    };
    for (from, to, said) in [
        (
            "inputs 1",
            "inputs 3",
            "line 1: read `jinnychair inputs 3`; expected `jinnychair inputs 2`. Name",
        ),
        ("inputs 1", "inputs 2", "expected `host`, its name and its version"),
        ("views 7", "views 07", "line 6: read `views 07`; expected `views` and a whole number"),
        ("views 7", "views x", "line 6: read `views x`; expected `views` and a whole number"),
        (
            "3f947ae147ae147b 0.02",
            "3f947ae147ae147b 0.03",
            "expected `step`, 16 hexadecimal digits",
        ),
        ("3f947ae147ae147b", "3f947ae147ae147c", "expected `step`, 16 hexadecimal digits"),
        ("3f947ae147ae147b", "3F947AE147AE147B", "expected `step`, 16 hexadecimal digits"),
        ("one-axis yes", "one-axis y", "read `one-axis y`; expected `one-axis` and yes or no"),
        ("min-counted 50", "min-counted +50", "expected `min-counted` and a whole number"),
        ("base-fy", "base-fz", "expected `base-fy`, 16 hexadecimal digits"),
        ("NaN", "nan", "expected `base-fx`, 16 hexadecimal digits"),
        ("views-from file", "views-from", "expected `views-from built-in` or"),
        ("sha256 ba", "sha256 BA", "expected `views-sha256` and 64 hexadecimal digits"),
        ("2026", "20\u{7f}26", "expected `date` and its value"),
        ("2026", "2025", "the checksum isn't that of the lines above: the file was changed"),
        ("tilt-x 3fb999999999999a 0.1\n", "", "the checksum isn't that of the lines above"),
        ("seed-cy", "seed-cz", "expected `seed-cy`"),
        ("\nsha256", "\nsha", "expected `sha256` and its value"),
    ] {
        let told = fault(from, to);
        assert!(told.contains(said), "{told}");
    }
    // Cut anywhere, and longer by a line.
    for len in 0..text.len() {
        assert!(StoredInputs::parse(&text[..len]).is_err(), "{len}");
    }
    assert!(StoredInputs::parse(&(text.clone() + "\n")).is_err());
    assert!(StoredInputs::parse(&text.replace('\n', "\r\n")).is_err());
}

/// The bits count; decimals that are read back to them may be longer than what is written here.
#[test]
fn other_decimals_of_the_same_bits_are_read() {
    let text = odd().text().replace("3f947ae147ae147b 0.02\n", "3f947ae147ae147b 2.00e-2\n");
    let above = &text[..text.rfind("sha256 ").unwrap()];
    let whole = format!("{above}sha256 {}\n", sha256(above.as_bytes()));
    assert_eq!(StoredInputs::parse(&whole).unwrap().text(), odd().text());
}

/// The same file and the same changed bytes as in crates/inputs_file/src/tests.rt, whose proved reader names the same lines.
#[test]
fn a_changed_byte_is_found_in_its_line() {
    let mut stored = odd();
    stored.options.tilt_x_seeds = vec![0.1, -0.0];
    stored.options.tilt_y_seeds = vec![0.25];
    stored.decomposition.truncate(1);
    stored.host = Some(HostVersion { name: "a-host".into(), version: "2 (beta)".into() });
    let text = stored.text();
    assert!(
        text.ends_with(
            "\nsha256 6faaf204bb9ad1ba484970323fd6c8d29220277f3316d0e3c63329b23d52830a\n"
        )
    );
    let line = |text: &str| StoredInputs::parse(text).unwrap_err().line;
    for (at, byte, expected) in [
        (18, b'3', 1),
        (39, b'-', 3),
        (61, b'\x7f', 4),
        (101, b'-', 5),
        (129, b'B', 6),
        (200, b'x', 7),
        (236, b'3', 9),
        (217, b'F', 9),
        (276, b't', 11),
        (290, b'+', 12),
        (318, b'n', 13),
        (328, b'z', 14),
        (502, b'z', 20),
        (619, b'z', 24),
        (781, b'N', 29),
        (64, b'5', 30),
        (813, b'7', 30),
    ] {
        let mut changed = text.clone().into_bytes();
        changed[at] = byte;
        assert_eq!(line(&String::from_utf8(changed).unwrap()), Some(expected), "{at}");
    }
    assert_eq!(line(""), Some(1));
    assert_eq!(line(&text[..text.len() - 1]), Some(30));
    assert_eq!(line(&(text + "\n")), Some(31));
}

#[test]
fn inputs_are_saved_and_loaded_beside_their_journal() {
    let here = folder("beside");
    let path = here.join("night");
    let missing = StoredInputs::load(&path).unwrap_err().to_string();
    assert!(missing.starts_with("can't be read: "), "{missing}");
    odd().save(&path).unwrap();
    assert_eq!(StoredInputs::load(&path).unwrap().text(), odd().text());
    assert_eq!(fs::read_dir(&here).unwrap().count(), 1);
    assert!(odd().save(&here.join("missing/night")).is_err());
}

#[test]
fn counts_are_those_of_the_lines_and_the_report_has_them() {
    let options = options();
    let mut search = Search::start(&inputs(&options)).unwrap();
    assert_eq!(search.counts(), Counts::default());
    let mut written: Vec<Line> = vec![];
    while let Handed::Candidate { seed, .. } = search.next().unwrap() {
        // A seed that waits isn't counted, and an answer that is refused isn't either.
        assert_eq!(search.counts(), Counts::of(&written));
        let rows = Rows { numbers: &[], flags: &[1] };
        let camera = PinholeCamera { k: K, dist: BrownConrady5::default() };
        assert!(search.answer(&Finding::Solved { camera, rows }).is_err());
        let solution = solve(&seed);
        let finding = solution.as_ref().map_or(Finding::Failed, Solution::finding);
        let _ = search.answer(&finding).unwrap();
        written.extend(search.last_line());
        let counts = search.counts();
        assert_eq!((counts, counts.total()), (Counts::of(&written), search.answered()));
    }
    let counts = search.counts();
    assert!(counts.scored > 0 && counts.host_failed > 0 && counts.bad_camera > 0, "{counts:?}");
    assert_eq!((counts.no_mean, counts.no_number), (0, 0));
    let reasons = SkipReason::ALL.iter().map(|reason| counts.skipped(*reason));
    assert_eq!(counts.scored + reasons.sum::<usize>(), written.len());
    let Counts { scored, host_failed, bad_camera, .. } = counts;
    let line = format!("{scored},{host_failed},{bad_camera},0,0,{}\n", written.len());
    assert_eq!(counts.report_line(), Ok(line));
}

#[test]
fn a_report_that_cannot_be_written_leaves_the_buffer() {
    let all = |count| Counts {
        scored: count,
        host_failed: count,
        bad_camera: count,
        no_mean: count,
        no_number: count,
    };
    let mut buffer = [7; 30];
    assert_eq!(write_report(&all(100), &mut buffer), Ok(24));
    assert_eq!((&buffer[..24], &buffer[24..]), (&b"100,100,100,100,100,500\n"[..], &[7; 6][..]));
    let mut buffer = [7; 24];
    assert_eq!(write_report(&Counts::default(), &mut buffer[..23]), Err(ReportError::NotWritable));
    for counts in [
        Counts { scored: 657, ..Counts::default() },
        Counts { scored: usize::MAX, no_number: 1, ..Counts::default() },
        all(usize::MAX),
    ] {
        assert_eq!(write_report(&counts, &mut buffer), Err(ReportError::NotWritable));
        assert_eq!(counts.report_line(), Err(ReportError::NotWritable));
    }
    assert_eq!((buffer, all(usize::MAX).total()), ([7; 24], usize::MAX));
}
