//! The morning report as a user meets it: the counts of a journal, in words and as a line.
#![allow(missing_docs)]

mod common;

use common::{assert_said, file, folder, said, searched, small, write_journal};
use jinnychair::SkipReason;
use jinnychair::journal::{Line, Recorded};
use std::fs;
use tool::journal::Journal;

/// The lines that say how many there are, without the progress beside them.
fn counts(text: &str) -> Vec<&str> {
    let is_count = |line: &&str| {
        ["tilts   ", "  skipped ", "report  "].iter().any(|name| line.starts_with(name))
    };
    text.lines().filter(is_count).collect()
}

#[test]
fn a_report_says_what_the_search_said_at_its_end() {
    let here = folder("report");
    let shown = said(&here, &small(&["--journal=night"]), 0);
    let report = said(&here, &["report", "night"], 0);
    assert!(report.starts_with("journal         night, 52 lines\n"), "{report}");
    assert_eq!(counts(&report), counts(&shown));
    assert_eq!(
        counts(&report),
        [
            "tilts           52 tried, 52 scored, 0 skipped",
            "  skipped H     0: the host found no camera",
            "  skipped C     0: not a camera",
            "  skipped E     0: too few dots counted, or no finite mean",
            "  skipped N     0: the score is not a number",
            "report          52,0,0,0,0,52",
        ]
    );
    assert_said(&here, &["report"], 2, &["no journal is named"]);
    assert_said(&here, &["report", "none"], 1, &["none: can't be read: "]);
    assert_said(&here, &["report", "--help"], 0, &["jinnychair report JOURNAL"]);
}

#[test]
fn each_reason_is_counted_for_itself() {
    let here = searched("report-reasons");
    let mut lines = Journal::read(&here.join("night")).unwrap().lines;
    let reasons = [
        (SkipReason::HostFailed, 1),
        (SkipReason::BadCamera, 2),
        (SkipReason::NoMean, 3),
        (SkipReason::NoNumber, 4),
    ];
    let skipped = reasons.iter().flat_map(|(reason, count)| vec![*reason; *count]);
    for (line, reason) in lines[7..].iter_mut().zip(skipped) {
        line.outcome = Recorded::Skipped(reason);
    }
    write_journal(&here.join("night"), &lines);
    let expected = [
        "tilts           52 tried, 42 scored, 10 skipped\n",
        "  skipped H     1: the host found no camera\n",
        "  skipped C     2: not a camera\n",
        "  skipped E     3: too few dots counted, or no finite mean\n",
        "  skipped N     4: the score is not a number\n",
        "report          42,1,2,3,4,52\n",
    ];
    // A reason can't be distinguished from a forged one, but a score in a line is gone, so that later rounds lie elsewhere.
    assert_said(&here, &["report", "night", "--unchecked"], 3, &expected);
}

#[test]
fn what_is_strange_about_a_journal_is_told_behind_its_report() {
    let here = searched("report-strange");
    let whole = file(here.join("night"));
    let ends: Vec<usize> = whole.match_indices('\n').map(|(at, _)| at + 1).collect();
    fs::write(here.join("night"), &whole[..ends[4] + 30]).unwrap();
    let told = "night: line 6 has no end: it was cut off, or is being written. It is left out";
    assert_said(&here, &["report", "night"], 3, &["5 lines", "report          5,0,0,0,0,5", told]);
    fs::write(here.join("night"), format!("{}x\n", &whole[..ends[4]])).unwrap();
    let told = "night: not the run's from line 6 on: this isn't a line of a journal (29)";
    assert_said(&here, &["report", "night"], 1, &[told]);
    let shown = ["report          5,0,0,0,0,5", "UNCHECKED: not the run's from line 6 on"];
    assert_said(&here, &["report", "night", "--unchecked"], 3, &shown);
    fs::write(here.join("night"), "").unwrap();
    assert_said(&here, &["report", "night"], 3, &["0 lines", "report          0,0,0,0,0,0"]);
    // More lines than a search has are of more than one.
    let lines = Journal::parse(whole.as_bytes()).lines;
    write_journal(&here.join("night"), &lines.repeat(13));
    let told = ["676 lines, and a search tries at most 656 tilts (28)", "take the journal that"];
    assert_said(&here, &["report", "night", "--unchecked"], 1, &told);
    // Inputs of another journal.
    fs::write(here.join("night"), &whole).unwrap();
    said(&here, &["search", "--no-decomposition", "--rounds=0", "--journal=other"], 0);
    fs::copy(here.join("other.inputs"), here.join("night.inputs")).unwrap();
    assert_said(&here, &["report", "night"], 1, &["night: not the run's from line 1 on"]);
    // Without any it is doubtful.
    fs::remove_file(here.join("night.inputs")).unwrap();
    assert_said(&here, &["report", "night"], 3, &["report          52,0,0,0,0,52", "UNCHECKED"]);
}

/// Journals that are made up are shown all the same.
const UNCHECKED: &str = "--unchecked";

/// The winner in words, by hand: the earliest of the lowest.
fn winner(lines: &[Line]) -> String {
    let scored = lines.iter().filter_map(|line| Some((line, line.outcome().score()?)));
    let best = scored.reduce(|best, new| if new.1 < best.1 { new } else { best });
    let (line, score) = best.unwrap();
    let [x, y] = [line.seed.sensor.tilt_x, line.seed.sensor.tilt_y].map(tool::angle::degrees);
    format!("no. {}, score {score:.5} at {x}° {y}°\n", line.number)
}

#[test]
fn winners_of_stretches_and_rounds_are_told_and_the_winner_of_those() {
    let here = searched("report-stretches");
    let mut lines = Journal::read(&here.join("night")).unwrap().lines;
    // Equal scores, and lines of which none was scored.
    let best = lines.iter().map(|line| line.outcome().score().unwrap()).fold(f64::MAX, f64::min);
    for (i, line) in lines.iter_mut().enumerate() {
        match &mut line.outcome {
            _ if (20..30).contains(&i) => {
                line.outcome = Recorded::Skipped(SkipReason::HostFailed);
            }
            Recorded::Scored(fields) if [9, 12, 40].contains(&i) => fields.score = best,
            _ => {}
        }
    }
    write_journal(&here.join("night"), &lines);
    let all = winner(&lines);
    let text =
        said(&here, &["report", "night", "--stretches=1-9,10-20,21-30,31-52,60-70", UNCHECKED], 3);
    for expected in [
        format!("winners of stretches\n  lines 1 to 9    {}", winner(&lines[..9])),
        format!("\n  lines 10 to 20  {}", winner(&lines[9..20])),
        "\n  lines 21 to 30  none: no tilt in it was scored\n".into(),
        format!("\n  lines 31 to 52  {}", winner(&lines[30..])),
        "\n  lines 60 to 70  none: the journal has 52 lines\n".into(),
        format!("\n  all of these    {all}winners of rounds\n  round 0         "),
        format!("\n  round 5         {}", winner(&lines[43..])),
    ] {
        assert!(text.contains(&expected), "{expected}\n{text}");
    }
    assert!(text.ends_with(&format!("\n  all of these    {all}")), "{text}");
    assert!(!text.contains("in no stretch"), "{text}");
    // However it is cut, ties included.
    for cut in ["1-52", "1-10,11-11,12-52", "1-5,6-41,42-60", "1-9,10,11-12,13,14-40,41-52"] {
        let text = said(&here, &["report", "night", "--stretches", cut, UNCHECKED], 3);
        assert_eq!(text.matches(&format!("\n  all of these    {all}")).count(), 2, "{text}");
    }
    let text = said(&here, &["report", "night", "--stretches=5-8,12-40", UNCHECKED], 3);
    for gap in ["lines 1 to 4", "lines 9 to 11", "lines 41 to 52"] {
        assert!(text.contains(&format!("\n  left out        {gap}: in no stretch\n")), "{text}");
    }
    fs::write(here.join("night"), "").unwrap();
    let told = [
        "  lines 1 to 2    none: the journal has 0 lines",
        "  all of these    none: nothing was scored",
    ];
    assert_said(&here, &["report", "night", "--stretches=1-2"], 3, &told);
    for (stretches, fault) in [
        ("--stretches=3-1", "--stretches: `3-1` isn't a stretch: write its first and last line"),
        ("--stretches=1-5,5-9", "--stretches: `5-9` doesn't lie behind the stretch before it"),
        ("--stretches", "--stretches lacks a value"),
    ] {
        assert_said(&here, &["report", "night", stretches], 2, &[fault]);
    }
}
