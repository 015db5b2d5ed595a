//! The journal as a user meets it: written beside a search, shown, charted, and never written over.
#![allow(missing_docs)]

mod common;

use common::{assert_said, file, folder, names, program, said, searched, small};
use jinnychair::Outcome;
use std::fs;
use std::path::Path;
use tool::journal::{Ending, Journal, read_inputs};
use tool::synthetic::BUILT_IN;
use tool::table::Record;

fn lines(folder: &Path, name: &str) -> Vec<String> {
    file(folder.join(name)).lines().map(str::to_owned).collect()
}

#[test]
fn a_search_writes_its_journal_and_what_it_started_from() {
    let here = searched("journal");
    assert_eq!(names(&here), ["night", "night.inputs", "tilts.csv", "tilts.svg"]);
    let journal = Journal::read(&here.join("night")).unwrap();
    let table = Record::parse(&file(here.join("tilts.csv"))).unwrap();
    assert_eq!((journal.ending, journal.lines.len()), (Ending::Whole, table.tried.len()));
    for (line, tried) in journal.lines.iter().zip(&table.tried) {
        assert_eq!((line.number, line.round, line.seed), (tried.number, tried.round, tried.seed));
        assert_eq!(line.outcome(), tried.outcome);
        assert!(matches!(line.outcome(), Outcome::Scored(_)));
    }
    let inputs = read_inputs(&here.join("night")).unwrap();
    assert_eq!(
        (inputs.views, inputs.options.refine_rounds, inputs.decomposition.len()),
        (14, 5, 1)
    );
    // The same search has the same journal, with other words too.
    said(&here, &small(&["--journal", "again", "--out=other"]), 0);
    assert_eq!(file(here.join("night")), file(here.join("again")));
    assert!(said(&here, &["search", "--help"], 0).contains("--journal FILE"));
}

#[test]
fn views_are_named_with_their_checksum() {
    let here = folder("journal-views");
    let views = BUILT_IN.plate().text();
    fs::write(here.join("my views.txt"), format!("\u{feff}{views}")).unwrap();
    said(&here, &small(&["my views.txt", "--journal=night"]), 0);
    let sum = jinnychair::journal::sha256(format!("\u{feff}{views}").as_bytes());
    let inputs = file(here.join("night.inputs"));
    assert!(inputs.contains(&format!("\nviews-from file my views.txt\nviews-sha256 {sum}\n")));
}

#[test]
fn no_journal_is_written_over() {
    let here = searched("journal-kept");
    let before = file(here.join("night"));
    let told = "night: there is a journal of this name, and no journal is written over. `jinnychair resume night` goes on";
    assert_said(&here, &small(&["--journal=night"]), 1, &[told, "or name another with --journal"]);
    assert_eq!(file(here.join("night")), before);
    fs::write(here.join("views.txt"), BUILT_IN.plate().text()).unwrap();
    let told = "views.txt: there is a file of this name, without the inputs of a search beside it";
    assert_said(&here, &small(&["--journal=views.txt"]), 1, &[told]);
    assert!(!here.join("views.txt.inputs").exists());
    // Inputs of a journal that was moved away.
    fs::rename(here.join("night"), here.join("moved")).unwrap();
    assert_said(&here, &small(&["--journal=night"]), 1, &["night.inputs: these are the inputs of"]);
    assert!(!here.join("night").exists());
    // A name that table or chart have.
    for name in ["tilts.csv", "./tilts.svg"] {
        let fault = format!("--journal: {name} is the table's or the chart's name");
        assert_said(&here, &small(&["--journal", name]), 2, &[&fault]);
    }
    assert_said(&here, &small(&["--journal=missing/n"]), 1, &["missing/n: can't be written: "]);
    // A search that can't start leaves none.
    let words = ["search", "--bound=40deg", "--journal=new"];
    assert_said(&here, &words, 2, &["--bound: `40deg` is above 0.5rad, which is 28.6°"]);
    assert!(!here.join("new").exists() && !here.join("new.inputs").exists());
}

#[test]
fn a_journal_is_shown_in_decimals_and_degrees() {
    let here = searched("journal-shown");
    let shown = said(&here, &["show", "night"], 0);
    let table = Record::parse(&file(here.join("tilts.csv"))).unwrap();
    let (rows, checked) = shown.trim_end().rsplit_once('\n').unwrap();
    assert_eq!(rows.lines().count(), 1 + table.tried.len());
    assert!(checked.starts_with("checked         the run's"), "{checked}");
    assert!(shown.starts_with("number  round"), "{shown}");
    for (line, tried) in rows.lines().skip(1).zip(&table.tried) {
        let fields: Vec<&str> = line.split_whitespace().collect();
        assert_eq!(fields.len(), 17);
        assert_eq!(fields[0], tried.number.to_string());
        assert_eq!(fields[2], format!("{:.6}", tried.seed.sensor.tilt_x.to_degrees()));
        assert_eq!(fields[4], "S");
        assert_eq!(fields[5], format!("{:.6}", tried.outcome.score().unwrap()));
    }
    assert_said(&here, &["show"], 2, &["no journal is named"]);
    assert_said(&here, &["show", "a", "b"], 2, &["what is `b`?"]);
    assert_said(&here, &["show", "none"], 1, &["none: can't be read: "]);
    // Without inputs it is doubtful.
    fs::remove_file(here.join("night.inputs")).unwrap();
    assert_said(&here, &["show", "night"], 3, &[rows]);
}

#[test]
fn a_chart_is_drawn_from_journal_and_inputs_alone() {
    let here = searched("journal-chart");
    let alone = folder("journal-chart-alone");
    for name in ["night", "night.inputs"] {
        fs::copy(here.join(name), alone.join(name)).unwrap();
    }
    assert_said(&alone, &["chart", "night"], 0, &["written: night.svg"]);
    let (drawn, chart) = (file(alone.join("night.svg")), file(here.join("tilts.svg")));
    for tried in &Record::parse(&file(here.join("tilts.csv"))).unwrap().tried {
        let told = format!("<title>no. {}, round {} (", tried.number, tried.round);
        assert!(drawn.contains(&told) && chart.contains(&told), "{told}");
    }
    for part in [
        "the built-in plate",
        "655 470 px (stated)",
        "seed by decomposition",
        "step 0.5",
        "bound ±17.2°",
    ] {
        assert!(drawn.contains(part), "{part}");
    }
    // What a journal doesn't have is left out.
    assert!(!drawn.contains("Verdict") && !drawn.contains("RMS") && !drawn.contains("980 dots;"));
    assert_said(&alone, &["chart", "night", "--out=night"], 1, &["night: this is an input"]);
    assert_said(&alone, &["chart", "night", "--out=night.inputs"], 1, &["this is an input"]);
    fs::remove_file(alone.join("night.inputs")).unwrap();
    assert_said(&alone, &["chart", "night"], 3, &["night.inputs: there is no such file"]);
}

#[test]
fn inputs_of_another_journal_are_told() {
    let here = searched("journal-strange");
    said(&here, &["search", "--no-decomposition", "--rounds=0", "--journal=other"], 0);
    fs::copy(here.join("other.inputs"), here.join("night.inputs")).unwrap();
    let told = ["not the run's from line 1 on: the seed's ", "whether the inputs are this"];
    assert_said(&here, &["chart", "night"], 1, &told);
    assert!(!here.join("night.svg").exists());
    assert_said(&here, &["show", "night"], 1, &told);
    // Changed inputs are refused.
    let text = file(here.join("other.inputs")).replace("rounds 0", "rounds 1");
    fs::write(here.join("other.inputs"), text).unwrap();
    for command in ["chart", "show"] {
        let told = ["UNCHECKED", "other.inputs: line ", "the file was changed"];
        assert_said(&here, &[command, "other"], 3, &told);
    }
}

#[test]
fn a_line_that_was_cut_off_is_left_out_and_a_bad_one_is_named() {
    let here = searched("journal-cut");
    let whole = lines(&here, "night");
    let cut = format!("{}\n{}", whole[..5].join("\n"), &whole[5][..100]);
    fs::write(here.join("night"), cut).unwrap();
    let told = "night: line 6 has no end: it was cut off, or is being written. It is left out";
    assert_eq!(said(&here, &["show", "night"], 3).lines().count(), 1 + 5 + 3);
    assert_said(&here, &["show", "night"], 3, &[told]);
    assert_said(&here, &["chart", "night"], 3, &[told, "written: night.svg"]);
    let bad = format!("{}\n{}\n", whole[..5].join("\n"), whole[5].to_uppercase());
    fs::write(here.join("night"), bad).unwrap();
    let told = "night: not the run's from line 6 on: this isn't a line of a journal (29)";
    assert_said(&here, &["show", "night"], 1, &[told]);
    assert_eq!(said(&here, &["show", "night", "--unchecked"], 3).lines().count(), 1 + 1 + 5 + 1);
    assert_said(&here, &["chart", "night"], 1, &[told]);
    // An empty journal is one.
    fs::write(here.join("night"), "").unwrap();
    assert_eq!(said(&here, &["show", "night"], 3).lines().count(), 1 + 2);
    assert_said(&here, &["chart", "night"], 3, &["written: night.svg"]);
}

/// What the program says where no file may be longer than so many blocks of 512 bytes. The signal that comes with it is ignored.
fn said_with_limit(folder: &Path, blocks: usize) -> String {
    let program = program(folder, &small(&["--journal=night"]));
    let mut limited = std::process::Command::new("sh");
    limited.args(["-c", &format!("trap '' XFSZ; ulimit -f {blocks}; exec \"$0\" \"$@\"")]);
    limited.arg(program.get_program()).args(program.get_args()).current_dir(folder);
    let output = limited.output().unwrap();
    let text = String::from_utf8(output.stderr).unwrap();
    assert_eq!(output.status.code(), Some(1), "{text}");
    text
}

#[test]
fn a_disk_without_room_stops_the_search() {
    let here = folder("journal-full");
    let text = said_with_limit(&here, 2);
    assert!(text.contains("night.inputs: can't be written: File too large"), "{text}");
    assert!(names(&here).is_empty());
    let text = said_with_limit(&here, 8);
    assert!(text.contains("night: can't be written: File too large"), "{text}");
    assert!(text.contains(". Then `jinnychair resume night` goes on with it"), "{text}");
    assert_eq!(names(&here), ["night", "night.inputs"]);
    // The lines before the one that had no room are whole.
    let journal = Journal::read(&here.join("night")).unwrap();
    assert_eq!((journal.lines.len(), journal.ending), (16, Ending::Whole));
    // With room it goes on, as was said.
    assert_said(&here, &["resume", "night"], 0, &["kept            night: 16 lines"]);
}
