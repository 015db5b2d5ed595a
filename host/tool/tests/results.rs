//! Results for programs: one object of a documented form, and a row for each of many journals.
#![allow(missing_docs)]

mod common;
#[path = "common/json.rs"]
mod json;

use common::{assert_said, file, folder, names, program, said, searched, small, write_journal};
use jinnychair::journal::{Line, Recorded};
use json::{Value, faults};
use std::fs;
use std::path::Path;
use tool::journal::Journal;
use tool::summary::{COLUMNS, FORM};
use tool::synthetic::BUILT_IN;

/// What a command gives, which is of the documented form and ends with the exit code that it names; and what is said beside it.
#[track_caller]
fn given(here: &Path, words: &[&str], code: i32) -> (Value, String) {
    let ended = program(here, words).output().unwrap();
    let [text, beside] =
        [ended.stdout, ended.stderr].map(|bytes| String::from_utf8(bytes).unwrap());
    assert_eq!(ended.status.code(), Some(code), "{text}\n{beside}");
    assert_eq!(text.lines().count(), 1, "{text}");
    let value = Value::parse(&text);
    assert_eq!(value.at("exit_code").number(), f64::from(code));
    check_form(&value);
    (value, beside)
}

#[track_caller]
fn check_form(value: &Value) {
    let schema = Path::new(env!("CARGO_MANIFEST_DIR")).join("../../docs/RESULT.schema.json");
    let schema = Value::parse(&file(schema));
    assert_eq!(faults(value, &schema, &schema, "result"), Vec::<String>::new());
    assert_eq!(value.at("jinnychair_result").number(), FORM as f64);
}

/// The number behind a name in what is said for people, up to its degree sign.
fn degrees(text: &str, name: &str) -> [f64; 2] {
    let is_told = |line: &&str| line.starts_with(name) && line.contains("° ± ");
    let line = text.lines().find(is_told).unwrap();
    let (tilt, bound) = line[name.len()..].split_once("° ± ").unwrap();
    [tilt, bound.split('°').next().unwrap()].map(|number| number.trim().parse().unwrap())
}

#[test]
fn a_search_gives_what_it_says() {
    let here = folder("json-search");
    fs::write(here.join("views.txt"), BUILT_IN.plate().text()).unwrap();
    let words = small(&["views.txt", "--journal=night", "--centre-within=2", "--json"]);
    let (value, said) = given(&here, &words, 0);
    assert_eq!(value.at("command").text(), "search");
    assert_eq!(
        (value.at("verdict.word").text(), value.at("verdict.reasons").list().len()),
        ("good", 0)
    );
    assert_eq!(
        (value.at("counts.tried").number(), value.at("counts.scored").number()),
        (52.0, 52.0)
    );
    for (path, name) in
        [("lean.tilt_x", "lean x"), ("lean.tilt_y", "lean y"), ("winner.tilt_x", "  tilt x")]
    {
        let told = degrees(&said, name);
        let number = |field: &str| value.at(&format!("{path}.{field}")).number();
        assert!(
            (number("deg") - told[0]).abs() < 6e-5
                && (number("plus_minus_deg") - told[1]).abs() < 6e-4,
            "{path}"
        );
        assert_eq!(number("deg"), number("rad").to_degrees());
        assert_eq!(number("plus_minus_deg"), number("plus_minus_rad").to_degrees());
    }
    let sum = jinnychair::journal::sha256(file(here.join("night")).as_bytes());
    assert_eq!(
        (value.at("journal.sha256").text(), value.at("journal.state").text()),
        (&sum[..], "run")
    );
    let sum = jinnychair::journal::sha256(file(here.join("night.inputs")).as_bytes());
    assert_eq!(value.at("inputs.sha256").text(), sum);
    let sum = jinnychair::journal::sha256(file(here.join("views.txt")).as_bytes());
    assert_eq!(
        (value.at("inputs.views_file").text(), value.at("inputs.views_sha256").text()),
        ("views.txt", &sum[..])
    );
    // A report of its journal has the same in it, and so has resume.
    let (report, _) = given(&here, &["report", "night", "--json"], 0);
    let (resume, _) = given(&here, &["resume", "night", "--json"], 0);
    for name in
        ["journal", "inputs", "counts", "winner", "lean", "verdict", "stopped", "views_missing"]
    {
        assert_eq!((report.at(name), resume.at(name)), (value.at(name), value.at(name)), "{name}");
    }
    let (replay, _) = given(&here, &["replay", "night", "--json"], 0);
    assert_eq!(
        (replay.at("winner.number"), replay.at("winner.score")),
        (value.at("winner.number"), value.at("winner.score"))
    );
    assert_eq!(replay.at("winner.tilt_x.plus_minus_deg"), &Value::Null);
}

#[test]
fn reasons_have_codes_and_what_failed_is_an_object_too() {
    let here = folder("json-reasons");
    let (value, said) = given(
        &here,
        &[
            "search",
            "--no-decomposition",
            "--tilts-y=-0.4deg",
            "--tilts-x=0,1deg",
            "--rounds=0",
            "--json",
        ],
        3,
    );
    let reasons = value.at("verdict.reasons").list();
    assert!(!reasons.is_empty() && value.at("verdict.word").text() == "doubtful");
    for reason in reasons {
        let told = format!("{}. {}", reason.at("what").text(), reason.at("remedy").text());
        assert!(said.contains(&told), "{told}");
        assert!(
            reason.at("code").text().bytes().all(|byte| byte == b'-' || byte.is_ascii_lowercase())
        );
    }
    assert!(reasons.iter().any(|reason| reason.at("code").text() == "outermost"));
    // Stopped; no winner; wrong words; no such file.
    let (value, _) = given(&here, &small(&["--minutes=1e-9", "--json", "--journal=night"]), 3);
    assert_eq!(value.at("stopped.of_round").number(), 7.0);
    let words =
        ["search", "--tilts-x=6deg", "--tilts-y=0", "--bound=5deg", "--no-decomposition", "--json"];
    let (value, _) = given(&here, &words, 1);
    assert_eq!((value.at("verdict.word").text(), value.at("winner")), ("no_winner", &Value::Null));
    assert!(value.at("verdict.no_winner").text().contains("(11)"));
    let (value, beside) = given(&here, &["search", "--speed", "--json"], 2);
    assert!(value.at("fault").text().contains("what is `--speed`?") && beside.contains("--speed"));
    for command in ["report", "replay", "resume"] {
        let (value, _) = given(&here, &[command, "none", "--json"], 1);
        assert!(value.at("fault").text().starts_with("none"), "{value:?}");
    }
    assert_said(
        &here,
        &small(&["--json", "--table=-"]),
        2,
        &["--json: standard output is the table's"],
    );
}

#[test]
fn a_journal_that_is_not_the_runs_gives_no_winner() {
    let here = searched("json-not");
    fs::copy(here.join("night"), here.join("day")).unwrap();
    fs::copy(here.join("night.inputs"), here.join("day.inputs")).unwrap();
    forge(&here.join("day"));
    let (value, _) = given(&here, &["report", "day", "--json"], 1);
    assert!(value.at("fault").text().contains("not the run's from line 6 on"));
    let (value, _) = given(&here, &["report", "day", "--json", "--unchecked"], 3);
    assert_eq!(
        (value.at("journal.state").text(), value.at("journal.line").number()),
        ("not_the_run", 6.0)
    );
    assert_eq!(value.at("winner"), &Value::Null);
    let (value, _) = given(&here, &["compare", "night", "day", "--json"], 3);
    assert_eq!(value.at("is_same"), &Value::Bool(false));
    assert_eq!(value.at("parted").text(), "in line 6, by their scores");
    let states: Vec<_> =
        value.at("journals").list().iter().map(|one| one.at("journal.state").text()).collect();
    assert_eq!(states, ["run", "not_the_run"]);
    // The head stands once.
    assert_eq!(value.at("journals").list()[0].at("command"), &Value::Null);
    // Without the views, as far as it goes.
    let (value, _) = given(&here, &["report", "night", "--json", "--no-views"], 3);
    assert_eq!(
        (value.at("verdict.word").text(), value.at("lean.tilt_x")),
        ("not_whole", &Value::Null)
    );
    // The steps and the centre alone are no bound: what noise and the lens leave open isn't known.
    let bounds = ["winner.tilt_x.plus_minus_deg", "winner.tilt_y.plus_minus_rad"];
    assert_eq!(bounds.map(|place| value.at(place)), [&Value::Null; 2]);
    assert!(value.at("winner.score").number() > 0.0);
}

/// Gives another tilt than the winner the lowest score.
fn forge(path: &Path) {
    let mut lines: Vec<Line> = Journal::read(path).unwrap().lines;
    let Recorded::Scored(fields) = &mut lines[5].outcome else { unreachable!("it was scored") };
    fields.score = 1e-3;
    write_journal(path, &lines);
}

/// A row's fields.
fn fields(row: &str) -> Vec<String> {
    let (mut fields, mut quoted) = (vec![String::new()], false);
    for letter in row.chars() {
        match letter {
            '"' => quoted = !quoted,
            ',' if !quoted => fields.push(String::new()),
            letter => fields.last_mut().unwrap().push(letter),
        }
    }
    fields
}

/// A folder with good journals, and with one of each kind that isn't.
fn fleet(name: &str) -> std::path::PathBuf {
    let here = searched(name);
    fs::create_dir(here.join("module, 7")).unwrap();
    for to in ["module, 7/may", "module, 7/june", "changed", "cut", "alone", "damaged"] {
        fs::copy(here.join("night"), here.join(to)).unwrap();
        fs::copy(here.join("night.inputs"), here.join(format!("{to}.inputs"))).unwrap();
    }
    forge(&here.join("changed"));
    let whole = file(here.join("cut"));
    fs::write(here.join("cut"), &whole[..whole.len() / 2]).unwrap();
    fs::remove_file(here.join("alone.inputs")).unwrap();
    fs::write(here.join("damaged.inputs"), "jinnychair inputs\n").unwrap();
    fs::write(here.join("gone.inputs"), file(here.join("night.inputs"))).unwrap();
    here
}

#[test]
fn many_journals_have_a_row_each_and_a_bad_one_spoils_its_own() {
    let here = fleet("fleet");
    let before = names(&here);
    let ended = program(&here, &["report", "."]).output().unwrap();
    assert_eq!((ended.status.code(), ended.stderr), (Some(3), vec![]));
    let text = String::from_utf8(ended.stdout).unwrap();
    let rows: Vec<Vec<String>> = text.lines().map(fields).collect();
    assert_eq!(rows[0], COLUMNS.iter().map(|column| column.0).collect::<Vec<_>>());
    assert!(rows.iter().all(|row| row.len() == COLUMNS.len()));
    let column = |name: &str| COLUMNS.iter().position(|column| column.0 == name).unwrap();
    let told: Vec<[&str; 4]> = rows[1..]
        .iter()
        .map(|row| ["file", "state", "verdict", "tried"].map(|name| row[column(name)].as_str()))
        .collect();
    assert_eq!(
        told,
        [
            ["./alone", "not_run_again", "", "52"],
            ["./changed", "not_the_run", "", ""],
            ["./cut", "unfinished", "doubtful", "26"],
            ["./damaged", "not_run_again", "", "52"],
            ["./gone", "", "", ""],
            ["./module, 7/june", "run", "good", "52"],
            ["./module, 7/may", "run", "good", "52"],
            ["./night", "run", "good", "52"],
        ]
    );
    assert!(rows[2][column("fault")].contains("not the run's from line 6 on: the score is 0.001"));
    assert!(rows[5][column("fault")].contains("gone: can't be read"));
    // What couldn't be run again says why, and names no winner that nobody checked.
    assert!(rows[1][column("fault")].contains("run again: ./alone.inputs: there is no such file"));
    assert!(rows[4][column("fault")].contains("run again: ./damaged.inputs: line 1"));
    for row in [1, 2, 4, 5] {
        let names = ["winner", "winner_x_deg", "winner_y_deg", "score", "mean_px", "lean_x_deg"];
        assert_eq!(names.map(|name| rows[row][column(name)].as_str()), [""; 6]);
    }
    assert_eq!(rows[3][column("reasons")].split(' ').next(), Some("stopped"));
    // The same as objects, and as of each alone.
    let lines = program(&here, &["report", "--json", "."]).output().unwrap();
    let lines = String::from_utf8(lines.stdout).unwrap();
    assert_eq!(lines.lines().count(), 8);
    for line in lines.lines() {
        let value = Value::parse(line);
        check_form(&value);
        if value.at("verdict.word") == &Value::Text("good".into()) {
            let (alone, _) =
                given(&here, &["report", "--json", value.at("journal.file").text()], 0);
            assert_eq!(
                (alone.at("winner"), alone.at("lean")),
                (value.at("winner"), value.at("lean"))
            );
        }
    }
    // Only good ones; several that are named; one as a row.
    said(&here, &["report", "module, 7"], 0);
    let two = said(&here, &["report", "night", "module, 7/may"], 0);
    assert_eq!(two.lines().count(), 3);
    assert_eq!(said(&here, &["report", "night", "--csv"], 0).lines().count(), 2);
    fs::create_dir(here.join("empty")).unwrap();
    assert_said(&here, &["report", "empty"], 1, &["empty: there is no journal in it"]);
    assert_said(&here, &["report", ".", "--page=p.html"], 2, &["--page is for one journal"]);
    assert_said(
        &here,
        &["report", ".", "--csv", "--json"],
        2,
        &["--csv and --json: they don't go together"],
    );
    fs::remove_dir(here.join("empty")).unwrap();
    assert_eq!(names(&here), before);
}
