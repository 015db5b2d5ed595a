//! Journals as support meets them: run again without views or host, and compared.
#![allow(missing_docs)]

mod common;

use common::{assert_said, file, folder, names, said, searched, small, write_journal};
use jinnychair::journal::{Line, Recorded, StoredInputs};
use jinnychair::{ScheimpflugParams, SkipReason};
use std::fs;
use std::path::Path;
use tool::journal::Journal;
use tool::synthetic::{BUILT_IN, Truth};
use tool::table::Record;

/// A journal and its inputs alone, as support gets them.
fn sent(from: &Path, name: &str) -> std::path::PathBuf {
    let alone = folder(name);
    for name in ["night", "night.inputs"] {
        fs::copy(from.join(name), alone.join(name)).unwrap();
    }
    alone
}

fn changed(lines: &[Line], at: usize, change: impl FnOnce(&mut Line)) -> Vec<Line> {
    let mut lines = lines.to_vec();
    change(&mut lines[at]);
    lines
}

fn scored(line: &mut Line, change: impl FnOnce(&mut jinnychair::journal::ScoredFields)) {
    match &mut line.outcome {
        Recorded::Scored(fields) => change(fields),
        Recorded::Skipped(_) => unreachable!("every tilt of this search is scored"),
    }
}

#[test]
fn a_journal_alone_leads_to_the_same_winner() {
    let here = folder("replay-search");
    let views = BUILT_IN.plate().text();
    fs::write(here.join("views.txt"), views).unwrap();
    let shown = said(&here, &small(&["views.txt", "--journal=night"]), 0);
    let alone = sent(&here, "replay");
    let replayed = said(&alone, &["replay", "night"], 0);
    let won = shown.lines().find(|line| line.starts_with("winner  ")).unwrap();
    let won = won.split(" (").next().unwrap();
    assert!(replayed.contains(&format!("{won}, line ")), "{won}\n{replayed}");
    for name in ["tilt x", "tilt y"] {
        let radians = shown.lines().rfind(|line| line.trim().starts_with(name)).unwrap();
        let radians = &radians[radians.find('(').unwrap()..];
        assert!(replayed.contains(radians), "{radians}\n{replayed}");
    }
    let table = Record::parse(&file(here.join("tilts.csv"))).unwrap();
    let best = tool::drive::best(&table.tried).unwrap().outcome.score().unwrap();
    assert!(replayed.contains(&format!("({best:?})\n")), "{best:?}\n{replayed}");
    assert_eq!(names(&alone), ["night", "night.inputs"]);
    assert_said(&here, &["replay"], 2, &["no journal is named"]);
    assert_said(&here, &["replay", "none"], 1, &["none: can't be read"]);
    fs::remove_file(alone.join("night.inputs")).unwrap();
    assert_said(
        &alone,
        &["replay", "night"],
        1,
        &["night.inputs: can't be read", "belongs beside"],
    );
}

#[test]
fn what_is_left_of_a_run_is_told() {
    let here = searched("replay-left");
    let lines = Journal::read(&here.join("night")).unwrap().lines;
    for kept in [0, 1, 6, 7, 30, 51] {
        write_journal(&here.join("night"), &lines[..kept]);
        let sensor = lines[kept].seed.sensor;
        let [x, y] = [sensor.tilt_x, sensor.tilt_y].map(tool::angle::degrees);
        let next = format!("next            no. {kept} at {x}° {y}°\n");
        let best = lines[..kept].iter().min_by(|a, b| {
            let [a, b] = [a, b].map(|line| line.outcome().score().unwrap());
            a.total_cmp(&b)
        });
        let best = best.map_or("nothing is scored yet".into(), |line| {
            format!("best so far     no. {}, score 0.06", line.number)
        });
        assert_said(
            &here,
            &["replay", "night"],
            3,
            &["unfinished      the journal ends", &next, &best],
        );
    }
    // A run without a winner.
    let words = ["search", "--tilts-x=6deg", "--tilts-y=0", "--bound=5deg", "--no-decomposition"];
    said(&here, &[&words[..], &["--journal=none"]].concat(), 1);
    let told = "none: no winner: the run ended and no candidate was scored (11)";
    assert_said(&here, &["replay", "none"], 1, &["none, 0 lines", told]);
}

#[test]
fn a_line_that_is_not_the_runs_is_named_with_what_is_wrong() {
    let here = searched("replay-wrong");
    let lines = Journal::read(&here.join("night")).unwrap().lines;
    let next = |number: f64| f64::from_bits(number.to_bits() + 1);
    let cases: Vec<(Vec<Line>, usize, &str)> = vec![
        (
            changed(&lines, 3, |line| line.number = 4),
            4,
            "the line's number is 4; the next candidate is no. 3 (30)",
        ),
        (
            changed(&lines, 8, |line| line.round = 2),
            9,
            "the line's round is 2; the run is in round 1 (30)",
        ),
        (
            changed(&lines, 2, |line| line.seed.sensor.tilt_x = next(line.seed.sensor.tilt_x)),
            3,
            "the seed's tilt x is ",
        ),
        (changed(&lines, 5, |line| scored(line, |f| f.score = next(f.score))), 6, "the score is "),
        (
            changed(&lines, 5, |line| scored(line, |f| f.p1 = 0.06)),
            6,
            "camera's p1 is 0.06, which is beyond 0.05",
        ),
        (
            changed(&lines, 5, |line| scored(line, |f| f.k.fx = 0.0)),
            6,
            "a focal length isn't above 0",
        ),
        (
            changed(&lines, 5, |line| scored(line, |f| f.mean_reproj_error = -1.0)),
            6,
            "the mean error is -1.0",
        ),
        ([&lines[..], &lines[51..]].concat(), 53, "the run was over before this line (30)"),
    ];
    for (changed, line, why) in cases {
        write_journal(&here.join("night"), &changed);
        let told = format!("night: line {line}: ");
        assert_said(&here, &["replay", "night"], 1, &[&told, why, "Look whether the inputs are"]);
    }
    let whole = {
        write_journal(&here.join("night"), &lines);
        file(here.join("night"))
    };
    fs::write(here.join("night"), whole.replacen("0,0,", "0,0;", 1)).unwrap();
    assert_said(
        &here,
        &["replay", "night"],
        1,
        &["night: line 1: this isn't a line of a journal (29)"],
    );
    fs::write(here.join("night"), &whole[..whole.len() - 1]).unwrap();
    assert_said(
        &here,
        &["replay", "night"],
        1,
        &["night: line 52 has no end (29): it was cut off"],
    );
    // Inputs of another search: the first line shows it.
    fs::write(here.join("night"), &whole).unwrap();
    said(&here, &["search", "--no-decomposition", "--rounds=0", "--journal=other"], 0);
    fs::copy(here.join("other.inputs"), here.join("night.inputs")).unwrap();
    assert_said(&here, &["replay", "night"], 1, &["night: line 1: the seed's fx is "]);
}

#[test]
fn journals_that_are_the_same_are_told_so() {
    let here = searched("compare-same");
    said(&here, &small(&["--journal=again", "--out=again"]), 0);
    let said = said(&here, &["compare", "night", "again"], 0);
    let expected = [
        "inputs          the same\n",
        "lines           52 and 52\n",
        "seeds           the same in all 52 lines that both have\n",
        "cameras         the same in all 52 lines that both have\n",
        "winners         the same: no. ",
        "the same, bit by bit\n",
    ];
    for part in expected {
        assert!(said.contains(part), "{part}\n{said}");
    }
    assert_said(&here, &["compare", "night"], 2, &["no second journal is named"]);
    assert_said(&here, &["compare"], 2, &["no journal is named"]);
    assert_said(&here, &["compare", "a", "b", "c"], 2, &["what is `c`?"]);
    assert_said(&here, &["compare", "night", "none"], 1, &["none: can't be read"]);
}

#[test]
fn versions_are_told_but_part_nothing() {
    let here = searched("compare-versions");
    fs::copy(here.join("night"), here.join("other")).unwrap();
    let mut inputs = StoredInputs::load(&here.join("night")).unwrap();
    let version = std::mem::replace(&mut inputs.library, "0.8.0".into());
    inputs.save(&here.join("other")).unwrap();
    let versions = format!("versions        {version} and 0.8.0\n");
    let told = [&versions[..], "inputs          the same\n", "the same, bit by bit\n"];
    assert_said(&here, &["compare", "night", "other"], 0, &told);
}

#[test]
fn the_place_where_journals_part_is_told() {
    let here = searched("compare-parted");
    let lines = Journal::read(&here.join("night")).unwrap().lines;
    fs::copy(here.join("night.inputs"), here.join("other.inputs")).unwrap();
    let next = |number: f64| f64::from_bits(number.to_bits() + 1);
    let skip = |line: &mut Line| line.outcome = Recorded::Skipped(SkipReason::HostFailed);
    let all: Vec<Line> = lines
        .iter()
        .copied()
        .map(|mut line| {
            scored(&mut line, |f| f.score = next(f.score));
            line
        })
        .collect();
    for (other, told) in [
        (
            changed(&lines, 9, skip),
            [
                "outcomes        1 of 52 lines differ, the first is line 10: S and H",
                "they part first in line 10, by their outcomes",
            ],
        ),
        (
            all,
            [
                "scores          52 of 52 lines differ, the first is line 1: 0.06",
                "they part first in line 1, by their scores",
            ],
        ),
        (
            lines[..50].to_vec(),
            [
                "more lines      lines 51 to 52 are in the first alone",
                "they part first behind line 50, where one of them ends",
            ],
        ),
        (
            changed(&lines, 51, |line| scored(line, |f| f.k.cy = 1.0)),
            [
                "cameras         1 of 52 lines differ, the first is line 52: cy 470.0 and cy 1.0",
                "they part first in line 52, by their cameras",
            ],
        ),
        (
            changed(&lines, 20, |line| line.round = 9),
            [
                "seeds           1 of 52 lines differ, the first is line 21: no. 20 in round 2 and no. 20 in round 9",
                "they part first in line 21, by their seeds",
            ],
        ),
    ] {
        write_journal(&here.join("other"), &other);
        assert_said(&here, &["compare", "night", "other"], 3, &told);
    }
    // Another search.
    let words = small(&["--journal=third", "--centre-within=2", "--min-counted=80", "--out=third"]);
    said(&here, &words, 0);
    let told = [
        "inputs          min-counted: 90 and 80\n",
        "inputs          note choice: none and centre-within 2\n",
        "they part first in what the searches started from",
    ];
    assert_said(&here, &["compare", "night", "third"], 3, &told);
    // The same views again say nothing of a module that has moved; a long name stays apart from what is said of it.
    for name in ["third", "third.inputs"] {
        let long = name.replace("third", "a journal with a long name");
        fs::copy(here.join(name), here.join(long)).unwrap();
    }
    let told = [
        "drift           not known: both searched the same views\n",
        "a journal with a long name the run's: run again from",
    ];
    assert_said(&here, &["compare", "night", "a journal with a long name"], 3, &told);
    // Without inputs, and cut off, as far as it goes.
    fs::remove_file(here.join("other.inputs")).unwrap();
    let cut = file(here.join("night"));
    fs::write(here.join("other"), &cut[..cut.len() - 1]).unwrap();
    let told = ["again: other.inputs: there is no such file", "other: line 52 has no end"];
    assert_said(&here, &["compare", "night", "other"], 3, &told);
    fs::write(here.join("other"), "x\n").unwrap();
    assert_said(&here, &["compare", "night", "other"], 1, &["other: line 1: this isn't a line"]);
}

/// Two searches of other views by one module, and by one whose sensor has moved.
#[test]
fn a_module_that_has_moved_is_told_and_an_error_of_the_centre_cancels() {
    let here = folder("drift");
    let [then, now] = [[0.0, 0.0], [0.1, -0.05]].map(|moved: [f64; 2]| {
        let [x, y] = [BUILT_IN.sensor.tilt_x, BUILT_IN.sensor.tilt_y];
        let sensor = ScheimpflugParams {
            tilt_x: x + moved[0].to_radians(),
            tilt_y: y + moved[1].to_radians(),
        };
        Truth { sensor, ..BUILT_IN }
    });
    let held: Vec<_> = (0..20)
        .map(|i| {
            let (sine, cosine) = (2.4 * f64::from(i)).sin_cos();
            [33.0 * sine, 33.0 * cosine, 6.0 * cosine, 5.0 * sine, 430.0 + 2.0 * f64::from(i)]
        })
        .collect();
    for (name, truth, held) in
        [("june", then, &held[..10]), ("july", then, &held[10..]), ("august", now, &held[10..])]
    {
        fs::write(here.join(name), truth.plate_held(held).text()).unwrap();
        let journal = format!("--journal={name}.journal");
        // The centre is 20 px off: that is 0.8° of lean, in all of them.
        said(&here, &small(&[name, "--centre=655", "490", "--centre-within=25", &journal]), 0);
    }
    let told = |second: &str| said(&here, &["compare", "june.journal", second], 3);
    let drift = |text: &str| {
        let line = text.lines().find(|line| line.starts_with("drift  ")).unwrap().to_owned();
        let numbers: Vec<f64> =
            line.split(['°', ' ']).filter_map(|word| word.parse().ok()).collect();
        (line.clone(), [numbers[0], numbers[2]], [numbers[1], numbers[3]])
    };
    let (line, by, within) = drift(&told("july.journal"));
    assert!(line.ends_with("no more than noise explains"), "{line}");
    assert!((0..2).all(|i| by[i].abs() < within[i] && within[i] < 0.05), "{line}");
    let text = told("august.journal");
    let (line, by, within) = drift(&text);
    assert!(line.ends_with("tilt x and tilt y have moved, by more than noise explains"), "{line}");
    for (i, expected) in [0.1, -0.05].into_iter().enumerate() {
        assert!((by[i] - expected).abs() < within[i] && within[i] < 0.05, "{line}");
    }
    assert!(text.contains("the same centre is held in both, so that its error cancels"), "{text}");
    // Other centres are no measure.
    said(&here, &small(&["july", "--journal=other"]), 0);
    let why = "drift           not known: 655 490 and 655 470 are held for the centre";
    assert!(told("other").contains(why));
    fs::remove_file(here.join("july")).unwrap();
    assert!(told("july.journal").contains("drift           not known: july: can't be read"));
}
