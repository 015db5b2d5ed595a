//! The program as a user meets it: its words, its exit codes, and what is in its files.
#![allow(missing_docs)]

mod common;

use common::{assert_said, file, folder, names, program, said, small};
use jinnychair::ScheimpflugParams;
use std::ffi::OsString;
use std::fs::{self, File};
use std::os::unix::ffi::OsStringExt;
use std::process::Stdio;
use tool::choices::MIN_COUNTED;
use tool::synthetic::{BUILT_IN, Truth};
use tool::views::Plate;

#[test]
fn words_are_explained() {
    let here = folder("words");
    // The archive's, the header's and the crate's.
    let [_, major, minor, patch] = jinnychair::VERSION.to_be_bytes();
    let version = format!("jinnychair {major}.{minor}.{patch}\n");
    assert_said(&here, &["--version"], 0, &[&version]);
    for words in [&["--help"], &["-h"], &["help"]] {
        assert_said(
            &here,
            words,
            0,
            &["jinnychair search", "0 good, 1 failed, 2 wrong words, 3 doubtful"],
        );
    }
    assert_said(&here, &["search", "--help"], 0, &["--centre X Y", "--tilts-x=-3deg,0,3deg"]);
    assert_said(&here, &["chart", "--help"], 0, &["jinnychair chart TABLE"]);
    assert!(names(&here).is_empty());
}

#[test]
fn wrong_words_end_with_2() {
    let here = folder("wrong-words");
    let none: [&str; 0] = [];
    assert_said(&here, &none, 2, &["no command is named"]);
    for (words, fault) in [
        (&["plate"][..], "what is `plate`?"),
        (&["search", "--centre", "1"], "--centre lacks a value"),
        (&["search", "--centre", "1", "NaN"], "--centre: `NaN` isn't a finite number"),
        (&["search", "--table", ""], "--table: the name is empty"),
        (&["search", "--speed"], "what is `--speed`?"),
        (&["search", "a", "b"], "what is `b`?"),
        (&["search", "--tilts-x=3"], "--tilts-x: `3` has no unit: write 3deg or 3rad"),
        (&["search", "--tilts-y", ""], "--tilts-y: `` isn't an angle such as -3deg or 0.05rad"),
        (&["search", "--rounds=17"], "--rounds: `17` isn't a whole number from 0 to 16"),
        (&["search", "--step=-1deg"], "--step: it isn't above 0"),
        (&["search", "--no-decomposition=1"], "--no-decomposition takes no value"),
        (&["search", "--bound=1deg", "--bound=1deg"], "--bound: it is stated twice"),
        (
            &["search", "--min-counted=101"],
            "--min-counted: `101` isn't a whole per cent from 0 to 100",
        ),
        (&["search", "--minutes=0"], "--minutes: it isn't above 0"),
        (&["search", "--lens=none"], "--lens: `none` isn't a finite number"),
        (
            &["search", "--lens=0,0,0.001,0"],
            "--lens: `0,0,0.001,0` is neither `exact` nor five numbers",
        ),
        (
            &["search", "--lens=exact", "--lens-within=0.001"],
            "lens exact and lens-within: leave one",
        ),
        (
            &["search", "--lens=0,0,0,0,0", "--tangential"],
            "a lens is stated, and tangential solves",
        ),
        (&["search", "--one-axis=x"], "--one-axis takes no value"),
        (
            &["search", "--one-axis", "--tilts-y=0,1deg"],
            "one-axis holds tilt y at 0, and tilts-y has other",
        ),
        (&["search", "--out=a", "--out=b"], "--out: it is stated twice"),
        (&["chart"], "no table is named"),
        (&["chart", "a", "--bound"], "what is `--bound`?"),
    ] {
        assert_said(&here, words, 2, &[fault]);
    }
    assert!(names(&here).is_empty());
}

#[test]
fn the_example_of_the_help_is_accepted() {
    let here = folder("example");
    let help = said(&here, &["search", "--help"], 0);
    let example = help.split("For example:\n\n").nth(1).unwrap().split("\n\n").next().unwrap();
    fs::write(here.join("views.txt"), example).unwrap();
    assert_said(
        &here,
        &small(&["views.txt"]),
        0,
        &["3 views, 12 dots", "centre          655 470 px (stated)"],
    );
}

#[test]
fn a_named_view_is_called_by_its_name() {
    let here = folder("named-views");
    let text = BUILT_IN.plate().text().replacen("\nview\n", "\nview IMG 0001.png\n", 1);
    fs::write(here.join("views.txt"), text).unwrap();
    let report = said(&here, &small(&["views.txt"]), 0);
    let named: Vec<_> = report.lines().filter(|line| line.contains("IMG 0001.png")).collect();
    assert!(named[0].starts_with("   1    70/70"), "{report}");
    assert!(named[1..].iter().all(|line| line.contains("view 1 (IMG 0001.png)")), "{report}");
}

#[test]
fn bad_input_ends_with_1_names_its_line_and_leaves_no_file() {
    let here = folder("bad-input");
    let good = BUILT_IN.plate();
    let mut few = good.clone();
    few.views.truncate(2);
    let mut flat = good.clone();
    flat.views[6].board.iter_mut().for_each(|place| place.y = 0.0);
    for (text, fault) in [
        (
            "view\n0 0 1\n".into(),
            "views.txt: line 2: read `0 0 1`; expected four numbers parted by spaces",
        ),
        ("view\n0, 0, 1, 2\n".into(), "line 2: read `0, 0, 1, 2`; expected"),
        ("view\n0 0 412,3 1\n".into(), "write decimals with a point"),
        ("centre 655 470 px\n".into(), "line 1: read `centre 655 470 px`; expected `centre X Y`"),
        (
            flat.text()
                .replacen("view\n", "view a b.png\n", 1)
                .replace("view\n", "view IMG 7.png\n"),
            "view 7 (IMG 7.png)",
        ),
        ("view\n0 0 1 NaN\n".into(), "(`NaN` isn't a finite number)"),
        (few.text(), "views.txt: 2 views, at least 3 are needed. Take more"),
        (flat.text(), "views.txt: the dots of view 7 determine no map"),
    ] {
        fs::write(here.join("views.txt"), text).unwrap();
        assert_said(&here, &["search", "views.txt"], 1, &[fault]);
        assert_eq!(names(&here), ["views.txt"]);
    }
}

#[test]
fn what_is_no_text_or_no_file_ends_with_1() {
    let here = folder("no-text");
    fs::write(here.join("views.txt"), b"view\n\xff\n").unwrap();
    assert_said(
        &here,
        &["search", "views.txt"],
        1,
        &["views.txt: line 2: a byte that isn't UTF-8. Save"],
    );
    fs::write(here.join("views.txt"), b"\xff\xfev\0i\0").unwrap();
    assert_said(&here, &["search", "views.txt"], 1, &["this is text in UTF-16. Save it as UTF-8"]);
    assert_said(
        &here,
        &["search", "no-such-file"],
        1,
        &["jinnychair: no-such-file: can't be read: "],
    );
    assert_said(&here, &["chart", "views.txt"], 1, &["views.txt: "]);
    assert_eq!(names(&here), ["views.txt"]);
}

#[test]
fn views_from_other_programs_are_read() {
    let here = folder("other-programs");
    let text = BUILT_IN.plate().text().replace("\ncentre", "\ncenter").replace('\n', "\r\n");
    fs::write(here.join("views.txt"), format!("\u{feff}{text}")).unwrap();
    assert_said(
        &here,
        &small(&["views.txt"]),
        0,
        &["views.txt: 14 views, 980 dots", "655 470 px (stated)"],
    );
}

#[test]
fn built_in_plate_is_searched_read_back_from_its_file_and_charted_from_its_table() {
    let here = folder("built-in");
    said(&here, &["search", "--write-views", "views.txt"], 0);
    assert_said(
        &here,
        &["search"],
        0,
        &["winner          candidate", "verdict         good", "written: tilts.svg"],
    );
    said(&here, &["search", "views.txt", "--out", "read"], 0);
    let lines = |name: &str| {
        let text = file(here.join(name));
        text.lines().filter(|line| !line.starts_with('#')).map(str::to_owned).collect::<Vec<_>>()
    };
    assert_eq!(lines("tilts.csv"), lines("read.csv"));
    assert_said(&here, &["chart", "tilts.csv", "--out", "drawn.svg"], 0, &["written: drawn.svg"]);
    assert!(file(here.join("drawn.svg")) == file(here.join("tilts.svg")), "the chart differs");
    fs::remove_file(here.join("tilts.svg")).unwrap();
    said(&here, &["chart", "tilts.csv"], 0);
    assert!(file(here.join("drawn.svg")) == file(here.join("tilts.svg")), "the chart differs");
    let chart = file(here.join("tilts.svg"));
    let [_, major, minor, patch] = jinnychair::VERSION.to_be_bytes();
    for part in [
        &format!("jinnychair {major}.{minor}.{patch}<")[..],
        " UTC<",
        "the built-in plate",
        "655 470 px (stated)",
        "step 1.146",
        "at least 90 % of a tilt's dots",
        "decomposition seed",
    ] {
        assert!(chart.contains(part), "{part}");
    }
}

#[test]
fn numbers_that_people_ask_for_first_are_shown() {
    let here = folder("numbers");
    let shown = said(&here, &small(&["--centre-within=2"]), 0);
    for part in [
        "mean error      0.060",
        "RMS error       0.06",
        "counted dots    980 of 980",
        "view  counted  mean px   RMS px  worst px\n   1    70/70   0.06",
        "worst dots\n  view 9, place 60 100: 0.16",
        "1 px of the centre's y moves tilt x by 0.040°, 1 px of its x moves tilt y by 0.040°",
        "±0.081° x, ±0.081° y for a centre within 2 px",
        "by noise      ±0.012° x, ±0.009° y (covers 95 of 100)",
        "by the lens   ±0.012° x, ±0.043° y more",
        "off the lean  +0.0016° x, +0.0029° y; steps, penalty and noise explain ±0.04",
        "\n  next view     with the plate's ",
    ] {
        assert!(shown.contains(part), "`{part}` isn't in:\n{shown}");
    }
    // The open range of the lean is the sum: noise, lens and centre; the winner's has its distance from the lean in it.
    for part in [
        "\nlean x          -1.1958° ± 0.106°   (-0.0208",
        "\nlean y          -0.4005° ± 0.133°   (-0.0069",
        "\n  tilt x        -1.1942° ± 0.105°   (-0.020843 rad)",
    ] {
        assert!(shown.contains(part), "`{part}` isn't in:\n{shown}");
    }
}

#[test]
fn progress_is_told_round_by_round_where_no_terminal_is() {
    let here = folder("progress");
    let told = said(&here, &small(&[]), 0);
    assert!(
        told.contains("\nround 0 of 5: 7 of 7 tried, best score 0.06103 at -1.1942°"),
        "{told}"
    );
    assert!(
        told.contains("\nround 5 of 5: 9 of 9 tried, best score 0.06103 at -1.1942° -0.3977°\n")
    );
    assert!(!told.contains('\r') && told.matches("\nround ").count() == 6, "{told}");
    // The bound leaves two tilts of three.
    let words = ["search", "--one-axis", "--tilts-x=-1deg", "--bound=1.1deg", "--step=0.5deg"];
    let words = [&words[..], &["--rounds=1", "--no-decomposition"]].concat();
    assert_said(&here, &words, 3, &["\nround 0 of 1: 1 of 1", "\nround 1 of 1: 2 of 2 tried"]);
}

#[test]
fn a_time_limit_stops_between_two_tilts() {
    let here = folder("minutes");
    let expected = [
        "stopped         by the time limit of 0.000000001 min, in round 0 of 6, with 1 of its 46 tilts tried\n",
        "this round      could gain at most 0.06103 in score: no tilt left in it can score below 0,",
        "best so far     candidate 0 of 1 (decomposition)",
        // Of the grid any tilt may be missing.
        "; steps, penalty and noise explain ±18.",
        "1. the search was stopped by the time limit of 0.000000001 min in round 0 of 6, with 45 of its 46 tilts left",
    ];
    assert_said(&here, &["search", "--minutes=1e-9"], 3, &expected);
    let table = file(here.join("tilts.csv"));
    assert!(
        table.contains("\n# stopped: by the time limit of 0.000000001 min, in round 0"),
        "{table}"
    );
    assert!(table.contains("\n# against: the search was stopped by the time limit"), "{table}");
    assert!(file(here.join("tilts.svg")).contains("1 tilt tried, 0 skipped"));
    // Time enough.
    fs::write(here.join("lab.txt"), "minutes 1e9\n").unwrap();
    said(&here, &small(&["--options=lab.txt"]), 0);
    assert!(!file(here.join("tilts.csv")).contains("stopped"));
}

#[test]
fn a_centre_is_demanded_or_guessed_aloud() {
    let here = folder("centre");
    let text = BUILT_IN
        .plate()
        .text()
        .lines()
        .filter(|line| !line.starts_with("centre"))
        .collect::<Vec<_>>()
        .join("\n");
    fs::write(here.join("views.txt"), text).unwrap();
    assert_said(
        &here,
        &["search", "views.txt"],
        2,
        &["views.txt: no optical centre is stated", "--centre X Y", "--guess-centre"],
    );
    assert_eq!(names(&here), ["views.txt"]);
    let words = small(&["views.txt", "--guess-centre"]);
    assert_said(&here, &words, 3, &["px (GUESSED", "doubtful", "the optical centre is guessed"]);
    assert!(file(here.join("tilts.csv")).contains("# centre: 529.5"));
    assert!(file(here.join("tilts.csv")).contains("GUESSED"));
    assert!(file(here.join("tilts.svg")).matches("GUESSED").count() >= 2);
    // Stated in the words, it is good again.
    said(&here, &small(&["views.txt", "--centre", "655", "470"]), 0);
    let both = small(&["views.txt", "--centre=655", "470", "--guess-centre"]);
    assert_said(&here, &both, 2, &["a centre is stated, so leave --guess-centre out"]);
}

/// The plate's file, and what is said of it.
fn assert_doubtful(name: &str, plate: &Plate, words: &[&str], points: &[&str]) {
    let here = folder(name);
    fs::write(here.join("views.txt"), plate.text()).unwrap();
    let words = small(&[&["views.txt"], words].concat());
    let said = said(&here, &words, 3);
    let (table, chart) = (file(here.join("tilts.csv")), file(here.join("tilts.svg")));
    for point in points {
        assert!(said.contains(point), "`{point}` isn't in:\n{said}");
        assert!(table.contains(&format!("# against: {point}")), "{table}");
    }
    assert!(chart.contains("Verdict: doubtful") && chart.contains(">against</text>"));
}

#[test]
fn a_stray_dot_is_named() {
    let mut plate = BUILT_IN.plate();
    plate.views[4].pixels[52].x += 300.0;
    let place = plate.views[4].board[52];
    let dot = format!(
        "a dot disagrees with all others, by more than chance: view 5 place {} {}, 300.0",
        place.x, place.y
    );
    let here = folder("stray-dot");
    fs::write(here.join("views.txt"), plate.text()).unwrap();
    let text = said(&here, &small(&["views.txt"]), 3);
    assert!(text.contains(&dot) && text.contains("the lean would be -1.196° -0.401°"), "{text}");
    assert!(text.contains("one point speaks against"), "{text}");
    assert!(file(here.join("tilts.svg")).contains(&dot));
}

#[test]
fn exchanged_coordinates_are_told() {
    let mut plate = BUILT_IN.plate();
    for pixel in plate.views.iter_mut().flat_map(|view| &mut view.pixels) {
        (pixel.x, pixel.y) = (pixel.y, pixel.x);
    }
    let point =
        "with the centre exchanged, 470 655 in place of 655 470, the lean would be far smaller";
    assert_doubtful("exchanged", &plate, &[], &[point]);
    // In some views only, the plate is seen from behind there.
    let mut some = BUILT_IN.plate();
    for view in [2, 7] {
        for place in &mut some.views[view].board {
            (place.x, place.y) = (place.y, place.x);
        }
    }
    assert_doubtful("mirrored", &some, &[], &["view 3, 8 shows the plate from the other side"]);
    // A centre of another picture.
    assert_doubtful(
        "outside",
        &BUILT_IN.plate(),
        &["--centre", "655", "-470"],
        &["the centre 655 -470 lies outside of what is seen"],
    );
}

#[test]
fn views_that_are_alike_are_told() {
    let held: Vec<_> = (0..8)
        .map(|i| {
            [
                0.15 * f64::from(i % 4) - 0.25,
                0.12 * f64::from(i) - 0.5,
                2.0 * f64::from(i),
                -3.0,
                430.0,
            ]
        })
        .collect();
    let plate = BUILT_IN.plate_held(&held);
    let points = ["noise in the pixels leaves the tilts open by ±"];
    assert_doubtful("alike", &plate, &[], &points);
    let here = folder("alike");
    fs::write(here.join("views.txt"), plate.text()).unwrap();
    let helps = "Take more views, first one with the plate's left edge turned away by 30°.";
    assert_said(&here, &small(&["views.txt"]), 3, &[helps]);
}

#[test]
fn a_lens_with_distortion_is_told() {
    let mut plate = BUILT_IN.plate();
    let k = BUILT_IN.k;
    for pixel in plate.views.iter_mut().flat_map(|view| &mut view.pixels) {
        let (x, y) = ((pixel.x - k.cx) / k.fx, (pixel.y - k.cy) / k.fy);
        let factor = 1.0 - 0.1 * (x * x + y * y);
        (pixel.x, pixel.y) = (k.fx * x * factor + k.cx, k.fy * y * factor + k.cy);
    }
    let points = ["a lens that bends fits the views better"];
    assert_doubtful("distortion", &plate, &[], &points);
}

#[test]
fn a_winner_at_an_edge_is_told() {
    let here = folder("edge");
    let base = ["search", "--no-decomposition", "--tilts-y=-0.4deg"];
    let edge = |words: &[&'static str], point: &str| {
        assert_said(&here, &[&base, words].concat(), 3, &[point])
    };
    edge(&["--tilts-x=0,1deg", "--rounds=0"], "tilt x is the outermost that was tried, 0°");
    edge(
        &["--tilts-x=-5deg,0", "--rounds=2", "--step=0.2deg"],
        "as far from its seed as the rounds reach, 0.300°",
    );
    edge(
        &["--tilts-x=-1deg,0", "--rounds=2", "--bound=1deg"],
        "tilt x, -1.000°, is at the bound, 1.000°",
    );
    edge(
        &["--tilts-x=-9deg,-1deg", "--rounds=3"],
        "tilt x from -6.995° to -3.005°: no round can reach it",
    );
}

#[test]
fn a_winner_at_half_a_radian_is_doubtful() {
    let here = folder("half-a-radian");
    let words = ["search", "--bound=0.5rad", "--tilts-x=0.5rad", "--tilts-y=0", "--rounds=0"];
    let words = [&words[..], &["--no-decomposition"]].concat();
    let off = "the winner lies 29.844° 0.40";
    assert_said(&here, &words, 3, &["  tilt x        +28.6479°", off]);
}

/// A plate that is seen by a sensor that leans about x alone.
fn hinged(noise: f64) -> Plate {
    let sensor = ScheimpflugParams { tilt_x: (-1.2f64).to_radians(), tilt_y: 0.0 };
    Truth { sensor, noise, ..BUILT_IN }.plate()
}

#[test]
fn a_module_with_a_hinge_is_searched_on_one_axis() {
    let here = folder("one-axis");
    fs::write(here.join("views.txt"), hinged(BUILT_IN.noise).text()).unwrap();
    let words = ["search", "views.txt", "--one-axis", "--centre-within=2", "--max-tilt=1.5deg"];
    let expected = [
        "  tilt y        held at 0: one axis\n",
        "  tilt y        every lean about y: it is held at 0\n",
        "they reach 2.256° from a seed in tilt x\n",
        "\nlean x          -1.1",
        "\nlean y          0° (held: one axis; let free, it would be ",
        "° x for a centre within 2 px\n",
        "moves tilt x by 0.040°\n",
        "verdict         good",
    ];
    assert_said(&here, &words, 0, &expected);
    let table = file(here.join("tilts.csv"));
    assert!(table.contains("\n# axes: x alone; tilt y is held at 0\n"), "{table}");
    let tilt_y = |line: &str| line.split(',').nth(4).map(str::to_owned);
    let tilts: Vec<_> = table.lines().skip_while(|l| l.starts_with('#')).skip(1).collect();
    // The grid's nine and the decomposition's, then three a round.
    assert_eq!(tilts.len(), 10 + 6 * 3);
    assert!(tilts.iter().all(|line| tilt_y(line).as_deref() == Some("0.000000")), "{table}");
    let drawn = file(here.join("tilts.svg"));
    assert!(drawn.contains("tilt y held at 0") && !drawn.contains("Score along tilt y"));
    said(&here, &["chart", "tilts.csv", "--out=again.svg"], 0);
    assert!(file(here.join("again.svg")) == drawn, "the chart differs");
}

#[test]
fn a_lean_about_the_held_axis_is_told() {
    // The built-in plate leans about y by -0.4°, as if its centre were 10 px to the left.
    let wanted = "tilt y is held at 0, and the views want -0.40";
    let words = ["--one-axis", "--tilts-x=-2deg,-1deg,0", "--rounds=5", "--step=0.5deg"];
    let here = folder("held");
    let words = [&["search"], &words[..]].concat();
    assert_said(&here, &words, 3, &[wanted, "or the centre's x is off by 9.9 px"]);
    assert!(file(here.join("tilts.svg")).contains(wanted));
    fs::write(here.join("seeds.txt"), "-1deg 0\n-1deg -0.4deg\n").unwrap();
    let fault = "seeds.txt: line 2: read `-1deg -0.4deg`; one-axis holds tilt y at 0. Write 0";
    assert_said(&here, &["search", "--one-axis", "--seeds=seeds.txt"], 1, &[fault]);
}

#[test]
fn limits_of_service_decide() {
    let here = folder("limits");
    said(&here, &small(&["--max-tilt=1.5deg", "--max-mean=0.1"]), 0);
    assert_said(
        &here,
        &small(&["--max-tilt=1deg"]),
        3,
        &["tilt x, -1.19", "is or may be beyond the limit 1.000°"],
    );
    // What the centre leaves open counts.
    let words = small(&["--max-tilt=1.5deg", "--centre-within=10"]);
    assert_said(&here, &words, 3, &["is or may be beyond the limit 1.500°"]);
    assert_said(
        &here,
        &small(&["--max-mean=0.05"]),
        3,
        &["the mean error, 0.06", "is above the limit 0.05 px"],
    );
}

#[test]
fn the_share_of_counted_dots_is_named_and_can_be_chosen() {
    let here = folder("share");
    let default = format!("({MIN_COUNTED})");
    let help = said(&here, &["search", "--help"], 0);
    let line = help.lines().find(|line| line.contains("--min-counted PERCENT")).unwrap();
    assert!(line.ends_with(&default), "{line}");
    assert_said(
        &here,
        &small(&[]),
        0,
        &["\n  counted       at least 90 % of a tilt's dots, or it is"],
    );
    let words = small(&["--min-counted=100%", "--out=all"]);
    assert_said(&here, &words, 0, &["at least 100 % of a tilt's dots", "980 of 980"]);
    assert!(file(here.join("all.csv")).contains("\n# counted: at least 100 % of a tilt's"));
}

#[test]
fn a_lab_searches_its_own_tilts_from_words_or_from_a_file() {
    let here = folder("lab");
    fs::write(here.join("seeds.txt"), "# ours\n-1.2deg -0.4deg\n1400 1400 655 470 0.02rad 0\n")
        .unwrap();
    let words = [
        "search",
        "--tilts-x=-3deg,3deg,20deg,3deg",
        "--tilts-y=0",
        "--bound=5deg",
        "--step=0.5deg",
        "--rounds=3",
        "--no-decomposition",
        "--seeds=seeds.txt",
    ];
    let expected = [
        "tilts x       -3.000°, 3.000°\n",
        "left out      x 20.000°: beyond the bound",
        "merged        x 3.000°: typed before",
        "seed          the file's -1.200° -0.400°",
        "they reach 0.875° from a seed in each tilt",
        "the largest gap in the typed list is 6.000°, from -3.000° to 3.000°",
        "nothing below -3.875°, nothing above 3.875°",
        "HOLE          tilt x from -0.325° to 0.271°: no round can reach it",
        "than the last step, 0.125°",
    ];
    assert_said(&here, &words, 3, &expected);
    let typed = file(here.join("tilts.csv"));
    assert!(
        typed.contains("\n0,0,seed file,-1.200000,-0.400000,S,")
            && typed.contains("\n2,0,grid,-3.000000,0.000000,S,")
    );
    assert!(!typed.contains(",decomposition,") && typed.contains(",around 0,"));
    let options = "tilts-x -3deg, 3deg, 20deg, 3deg\ntilts-y 0\nbound 5deg\nstep 0.5deg # first\nrounds 9\n\
                   no-decomposition\nseeds seeds.txt\n";
    fs::write(here.join("lab.txt"), options).unwrap();
    // The command line wins over the file.
    said(&here, &["search", "--options=lab.txt", "--rounds=3"], 3);
    let tried = |text: &str| text.split("\nnumber,").nth(1).unwrap().to_owned();
    assert_eq!(tried(&typed), tried(&file(here.join("tilts.csv"))));
}

#[test]
fn faults_of_a_labs_files_are_named_with_their_line() {
    let here = folder("lab-faults");
    fs::write(here.join("seeds.txt"), "# ours\n-1.2deg -0.4deg\n").unwrap();
    for (text, fault) in [
        ("tilt-x 0\n", "lab.txt: line 1: read `tilt-x 0`; expected one of"),
        (
            "seeds seeds.txt\nbound 1deg\n",
            "seeds.txt: line 2: read `-1.2deg -0.4deg`; a tilt is beyond the bound",
        ),
        ("seeds none.txt\n", "none.txt: can't be read"),
    ] {
        fs::write(here.join("lab.txt"), text).unwrap();
        assert_said(&here, &["search", "--options=lab.txt"], 1, &[fault]);
    }
    assert_eq!(names(&here), ["lab.txt", "seeds.txt"]);
}

#[test]
fn names_are_kept_and_no_foreign_file_is_written_over() {
    let here = folder("names");
    said(&here, &small(&["--out", "a.b.c"]), 0);
    said(&here, &small(&["--out", "d.svg"]), 0);
    assert_eq!(names(&here), ["a.b.c.csv", "a.b.c.svg", "d.csv", "d.svg"]);
    // Views that have the name of an output.
    let views = BUILT_IN.plate().text();
    fs::write(here.join("tilts.csv"), &views).unwrap();
    assert_said(
        &here,
        &small(&["tilts.csv"]),
        1,
        &["tilts.csv: this is an input, and would be written over. Name another with --out"],
    );
    assert_said(
        &here,
        &small(&[]),
        1,
        &["tilts.csv: there is such a file, and this program didn't write it"],
    );
    assert_said(&here, &["search", "--write-views", "d.svg"], 1, &["d.svg: there is such a file"]);
    assert_said(&here, &["chart", "d.csv", "--out=d.csv"], 1, &["d.csv: this is an input"]);
    assert_eq!(file(here.join("tilts.csv")), views);
    said(&here, &small(&["tilts.csv", "--out=other"]), 0);
    // Its own files are written anew.
    said(&here, &small(&["tilts.csv", "--out=other"]), 0);
    // A name that isn't UTF-8 is a name; an option that isn't is refused.
    let name = OsString::from_vec(b"views-\xff.txt".to_vec());
    fs::write(here.join(&name), &views).unwrap();
    let words: Vec<OsString> = small(&["--out=odd"]).into_iter().map(OsString::from).collect();
    said(&here, &[&words[..], &[name]].concat(), 0);
    let option = OsString::from_vec(b"--\xff".to_vec());
    assert_said(&here, &["search".into(), option], 2, &["isn't text in UTF-8"]);
    assert_said(&here, &[OsString::from_vec(b"\xff".to_vec())], 2, &["isn't text in UTF-8"]);
}

#[test]
fn an_output_that_cannot_be_written_hides_nothing() {
    let here = folder("unwritable");
    // A disk that is full once the search is over: the other one of the two is there.
    std::os::unix::fs::symlink("/dev/full", here.join("tilts.svg")).unwrap();
    let told =
        ["verdict         good", "written: tilts.csv", "tilts.svg: can't be written", "--out"];
    assert_said(&here, &small(&[]), 1, &told);
    assert_eq!(names(&here), ["tilts.csv", "tilts.svg"]);
}

#[test]
fn a_closed_or_full_screen_loses_nothing() {
    let here = folder("screen");
    let full = || Stdio::from(File::options().write(true).open("/dev/full").unwrap());
    let closed = || {
        let (reader, writer) = std::io::pipe().unwrap();
        drop(reader);
        Stdio::from(writer)
    };
    for (i, (screen, code)) in [(full(), 1), (closed(), 0)].into_iter().enumerate() {
        let out = format!("--out=s{i}");
        let output = program(&here, &small(&[&out])).stdout(screen).output().unwrap();
        let told = String::from_utf8(output.stderr).unwrap();
        assert_eq!(output.status.code(), Some(code), "{told}");
        let fault = "standard output: not everything could be shown";
        assert_eq!(told.contains(fault), code == 1, "{told}");
        assert!(!told.contains("panicked"), "{told}");
        assert!(
            file(here.join(format!("s{i}.csv"))).contains("# verdict: good")
                && here.join(format!("s{i}.svg")).exists()
        );
    }
    for words in [&["--help"][..], &["--version"], &["search", "--help"]] {
        let status = program(&here, words).stdout(closed()).stderr(Stdio::null()).status();
        assert_eq!(status.unwrap().code(), Some(0));
    }
    // Without a place for progress and faults the exit code is still right.
    for screen in [full(), closed()] {
        assert_eq!(
            program(&here, &small(&[])).stderr(screen).output().unwrap().status.code(),
            Some(0)
        );
    }
    assert_eq!(
        program(&here, &["search", "none"]).stderr(full()).status().unwrap().code(),
        Some(1)
    );
}

#[test]
fn a_search_without_a_winner_keeps_its_table() {
    let here = folder("no-winner");
    let words = ["search", "--tilts-x=6deg", "--tilts-y=0", "--bound=5deg", "--no-decomposition"];
    assert_said(
        &here,
        &words,
        1,
        &[
            "no winner: the run ended and no candidate was scored (11)",
            "tilts x       none of the typed ones",
        ],
    );
    assert!(
        file(here.join("tilts.svg")).contains("No winner.")
            && file(here.join("tilts.csv")).contains("# verdict: failed")
    );
}

#[test]
fn without_noise_and_with_little_of_it_a_good_plate_is_good() {
    for (name, noise) in [("still", 0.0), ("little", 0.01), ("much", 0.5)] {
        let here = folder(name);
        let truth = Truth { noise, ..BUILT_IN };
        fs::write(here.join("views.txt"), truth.plate().text()).unwrap();
        said(&here, &small(&["views.txt"]), 0);
        fs::write(here.join("hinged.txt"), hinged(noise).text()).unwrap();
        let one_axis = ["search", "hinged.txt", "--one-axis", "--tilts-x=-2deg,-1deg,0"];
        said(&here, &one_axis, 0);
        said(&here, &[&one_axis[..], &["--no-decomposition"]].concat(), 0);
    }
}
