//! The chart, the table, and what speaks against a winner, with scripted hosts.
#![allow(missing_docs)]

use jinnychair::{
    BrownConrady5, FxFyCxCy, Inputs, Options, Outcome, PinholeCamera, Progress, Pt2, RunError,
    ScheimpflugParams, Seed, SkipReason, Solution,
};
use std::collections::BTreeSet;
use std::ops::ControlFlow;
use tool::chart::chart;
use tool::choices::MIN_COUNTED;
use tool::drive::{Finished, Source, Tried, best, run, to_the_end};
use tool::report;
use tool::table::{self, Record};
use tool::verdict::{of_search, of_stop, too_few_counted};

const K: FxFyCxCy = FxFyCxCy { fx: 1000.0, fy: 1000.0, cx: 640.0, cy: 480.0 };

fn options(rounds: usize) -> Options {
    let mut options = Options::default();
    (options.refine_rounds, options.max_abs_tilt) = (rounds, 0.2);
    options
}

fn search(options: &Options, solve: impl FnMut(&Seed) -> Option<Solution>) -> Finished {
    let center = Pt2 { x: K.cx, y: K.cy };
    let inputs = Inputs { views: 3, options, decomposition: &[], base: K, center };
    run(&inputs, &[], solve, to_the_end).unwrap()
}

/// The record of a search whose input has a name that XML and a table would take for their own.
fn record(finished: &Finished) -> Record {
    let mut record = Record { tried: finished.tried.clone(), ..Record::default() };
    record.add("input", "a<b>&\n# verdict: good, 3 views");
    record.add("bound_rad", "0.2");
    record.add("verdict", "doubtful: one point speaks against the winner");
    record
}

/// One row, which is off by a number of pixels.
fn off_by(k: FxFyCxCy, error: f64) -> Solution {
    Solution {
        camera: PinholeCamera { k, dist: BrownConrady5::default() },
        rows: vec![0.0, 0.0, k.cx + error, k.cy],
        flags: vec![1],
    }
}

/// A host that has each outcome for some tilts.
fn moody(seed: &Seed) -> Option<Solution> {
    let ScheimpflugParams { tilt_x, tilt_y } = seed.sensor;
    if tilt_x > 0.1 {
        return None;
    }
    let mut k = K;
    if tilt_x < -0.1 {
        k.fx = -1.0;
    }
    if tilt_y > 0.03 {
        // A centre so far out that its penalty isn't a number.
        k.cx = 1e200;
    }
    let mut solution = off_by(k, 100.0 * (tilt_x + 0.03).hypot(tilt_y + 0.01) + 0.05);
    solution.flags[0] = u8::from(tilt_y > -0.03);
    Some(solution)
}

fn finished(rounds: usize) -> Finished {
    search(&options(rounds), moody)
}

/// The same on one axis: tilts about x of 0.04 and 0.08 have the outcomes of tilts about y.
fn on_one_axis(rounds: usize) -> (Finished, Record) {
    let mut options = options(rounds);
    (options.one_axis, options.tilt_y_seeds) = (true, vec![0.0]);
    let finished = search(&options, |seed| {
        let tilt_x = seed.sensor.tilt_x;
        let outcomes_of = [(0.04, -0.04), (0.08, 0.04)];
        let tilt_y = outcomes_of.iter().find(|(x, _)| *x == tilt_x).map_or(0.0, |(_, y)| *y);
        moody(&Seed { sensor: ScheimpflugParams { tilt_x, tilt_y }, ..*seed })
    });
    let mut record = record(&finished);
    record.add("axes", table::ONE_AXIS);
    (finished, record)
}

/// Every tried tilt is in the chart and shows its number, the skipped ones are counted, and the picture is well formed.
fn assert_drawn(svg: &str, finished: &Finished) {
    for (_, letter, words) in table::SKIPS {
        let skipped = finished.tried.iter().filter(|t| table::letter(&t.outcome) == *letter);
        let count = skipped.count();
        assert!(count > 0, "{words}");
        assert!(svg.contains(&format!("{words}: {count}<")), "{words}");
    }
    assert!(svg.contains(&format!("{} tilts tried", finished.tried.len())));
    assert!(!svg.contains("NaN") && !svg.contains("inf"), "a coordinate isn't a number");
    for element in ["svg", "g", "title", "text"] {
        let begun = [' ', '>'].map(|next| svg.matches(&format!("<{element}{next}")).count());
        let ended = svg.matches(&format!("</{element}>")).count();
        assert_eq!(begun[0] + begun[1], ended, "{element}");
    }
    for one in &finished.tried {
        assert!(svg.contains(&format!("<title>no. {}, round {} (", one.number, one.round)));
    }
    assert!(svg.contains("a&lt;b&gt;&amp; # verdict: good, 3 views"));
    assert!(svg.contains("Verdict: doubtful: one point"));
    assert_eq!(best(&finished.tried).unwrap().number, finished.winner.unwrap().number);
}

fn write_picture(name: &str, svg: &str) {
    std::fs::write(format!("{}/{name}.svg", env!("CARGO_TARGET_TMPDIR")), svg).unwrap();
}

#[test]
fn chart_shows_every_tilt_and_counts_the_skipped() {
    for rounds in [0, 3, 16] {
        let finished = finished(rounds);
        let svg = chart(&record(&finished));
        write_picture(&format!("moody-{rounds}"), &svg);
        assert_drawn(&svg, &finished);
        assert!(svg.contains("Score along tilt x") && svg.contains(">tilt y"));
    }
}

#[test]
fn chart_of_one_axis_is_the_score_over_tilt_x() {
    for rounds in [0, 3, 16] {
        let (finished, record) = on_one_axis(rounds);
        let svg = chart(&record);
        write_picture(&format!("one-axis-{rounds}"), &svg);
        assert_drawn(&svg, &finished);
        assert!(svg.contains("tilt y held at 0") && svg.contains(">tilt x (degrees)<"));
        assert!(!svg.contains(">tilt y") && !svg.contains("Score along"));
        assert_eq!(svg.contains("Part A"), rounds > 0);
        let read = Record::parse(&record.table()).unwrap();
        assert!(read.is_one_axis() && chart(&read) == svg);
    }
    // Nothing scored, and nothing tried.
    let mut empty = Record::default();
    empty.add("axes", table::ONE_AXIS);
    assert!(chart(&empty).contains("No winner."));
    empty.tried = search(&options(1), |_| None).tried;
    let svg = chart(&empty);
    assert!(svg.contains("the host found no camera: 45<") && !svg.contains("NaN"));
}

#[test]
fn chart_marks_seeds_and_tells_where_the_bound_is() {
    let seed = |x: f64, fx: f64| Seed::from_numbers([fx, 1000.0, 640.0, 480.0, x, 0.01]);
    let given = [seed(-0.03, 1000.0), seed(0.05, 900.0)];
    let center = Pt2 { x: K.cx, y: K.cy };
    let options = options(2);
    let inputs = Inputs { views: 3, options: &options, decomposition: &given, base: K, center };
    let sources = [Source::Decomposition, Source::SeedFile];
    let finished =
        run(&inputs, &sources, |seed| Some(off_by(K, near(seed, -0.03))), to_the_end).unwrap();
    let found: Vec<_> = finished.tried.iter().map(|one| one.source).collect();
    assert_eq!(found[..3], [Source::Decomposition, Source::SeedFile, Source::Grid]);
    let number = best(finished.tried.iter().filter(|one| one.round == 1)).unwrap().number;
    assert_eq!(found.last(), Some(&Source::Around(number)));
    let svg = chart(&record(&finished));
    assert!(svg.contains("seed by decomposition") && svg.contains("seed of a file"));
    assert!(svg.contains("bound ±11.5°, outside"));
    let mut near_bound = record(&finished);
    near_bound.about.retain(|(name, _)| name != "bound_rad");
    assert!(!chart(&near_bound).contains("bound"));
    near_bound.add("bound_rad", "0.17");
    assert!(chart(&near_bound).contains("bound ±9.74°<"));
}

#[test]
fn every_skip_reason_has_a_letter_of_its_own() {
    let of_reason = |reason: &SkipReason| table::letter(&Outcome::Skipped(*reason));
    let letters: BTreeSet<char> = SkipReason::ALL.iter().map(of_reason).collect();
    assert_eq!(letters.len(), SkipReason::ALL.len());
    assert!(!letters.contains(&'?') && !letters.contains(&'S'));
}

#[test]
fn chart_has_no_winner_where_nothing_is_scored() {
    let finished = search(&options(2), |_| None);
    assert_eq!(finished.winner.map_err(RunError::number), Err(11));
    let svg = chart(&Record { tried: finished.tried, ..Record::default() });
    assert!(svg.contains("No winner.") && !svg.contains("the bound"));
    assert!(svg.contains("the host found no camera: 45<"));
    assert!(chart(&Record::default()).contains("0 tilts tried"));
}

#[test]
fn table_has_a_line_for_each_tilt_in_its_field_order_and_is_read_back() {
    let finished = finished(2);
    let record = record(&finished);
    let text = record.table();
    let mut lines = text.lines().skip(4);
    assert_eq!(lines.next(), Some(table::FIELDS));
    for (line, tried) in lines.by_ref().zip(&finished.tried) {
        let fields: Vec<_> = line.split(',').collect();
        let field =
            |name: &str| fields[table::FIELDS.split(',').position(|other| other == name).unwrap()];
        assert_eq!(fields.len(), table::FIELDS.split(',').count());
        assert_eq!(field("number"), tried.number.to_string());
        assert_eq!(field("round"), tried.round.to_string());
        assert_eq!(field("tilt_x_rad").parse(), Ok(tried.seed.sensor.tilt_x));
        let degrees: f64 = field("tilt_y_deg").parse().unwrap();
        assert!((degrees - tried.seed.sensor.tilt_y.to_degrees()).abs() < 1e-6);
        let rows = ["counted_rows", "rows"].map(field);
        match tried.outcome {
            Outcome::Scored(score) => {
                assert_eq!((field("outcome"), rows), ("S", ["1", "1"]));
                assert_eq!(field("score"), score.to_string());
                assert_eq!(field("mean_px").parse(), Ok(tried.scored.unwrap().mean));
                // One row: its error is the mean and the root of the mean square.
                assert!(
                    (field("rms_px").parse::<f64>().unwrap() - tried.scored.unwrap().mean).abs()
                        < 1e-9
                );
            }
            Outcome::Skipped(_) => {
                assert!(
                    ["score", "mean_px", "rms_px", "fx_px", "p2"]
                        .iter()
                        .all(|name| field(name) == "-")
                );
            }
        }
    }
    assert_eq!(lines.next(), None);
    let read = Record::parse(&text).unwrap();
    assert_eq!((read.table(), chart(&read)), (text, chart(&record)));
}

/// A camera that fits 4 of 900 dots exactly at one tilt, and otherwise all dots, a pixel off.
fn four_of_nine_hundred(seed: &Seed) -> Solution {
    let is_few = seed.sensor.tilt_x == 0.12;
    let mut solution = off_by(K, if is_few { 0.0 } else { 1.0 + seed.sensor.tilt_x.abs() });
    solution.rows = solution.rows.repeat(900);
    solution.flags = (0..900).map(|i| u8::from(!is_few || i < 4)).collect();
    solution
}

#[test]
fn a_tilt_with_too_few_dots_loses_and_its_dots_are_shown() {
    let mut options = options(0);
    options.tilt_y_seeds = vec![0.0];
    let mut won = |min_counted: usize| {
        options.min_counted = min_counted;
        let finished = search(&options, |seed| Some(four_of_nine_hundred(seed)));
        (finished.winner.unwrap().sensor.tilt_x, record(&finished))
    };
    assert_eq!(won(0).0, 0.12);
    let (tilt_x, record) = won(MIN_COUNTED);
    assert_eq!(tilt_x, 0.0);
    let table = record.table();
    assert!(table.contains(",6.875494,0.000000,E,-,-,-,4,900,"), "{table}");
    assert!(table.contains(",0.000000,0.000000,S,1,1,1,900,900,"), "{table}");
    let told = "skipped: too few dots counted, or no finite mean, 4 of 900 dots<";
    assert!(chart(&record).contains(told) && chart(&record).contains("no finite mean: 1<"));
}

#[test]
fn where_no_tilt_has_enough_dots_that_is_told() {
    let mut options = options(0);
    options.min_counted = 50;
    let finished = search(&options, |seed| {
        let mut solution = off_by(K, 1.0);
        (solution.rows, solution.flags) = (solution.rows.repeat(3), vec![1, 0, 0]);
        (seed.sensor.tilt_x < 0.15).then_some(solution)
    });
    assert!(finished.winner.is_err());
    let point = too_few_counted(&finished.tried, &options).unwrap().to_string();
    let expected = "40 of 45 tilts have fewer than 50 % of their dots counted, the fullest of these 1 of 3. Look";
    assert!(point.starts_with(expected), "{point}");
    options.min_counted = 33;
    assert_eq!(too_few_counted(&finished.tried, &options), None);
}

#[test]
fn what_is_no_table_is_named_with_its_line() {
    let good = record(&finished(0)).table();
    for (old, new, fault) in [
        ("# Every", "Every", "line 1: read `Every tilt"),
        ("\nnumber,", "\n", "line 5: read `round,source"),
        ("\n0,0,", "\n0,", "line 6: 22 fields, not 23"),
        (",H,-", ",H,1", "a skipped tilt has minus signs"),
        (",H,", ",Q,", "`Q` is no outcome"),
        (",S,", ",S,x", "isn't a number"),
        (",grid,", ",grit,", "`grit` is no source of a seed"),
    ] {
        let told = Record::parse(&good.replacen(old, new, 1)).unwrap_err();
        assert!(told.contains(fault), "{told}");
    }
}

/// A search that is stopped after this many tilts.
fn stopped(
    options: &Options,
    after: usize,
    solve: impl FnMut(&Seed) -> Option<Solution>,
) -> Finished {
    let center = Pt2 { x: K.cx, y: K.cy };
    let inputs = Inputs { views: 3, options, decomposition: &[], base: K, center };
    let watch = |one: &Tried, _: &Progress| match one.number + 1 {
        tried if tried == after => ControlFlow::Break("the bell".into()),
        _ => ControlFlow::Continue(()),
    };
    run(&inputs, &[], solve, watch).unwrap()
}

#[test]
fn a_stopped_search_says_what_could_be_gained() {
    let options = options(3);
    let told = |after: usize| {
        let finished = stopped(&options, after, |seed| Some(off_by(K, near(seed, 0.03) + 0.1)));
        assert_eq!(finished.tried.len(), after);
        let stop = finished.stop.unwrap();
        assert_eq!(finished.winner.ok(), stop.stopped.best);
        format!("{}\n{}", report::stop(&stop, &options), of_stop(&stop))
    };
    let in_grid = told(20);
    for part in [
        "stopped         by the bell, in round 0 of 3, with 20 of its 45 tilts tried\n",
        "this round      could gain at most 7.10040 in score: no tilt left in it can score below 0, and the best",
        "later rounds    3 follow, with steps from 1.146° down to 0.286°; nothing is said of them\n",
        "stopped by the bell in round 0 of 3, with 25 of its 45 tilts left: this round may have a better one; the 3 rounds",
    ] {
        assert!(in_grid.contains(part), "{part}\n{in_grid}");
    }
    // After a round's last tilt the next round is the one that is left.
    let between = told(45);
    assert!(between.contains("in round 1 of 3, with 0 of its 9 tilts tried"), "{between}");
    let late = told(45 + 9 + 4);
    assert!(
        late.contains("one follows, with a step of 0.286°")
            && late.contains("the round after it wasn't begun"),
        "{late}"
    );
    let last = told(45 + 9 + 9 + 1);
    assert!(
        last.contains("none follows") && last.contains("may have a better one. Search"),
        "{last}"
    );
}

#[test]
fn the_chart_says_in_which_round_a_search_was_stopped() {
    let told = |rounds: usize, after: usize| {
        let finished = stopped(&options(rounds), after, |seed| Some(off_by(K, near(seed, 0.03))));
        let mut record = record(&finished);
        let stop = finished.stop.map(|stop| report::stop_place(&stop));
        stop.iter().for_each(|place| record.add("stopped", place));
        chart(&record)
    };
    assert!(told(3, 20).contains("20 tilts tried, 0 skipped; stopped in the first round. "));
    assert!(told(3, 45 + 9 + 4).contains("58 tilts tried, 0 skipped; 2 rounds after the first. "));
    assert!(told(0, 100).contains("45 tilts tried, 0 skipped; no round after the first. "));
}

#[test]
fn a_round_that_can_gain_nothing_is_told() {
    let mut options = options(0);
    (options.tilt_x_seeds, options.tilt_y_seeds) = (vec![0.0, 0.1, 0.2], vec![0.0]);
    let stop = stopped(&options, 1, |_| Some(off_by(K, 0.0))).stop.unwrap();
    let text = report::stop(&stop, &options);
    let expected =
        "can gain nothing: no tilt left in it can score below 0.00250, and the best has 0.00000";
    assert!(text.contains(expected), "{text}");
    assert!(
        of_stop(&stop).what.ends_with("with 2 of its 3 tilts left: this round can gain nothing")
    );
}

#[test]
fn a_search_that_is_stopped_before_a_score_has_no_winner() {
    let finished = stopped(&options(1), 2, |_| None);
    assert_eq!(finished.winner.map_err(RunError::number), Err(14));
    let text = report::stop(&finished.stop.unwrap(), &options(1));
    assert!(text.contains("\nthis round      no tilt left in it can score below 0\n"));
    // The end comes before a stop.
    assert_eq!(stopped(&options(0), 45, moody).stop, None);
}

fn near(seed: &Seed, x: f64) -> f64 {
    100.0 * (seed.sensor.tilt_x - x).hypot(seed.sensor.tilt_y)
}

#[test]
fn what_the_search_itself_has_against_a_winner_is_told() {
    let told = |options: &Options, solve: &dyn Fn(&Seed) -> Option<Solution>| {
        let finished = search(options, solve);
        let winner = finished.winner.unwrap();
        let points = of_search(&finished, &winner, options);
        points.iter().map(|point| format!("{point}\n")).collect::<String>()
    };
    let options = options(2);
    assert_eq!(told(&options, &|seed| Some(off_by(K, near(seed, 0.03) + 0.1))), "");
    let mut wide = options.clone();
    wide.max_abs_tilt = 0.3;
    let outside = told(&wide, &|seed| Some(off_by(K, near(seed, -0.4))));
    assert!(outside.contains("tilt x is the outermost that was tried, -10.886°"), "{outside}");
    let mut narrow = options.clone();
    narrow.max_abs_tilt = 0.17;
    let at_bound = told(&narrow, &|seed| Some(off_by(K, near(seed, -0.4))));
    assert!(at_bound.contains("is at the bound, 9.740°"), "{at_bound}");
    // The best tilt is 0.11, but the grid's 0.12 has no camera: the rounds go from 0.08 as far as they can.
    let reached =
        told(&options, &|seed| (seed.sensor.tilt_x < 0.115).then(|| off_by(K, near(seed, 0.113))));
    assert!(reached.contains("as far from its seed as the rounds reach, 1.719°"), "{reached}");
    let few = told(&options, &|seed| {
        (seed.sensor.tilt_x.abs() < 0.01).then(|| off_by(K, near(seed, 0.0) + 0.1))
    });
    assert!(few.contains("tilts were skipped: a lean there is missed"), "{few}");
}
