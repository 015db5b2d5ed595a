//! The search as a host meets it: its loop, its watcher, its refusals.
#![allow(missing_docs)]

use jinnychair::*;
use std::ops::ControlFlow;

const K: FxFyCxCy = FxFyCxCy { fx: 1000.0, fy: 1000.0, cx: 640.0, cy: 480.0 };

fn search(options: &Options) -> Search {
    let center = Pt2 { x: K.cx, y: K.cy };
    Search::start(&Inputs { views: 3, options, decomposition: &[], base: K, center }).unwrap()
}

/// One row, which is off by 1000 pixels a radian from −0.05, 0.01.
fn solution(seed: &Seed) -> Solution {
    let ScheimpflugParams { tilt_x, tilt_y } = seed.sensor;
    let error = 1000.0 * (tilt_x + 0.05).hypot(tilt_y - 0.01);
    Solution {
        camera: PinholeCamera { k: K, dist: BrownConrady5::default() },
        rows: vec![0.0, 0.0, K.cx + error, K.cy],
        flags: vec![1],
    }
}

#[test]
fn run_and_a_loop_by_hand_end_alike() {
    let options = Options::default();
    let mut numbers = vec![];
    let mut by_itself = search(&options);
    let winner = by_itself
        .run_watched(
            |seed| (seed.sensor.tilt_x < 0.1).then(|| solution(seed)),
            |tried| {
                assert_eq!(tried.solution.is_none(), tried.seed.sensor.tilt_x >= 0.1);
                assert_eq!(tried.solution.is_none(), tried.outcome.score().is_none());
                numbers.push((tried.number, tried.round));
            },
        )
        .unwrap();
    assert_eq!(numbers.len(), by_itself.answered());
    assert!(numbers.iter().enumerate().all(|(i, (number, _))| i == *number));
    assert_eq!(numbers.last().unwrap().1, options.refine_rounds);

    let mut by_hand = search(&options);
    while let Handed::Candidate { number, seed } = by_hand.next().unwrap() {
        assert_eq!((by_hand.answered(), by_hand.waiting()), (number, Some(seed)));
        let found = (seed.sensor.tilt_x < 0.1).then(|| solution(&seed));
        let finding = found.as_ref().map_or(Finding::Failed, Solution::finding);
        let _ = by_hand.answer(&finding).unwrap();
    }
    assert_eq!(by_hand.result(), Ok(winner));
    assert!((winner.sensor.tilt_x + 0.05).abs() <= 0.01);
}

#[test]
fn progress_is_exact_within_each_round() {
    let mut options = Options::default();
    (options.refine_rounds, options.max_abs_tilt) = (2, 0.16);
    let mut search = search(&options);
    let numbers = |p: Progress| [p.round, p.rounds, p.answered, p.total, p.answered_in_run];
    assert_eq!(numbers(search.progress()), [0, 2, 0, 45, 0]);
    let mut totals = vec![];
    while let Handed::Candidate { number, .. } = search.next().unwrap() {
        let before = search.progress();
        assert_eq!(before.answered_in_run, number);
        // The best tilt about x is at the bound.
        let mut found = solution(&search.waiting().unwrap());
        found.rows[2] = K.cx + 1.0 - search.waiting().unwrap().sensor.tilt_x;
        let _ = search.answer(&found.finding()).unwrap();
        if before.answered + 1 == before.total {
            totals.push(before.total);
        }
    }
    // From the bound there are two tilts about x, and three about y.
    assert_eq!(totals, [45, 6, 6]);
    assert_eq!(numbers(search.progress()), [2, 2, 6, 6, 57]);
}

#[test]
fn who_watches_sees_the_progress_before_each_answer() {
    let mut last = None;
    let mut search = search(&one_axis());
    search
        .run_watched(
            |seed| Some(solution(seed)),
            |tried| {
                let Progress { round, answered, total, answered_in_run, .. } = tried.progress;
                assert_eq!((round, answered_in_run), (tried.round, tried.number));
                assert_eq!(total, if round == 0 { 9 } else { 3 });
                let expected =
                    last.map_or((0, 0), |(r, a)| if r == round { (r, a + 1) } else { (r + 1, 0) });
                assert_eq!((round, answered), expected);
                last = Some(expected);
            },
        )
        .unwrap();
    assert_eq!(last, Some((2, 2)));
}

#[test]
fn a_stopped_search_says_what_could_be_gained_and_goes_on() {
    let options = Options::default();
    let whole = search(&options).run(|seed| Some(solution(seed))).unwrap();
    let mut search = search(&options);
    assert_eq!(search.stop(), Stopped { best: None, floor: Some(0.0), no_gain: false });
    for after in [1, 30, 45, 50] {
        let watch = |tried: &Tried| match tried.number + 1 {
            answered if answered == after => ControlFlow::Break(()),
            _ => ControlFlow::Continue(()),
        };
        let ended = search.run_until(|seed| Some(solution(seed)), watch).unwrap();
        let Ended::Stopped(stopped) = ended else { panic!("{ended:?}") };
        assert_eq!((search.answered(), stopped), (after, search.stop()));
        let (best, floor) = (stopped.best.unwrap(), stopped.floor.unwrap());
        assert_eq!(stopped.no_gain, floor >= best.score);
        // The waiting seed belongs to those that are left.
        let _ = search.next().unwrap();
        assert_eq!(search.stop(), stopped);
    }
    assert_eq!(search.run(|seed| Some(solution(seed))), Ok(whole));
    assert_eq!(search.stop(), Stopped { best: Some(whole), floor: None, no_gain: false });
}

#[test]
fn a_round_that_can_gain_nothing_is_told() {
    let mut options = Options::default();
    (options.tilt_x_seeds, options.tilt_y_seeds) = (vec![0.0, 0.1, 0.2], vec![0.0]);
    let mut search = search(&options);
    let mut exact = solution(&Seed::from_numbers([0.0; 6]));
    exact.rows[2] = K.cx;
    let ended = search.run_until(|_| Some(exact.clone()), |_| ControlFlow::Break(())).unwrap();
    let Ended::Stopped(stopped) = ended else { panic!("{ended:?}") };
    // Tilt 0 fits exactly, and 0.1 costs 0.25 * 0.1 * 0.1.
    assert_eq!((stopped.best.unwrap().score, stopped.floor), (0.0, Some(0.25 * (0.1 * 0.1))));
    assert!(stopped.no_gain);
}

#[test]
fn a_break_after_the_last_answer_stops_nothing() {
    let mut options = Options::default();
    options.refine_rounds = 0;
    let mut search = search(&options);
    let last = |tried: &Tried| match tried.number {
        44 => ControlFlow::Break(()),
        _ => ControlFlow::Continue(()),
    };
    let ended = search.run_until(|seed| Some(solution(seed)), last).unwrap();
    assert_eq!(ended, Ended::Over(search.result().unwrap()));
}

#[test]
fn a_refused_solution_waits_for_another() {
    let mut search = search(&Options::default());
    let mut asked = 0;
    let refused = search.run(|seed| {
        asked += 1;
        let mut solution = solution(seed);
        // Two is no flag.
        solution.flags[0] += u8::from(asked == 4);
        Some(solution)
    });
    assert_eq!(refused, Err(RunError::Answer(AnswerError::BadRows)));
    assert_eq!((refused.unwrap_err().number(), search.answered()), (13, 3));
    let waiting = search.waiting();
    let mut first = None;
    search
        .run(|seed| {
            first = first.or(Some(*seed));
            Some(solution(seed))
        })
        .unwrap();
    assert_eq!(first, waiting);
}

#[test]
fn a_run_with_nothing_scored_says_so() {
    let mut search = search(&Options::default());
    assert_eq!(search.run(|_| None), Err(RunError::Next(NextError::NothingScored)));
    assert_eq!(search.answered(), 45);
}

#[test]
fn points_are_mapped_in_place_of_their_numbers() {
    let trig = TiltTrig::try_from(ScheimpflugParams { tilt_x: 0.02, tilt_y: -0.01 }).unwrap();
    let pixels: Vec<Pt2> = (0..5).map(|i| Pt2 { x: 100.0 * f64::from(i), y: 77.0 }).collect();
    let mut mapped = [Pt2::default(); 7];
    geometry::untilt_points(K, trig, &pixels, &mut mapped).unwrap();
    let inverse = geometry::inverse(geometry::tilt_projection_matrix(trig)).unwrap();
    for (pixel, mapped) in pixels.iter().zip(mapped) {
        let ideal = geometry::apply_homography_inverse(inverse, K.pixel_to_sensor(*pixel));
        assert_eq!(K.sensor_to_pixel(ideal), mapped);
    }
    assert_eq!(mapped[5..], [Pt2::default(); 2]);
    let short = geometry::untilt_points(K, trig, &pixels, &mut mapped[..4]);
    assert_eq!(short, Err(PointMapError::DestinationTooShort));
    let many = vec![Pt2::default(); 401];
    assert_eq!(
        geometry::untilt_points(K, trig, &many, &mut many.clone()),
        Err(PointMapError::BadPoints)
    );
    assert_eq!(geometry::observed_pixel_center(&pixels), Pt2 { x: 200.0, y: 38.5 });
}

#[test]
fn degrees_for_radians_are_refused_and_told() {
    let mut options = Options::default();
    options.max_abs_tilt = 3.0;
    let center = Pt2 { x: K.cx, y: K.cy };
    let inputs = Inputs { views: 3, options: &options, decomposition: &[], base: K, center };
    let error = Search::start(&inputs).unwrap_err();
    assert_eq!((error, error.number()), (StartError::TiltTooLarge, 27));
    let text = error.to_string();
    assert!(text.contains("28.6 degrees") && text.contains("degrees typed for radians"), "{text}");
    options.max_abs_tilt = 0.5;
    let _ = search(&options);
    let beyond = ScheimpflugParams { tilt_x: 0.1, tilt_y: -3.0 };
    assert_eq!(TiltTrig::try_from(beyond), Err(TrigError::TiltTooLarge));
}

/// Options of a search on one axis: a grid of nine tilts about x.
fn one_axis() -> Options {
    let mut options = Options::default();
    (options.one_axis, options.tilt_y_seeds) = (true, vec![0.0]);
    options
}

#[test]
fn one_axis_leaves_tilt_y_at_0() {
    let options = one_axis();
    let mut rounds = vec![0; 1 + options.refine_rounds];
    let winner = search(&options)
        .run_watched(
            |seed| Some(solution(seed)),
            |tried| {
                assert_eq!(tried.seed.sensor.tilt_y.to_bits(), 0.0_f64.to_bits());
                rounds[tried.round] += 1;
            },
        )
        .unwrap();
    assert_eq!(rounds, [9, 3, 3]);
    assert!((winner.sensor.tilt_x + 0.05).abs() <= 0.01);
}

#[test]
fn one_axis_is_refused_where_a_tilt_y_is_not_0() {
    let start = |y: &[f64], seed_y: f64| {
        let mut options = one_axis();
        options.tilt_y_seeds = y.to_vec();
        let sensor = ScheimpflugParams { tilt_x: 0.0, tilt_y: seed_y };
        let (decomposition, center) = ([Seed { reference_k: K, sensor }], Pt2 { x: K.cx, y: K.cy });
        let decomposition = &decomposition;
        Search::start(&Inputs { views: 3, options: &options, decomposition, base: K, center })
            .map(|_| ())
    };
    assert_eq!(start(&[-0.0], -0.0), Ok(()));
    assert_eq!(start(&[0.0, 0.0], 0.1), Err(StartError::TiltsOffAxis));
    assert_eq!(start(&[0.0], 0.1), Err(StartError::SeedOffAxis));
    let told = [StartError::TiltsOffAxis, StartError::SeedOffAxis].map(|error| error.to_string());
    assert!(told[0].contains("(31). Give `0` alone for y"), "{}", told[0]);
    assert!(told[1].contains("(32). Set tilt y of such seeds to 0"), "{}", told[1]);
}

/// A camera that fits 4 of 900 rows exactly at one tilt, and otherwise all rows a pixel off.
fn four_of_nine_hundred(seed: &Seed) -> Solution {
    let camera = PinholeCamera { k: K, dist: BrownConrady5::default() };
    let few = seed.sensor.tilt_x == 0.12;
    let error = if few { 0.0 } else { 1.0 + seed.sensor.tilt_x.abs() };
    let flags = (0..900).map(|i| u8::from(!few || i < 4)).collect();
    Solution { camera, rows: [0.0, 0.0, K.cx + error, K.cy].repeat(900), flags }
}

#[test]
fn a_mean_over_too_few_rows_is_skipped() {
    let mut options = one_axis();
    options.refine_rounds = 0;
    let winner = |options: &Options| {
        let winner = search(options).run(|seed| Some(four_of_nine_hundred(seed))).unwrap();
        winner.sensor.tilt_x
    };
    assert_eq!(winner(&options), 0.12);
    options.min_counted = 1;
    assert_eq!(winner(&options), 0.0);
    options.min_counted = 100;
    assert_eq!(winner(&options), 0.0);
    let mut outcomes = vec![];
    let watched = |tried: &Tried| {
        let solution = tried.solution.unwrap();
        let (camera, sensor) = (solution.camera, tried.seed.sensor);
        let errors = geometry::count_errors(camera, sensor, solution.rows()).unwrap();
        outcomes.push((errors.counted, tried.outcome));
    };
    search(&options).run_watched(|seed| Some(four_of_nine_hundred(seed)), watched).unwrap();
    let skipped = Outcome::Skipped(SkipReason::NoMean);
    assert_eq!(outcomes.iter().filter(|one| **one == (4, skipped)).count(), 1);
    assert!(outcomes.iter().all(|(counted, outcome)| (*counted == 900) == (*outcome != skipped)));
}

#[test]
fn a_share_above_all_rows_is_refused() {
    let mut options = Options::default();
    options.min_counted = 101;
    let center = Pt2 { x: K.cx, y: K.cy };
    let inputs = Inputs { views: 3, options: &options, decomposition: &[], base: K, center };
    let error = Search::start(&inputs).unwrap_err();
    assert_eq!((error, error.number()), (StartError::ShareTooLarge, 33));
    assert!(error.to_string().contains("from 0 to 100"));
    let rows = Rows { numbers: &[], flags: &[1] };
    let camera = PinholeCamera { k: K, dist: BrownConrady5::default() };
    let level = ScheimpflugParams::default();
    assert_eq!(geometry::count_errors(camera, level, rows), Err(CountError::BadRows));
    let beyond = ScheimpflugParams { tilt_x: 0.6, ..level };
    let none = Rows { numbers: &[], flags: &[] };
    assert_eq!(geometry::count_errors(camera, beyond, none), Err(CountError::TiltTooLarge));
}

#[test]
fn undistorted_takes_twenty_steps() {
    let lens = BrownConrady5 { k1: -0.2, k2: 0.04, k3: 0.0, p1: 0.001, p2: -0.001 };
    let p = Pt2 { x: 0.3, y: -0.2 };
    assert_eq!(lens.undistorted(p), lens.undistort(20, p));
    let back = lens.distort(lens.undistorted(p));
    assert!((back.x - p.x).hypot(back.y - p.y) < 1e-15);
}
