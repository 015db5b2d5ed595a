//! The host's part of a search, played from a script, and the record of what the search does.
//!
//! The published search calls an estimator and recovers poses; 01 leaves both to the host. Here
//! they come from a script: the patched lines of the search call the functions at the end of
//! this file, which play the script that [`play`] has set up for the thread.

use crate::Error;
use std::cell::RefCell;
use std::rc::Rc;
use vision_calibration_core::given_tilt::{self, GivenTilt};
use vision_calibration_core::{
    BrownConrady5, CorrespondenceView, FxFyCxCy, Iso3, PinholeCamera, PlanarDataset, Pt2, Pt3,
    View, make_pinhole_camera,
};

/// fx, fy, cx, cy, tilt_x, tilt_y.
pub type SeedNumbers = [f64; 6];

/// fx, fy, cx, cy, k1, k2, k3, p1, p2.
pub type CameraNumbers = [f64; 9];

/// What the host gives before the search starts.
pub struct Given {
    pub base: [f64; 4],
    pub center: [f64; 2],
    pub decomposition: Vec<SeedNumbers>,
    /// Whether a score that isn't a number loses, as 02 asks; the published search keeps one that came first.
    pub nan_loses: bool,
}

/// A point's row: ideal point, seen pixel, and whether it is in front of the camera.
#[derive(Clone, Debug)]
pub struct Row {
    pub ideal: [f64; 2],
    pub seen: [f64; 2],
    pub in_front: bool,
}

/// What the host finds for a seed.
#[derive(Clone, Debug)]
pub enum Finding {
    Failed,
    Solved {
        camera: CameraNumbers,
        rows: Vec<Row>,
    },
    /// The same with rows that many findings share, so that nothing is copied: for timing.
    Shared {
        camera: CameraNumbers,
        rows: Rc<PlanarDataset>,
    },
}

/// What the search makes of a finding.
#[derive(Clone, Copy, Debug, PartialEq)]
pub enum Outcome {
    Scored(f64),
    HostFailed,
    BadCamera,
    BadMean,
    NoNumber,
}

/// A seed that was handed out, and its outcome.
#[derive(Clone, Debug)]
pub struct Entry {
    pub seed: SeedNumbers,
    pub outcome: Outcome,
}

/// What a search did: every seed in its order, and the best one's number and score.
#[derive(Clone, Debug, Default)]
pub struct Record {
    pub entries: Vec<Entry>,
    pub best: Option<(usize, f64)>,
}

/// Finds an answer for each seed, in the order in which they are handed out.
type Host = Box<dyn FnMut(&SeedNumbers) -> Finding>;

struct Play {
    given: Given,
    host: Host,
    waiting: Option<SeedNumbers>,
    finding: Finding,
    record: Record,
}

thread_local! {
    static PLAY: RefCell<Option<Play>> = const { RefCell::new(None) };
}

/// Runs `search` with the host's part played by `given` and `host`; also gives the record.
pub fn play<R>(
    given: Given,
    host: impl FnMut(&SeedNumbers) -> Finding + 'static,
    search: impl FnOnce() -> R,
) -> (R, Record) {
    let play = Play {
        given,
        host: Box::new(host),
        waiting: None,
        finding: Finding::Failed,
        record: Record::default(),
    };
    PLAY.set(Some(play));
    let result = search();
    let played = PLAY.take().expect("only this function ends a play");
    (result, played.record)
}

/// The camera with these numbers. The search never undistorts, so `iters` is its default.
pub fn pinhole_camera([fx, fy, cx, cy, k1, k2, k3, p1, p2]: CameraNumbers) -> PinholeCamera {
    let distortion = BrownConrady5 { k1, k2, k3, p1, p2, iters: 0 };
    make_pinhole_camera(FxFyCxCy { fx, fy, cx, cy }, distortion)
}

/// The rows as one view, to be seen under the identity pose. A row in front of the camera lies
/// at depth 1, where the projection divides by 1 and returns the ideal point itself; a row that
/// isn't lies at depth 0, which the projection refuses.
pub fn dataset_of_rows(rows: &[Row]) -> PlanarDataset {
    let depth = |row: &Row| if row.in_front { 1.0 } else { 0.0 };
    let points_3d = rows.iter().map(|row| Pt3::new(row.ideal[0], row.ideal[1], depth(row)));
    let points_2d = rows.iter().map(|row| Pt2::new(row.seen[0], row.seen[1]));
    let view = CorrespondenceView::new(points_3d.collect(), points_2d.collect())
        .expect("both lists have a point for each row");
    PlanarDataset { views: vec![View::without_meta(view)] }
}

/// The one pose under which [`dataset_of_rows`] is seen.
pub fn identity_poses() -> Vec<Iso3> {
    vec![Iso3::identity()]
}

fn with<R>(act: impl FnOnce(&mut Play) -> R) -> R {
    PLAY.with_borrow_mut(|play| act(play.as_mut().expect("a search runs inside `play`")))
}

fn enter(outcome: Outcome) -> usize {
    with(|play| {
        let seed = play.waiting.take().expect("a seed waits for its outcome");
        play.record.entries.push(Entry { seed, outcome });
        play.record.entries.len() - 1
    })
}

// Called by the patched lines of the published search.

pub(crate) fn decomposition() -> Vec<SeedNumbers> {
    with(|play| play.given.decomposition.clone())
}

pub(crate) fn observed_center() -> Pt2 {
    with(|play| Pt2::new(play.given.center[0], play.given.center[1]))
}

/// The seed gets its finding, and `compile` the sines and cosines of the seed's tilts.
pub(crate) fn hand_out(seed: SeedNumbers) {
    let [.., tilt_x, tilt_y] = seed;
    with(|play| {
        play.finding = (play.host)(&seed);
        play.waiting = Some(seed);
        given_tilt::give(GivenTilt {
            sin_x: series::sine(tilt_x),
            cos_x: series::cosine(tilt_x),
            sin_y: series::sine(tilt_y),
            cos_y: series::cosine(tilt_y),
        });
    });
}

/// The base camera while no seed waits, else the finding's camera.
pub(crate) fn camera() -> Result<PinholeCamera, Error> {
    let (base, waiting, found) = with(|play| {
        let found = match &play.finding {
            Finding::Solved { camera, .. } | Finding::Shared { camera, .. } => Some(*camera),
            Finding::Failed => None,
        };
        (play.given.base, play.waiting, found)
    });
    match (waiting, found) {
        (None, _) => {
            let [fx, fy, cx, cy] = base;
            Ok(pinhole_camera([fx, fy, cx, cy, 0.0, 0.0, 0.0, 0.0, 0.0]))
        }
        (Some(_), Some(camera)) => Ok(pinhole_camera(camera)),
        (Some(_), None) => {
            enter(Outcome::HostFailed);
            Err(Error::numerical("the host failed"))
        }
    }
}

pub(crate) fn poses() -> Vec<Iso3> {
    identity_poses()
}

pub(crate) fn rows() -> Rc<PlanarDataset> {
    with(|play| match &play.finding {
        Finding::Solved { rows, .. } => Rc::new(dataset_of_rows(rows)),
        Finding::Shared { rows, .. } => rows.clone(),
        Finding::Failed => unreachable!("a failed finding ends its candidate before the rows"),
    })
}

pub(crate) fn bad_camera() {
    enter(Outcome::BadCamera);
}

pub(crate) fn bad_mean() {
    enter(Outcome::BadMean);
}

/// Whether the score isn't a number and loses for that; then it is entered so.
pub(crate) fn loses(score: f64) -> bool {
    let loses = score.is_nan() && with(|play| play.given.nan_loses);
    if loses {
        enter(Outcome::NoNumber);
    }
    loses
}

/// Enters the score and gives the candidate's number.
pub(crate) fn scored(score: f64) -> usize {
    enter(Outcome::Scored(score))
}

pub(crate) fn won(number: usize, score: f64) {
    with(|play| play.record.best = Some((number, score)));
}
