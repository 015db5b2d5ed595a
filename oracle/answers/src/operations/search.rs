//! Whole searches: the published `estimate_scheimpflug_intrinsics_iterative`, with the host's
//! part scripted by the case.

use super::score::read_rows;
use vision_calibration_core::{CorrespondenceView, PlanarDataset, Pt2, Pt3, View};
use vision_calibration_linear::Error;
use vision_calibration_linear::scheimpflug_init::{
    ScheimpflugIntrinsicsInitOptions, ScheimpflugIntrinsicsLinearInit, access,
    estimate_scheimpflug_intrinsics_iterative,
};
use vision_calibration_linear::script::{Finding, Given, Outcome, Record, SeedNumbers, play};
use words::start::Inputs;
use words::{Reader, float_words, word};

/// Start's limits, which the published search doesn't have.
const MOST_TILT_SEEDS: usize = 16;
const MOST_DECOMPOSITION_SEEDS: usize = 256;
const MOST_ROUNDS: usize = 16;

/// The number for a run in which nothing is scored.
const NOTHING_SCORED: u64 = 11;

/// Start's inputs as the published search takes them.
pub trait Published {
    /// The number with which Start refuses, 8 apart: no buffer is lent here. 1 to 4 and 7 are
    /// the published search's; 5, 6 and 27 are the specification's own.
    ///
    /// # Errors
    ///
    /// The published search refuses for a reason that has no number here.
    fn refusal(&self) -> Result<Option<u64>, String>;

    /// The published options. What the host's estimator would read isn't used.
    fn options(&self) -> ScheimpflugIntrinsicsInitOptions;

    /// As many views as were stated, each with the four points that the published search asks
    /// for. Only the number of views is read: the estimates and the rows are scripted.
    fn dataset(&self) -> PlanarDataset;

    /// What the script gives the search.
    fn given(&self, nan_loses: bool) -> Given;
}

impl Published for Inputs {
    fn refusal(&self) -> Result<Option<u64>, String> {
        if let Err(error) = access::validate_options(&self.dataset(), &self.options()) {
            return option_refusal(&error).map(Some);
        }
        if is_beyond_limits(self) {
            return Ok(Some(5));
        }
        if decomposition_seeds(self).any(|seed| is_bad_seed(&seed, self.max_abs_tilt)) {
            return Ok(Some(6));
        }
        let mut tilts = self.tilt_x_seeds.iter().chain(&self.tilt_y_seeds);
        if tilts.any(|tilt| !tilt.is_finite()) {
            return Ok(Some(7));
        }
        Ok((self.max_abs_tilt > series::MOST).then_some(series::BEYOND))
    }

    fn options(&self) -> ScheimpflugIntrinsicsInitOptions {
        ScheimpflugIntrinsicsInitOptions {
            tilt_x_seeds: self.tilt_x_seeds.clone(),
            tilt_y_seeds: self.tilt_y_seeds.clone(),
            refine_rounds: self.rounds,
            refine_step: self.refine_step,
            ..options(self.max_abs_tilt)
        }
    }

    fn dataset(&self) -> PlanarDataset {
        let points = (vec![Pt3::new(0.0, 0.0, 0.0); 4], vec![Pt2::new(0.0, 0.0); 4]);
        let view = CorrespondenceView::new(points.0, points.1).expect("four points each");
        PlanarDataset { views: vec![View::without_meta(view); self.views] }
    }

    fn given(&self, nan_loses: bool) -> Given {
        Given {
            base: self.base,
            center: self.center,
            decomposition: decomposition_seeds(self).collect(),
            nan_loses,
        }
    }
}

fn is_beyond_limits(inputs: &Inputs) -> bool {
    inputs.tilt_x_seeds.len() > MOST_TILT_SEEDS
        || inputs.tilt_y_seeds.len() > MOST_TILT_SEEDS
        || inputs.decomposition.len() > 6 * MOST_DECOMPOSITION_SEEDS
        || inputs.rounds > MOST_ROUNDS
        || !inputs.decomposition.len().is_multiple_of(6)
}

fn is_bad_seed(seed: &SeedNumbers, max_abs_tilt: f64) -> bool {
    let [fx, fy, _, _, tilt_x, tilt_y] = *seed;
    let is_focal_length = |f: f64| f > 0.0;
    let is_within = |tilt: f64| tilt.abs() <= max_abs_tilt;
    let is_good = seed.iter().all(|number| number.is_finite())
        && [fx, fy].into_iter().all(is_focal_length)
        && [tilt_x, tilt_y].into_iter().all(is_within);
    !is_good
}

fn decomposition_seeds(inputs: &Inputs) -> impl Iterator<Item = SeedNumbers> {
    let seeds = inputs.decomposition.chunks_exact(6);
    seeds.map(|numbers| numbers.try_into().expect("six numbers a seed"))
}

/// The published default options with another bound.
pub fn options(max_abs_tilt: f64) -> ScheimpflugIntrinsicsInitOptions {
    ScheimpflugIntrinsicsInitOptions { max_abs_tilt, ..Default::default() }
}

/// The number of what `validate_options` refuses, by what the message names.
fn option_refusal(error: &Error) -> Result<u64, String> {
    let causes = [("at least one tilt_x", 2), ("max_abs_tilt must", 3), ("refine_step must", 4)];
    match error {
        Error::InsufficientData { .. } => Ok(1),
        Error::InvalidInput { reason } => causes
            .iter()
            .find(|(cause, _)| reason.contains(cause))
            .map(|(_, number)| *number)
            .ok_or_else(|| format!("an error without a number: {reason}")),
        other => Err(format!("an error without a number: {other}")),
    }
}

/// The words of a finding in a case.
pub fn finding_words(finding: &Finding) -> Vec<u64> {
    match finding {
        Finding::Failed => vec![0],
        Finding::Shared { .. } => unreachable!("no case has shared rows"),
        Finding::Solved { camera, rows } => {
            let mut words = vec![1];
            words.extend(float_words(camera));
            words.push(rows.len() as u64);
            for row in rows {
                words.extend(float_words(&row.ideal));
                words.extend(float_words(&row.seen));
                words.push(u64::from(row.in_front));
            }
            words
        }
    }
}

fn read_finding(input: &mut Reader) -> Result<Finding, String> {
    match input.number()? {
        0 => Ok(Finding::Failed),
        1 => Ok(Finding::Solved { camera: input.floats()?, rows: read_rows(input)? }),
        other => Err(format!("{other} is no kind of answer")),
    }
}

/// Runs an accepted search with the host's part played by `host`, and gives its output words. A
/// score that isn't a number loses.
///
/// # Errors
///
/// The published search fails for a reason that has no number here.
pub fn run(
    inputs: &Inputs,
    host: impl FnMut(&SeedNumbers) -> Finding + 'static,
) -> Result<Vec<u64>, String> {
    run_by(inputs, true, host)
}

fn run_by(
    inputs: &Inputs,
    nan_loses: bool,
    host: impl FnMut(&SeedNumbers) -> Finding + 'static,
) -> Result<Vec<u64>, String> {
    let (dataset, options) = (inputs.dataset(), inputs.options());
    let (result, record) = play(inputs.given(nan_loses), host, || {
        estimate_scheimpflug_intrinsics_iterative(&dataset, options)
    });
    let mut output = vec![0];
    output.extend(record_words(&record));
    output.extend(result_words(result, &record)?);
    Ok(output)
}

fn record_words(record: &Record) -> Vec<u64> {
    let mut output = vec![record.entries.len() as u64];
    for entry in &record.entries {
        output.extend(float_words(&entry.seed));
        match entry.outcome {
            Outcome::Scored(score) => output.extend([0, word(score)]),
            Outcome::HostFailed => output.push(1),
            Outcome::BadCamera => output.push(2),
            Outcome::BadMean => output.push(3),
            Outcome::NoNumber => output.push(4),
        }
    }
    output
}

fn result_words(
    result: Result<ScheimpflugIntrinsicsLinearInit, Error>,
    record: &Record,
) -> Result<Vec<u64>, String> {
    match (result, record.best) {
        (Ok(init), Some((number, score))) => {
            let (k, d) = (init.camera.k, init.camera.dist);
            let mut output = vec![0, number as u64];
            output.extend(float_words(&[k.fx, k.fy, k.cx, k.cy, d.k1, d.k2, d.k3, d.p1, d.p2]));
            output.extend(float_words(&[init.sensor.tilt_x, init.sensor.tilt_y]));
            output.extend(float_words(&[init.mean_reproj_error, score]));
            Ok(output)
        }
        (Err(Error::Numerical(reason)), _) if reason.contains("tilt candidates failed") => {
            Ok(vec![NOTHING_SCORED])
        }
        (Ok(_), None) => Err("a result without a best candidate".to_owned()),
        (Err(error), _) => Err(format!("an error without a number: {error}")),
    }
}

/// Start's inputs, then a finding for each seed that is handed out, no more and no fewer.
pub fn search(input: &mut Reader) -> Result<Vec<u64>, String> {
    search_by(input, true)
}

/// The same where a NaN that came first stays, as in the published text.
pub fn search_as_published(input: &mut Reader) -> Result<Vec<u64>, String> {
    search_by(input, false)
}

fn search_by(input: &mut Reader, nan_loses: bool) -> Result<Vec<u64>, String> {
    let inputs = Inputs::read(input)?;
    let mut findings =
        (0..input.count()?).map(|_| read_finding(input)).collect::<Result<Vec<_>, _>>()?;
    if let Some(number) = inputs.refusal()? {
        return Ok(vec![number]);
    }
    let given = findings.len() as u64;
    findings.reverse();
    let output = run_by(&inputs, nan_loses, move |_| findings.pop().unwrap_or(Finding::Failed))?;
    let handed_out = output[1];
    if handed_out != given {
        return Err(format!("{given} answers for {handed_out} seeds"));
    }
    Ok(output)
}
