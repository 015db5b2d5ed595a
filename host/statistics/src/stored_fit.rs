//! Stored views, with the optima that SciPy and OpenCV found: `stored_fits/fit.py` drew and fitted them.

use crate::model::{Pose, Shared, rotation};
use std::fs;
use std::path::{Path, PathBuf};
use tool::views::Plate;

/// An optimum by SciPy.
#[derive(Clone, Debug, PartialEq)]
pub struct Answer {
    /// The sum of squares, in pixels².
    pub squares: f64,
    /// What all views share.
    pub shared: Shared<f64>,
    /// The standard deviations of the free ones of these.
    pub deviations: Vec<f64>,
}

/// A stored set.
#[derive(Clone, Debug)]
pub struct StoredFit {
    /// Its number, in two digits.
    pub name: String,
    /// The views.
    pub plate: Plate,
    /// The camera that they were drawn with.
    pub truth: Shared<f64>,
    /// The true poses of the plate's middle, which is its origin.
    pub poses: Vec<Pose<f64>>,
    /// The optimum without a lens.
    pub plain: Answer,
    /// The optimum with k1, k2, p1 and p2.
    pub bent: Answer,
    /// The squares and the tilts of OpenCV's optimum without a lens.
    pub opencv: [f64; 3],
}

/// The folder of the stored sets.
#[must_use]
pub fn folder() -> PathBuf {
    Path::new(env!("CARGO_MANIFEST_DIR")).join("stored_fits")
}

/// The stored sets.
///
/// # Errors
///
/// Says which file or line isn't as it should be.
pub fn stored() -> Result<Vec<StoredFit>, String> {
    let text = read(&folder().join("answers.txt"))?;
    let lines: Vec<&str> = text.lines().filter(|line| !line.starts_with('#')).collect();
    lines.chunks(4).map(set).collect()
}

fn read(path: &Path) -> Result<String, String> {
    fs::read_to_string(path).map_err(|error| format!("{}: {error}", path.display()))
}

fn set(lines: &[&str]) -> Result<StoredFit, String> {
    let name = lines[0].split(' ').next().unwrap_or_default();
    let line = |kind: &str| -> Result<Vec<f64>, String> {
        let begin = format!("{name} {kind} ");
        let line = lines.iter().find_map(|line| line.strip_prefix(&begin));
        let numbers =
            line.ok_or(format!("answers.txt lacks `{begin}`"))?.split(' ').map(str::parse);
        numbers.collect::<Result<_, _>>().map_err(|error| format!("{begin}: {error}"))
    };
    let answer = |kind: &str| -> Result<Answer, String> {
        let numbers = line(kind)?;
        let ([squares], rest) = numbers.split_first_chunk().ok_or("a short line")?;
        let (shared, deviations) = rest.split_first_chunk().ok_or("a short line")?;
        Ok(Answer { squares: *squares, shared: *shared, deviations: deviations.to_vec() })
    };
    let truth = line("truth")?;
    let (shared, poses) = truth.split_first_chunk().ok_or("a short line")?;
    let pose = |six: &[f64]| Pose {
        turn: rotation([six[0], six[1], six[2]]),
        place: [six[3], six[4], six[5]],
    };
    let plate = Plate::parse(&read(&folder().join(format!("{name}.views")))?);
    Ok(StoredFit {
        name: name.to_owned(),
        plate: plate.map_err(|error| format!("{name}.views: {error}"))?,
        truth: *shared,
        poses: poses.chunks_exact(6).map(pose).collect(),
        plain: answer("plain")?,
        bent: answer("bent")?,
        opencv: line("opencv")?.try_into().map_err(|_| "opencv has three numbers")?,
    })
}
