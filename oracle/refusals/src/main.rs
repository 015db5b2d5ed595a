//! Writes the stored cases of every refusal of every call: `refusals [FOLDER]`, by default
//! `oracle/stored`. Each reply is written down here from docs/SPECIFICATION.md, none is
//! computed by the code that it judges; no published file is needed. Each run writes the same
//! bytes.

mod plates;
mod points;
mod runs;
mod series;

use std::path::PathBuf;
use words::{STORED, case, file, float_words};

/// Input words and the words that answer them.
pub struct Case {
    input: Vec<u64>,
    output: Vec<u64>,
}

impl Case {
    pub fn new(input: Vec<u64>, output: Vec<u64>) -> Self {
        Self { input, output }
    }

    fn line(&self) -> String {
        case(&self.input, &self.output)
    }
}

/// A list: its length, then its numbers.
pub fn list(values: &[f64]) -> Vec<u64> {
    [vec![values.len() as u64], float_words(values)].concat()
}

/// What a lent list holds before the call: numbers that no operation writes there.
pub fn lent(length: usize) -> Vec<f64> {
    (0..length).map(|i| i as f64 + 0.125).collect()
}

fn main() -> Result<(), String> {
    let folder = PathBuf::from(std::env::args().nth(1).unwrap_or_else(|| STORED.to_owned()));
    std::fs::create_dir_all(&folder).map_err(|e| format!("{}: {e}", folder.display()))?;
    for (name, text) in files() {
        let path = folder.join(name);
        std::fs::write(&path, text).map_err(|e| format!("{}: {e}", path.display()))?;
        println!("{}", path.display());
    }
    Ok(())
}

/// Each file's name and text.
fn files() -> Vec<(String, String)> {
    let made_by = "oracle/refusals: the replies as the specification gives them";
    let text = |(name, operation, cases): &(&str, &str, Vec<Case>)| {
        let lines: Vec<String> = cases.iter().map(Case::line).collect();
        (format!("{name}.txt"), file(operation, made_by, &lines))
    };
    cases().iter().map(text).collect()
}

/// Each file's name, operation and cases.
fn cases() -> Vec<(&'static str, &'static str, Vec<Case>)> {
    vec![
        ("calls", "calls", runs::calls()),
        ("calls_one_axis", "calls_one_axis", runs::one_axis()),
        ("untilt_points_into", "untilt_points_into", points::untilt()),
        ("ideal_points_into", "ideal_points_into", points::ideal()),
        ("normalize_points_2d_into", "normalize_points_2d_into", points::normalize()),
        ("design_rows_into", "design_rows_into", points::rows()),
        ("points_are_collinear_refused", "points_are_collinear", points::odd_lists()),
        ("observed_pixel_center_refused", "observed_pixel_center", points::odd_lists()),
        ("conic_to_camera_refused", "conic_to_camera", points::conic()),
        ("known_plate", "known_plate", plates::plates()),
        ("sine_refused", "sine", series::sine()),
        ("cosine_refused", "cosine", series::cosine()),
    ]
}

#[cfg(test)]
mod tests {
    use super::{STORED, cases, files};
    use std::path::Path;

    #[test]
    fn the_stored_files_are_the_written_ones() {
        for (name, text) in files() {
            let stored = std::fs::read_to_string(Path::new(STORED).join(&name));
            assert!(stored.is_ok_and(|stored| stored == text), "{name}");
        }
    }

    #[test]
    fn sides_of_a_case_keep_to_their_length() {
        for (name, _, cases) in cases() {
            for case in cases {
                assert!(case.input.len() <= 8192 && case.output.len() <= 8192, "{name}");
            }
        }
    }
}
