//! The library's answers in the oracle's words (see the oracle's PROTOCOL.md), through the crate `jinnychair`.

mod fields;
mod journal;
mod leaves;
mod lists;
mod runs;

pub use runs::{library_inputs, result_words};

use std::fmt::{Display, Formatter, Result as FmtResult};
use words::Reader;

type Words = Vec<u64>;

/// Why an input has no answer.
#[derive(Clone, Debug, PartialEq, Eq)]
pub enum Fault {
    /// It hasn't the operation's form.
    Malformed(String),
    /// The library does what docs/SPECIFICATION.md, 12.1, excludes and no word of an answer would show: to lent memory, or between calls.
    Wrong(String),
}

impl Display for Fault {
    fn fmt(&self, f: &mut Formatter) -> FmtResult {
        let (Self::Malformed(text) | Self::Wrong(text)) = self;
        f.write_str(text)
    }
}

/// What a reader of words says.
impl From<String> for Fault {
    fn from(text: String) -> Self {
        Self::Malformed(text)
    }
}

/// The words of an answer, or why there are none.
pub type Answer = Result<Words, Fault>;

type Ask = fn(&mut Reader) -> Answer;

/// An operation that a stored file or the oracle can name.
#[derive(Clone, Copy, Debug)]
pub struct Operation(Ask);

impl Operation {
    /// The operation of a name, if there is one.
    #[must_use]
    pub fn named(name: &str) -> Option<Self> {
        OPERATIONS.iter().find(|(known, _)| *known == name).map(|(_, ask)| Self(*ask))
    }

    /// The library's answer to input words.
    ///
    /// # Errors
    ///
    /// The input has another form, or the library does what docs/SPECIFICATION.md, 12.1, excludes.
    pub fn answer(self, input: &[u64]) -> Answer {
        let mut reader = Reader::new(input);
        let words = self.0(&mut reader)?;
        reader.end()?;
        Ok(words)
    }
}

const OPERATIONS: &[(&str, Ask)] = &[
    ("sqrt", leaves::sqrt),
    ("sqrt_from", leaves::sqrt_from),
    ("sine", leaves::sine),
    ("cosine", leaves::cosine),
    ("pixel_to_sensor", leaves::pixel_to_sensor),
    ("sensor_to_pixel", leaves::sensor_to_pixel),
    ("tilt_projection_matrix", leaves::tilt_projection_matrix),
    ("inverse", leaves::inverse),
    ("apply_homography", leaves::apply_homography),
    ("apply_homography_inverse", leaves::apply_homography_inverse),
    ("distort", leaves::distort),
    ("distort_with_jacobian", leaves::distort_with_jacobian),
    ("undistort", leaves::undistort),
    ("points_are_collinear", leaves::points_are_collinear),
    ("observed_pixel_center", leaves::observed_pixel_center),
    ("conic_to_camera", leaves::conic_to_camera),
    ("known_plate", leaves::known_plate),
    ("damp_seed_distortion", leaves::damp_seed_distortion),
    ("distortion_complexity", leaves::distortion_complexity),
    ("tilt_complexity", leaves::tilt_complexity),
    ("principal_point_complexity", leaves::principal_point_complexity),
    ("mean_reproj_error", leaves::mean_reproj_error),
    ("untilt_points", lists::plain::<lists::Untilt>),
    ("untilt_points_into", lists::into::<lists::Untilt>),
    ("ideal_points", lists::plain::<lists::Ideal>),
    ("ideal_points_into", lists::into::<lists::Ideal>),
    ("normalize_points_2d", lists::plain::<lists::Normalize>),
    ("normalize_points_2d_into", lists::into::<lists::Normalize>),
    ("design_rows", lists::plain::<lists::Rows>),
    ("design_rows_into", lists::into::<lists::Rows>),
    ("seed_lists", runs::seed_lists),
    ("local_seed_grid", runs::local_seed_grid),
    ("search", runs::search),
    ("calls", runs::calls),
    ("calls_one_axis", runs::calls_one_axis),
    ("write_line", journal::write_line),
    ("read_line", journal::read_line),
    ("damaged_line", journal::damaged_line),
    ("write_report", journal::write_report),
];
