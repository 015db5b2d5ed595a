//! The score along a line through the winner, of the tilts that were tried on it.

use super::degrees;
use super::part::{PART, Part};
use super::plot::{Plot, finite_score};
use super::svg::{ALARM, INK, Svg, told};
use crate::drive::Tried;
use crate::table::letter;

/// The height of a section.
pub const HEIGHT: f64 = 200.0;

/// A tilt counts as on the line where it lies beside it by at most this part of its distance from the winner: each
/// round lies around the best of the round before, and so a little beside the winner.
pub const BESIDE: f64 = 0.1;

/// Beyond the lowest and the highest score, as a part of their range.
const ROOM: f64 = 0.06;

/// Floats that are equal except for the order in which steps were added up, in degrees.
const EQUAL: f64 = 1e-9;

/// The tilts on a line through the winner.
pub struct Section<'a> {
    winner: &'a Tried,
    on_line: Vec<&'a Tried>,
    plot: Plot,
}

impl<'a> Section<'a> {
    /// Along x (axis 0) or y (axis 1), as far as a part goes.
    pub fn new(
        tried: &'a [Tried],
        winner: &'a Tried,
        axis: usize,
        part: &Part,
        corner: [f64; 2],
    ) -> Self {
        let (centre, half, won) = (part.centre[axis], part.half[axis], degrees(winner));
        let plot = Plot { axis, corner, size: [PART, HEIGHT], centre, half, scores: None };
        let is_on_line = |one: &&Tried| {
            let tilts = degrees(one);
            let [along, beside] = [axis, 1 - axis].map(|i| (tilts[i] - won[i]).abs());
            beside <= BESIDE * along + EQUAL && plot.holds(one)
        };
        let mut on_line: Vec<_> = tried.iter().filter(is_on_line).collect();
        on_line.sort_by(|a, b| degrees(a)[axis].total_cmp(&degrees(b)[axis]));
        Self { winner, plot: plot.with_room_for(&on_line, ROOM), on_line }
    }

    /// `best` is what the winner is called.
    pub fn draw(&self, svg: &mut Svg, best: &str) {
        let [left, top] = self.plot.corner;
        let name = ["x", "y"][self.plot.axis];
        let title = format!("Score along tilt {name}, through {best}");
        svg.text([left, top - 10.0], "start", 13.0, INK, &title);
        if finite_score(self.winner).is_none() {
            let text = "The winner's score isn't finite.";
            return svg.text([left, top + 20.0], "start", 12.0, INK, text);
        }
        self.plot.axes(svg);
        self.plot.join(svg, &self.on_line);
        self.marks(svg);
        let [x, y] = self.plot.place(self.winner);
        let style = format!(r#"fill="none" stroke="{ALARM}" stroke-width="2""#);
        svg.add(format_args!(r#"<circle cx="{x:.2}" cy="{y:.2}" r="6" {style}/>"#));
    }

    /// A dot for each score, and a cross at the top for each skipped tilt.
    fn marks(&self, svg: &mut Svg) {
        for one in &self.on_line {
            svg.told(&told(one));
            let [x, y] = self.plot.place(one);
            match one.outcome.score() {
                Some(score) if !score.is_finite() => {}
                Some(_) => {
                    svg.add(format_args!(
                        r#"<circle cx="{x:.2}" cy="{y:.2}" r="3" fill="{INK}"/>"#
                    ));
                }
                None => svg.skipped([x, y], letter(&one.outcome)),
            }
            svg.end_told();
        }
    }
}
