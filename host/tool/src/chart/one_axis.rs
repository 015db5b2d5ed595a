//! A search on one axis: the score over tilt x, of every tried tilt and of two enlarged parts around the winner.

use super::part::{PART, Part};
use super::plot::Plot;
use super::svg::{ALARM, FAINT, INK, LARGEST_MARK, LEAN, Svg, told, trimmed};
use super::{COLUMNS, Lean, PARTS_TOP, degrees};
use crate::drive::{Source, Tried};
use crate::table::letter;

/// The whole search is as wide as two parts and what is between them.
const WIDTH: f64 = COLUMNS[1] + PART - COLUMNS[0];
/// Where the enlarged parts begin, and their height.
const ENLARGED_TOP: f64 = PARTS_TOP + PART + 74.0;
const ENLARGED_HEIGHT: f64 = 248.0;
/// Beyond the lowest and the highest score, as a part of their range: the winner's ring needs it.
const ROOM: f64 = 0.1;

/// Draws the parts, of which the first is the whole search, and gives where they end.
pub fn draw(
    svg: &mut Svg,
    tried: &[Tried],
    winner: Option<&Tried>,
    bound: Option<f64>,
    lean: Option<Lean>,
    parts: &[Part],
) -> f64 {
    let mut in_order: Vec<_> = tried.iter().filter(|one| degrees(one)[0].is_finite()).collect();
    in_order.sort_by(|a, b| degrees(a)[0].total_cmp(&degrees(b)[0]));
    let mut curves: Vec<Curve> = Vec::new();
    for (i, part) in parts.iter().enumerate() {
        let (corner, size) = match i {
            0 => ([COLUMNS[0], PARTS_TOP], [WIDTH, PART]),
            _ => ([COLUMNS[i - 1], ENLARGED_TOP], [PART, ENLARGED_HEIGHT]),
        };
        curves.push(Curve::new(part, corner, size, &in_order, winner));
    }
    for (i, curve) in curves.iter().enumerate() {
        curve.draw(svg, bound, lean, curves.get(i + 1));
    }
    let ends = curves.iter().map(|curve| curve.plot.corner[1] + curve.plot.size[1]);
    ends.fold(PARTS_TOP, f64::max) + super::UNDER_A_PLOT
}

/// A part of the search.
struct Curve<'a> {
    name: &'static str,
    plot: Plot,
    /// The tilts in it, in order.
    shown: Vec<&'a Tried>,
    winner: Option<&'a Tried>,
}

impl<'a> Curve<'a> {
    fn new(
        part: &Part,
        corner: [f64; 2],
        size: [f64; 2],
        in_order: &[&'a Tried],
        winner: Option<&'a Tried>,
    ) -> Self {
        let (centre, half) = (part.centre[0], part.half[0]);
        let plot = Plot { axis: 0, corner, size, centre, half, scores: None };
        let shown: Vec<_> = in_order.iter().copied().filter(|one| plot.holds(one)).collect();
        Self { name: part.name, plot: plot.with_room_for(&shown, ROOM), shown, winner }
    }

    /// The part with its marks. The next part's place is shown in it.
    fn draw(&self, svg: &mut Svg, bound: Option<f64>, lean: Option<Lean>, next: Option<&Curve>) {
        self.title(svg, bound);
        self.plot.axes(svg);
        svg.open(self.plot.corner, self.plot.size);
        if let Some(bound) = bound {
            self.bound(svg, bound);
        }
        if let Some(next) = next {
            self.outline(svg, next);
        }
        if let Some(([x, _], half)) = lean {
            self.lean(svg, x, half.map(|[half, _]| half));
        }
        self.plot.join(svg, &self.shown);
        self.marks(svg);
        if let Some(winner) = self.winner.filter(|winner| self.plot.holds(winner)) {
            svg.ring(self.plot.place(winner));
        }
        svg.close();
    }

    fn title(&self, svg: &mut Svg, bound: Option<f64>) {
        let [left, top] = self.plot.corner;
        svg.text([left, top - 10.0], "start", 13.0, INK, self.name);
        let is_whole = self.plot.size[0] > PART;
        let size = match bound {
            _ if !is_whole => format!("±{}°", trimmed(self.plot.half)),
            None => String::new(),
            Some(bound) => {
                let is_inside = self.plot.centre.abs() + self.plot.half >= bound;
                format!("bound ±{}°{}", trimmed(bound), if is_inside { "" } else { ", outside" })
            }
        };
        svg.text([left + self.plot.size[0], top - 10.0], "end", 11.0, INK, &size);
    }

    fn bound(&self, svg: &mut Svg, bound: f64) {
        let (top, bottom) = (self.plot.corner[1], self.plot.corner[1] + self.plot.size[1]);
        for x in [-bound, bound].map(|tilt| self.plot.x(tilt)) {
            let style = format!(r#"stroke="{INK}" stroke-dasharray="7 4""#);
            svg.line([x, top], [x, bottom], &style);
        }
    }

    /// A line at the lean, and lines at its bounds.
    fn lean(&self, svg: &mut Svg, tilt: f64, half: Option<f64>) {
        let (top, bottom) = (self.plot.corner[1], self.plot.corner[1] + self.plot.size[1]);
        let mut line = |tilt: f64, dashes: &str| {
            let (x, style) =
                (self.plot.x(tilt), format!(r#"stroke="{LEAN}" stroke-width="1.5"{dashes}"#));
            svg.line([x, top], [x, bottom], &style);
        };
        line(tilt, "");
        for side in half.into_iter().flat_map(|half| [-half, half]) {
            line(tilt + side, r#" stroke-dasharray="3 3""#);
        }
    }

    /// A shape for each score, by its round, and a cross at the top for each skipped tilt.
    fn marks(&self, svg: &mut Svg) {
        for one in &self.shown {
            let place = self.plot.place(one);
            svg.told(&told(one));
            match one.outcome.score() {
                Some(score) if !score.is_finite() => {}
                Some(_) => svg.mark(place, one.round, LARGEST_MARK, FAINT),
                None => svg.skipped(place, letter(&one.outcome)),
            }
            if matches!(one.source, Source::Decomposition | Source::SeedFile) {
                svg.seed(place, one.source);
            }
            svg.end_told();
        }
    }

    /// The band of tilts that the next part shows, with its name at the top.
    fn outline(&self, svg: &mut Svg, next: &Curve) {
        let [left, right] =
            [-1.0, 1.0].map(|side| self.plot.x(next.plot.centre + side * next.plot.half));
        let top = self.plot.corner[1];
        let style = format!(r#"fill="none" stroke="{ALARM}""#);
        svg.rectangle([left, top], [right - left, self.plot.size[1]], &style);
        let has_room = right + 48.0 < self.plot.corner[0] + self.plot.size[0];
        let (x, anchor) = if has_room { (right + 4.0, "start") } else { (left - 4.0, "end") };
        svg.text([x, top + 30.0], anchor, 12.0, ALARM, next.name);
    }
}
