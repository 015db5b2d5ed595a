//! Scores over a tilt: the frame, its axes, and where a tried tilt lies in it.

use super::degrees;
use super::part::Ticks;
use super::svg::{FAINT, INK, Svg, signed, tick_step, ticks};
use crate::drive::Tried;

/// The least range of scores that is shown, as a part of the lowest: a flat line looks flat.
const LEAST_RANGE: f64 = 0.001;

/// A frame of scores over a tilt.
pub struct Plot {
    /// 0 for tilt x, 1 for tilt y.
    pub axis: usize,
    pub corner: [f64; 2],
    pub size: [f64; 2],
    /// The middle of the shown tilts and half their range, in degrees.
    pub centre: f64,
    pub half: f64,
    /// The lowest and the highest score that are shown; nothing where none is finite.
    pub scores: Option<[f64; 2]>,
}

/// A score that can be drawn.
pub fn finite_score(one: &Tried) -> Option<f64> {
    one.outcome.score().filter(|score| score.is_finite())
}

impl Plot {
    /// With room for the scores of these tilts, and beyond them for this part of their range.
    pub fn with_room_for(mut self, shown: &[&Tried], part: f64) -> Self {
        let scores = || shown.iter().filter_map(|one| finite_score(one));
        let low = scores().fold(f64::INFINITY, f64::min);
        let high = scores().fold(low, f64::max);
        let room = (part * (high - low)).max(LEAST_RANGE * low.abs()).max(1e-12);
        self.scores = low.is_finite().then_some([low - room, high + room]);
        self
    }

    pub fn holds(&self, one: &Tried) -> bool {
        (degrees(one)[self.axis] - self.centre).abs() <= self.half
    }

    /// Of a tilt in degrees, from the left.
    pub fn x(&self, tilt: f64) -> f64 {
        self.corner[0] + self.size[0] * (0.5 + 0.5 * (tilt - self.centre) / self.half)
    }

    fn y(&self, score: f64) -> f64 {
        let [low, high] = self.scores.unwrap_or([0.0, 1.0]);
        self.corner[1] + self.size[1] * (high - score) / (high - low)
    }

    /// A tilt without a score lies at the top.
    pub fn place(&self, one: &Tried) -> [f64; 2] {
        let y = finite_score(one).map_or(self.corner[1] + 8.0, |score| self.y(score));
        [self.x(degrees(one)[self.axis]), y]
    }

    /// Joins the scored ones of these tilts, which come in order.
    pub fn join(&self, svg: &mut Svg, shown: &[&Tried]) {
        let scored = shown.iter().filter(|one| finite_score(one).is_some());
        let places: Vec<_> = scored.map(|one| self.place(one)).collect();
        for pair in places.windows(2) {
            svg.line(pair[0], pair[1], r##"stroke="#888888""##);
        }
    }

    /// Grid, frame and names.
    pub fn axes(&self, svg: &mut Svg) {
        let ([left, top], [width, height]) = (self.corner, self.size);
        let faint = format!(r#"stroke="{FAINT}""#);
        let tilts = Ticks::new(self.centre, self.half);
        for (tick, label) in &tilts.all {
            let x = self.x(*tick);
            svg.line([x, top], [x, top + height], &faint);
            svg.text([x, top + height + 16.0], "middle", 11.0, INK, label);
        }
        if let Some([low, high]) = self.scores {
            let (values, digits) = ticks(low, high, tick_step(high - low, 6.0));
            for tick in values {
                let y = self.y(tick);
                svg.line([left, y], [left + width, y], &faint);
                svg.text([left - 6.0, y + 4.0], "end", 11.0, INK, &signed(tick, digits));
            }
        }
        svg.rectangle(self.corner, self.size, &format!(r#"fill="none" stroke="{INK}""#));
        let name = format!("tilt {}{}", ["x", "y"][self.axis], tilts.unit);
        svg.text([left + 0.5 * width, top + height + 35.0], "middle", 12.0, INK, &name);
        svg.upright_text([left - 54.0, top + 0.5 * height], "score");
    }
}
