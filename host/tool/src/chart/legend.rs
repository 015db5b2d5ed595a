//! What the marks mean.

use super::last_round;
use super::section::BESIDE;
use super::svg::{FAINT, INK, LARGEST_MARK, SHAPES, Svg, trimmed};
use crate::drive::{Source, Tried};
use crate::table::{SKIPS, letter};

const ROW: f64 = 22.0;

/// The legend, and where it stands.
pub struct Legend<'a> {
    pub tried: &'a [Tried],
    pub bound: Option<f64>,
    pub one_axis: bool,
    /// Whether the lean is marked.
    pub has_lean: bool,
    /// What the ring marks, if there is one.
    pub best: Option<&'a str>,
    pub left: f64,
    pub top: f64,
}

impl Legend<'_> {
    /// Draws it, and gives where it ends.
    pub fn draw(&self, svg: &mut Svg) -> f64 {
        let y = self.rounds(svg, self.top - 10.0);
        let y = self.reasons(svg, y + 12.0);
        let y = self.marks(svg, y + 14.0);
        if self.one_axis || self.best.is_none() {
            return y;
        }
        let part = (1.0 / BESIDE).round();
        let text = format!("Score along a tilt: beside the line by at most 1/{part}");
        svg.text([self.left, y], "start", 11.0, INK, &text);
        let text = format!("of the distance from {}", self.best.unwrap_or_default());
        svg.text([self.left, y + 15.0], "start", 11.0, INK, &text);
        y + 15.0
    }

    fn text(&self, svg: &mut Svg, y: f64, text: &str) {
        svg.text([self.left + 40.0, y + 4.0], "start", 12.0, INK, text);
    }

    fn rounds(&self, svg: &mut Svg, y: f64) -> f64 {
        let has_colours = !self.one_axis && self.best.is_some();
        let colours = if has_colours { " (colours: score within each part)" } else { "" };
        svg.text([self.left, y], "start", 13.0, INK, &format!("Round{colours}"));
        let last = last_round(self.tried);
        for round in 0..=last {
            let x = self.left + 8.0 + 35.0 * (round % SHAPES) as f64;
            let y = y + ROW * (1.0 + (round / SHAPES) as f64);
            svg.mark([x, y], round, LARGEST_MARK, FAINT);
            svg.text([x + 10.0, y + 4.0], "start", 11.0, INK, &round.to_string());
        }
        y + ROW * (2.0 + (last / SHAPES) as f64)
    }

    fn reasons(&self, svg: &mut Svg, y: f64) -> f64 {
        svg.text([self.left, y], "start", 13.0, INK, "Skipped");
        for (i, &(_, reason, words)) in SKIPS.iter().enumerate() {
            let count = self.tried.iter().filter(|one| letter(&one.outcome) == reason).count();
            let y = y + ROW * (i + 1) as f64 - 3.0;
            svg.skipped([self.left + 8.0, y], reason);
            self.text(svg, y, &format!("{words}: {count}"));
        }
        y + ROW * (SKIPS.len() + 1) as f64
    }

    fn marks(&self, svg: &mut Svg, mut y: f64) -> f64 {
        if let Some(best) = self.best {
            svg.ring([self.left + 14.0, y]);
            self.text(svg, y, best);
            y += 38.0;
        }
        if self.has_lean {
            svg.lean([self.left + 14.0, y], Some([14.0, 9.0]));
            self.text(svg, y, "the lean, with its ±");
            y += 30.0;
        }
        for (source, words) in
            [(Source::Decomposition, "seed by decomposition"), (Source::SeedFile, "seed of a file")]
        {
            if self.tried.iter().any(|one| one.source == source) {
                svg.seed([self.left + 14.0, y], source);
                self.text(svg, y, words);
                y += 28.0;
            }
        }
        if let Some(bound) = self.bound {
            let style = format!(r#"fill="none" stroke="{INK}" stroke-dasharray="7 4""#);
            if self.one_axis {
                svg.line([self.left + 14.0, y - 11.0], [self.left + 14.0, y + 11.0], &style);
            } else {
                svg.rectangle([self.left, y - 9.0], [28.0, 18.0], &style);
            }
            self.text(svg, y, &format!("the bound, ±{}°", trimmed(bound)));
            y += 28.0;
        }
        y
    }
}
