//! The elements of a drawing.

use crate::drive::{Source, Tried};
use crate::table::{SKIPS, letter, source_text};
use std::fmt::Write;

/// How a chart begins.
pub const HEAD: &str = "<!-- A chart of jinnychair. -->";

pub const INK: &str = "#222222";
pub const FAINT: &str = "#dddddd";
pub const ALARM: &str = "#c1121f";
pub const GOOD: &str = "#1b7837";
pub const SEED: &str = "#1f5fbf";
pub const LEAN: &str = "#a3137f";

/// The largest mark, and the winner's ring, in units of the drawing.
pub const LARGEST_MARK: f64 = 7.5;
pub const RING: f64 = 15.0;

/// A drawing.
#[derive(Default)]
pub struct Svg {
    body: String,
}

impl Svg {
    pub fn add(&mut self, element: std::fmt::Arguments) {
        writeln!(self.body, "{element}").expect("a string grows");
    }

    pub fn text(&mut self, [x, y]: [f64; 2], anchor: &str, size: f64, fill: &str, text: &str) {
        let text = escaped(text);
        self.add(format_args!(
            r#"<text x="{x:.1}" y="{y:.1}" font-size="{size}" text-anchor="{anchor}" fill="{fill}">{text}</text>"#
        ));
    }

    /// A text that is read upwards.
    pub fn upright_text(&mut self, [x, y]: [f64; 2], text: &str) {
        let text = escaped(text);
        self.add(format_args!(
            r#"<text transform="translate({x:.1} {y:.1}) rotate(-90)" font-size="12" text-anchor="middle">"#
        ));
        self.add(format_args!("{text}</text>"));
    }

    pub fn line(&mut self, [x1, y1]: [f64; 2], [x2, y2]: [f64; 2], style: &str) {
        self.add(format_args!(
            r#"<line x1="{x1:.2}" y1="{y1:.2}" x2="{x2:.2}" y2="{y2:.2}" {style}/>"#
        ));
    }

    pub fn rectangle(&mut self, [x, y]: [f64; 2], [width, height]: [f64; 2], style: &str) {
        self.add(format_args!(
            r#"<rect x="{x:.2}" y="{y:.2}" width="{width:.2}" height="{height:.2}" {style}/>"#
        ));
    }

    /// What follows is cut off at the edges, until [`Svg::close`].
    pub fn open(&mut self, [x, y]: [f64; 2], [width, height]: [f64; 2]) {
        self.add(format_args!(
            r#"<svg x="{x}" y="{y}" width="{width}" height="{height}" viewBox="{x} {y} {width} {height}">"#
        ));
    }

    pub fn close(&mut self) {
        self.add(format_args!("</svg>"));
    }

    /// What follows, until [`Svg::end_told`], shows this text when it is pointed at.
    pub fn told(&mut self, text: &str) {
        let text = escaped(text);
        self.add(format_args!("<g><title>{text}</title>"));
    }

    pub fn end_told(&mut self) {
        self.add(format_args!("</g>"));
    }

    /// A shape for each round. Later ones are smaller, since each round tries its centre again.
    pub fn mark(&mut self, [x, y]: [f64; 2], round: usize, largest: f64, fill: &str) {
        let radius = largest * (1.0 - 0.06 * round as f64).max(0.45);
        // The shapes serve twice, the second time with a heavier line.
        let stroke = if round < SHAPES { 0.7 } else { 1.8 };
        let style = format!(r#"fill="{fill}" stroke="{INK}" stroke-width="{stroke}""#);
        let Some(corners) = shape(round) else {
            return self
                .add(format_args!(r#"<circle cx="{x:.2}" cy="{y:.2}" r="{radius:.2}" {style}/>"#));
        };
        let mut points = String::new();
        for (turn, reach) in corners {
            let (sine, cosine) = (turn * std::f64::consts::TAU).sin_cos();
            let reach = 1.15 * radius * reach;
            write!(points, "{:.2},{:.2} ", x + reach * sine, y - reach * cosine)
                .expect("a string grows");
        }
        self.add(format_args!(r#"<polygon points="{}" {style}/>"#, points.trim_end()));
    }

    /// A cross with the letter of its reason.
    pub fn skipped(&mut self, [x, y]: [f64; 2], letter: char) {
        let d = 4.0;
        self.add(format_args!(
            r#"<path d="M{:.2} {:.2}l{w} {w}m0 -{w}l-{w} {w}" stroke="{INK}" stroke-width="1.4" fill="none"/>"#,
            x - d,
            y - d,
            w = 2.0 * d
        ));
        self.text([x + 6.0, y + 4.0], "start", 10.0, INK, &letter.to_string());
    }

    /// Marks a seed that isn't of the grid: a square around it, upright for the decomposition's, on its corner for a
    /// file's.
    pub fn seed(&mut self, [x, y]: [f64; 2], source: Source) {
        let turn = if source == Source::SeedFile { 45 } else { 0 };
        let turned = format!(r#"transform="rotate({turn} {x:.2} {y:.2})""#);
        let style = format!(r#"{turned} fill="none" stroke="{SEED}" stroke-width="2""#);
        self.rectangle([x - 10.0, y - 10.0], [20.0, 20.0], &style);
    }

    /// Marks the winner.
    pub fn ring(&mut self, [x, y]: [f64; 2]) {
        self.add(format_args!(
            r#"<circle cx="{x:.2}" cy="{y:.2}" r="{RING}" fill="none" stroke="{ALARM}" stroke-width="2"/>"#
        ));
        for [dx, dy] in [[1.0, 0.0], [-1.0, 0.0], [0.0, 1.0], [0.0, -1.0]] {
            let at = |reach: f64| [x + reach * dx, y + reach * dy];
            self.line(at(RING), at(RING + 7.0), &format!(r#"stroke="{ALARM}""#));
        }
    }

    /// Marks the lean, with a box that is as wide and as high as its bounds.
    pub fn lean(&mut self, [x, y]: [f64; 2], half: Option<[f64; 2]>) {
        for (colour, width) in [("#ffffff", 5.0), (LEAN, 2.5)] {
            let style = format!(r#"stroke="{colour}" stroke-width="{width}""#);
            self.line([x - 8.0, y], [x + 8.0, y], &style);
            self.line([x, y - 8.0], [x, y + 8.0], &style);
        }
        if let Some([width, height]) = half {
            let style =
                format!(r#"fill="none" stroke="{LEAN}" stroke-width="1.5" stroke-dasharray="3 3""#);
            self.rectangle([x - width, y - height], [2.0 * width, 2.0 * height], &style);
        }
    }

    pub fn finish(self, [width, height]: [f64; 2]) -> String {
        let size = format!(r#"width="{width}" height="{height}""#);
        let font = r#"font-family="Helvetica, Arial, sans-serif""#;
        format!(
            "{HEAD}\n<svg xmlns=\"http://www.w3.org/2000/svg\" {size} viewBox=\"0 0 {width} {height}\" {font} \
             fill=\"{INK}\">\n<rect {size} fill=\"#ffffff\"/>\n{}</svg>\n",
            self.body
        )
    }
}

fn escaped(text: &str) -> String {
    text.replace('&', "&amp;").replace('<', "&lt;").replace('>', "&gt;")
}

/// The text that a mark shows.
pub fn told(one: &Tried) -> String {
    let [x, y] = super::degrees(one).map(|tilt| signed(tilt, 5));
    let source = source_text(one.source);
    let found = match (one.outcome.score(), one.scored) {
        (Some(score), Some(scored)) => {
            let rms = scored.rms.map_or(String::new(), |rms| format!(", RMS {rms:.5} px"));
            format!("score {score:.5}, mean {:.5} px{rms}", scored.mean)
        }
        _ => {
            let reason =
                SKIPS.iter().find(|skip| skip.1 == letter(&one.outcome)).map_or("", |skip| skip.2);
            format!("skipped: {reason}")
        }
    };
    let dots =
        one.dots.map_or(String::new(), |dots| format!(", {} of {} dots", dots.counted, dots.all));
    format!(
        "no. {}, round {} ({source}): tilt x {x}°, tilt y {y}°; {found}{dots}",
        one.number, one.round
    )
}

/// How many shapes there are; a search has at most 17 rounds.
pub const SHAPES: usize = 9;

/// A round's shape as corners, each a part of a turn from the top and a part of the radius; nothing
/// for a circle.
fn shape(round: usize) -> Option<Vec<(f64, f64)>> {
    let regular =
        |n: usize, start: f64| (0..n).map(|i| (start + i as f64 / n as f64, 1.0)).collect();
    let star = |n: usize, start: f64, inner: f64| {
        let reach = |i: usize| if i.is_multiple_of(2) { 1.1 } else { inner };
        (0..2 * n).map(|i| (start + i as f64 / (2 * n) as f64, reach(i))).collect()
    };
    Some(match round % SHAPES {
        0 => return None,
        1 => regular(4, 0.125),
        2 => regular(3, 0.0),
        3 => regular(4, 0.0),
        4 => regular(3, 0.5),
        5 => regular(5, 0.0),
        6 => star(4, 0.0, 0.45),
        7 => regular(6, 0.0),
        _ => star(5, 0.0, 0.45),
    })
}

/// A step of 1, 2 or 5 times a power of ten that gives at most so many ticks.
pub fn tick_step(length: f64, most: f64) -> f64 {
    let rough = length / most;
    let power = 10f64.powf(rough.log10().floor());
    let step = [1.0, 2.0, 5.0].into_iter().find(|step| step * power >= rough);
    step.unwrap_or(10.0) * power
}

/// Multiples of a step, and how many digits they need.
pub fn ticks(least: f64, most: f64, step: f64) -> (Vec<f64>, usize) {
    let (first, last) = ((least / step).ceil() as i64, (most / step).floor() as i64);
    let digits = (-(step * 1.0001).log10().floor()).max(0.0) as usize;
    ((first..=last).map(|i| i as f64 * step).collect(), digits)
}

/// With the true minus sign, and none before a zero.
pub fn signed(value: f64, digits: usize) -> String {
    let text = format!("{:.digits$}", value.abs());
    let is_zero = text.bytes().all(|byte| byte == b'0' || byte == b'.');
    if value < 0.0 && !is_zero { format!("−{text}") } else { text }
}

/// Three significant digits.
pub fn trimmed(value: f64) -> String {
    let digits = (2.0 - value.abs().log10().floor()).clamp(0.0, 12.0) as usize;
    format!("{value:.digits$}")
}
