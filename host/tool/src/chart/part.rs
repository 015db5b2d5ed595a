//! A part of the plane of tilts, with every tilt that was tried in it, coloured by the scores of that part.

use super::svg::{
    ALARM, FAINT, INK, LARGEST_MARK, RING, Svg, signed, tick_step, ticks, told, trimmed,
};
use super::{Lean, degrees};
use crate::drive::{Source, Tried};
use crate::table::letter;

/// The size of each part, in units of the drawing.
pub const PART: f64 = 310.0;

/// Below this half width, in degrees, an axis counts from the winner's tilt.
const FINE: f64 = 0.02;

/// From the best score to the worst: viridis, which keeps its order on a printer without colour.
const COLOURS: [[f64; 3]; 5] =
    [[68., 1., 84.], [59., 82., 139.], [33., 145., 140.], [94., 201., 98.], [253., 231., 37.]];

/// A part of the plane of tilts, in degrees, and where it is drawn.
#[derive(Clone, Copy, Debug)]
pub struct Part {
    pub name: &'static str,
    corner: [f64; 2],
    pub centre: [f64; 2],
    pub half: [f64; 2],
}

impl Part {
    /// All that was tried.
    pub fn around_all(tried: &[Tried], corner: [f64; 2]) -> Self {
        let range = |i: usize| {
            let tilts = || tried.iter().map(|one| degrees(one)[i]).filter(|tilt| tilt.is_finite());
            let (least, most) =
                (tilts().fold(f64::INFINITY, f64::min), tilts().fold(f64::NEG_INFINITY, f64::max));
            if least <= most { [0.5 * (least + most), 0.5 * (most - least)] } else { [0.0, 0.0] }
        };
        let [x, y] = [range(0), range(1)];
        let least = (0.1 * x[1].max(y[1])).max(0.001);
        let half = [x[1], y[1]].map(|half| (1.15 * half).max(least));
        Self { name: "The whole search", corner, centre: [x[0], y[0]], half }
    }

    /// A square around the winner that holds the given tilts, if it has a size.
    pub fn around<'a>(
        winner: &Tried,
        tried: impl Iterator<Item = &'a Tried>,
        name: &'static str,
        corner: [f64; 2],
    ) -> Option<Self> {
        let centre = degrees(winner);
        let tilts = tried.map(degrees).filter(|tilts| tilts.iter().all(|tilt| tilt.is_finite()));
        let far = tilts
            .flat_map(|[x, y]| [x - centre[0], y - centre[1]])
            .map(f64::abs)
            .fold(0.0, f64::max);
        // Nearer ones can't be distinguished in floats.
        let least = 1e-12 * centre[0].abs().max(centre[1].abs());
        (far > least).then_some(Self { name, corner, centre, half: [1.15 * far; 2] })
    }

    fn x(&self, degrees: f64) -> f64 {
        self.corner[0] + PART * (0.5 + 0.5 * (degrees - self.centre[0]) / self.half[0])
    }

    fn y(&self, degrees: f64) -> f64 {
        self.corner[1] + PART * (0.5 - 0.5 * (degrees - self.centre[1]) / self.half[1])
    }

    fn place(&self, one: &Tried) -> [f64; 2] {
        let [x, y] = degrees(one);
        [self.x(x), self.y(y)]
    }

    fn holds(&self, one: &Tried) -> bool {
        let tilts = degrees(one);
        (0..2).all(|i| (tilts[i] - self.centre[i]).abs() <= self.half[i])
    }

    /// Half of what the closest marks of the grid leave each other, within limits.
    fn largest_mark(&self, tried: &[Tried]) -> f64 {
        let first: Vec<_> = tried
            .iter()
            .filter(|one| one.source == Source::Grid)
            .map(|one| self.place(one))
            .collect();
        let apart = first
            .iter()
            .enumerate()
            .flat_map(|(i, a)| first[..i].iter().map(move |b| (a[0] - b[0]).hypot(a[1] - b[1])));
        let closest = apart.fold(f64::INFINITY, f64::min);
        (0.45 * closest).clamp(2.5, LARGEST_MARK)
    }

    /// The part with its marks. The next part's place is shown in it.
    pub fn draw(
        &self,
        svg: &mut Svg,
        tried: &[Tried],
        winner: Option<&Tried>,
        bound: Option<f64>,
        lean: Option<Lean>,
        next: Option<&Part>,
    ) {
        let scale = Scale::new(tried.iter().filter(|one| self.holds(one)));
        self.frame(svg, bound);
        svg.open(self.corner, [PART, PART]);
        if let Some(bound) = bound {
            self.bound(svg, bound);
        }
        self.marks(svg, tried, scale.as_ref());
        if let Some(winner) = winner.filter(|winner| self.holds(winner)) {
            svg.ring(self.place(winner));
        }
        if let Some(next) = next {
            self.outline(svg, next, tried);
        }
        if let Some((at, half)) = lean {
            let half = half.map(|half| [0, 1].map(|i| 0.5 * PART * half[i] / self.half[i]));
            svg.lean([self.x(at[0]), self.y(at[1])], half);
        }
        svg.close();
        svg.rectangle(self.corner, [PART, PART], &format!(r#"fill="none" stroke="{INK}""#));
        if let Some(scale) = &scale {
            scale.bar(svg, [self.corner[0], self.corner[1] + PART + 48.0]);
        }
    }

    /// Title, grid and axes.
    fn frame(&self, svg: &mut Svg, bound: Option<f64>) {
        let [left, top] = self.corner;
        svg.text([left, top - 10.0], "start", 13.0, INK, self.name);
        let size = if self.half[0] == self.half[1] {
            format!("±{}°", trimmed(self.half[0]))
        } else {
            bound.map_or(String::new(), |bound| {
                let is_inside = (0..2).any(|i| self.centre[i].abs() + self.half[i] >= bound);
                format!("bound ±{}°{}", trimmed(bound), if is_inside { "" } else { ", outside" })
            })
        };
        svg.text([left + PART, top - 10.0], "end", 11.0, INK, &size);
        svg.rectangle(self.corner, [PART, PART], r##"fill="#ffffff" stroke="none""##);
        let faint = format!(r#"stroke="{FAINT}""#);
        let x_axis = Ticks::new(self.centre[0], self.half[0]);
        for (tick, label) in &x_axis.all {
            let x = self.x(*tick);
            svg.line([x, top], [x, top + PART], &faint);
            svg.text([x, top + PART + 16.0], "middle", 11.0, INK, label);
        }
        let y_axis = Ticks::new(self.centre[1], self.half[1]);
        for (tick, label) in &y_axis.all {
            let y = self.y(*tick);
            svg.line([left, y], [left + PART, y], &faint);
            svg.text([left - 6.0, y + 4.0], "end", 11.0, INK, label);
        }
        svg.text(
            [left + 0.5 * PART, top + PART + 35.0],
            "middle",
            12.0,
            INK,
            &format!("tilt x{}", x_axis.unit),
        );
        svg.upright_text([left - 54.0, top + 0.5 * PART], &format!("tilt y{}", y_axis.unit));
    }

    fn bound(&self, svg: &mut Svg, bound: f64) {
        let (x, y) = (self.x(-bound), self.y(bound));
        let size = [self.x(bound) - x, self.y(-bound) - y];
        svg.rectangle(
            [x, y],
            size,
            &format!(r#"fill="none" stroke="{INK}" stroke-dasharray="7 4""#),
        );
    }

    fn marks(&self, svg: &mut Svg, tried: &[Tried], scale: Option<&Scale>) {
        let largest = self.largest_mark(tried);
        for one in tried.iter().filter(|one| self.holds(one)) {
            let place = self.place(one);
            svg.told(&told(one));
            match one.outcome.score() {
                Some(score) => {
                    let share = scale.map_or(0.0, |scale| scale.share(score));
                    svg.mark(place, one.round, largest, &colour(share));
                }
                None => svg.skipped(place, letter(&one.outcome)),
            }
            if matches!(one.source, Source::Decomposition | Source::SeedFile) {
                svg.seed(place, one.source);
            }
            svg.end_told();
        }
    }

    /// Where the next part lies, with its name.
    fn outline(&self, svg: &mut Svg, next: &Part, tried: &[Tried]) {
        let [cx, cy] = next.centre;
        let (x, y) = (self.x(cx - next.half[0]), self.y(cy + next.half[1]));
        let size = [self.x(cx + next.half[0]) - x, self.y(cy - next.half[1]) - y];
        svg.rectangle([x, y], size, &format!(r#"fill="none" stroke="{ALARM}""#));
        let reach = size.map(|side| (0.5 * side).max(RING));
        let [x, y, anchor] = self.label_place([self.x(cx), self.y(cy)], reach, tried);
        let name = next.name;
        let anchor = if anchor < 0.0 { "end" } else { "start" };
        let halo = r##"stroke="#ffffff" stroke-width="3" paint-order="stroke""##;
        svg.add(format_args!(
            r#"<text x="{x:.1}" y="{y:.1}" font-size="12" text-anchor="{anchor}" fill="{ALARM}" {halo}>{name}</text>"#
        ));
    }

    /// A place for a label at a corner of what lies around a point, within the part, where the fewest marks are; the
    /// third number is the side that the label grows to.
    fn label_place(&self, [x, y]: [f64; 2], reach: [f64; 2], tried: &[Tried]) -> [f64; 3] {
        const SIZE: [f64; 2] = [44.0, 14.0];
        let [left, top] = self.corner;
        let corners = [[1.0, -1.0], [-1.0, -1.0], [1.0, 1.0], [-1.0, 1.0]];
        // First at the corners, then further out.
        let places = [0.0, 24.0, 48.0].into_iter().flat_map(|out| {
            corners.map(|[right, down]| {
                let x = x + right * (reach[0] + out + 4.0);
                let y = y + if down < 0.0 { -reach[1] - 4.0 } else { reach[1] + SIZE[1] };
                let room = [
                    if right > 0.0 { 4.0 } else { SIZE[0] },
                    if right > 0.0 { SIZE[0] } else { 4.0 },
                ];
                let x = x.clamp(left + room[0], left + PART - room[1]);
                [x, y.clamp(top + SIZE[1], top + PART - 6.0), right]
            })
        });
        let covered = |place: &[f64; 3]| {
            let middle = [place[0] + 0.5 * SIZE[0] * place[2], place[1] - 0.4 * SIZE[1]];
            let is_near = |mark: [f64; 2]| {
                (0..2).all(|i| (mark[i] - middle[i]).abs() < 0.5 * SIZE[i] + LARGEST_MARK)
            };
            tried.iter().filter(|one| self.holds(one) && is_near(self.place(one))).count()
        };
        places.min_by_key(covered).unwrap_or([x, y, 1.0])
    }
}

/// The ticks of an axis, in degrees, and what its name ends with.
pub struct Ticks {
    pub all: Vec<(f64, String)>,
    pub unit: String,
}

impl Ticks {
    pub fn new(centre: f64, half: f64) -> Self {
        if half >= FINE {
            let (values, digits) = ticks(centre - half, centre + half, tick_step(2.0 * half, 7.0));
            let all = values.into_iter().map(|tick| (tick, signed(tick, digits))).collect();
            return Self { all, unit: " (degrees)".into() };
        }
        let unit = 10f64.powf(half.log10().floor());
        let (values, digits) = ticks(-half / unit, half / unit, tick_step(2.0 * half / unit, 7.0));
        let all =
            values.into_iter().map(|tick| (centre + tick * unit, signed(tick, digits))).collect();
        let places = (-unit.log10()).round().max(0.0) as usize;
        Self { all, unit: format!(" − ({}°), in {unit:.places$} degrees", signed(centre, 3)) }
    }
}

/// Scores as colours, on a logarithmic scale.
#[derive(Clone, Copy, Debug)]
struct Scale {
    low: f64,
    high: f64,
}

impl Scale {
    /// Nothing where no score is finite and above 0.
    fn new<'a>(tried: impl Iterator<Item = &'a Tried>) -> Option<Self> {
        let scores: Vec<f64> = tried
            .filter_map(|one| one.outcome.score())
            .filter(|s| s.is_finite() && *s > 0.0)
            .collect();
        let high = scores.iter().copied().reduce(f64::max)?;
        let low = scores.iter().copied().fold(high, f64::min);
        // A single score still needs a scale of some length.
        let [low, high] = if low < high { [low, high] } else { [0.5 * high, 2.0 * high] };
        Some(Self { low, high })
    }

    /// 0 for the lowest score, 1 for the highest.
    fn share(&self, score: f64) -> f64 {
        ((score / self.low).ln() / (self.high / self.low).ln()).clamp(0.0, 1.0)
    }

    /// The colours with the lowest and the highest score of the part.
    fn bar(&self, svg: &mut Svg, [left, top]: [f64; 2]) {
        const CELLS: usize = 31;
        let width = PART / CELLS as f64;
        for i in 0..CELLS {
            let fill = colour((i as f64 + 0.5) / CELLS as f64);
            let style = format!(r#"fill="{fill}" stroke="none""#);
            svg.rectangle([left + i as f64 * width, top], [width + 0.3, 10.0], &style);
        }
        svg.rectangle([left, top], [PART, 10.0], &format!(r#"fill="none" stroke="{INK}""#));
        svg.text(
            [left, top + 24.0],
            "start",
            11.0,
            INK,
            &format!("best score {}", trimmed(self.low)),
        );
        svg.text(
            [left + PART, top + 24.0],
            "end",
            11.0,
            INK,
            &format!("worst {} (logarithmic)", trimmed(self.high)),
        );
    }
}

fn colour(share: f64) -> String {
    let place = share * (COLOURS.len() - 1) as f64;
    let i = (place as usize).min(COLOURS.len() - 2);
    let t = place - i as f64;
    let [r, g, b] = [0, 1, 2].map(|c| COLOURS[i][c] + t * (COLOURS[i + 1][c] - COLOURS[i][c]));
    format!("#{:02x}{:02x}{:02x}", r.round() as u8, g.round() as u8, b.round() as u8)
}
