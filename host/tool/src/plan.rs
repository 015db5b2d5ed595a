//! What a search will try, and what it can miss: shown before it starts.

use crate::angle::degrees;
use crate::drive::{Source, last_step, reach};
use jinnychair::{Options, Seed};

/// Nearer than this, in radians, two tilts of a list are one: the rule of merging (docs/SPECIFICATION.md, 4.4).
const NEAR: f64 = 1e-12;

/// The tilts of one axis.
#[derive(Clone, Debug, PartialEq)]
pub struct Axis {
    /// `x` or `y`.
    pub name: &'static str,
    /// Whether it is held at 0.
    pub is_held: bool,
    /// The typed tilts that are tried, in order of size.
    pub kept: Vec<f64>,
    /// Those beyond the bound.
    pub dropped: Vec<f64>,
    /// Those that were typed before.
    pub merged: Vec<f64>,
    /// Those that no tilt about the other axis is left to be tried with.
    pub alone: Vec<f64>,
    /// Stretches between tried tilts that no round can reach.
    pub holes: Vec<[f64; 2]>,
    /// The outermost tilts that can be reached; nothing where none is tried.
    pub ends: Option<[f64; 2]>,
}

/// What will be tried.
#[derive(Clone, Debug, PartialEq)]
pub struct Plan {
    /// About x and about y.
    pub axes: [Axis; 2],
    seeds: Vec<String>,
    options: Options,
    /// Whether every typed tilt is tried.
    is_grid_whole: bool,
}

impl Plan {
    /// The plan of a search with these seeds beside its grid.
    #[must_use]
    pub fn new(options: &Options, seeds: &[(Source, Seed)]) -> Self {
        let tilts =
            |of: fn(&Seed) -> f64| seeds.iter().map(|(_, seed)| of(seed)).collect::<Vec<_>>();
        let words = seeds.iter().map(|(source, seed)| {
            let from = if *source == Source::SeedFile { "the file's" } else { "by decomposition" };
            format!("{from} {}° {}°", degrees(seed.sensor.tilt_x), degrees(seed.sensor.tilt_y))
        });
        let x = Axis::new("x", &options.tilt_x_seeds, options.max_abs_tilt);
        let y = Axis::new("y", &options.tilt_y_seeds, options.max_abs_tilt);
        let mut axes = [x, if options.one_axis { Axis::held("y") } else { y }];
        // The grid has pairs: where one list is empty, none of the other's is tried.
        if axes.iter().any(|axis| axis.kept.is_empty()) {
            axes.iter_mut().for_each(|axis| axis.alone = std::mem::take(&mut axis.kept));
        }
        axes[0].reach_from(&tilts(|seed| seed.sensor.tilt_x), options);
        if !options.one_axis {
            axes[1].reach_from(&tilts(|seed| seed.sensor.tilt_y), options);
        }
        Self { axes, seeds: words.collect(), options: options.clone(), is_grid_whole: true }
    }

    /// The options that it is the plan of.
    #[must_use]
    pub fn options(&self) -> &Options {
        &self.options
    }

    /// What is left of the plan where the search is stopped in a round: the rounds before it.
    #[must_use]
    pub fn stopped_in(&self, round: usize) -> Self {
        let mut plan = self.clone();
        plan.options.refine_rounds = round.saturating_sub(1);
        plan.is_grid_whole = round > 0;
        plan
    }

    /// What will be tried, and what can be missed, in degrees.
    #[must_use]
    pub fn text(&self) -> String {
        let rounds = self.options.refine_rounds;
        let mut lines = vec!["what is tried".to_owned()];
        lines.extend(self.axes.iter().flat_map(Axis::tried_lines));
        lines.extend(self.seeds.iter().map(|seed| format!("  seed          {seed}")));
        lines.push(match rounds {
            0 => "  rounds        none after the grid".into(),
            _ => format!(
                "  rounds        {rounds} after the grid, steps from {}° down to {}°; they reach {}° from a seed \
                 in {}",
                degrees(self.options.refine_step),
                degrees(last_step(&self.options)),
                degrees(reach(&self.options)),
                if self.options.one_axis { "tilt x" } else { "each tilt" }
            ),
        });
        let share = self.options.min_counted;
        lines
            .push(format!("  counted       at least {share} % of a tilt's dots, or it is skipped"));
        lines.push("what can be missed".into());
        lines.extend(self.axes.iter().flat_map(|axis| axis.missed_lines(rounds)));
        if rounds > 0 {
            lines.push(format!(
                "  tilts nearer to each other than the last step, {}°",
                degrees(last_step(&self.options))
            ));
        }
        lines.join("\n")
    }

    /// How many of a tilt's dots must be counted.
    #[must_use]
    pub fn counted_text(&self) -> String {
        format!("at least {} % of a tilt's dots, or it is skipped", self.options.min_counted)
    }

    /// How near a winner is to the best tilt by the steps alone, for x and y, in radians: the last step, or without
    /// rounds the largest gap of the list, and where not all of it is tried, its width; 0 for one that is held.
    #[must_use]
    pub fn steps(&self) -> [f64; 2] {
        [0, 1].map(|i| match &self.axes[i] {
            axis if axis.is_held => 0.0,
            axis if !self.is_grid_whole => axis.width(),
            _ if self.options.refine_rounds > 0 => last_step(&self.options),
            axis => axis.largest_gap().map_or(0.0, |[a, b]| b - a),
        })
    }
}

impl Axis {
    fn new(name: &'static str, typed: &[f64], bound: f64) -> Self {
        let mut axis = Self::held(name);
        (axis.is_held, axis.kept) = (false, vec![]);
        for &tilt in typed {
            let is_near = |other: &f64| (tilt - other).abs() < NEAR;
            let list = match tilt {
                tilt if tilt.abs() > bound => &mut axis.dropped,
                _ if axis.kept.iter().any(is_near) => &mut axis.merged,
                _ => &mut axis.kept,
            };
            list.push(tilt);
        }
        axis.kept.sort_by(f64::total_cmp);
        axis
    }

    fn held(name: &'static str) -> Self {
        let (dropped, merged, alone, holes) = (vec![], vec![], vec![], vec![]);
        Self { name, is_held: true, kept: vec![0.0], dropped, merged, alone, holes, ends: None }
    }

    /// Works out what the rounds reach from the typed tilts and from the seeds.
    fn reach_from(&mut self, seeds: &[f64], options: &Options) {
        let mut starts: Vec<f64> = self.kept.iter().chain(seeds).copied().collect();
        starts.sort_by(f64::total_cmp);
        let (reach, bound) = (reach(options), options.max_abs_tilt);
        let holes = starts.windows(2).map(|pair| [pair[0] + reach, pair[1] - reach]);
        self.holes = holes.filter(|[a, b]| b - a > last_step(options).max(NEAR)).collect();
        let within = |tilt: f64| tilt.clamp(-bound, bound);
        let ends = starts.first().zip(starts.last());
        self.ends = ends.map(|(first, last)| [within(first - reach), within(last + reach)]);
    }

    fn width(&self) -> f64 {
        self.kept.last().zip(self.kept.first()).map_or(0.0, |(last, first)| last - first)
    }

    fn largest_gap(&self) -> Option<[f64; 2]> {
        let pairs = self.kept.windows(2).map(|pair| [pair[0], pair[1]]);
        pairs.reduce(|a, b| if b[1] - b[0] > (a[1] - a[0]) * (1.0 + 1e-9) { b } else { a })
    }

    fn tried_lines(&self) -> Vec<String> {
        let name = self.name;
        if self.is_held {
            return vec![format!("  tilt {name}        held at 0: one axis")];
        }
        let list = |tilts: &[f64]| {
            tilts.iter().map(|tilt| format!("{}°", degrees(*tilt))).collect::<Vec<_>>().join(", ")
        };
        let mut lines = vec![format!("  tilts {name}       {}", list(&self.kept))];
        if self.kept.is_empty() {
            lines = vec![format!("  tilts {name}       none of the typed ones")];
        }
        if !self.dropped.is_empty() {
            lines.push(format!("  left out      {name} {}: beyond the bound", list(&self.dropped)));
        }
        if !self.merged.is_empty() {
            lines.push(format!("  merged        {name} {}: typed before", list(&self.merged)));
        }
        if !self.alone.is_empty() {
            let tilts = list(&self.alone);
            lines.push(format!(
                "  left out      {name} {tilts}: no tilt about the other axis is left"
            ));
        }
        lines
    }

    fn missed_lines(&self, rounds: usize) -> Vec<String> {
        let name = self.name;
        if self.is_held {
            return vec![format!("  tilt {name}        every lean about {name}: it is held at 0")];
        }
        let mut lines = vec![];
        if let Some([a, b]) = self.largest_gap() {
            lines.push(format!(
                "  tilt {name}        the largest gap in the typed list is {}°, from {}° to {}°",
                degrees(b - a),
                degrees(a),
                degrees(b)
            ));
        }
        lines.push(match self.ends.map(|ends| ends.map(degrees)) {
            Some([least, most]) => {
                format!("  tilt {name}        nothing below {least}°, nothing above {most}°")
            }
            None => format!("  tilt {name}        every tilt about {name}: none is tried"),
        });
        if rounds > 0 {
            lines.extend(self.hole_texts().iter().map(|hole| format!("  HOLE          {hole}")));
        }
        lines
    }

    /// The holes, in words.
    #[must_use]
    pub fn hole_texts(&self) -> Vec<String> {
        let name = self.name;
        let text = |[a, b]: &[f64; 2]| {
            format!("tilt {name} from {}° to {}°: no round can reach it", degrees(*a), degrees(*b))
        };
        self.holes.iter().map(text).collect()
    }
}

#[cfg(test)]
mod tests {
    use super::*;

    fn options(x: &[f64], y: &[f64], rounds: usize) -> Options {
        let mut options = Options::default();
        let radians = |degrees: &[f64]| degrees.iter().map(|d: &f64| d.to_radians()).collect();
        (options.tilt_x_seeds, options.tilt_y_seeds) = (radians(x), radians(y));
        (options.refine_rounds, options.refine_step) = (rounds, 1f64.to_radians());
        options.max_abs_tilt = 15f64.to_radians();
        options
    }

    fn plan(x: &[f64], y: &[f64], rounds: usize) -> Plan {
        Plan::new(&options(x, y, rounds), &[])
    }

    #[test]
    fn gaps_holes_ends_and_what_falls_away_are_told() {
        let plan = plan(&[3.0, -3.0, 12.0, 20.0, 3.0], &[0.0], 3);
        let text = plan.text();
        for said in [
            "tilts x       -3.000°, 3.000°, 12.000°\n",
            "left out      x 20.000°: beyond the bound\n",
            "merged        x 3.000°: typed before\n",
            "tilts y       0°\n",
            "rounds        3 after the grid, steps from 1.000° down to 0.250°; they reach 1.750° from a seed",
            "the largest gap in the typed list is 9.000°, from 3.000° to 12.000°\n",
            "nothing below -4.750°, nothing above 13.750°\n",
            "HOLE          tilt x from 4.750° to 10.250°: no round can reach it\n",
            "HOLE          tilt x from -1.250° to 1.250°",
            "tilts nearer to each other than the last step, 0.250°",
            "counted       at least 0 % of a tilt's dots, or it is skipped\n",
        ] {
            assert!(text.contains(said), "{said}\n{text}");
        }
    }

    #[test]
    fn rounds_that_meet_leave_no_hole_and_the_bound_ends_them() {
        let plan = plan(&[-14.5, -11.0, 0.0], &[0.0, 3.5], 3);
        assert_eq!(plan.axes[1].holes, Vec::<[f64; 2]>::new());
        assert!((plan.axes[0].ends.unwrap()[0].to_degrees() + 15.0).abs() < 1e-12);
        assert_eq!(plan.axes[0].holes.len(), 1);
    }

    #[test]
    fn without_a_tilt_about_x_no_typed_tilt_about_y_is_tried() {
        let text = plan(&[20.0], &[0.0, 3.5], 3).text();
        for said in [
            "tilts x       none of the typed ones\n  left out      x 20.000°: beyond the bound\n",
            "tilts y       none of the typed ones\n  left out      y 0°, 3.500°: no tilt about the other axis is left\n",
            "tilt x        every tilt about x: none is tried\n",
            "tilt y        every tilt about y: none is tried\n",
        ] {
            assert!(text.contains(said), "{said}\n{text}");
        }
        let seed = Seed::from_numbers([1000.0, 1000.0, 640.0, 480.0, 0.01, 0.0]);
        let options = options(&[20.0], &[0.0, 3.5], 3);
        let text = Plan::new(&options, &[(Source::Decomposition, seed)]).text();
        assert!(
            text.contains("tilt y        nothing below -1.750°, nothing above 1.750°"),
            "{text}"
        );
    }

    #[test]
    fn without_rounds_a_winner_is_as_near_as_the_gaps() {
        let plan = plan(&[-2.0, 0.0, 3.0], &[0.0], 0);
        assert!((plan.steps()[0].to_degrees() - 3.0).abs() < 1e-12 && plan.steps()[1] == 0.0);
        assert!(plan.text().contains("none after the grid") && !plan.text().contains("HOLE"));
    }

    #[test]
    fn a_stopped_search_is_as_near_as_its_last_whole_round() {
        let plan = plan(&[-2.0, 0.0, 3.0], &[0.0, 1.0], 3);
        let steps =
            |round: usize| plan.stopped_in(round).steps().map(|step| step.to_degrees().round());
        // In the grid any typed tilt may be missing; in round 1 the gaps are left; in round 2 the first step.
        assert_eq!([0, 1, 2].map(steps), [[5.0, 1.0], [3.0, 1.0], [1.0, 1.0]]);
        let last = plan.stopped_in(3).steps()[0].to_degrees();
        assert!((last - 0.5).abs() < 1e-12, "{last}");
    }

    #[test]
    fn one_axis_holds_the_other() {
        for rounds in [0, 3] {
            let mut options = options(&[-2.0, 0.0, 3.0], &[0.0], rounds);
            options.one_axis = true;
            let plan = Plan::new(&options, &[]);
            let text = plan.text();
            assert!(text.contains("  tilt y        held at 0: one axis\n"), "{text}");
            assert!(text.contains("  tilt y        every lean about y: it is held at 0"), "{text}");
            assert!(!text.contains("tilt y        nothing below"), "{text}");
            assert_eq!(text.contains("they reach 1.750° from a seed in tilt x\n"), rounds > 0);
            assert!(plan.steps()[0] > 0.0 && plan.steps()[1] == 0.0);
        }
    }
}
