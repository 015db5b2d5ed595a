//! What a lab chooses: on the command line as `--NAME VALUE`, or in a file with a line `NAME VALUE` for each.

use crate::angle;
use crate::drive::Source;
use crate::lean::Lens;
use crate::solve::Model;
use crate::typed::{self, shown};
use crate::verdict::Limits;
use jinnychair::{BrownConrady5, FxFyCxCy, Options, ScheimpflugParams, Seed};
use std::path::PathBuf;

/// The names of all choices, and what they take.
pub const NAMES: &[(&str, &str)] = &[
    ("centre", "X Y"),
    ("guess-centre", ""),
    ("centre-within", "PX"),
    ("lens", "exact, or K1,K2,P1,P2,K3"),
    ("lens-within", "P"),
    ("tangential", ""),
    ("mirrored", ""),
    ("tilts-x", "ANGLE,ANGLE,..."),
    ("tilts-y", "ANGLE,ANGLE,..."),
    ("one-axis", ""),
    ("bound", "ANGLE"),
    ("step", "ANGLE"),
    ("rounds", "N"),
    ("minutes", "N"),
    ("seeds", "FILE"),
    ("no-decomposition", ""),
    ("min-counted", "PERCENT"),
    ("max-tilt", "ANGLE"),
    ("max-mean", "PX"),
];

/// How many per cent of the dots must be counted, where nothing else is chosen: a tilt whose camera turns its back to a
/// tenth of the dots isn't compared with tilts that explain them all.
pub const MIN_COUNTED: usize = 90;

/// The largest bound that Start takes, in radians.
const MAX_BOUND: f64 = 0.5;

/// Choices; what isn't chosen has its default.
#[derive(Clone, Debug, Default, PartialEq)]
pub struct Choices {
    /// The optical centre, in pixels.
    pub centre: Option<[f64; 2]>,
    /// Whether the centre may be guessed.
    pub guess_centre: Option<()>,
    /// How far the centre may be off, in pixels.
    pub centre_within: Option<f64>,
    /// What the lens is.
    pub lens: Option<StatedLens>,
    /// How far its tangential distortion may be from that, or from 0.
    pub lens_within: Option<f64>,
    /// Whether p1 and p2 are solved for.
    pub tangential: Option<()>,
    /// Whether the plate's axes are left-handed.
    pub mirrored: Option<()>,
    /// The grid's tilts, in radians.
    pub tilts: [Option<Vec<f64>>; 2],
    /// Whether tilt y is held at 0.
    pub one_axis: Option<()>,
    /// The bound on either tilt, in radians.
    pub bound: Option<f64>,
    /// The first step, in radians.
    pub step: Option<f64>,
    /// How many rounds follow the grid.
    pub rounds: Option<usize>,
    /// After how many minutes the search is stopped.
    pub minutes: Option<f64>,
    /// A file of seeds.
    pub seeds: Option<PathBuf>,
    /// Whether the decomposition's seed is left out.
    pub no_decomposition: Option<()>,
    /// How many per cent of the dots must be counted.
    pub min_counted: Option<usize>,
    /// Service's limit on either tilt, in radians.
    pub max_tilt: Option<f64>,
    /// Service's limit on the mean error, in pixels.
    pub max_mean: Option<f64>,
}

/// What the lens is stated to be.
#[derive(Clone, Copy, Debug, PartialEq)]
pub enum StatedLens {
    /// Without distortion.
    Straight,
    /// With this distortion.
    Known(BrownConrady5),
}

impl Choices {
    /// Takes a choice; `value` gives its values one after the other. False where there is no such choice.
    ///
    /// # Errors
    ///
    /// Names the choice, what was read and what is expected.
    pub fn set(
        &mut self,
        name: &str,
        value: &mut dyn FnMut() -> Result<String, String>,
    ) -> Result<bool, String> {
        let set = match name {
            "centre" | "center" => put(&mut self.centre, [number(&value()?)?, number(&value()?)?]),
            "guess-centre" | "guess-center" => put(&mut self.guess_centre, ()),
            "centre-within" | "center-within" => {
                put(&mut self.centre_within, not_below_0(&value()?)?)
            }
            "lens" => put(&mut self.lens, lens(&value()?)?),
            "lens-within" => put(&mut self.lens_within, above_0(number(&value()?)?)?),
            "tangential" => put(&mut self.tangential, ()),
            "mirrored" => put(&mut self.mirrored, ()),
            "tilts-x" => put(&mut self.tilts[0], tilts(&value()?)?),
            "tilts-y" => put(&mut self.tilts[1], tilts(&value()?)?),
            "one-axis" => put(&mut self.one_axis, ()),
            "bound" => put(&mut self.bound, bound(&value()?)?),
            "step" => put(&mut self.step, above_0(angle::parse(&value()?)?)?),
            "rounds" => put(&mut self.rounds, rounds(&value()?)?),
            "minutes" => put(&mut self.minutes, above_0(number(&value()?)?)?),
            "seeds" => put(&mut self.seeds, value()?.into()),
            "no-decomposition" => put(&mut self.no_decomposition, ()),
            "min-counted" => put(&mut self.min_counted, per_cent(&value()?)?),
            "max-tilt" => put(&mut self.max_tilt, above_0(angle::parse(&value()?)?)?),
            "max-mean" => put(&mut self.max_mean, above_0(number(&value()?)?)?),
            _ => return Ok(false),
        };
        set.map(|()| true)
    }

    /// Reads a file of choices.
    ///
    /// # Errors
    ///
    /// Names the line, what was read and what is expected.
    pub fn parse(text: &str) -> Result<Self, String> {
        let mut choices = Self::default();
        for (i, line) in text.lines().enumerate() {
            let line = line.split('#').next().unwrap_or("").trim();
            if line.is_empty() {
                continue;
            }
            choices
                .take_line(line)
                .map_err(|fault| format!("line {}: read `{}`; {fault}", i + 1, shown(line)))?;
        }
        Ok(choices)
    }

    fn take_line(&mut self, line: &str) -> Result<(), String> {
        let (name, rest) = line.split_once(char::is_whitespace).unwrap_or((line, ""));
        // Only the centre takes two words; a list may have spaces behind its commas.
        let mut values: Vec<&str> = if name.starts_with("cent") {
            rest.split_whitespace().collect()
        } else {
            vec![rest.trim()]
        };
        values.retain(|value| !value.is_empty());
        let mut values = values.into_iter();
        let is_known = self.set(name, &mut || {
            values.next().map(str::to_owned).ok_or(format!("{name} lacks a value"))
        })?;
        let names: Vec<&str> = NAMES.iter().map(|(name, _)| *name).collect();
        match values.next() {
            _ if !is_known => Err(format!("expected one of {}, and its value", names.join(", "))),
            Some(word) => Err(format!("`{}` is too much for {name}", shown(word))),
            None => Ok(()),
        }
    }

    /// These choices, and where one isn't made, the other's.
    #[must_use]
    pub fn or(self, other: Self) -> Self {
        let [x, y] = self.tilts;
        let [other_x, other_y] = other.tilts;
        Self {
            centre: self.centre.or(other.centre),
            guess_centre: self.guess_centre.or(other.guess_centre),
            centre_within: self.centre_within.or(other.centre_within),
            lens: self.lens.or(other.lens),
            lens_within: self.lens_within.or(other.lens_within),
            tangential: self.tangential.or(other.tangential),
            mirrored: self.mirrored.or(other.mirrored),
            tilts: [x.or(other_x), y.or(other_y)],
            one_axis: self.one_axis.or(other.one_axis),
            bound: self.bound.or(other.bound),
            step: self.step.or(other.step),
            rounds: self.rounds.or(other.rounds),
            minutes: self.minutes.or(other.minutes),
            seeds: self.seeds.or(other.seeds),
            no_decomposition: self.no_decomposition.or(other.no_decomposition),
            min_counted: self.min_counted.or(other.min_counted),
            max_tilt: self.max_tilt.or(other.max_tilt),
            max_mean: self.max_mean.or(other.max_mean),
        }
    }

    /// Whether the choices go together.
    ///
    /// # Errors
    ///
    /// Names those that don't, and what to do.
    pub fn check(&self) -> Result<(), String> {
        if self.lens == Some(StatedLens::Straight) && self.lens_within.is_some() {
            return Err("lens exact and lens-within: leave one of the two out".into());
        }
        if self.lens.is_some() && self.tangential.is_some() {
            return Err(
                "a lens is stated, and tangential solves for one. Leave one of the two out".into(),
            );
        }
        let typed = self.tilts[1].as_ref().filter(|typed| **typed != [0.0]);
        match (self.one_axis, typed) {
            (Some(()), Some(_)) => Err(
                "one-axis holds tilt y at 0, and tilts-y has other tilts. Leave one of the two out"
                    .into(),
            ),
            _ => Ok(()),
        }
    }

    /// The search's options: by default the usual grid, six rounds, which narrow it to 0.04°, and [`MIN_COUNTED`]. On one
    /// axis the y list is 0 alone.
    #[must_use]
    pub fn options(&self) -> Options {
        let mut options = Options::default();
        options.one_axis = self.one_axis.is_some();
        if options.one_axis {
            options.tilt_y_seeds = vec![0.0];
        }
        let [x, y] = self.tilts.clone();
        options.tilt_x_seeds = x.unwrap_or(options.tilt_x_seeds);
        options.tilt_y_seeds = y.unwrap_or(options.tilt_y_seeds);
        options.max_abs_tilt = self.bound.unwrap_or(options.max_abs_tilt);
        options.refine_step = self.step.unwrap_or(options.refine_step);
        options.refine_rounds = self.rounds.unwrap_or(6);
        options.min_counted = self.min_counted.unwrap_or(MIN_COUNTED);
        options
    }

    /// The choices that the host needs again when a search goes on, as lines of a file. Start's own are kept bit by bit
    /// elsewhere.
    #[must_use]
    pub fn host_lines(&self) -> Vec<String> {
        let lines = [
            self.centre.map(|[x, y]| format!("centre {x} {y}")),
            self.guess_centre.map(|()| "guess-centre".into()),
            self.centre_within.map(|pixels| format!("centre-within {pixels}")),
            self.lens.map(lens_line),
            self.lens_within.map(|p| format!("lens-within {p}")),
            self.tangential.map(|()| "tangential".into()),
            self.mirrored.map(|()| "mirrored".into()),
            self.max_tilt.map(|tilt| format!("max-tilt {tilt}rad")),
            self.max_mean.map(|pixels| format!("max-mean {pixels}")),
        ];
        lines.into_iter().flatten().collect()
    }

    /// What is said of the lens for the bounds.
    #[must_use]
    pub fn lens(&self) -> Lens {
        match (self.lens, self.lens_within) {
            (_, Some(most)) => Lens::Within(most),
            (Some(_), None) => Lens::Exact,
            (None, None) => Lens::Open,
        }
    }

    /// What is said of it for the solution.
    #[must_use]
    pub fn model(&self) -> Model {
        let lens = match self.lens {
            Some(StatedLens::Known(lens)) => lens,
            Some(StatedLens::Straight) | None => BrownConrady5::default(),
        };
        Model { lens, tangential: self.tangential.is_some() }
    }

    /// Service's limits.
    #[must_use]
    pub fn limits(&self) -> Limits {
        Limits { tilt: self.max_tilt, mean: self.max_mean }
    }
}

fn put<T>(place: &mut Option<T>, value: T) -> Result<(), String> {
    if place.is_some() {
        return Err("it is stated twice. Leave one out".into());
    }
    *place = Some(value);
    Ok(())
}

fn number(text: &str) -> Result<f64, String> {
    let number = typed::number(text).filter(|x| x.is_finite());
    number.ok_or_else(|| format!("`{}` isn't a finite number", shown(text)))
}

/// `exact`, or five numbers in OpenCV's order.
fn lens(text: &str) -> Result<StatedLens, String> {
    if text == "exact" {
        return Ok(StatedLens::Straight);
    }
    let numbers: Vec<f64> =
        text.split(',').map(|word| number(word.trim())).collect::<Result<_, _>>()?;
    let [k1, k2, p1, p2, k3] = numbers[..] else {
        return Err(format!(
            "`{}` is neither `exact` nor five numbers, K1,K2,P1,P2,K3",
            shown(text)
        ));
    };
    Ok(StatedLens::Known(BrownConrady5 { k1, k2, k3, p1, p2 }))
}

fn lens_line(lens: StatedLens) -> String {
    match lens {
        StatedLens::Straight => "lens exact".into(),
        StatedLens::Known(BrownConrady5 { k1, k2, k3, p1, p2 }) => {
            format!("lens {k1},{k2},{p1},{p2},{k3}")
        }
    }
}

fn not_below_0(text: &str) -> Result<f64, String> {
    number(text).and_then(|value| {
        if value >= 0.0 { Ok(value) } else { Err(format!("`{text}` is below 0")) }
    })
}

fn above_0(value: f64) -> Result<f64, String> {
    if value > 0.0 { Ok(value) } else { Err("it isn't above 0".into()) }
}

/// The library's own limit, checked before anything is planned.
fn bound(text: &str) -> Result<f64, String> {
    let bound = above_0(angle::parse(text)?)?;
    if bound <= MAX_BOUND {
        Ok(bound)
    } else {
        Err(format!("`{}` is above {MAX_BOUND}rad, which is 28.6°", shown(text)))
    }
}

fn rounds(text: &str) -> Result<usize, String> {
    let rounds = text.parse().ok().filter(|rounds| *rounds <= 16);
    rounds.ok_or_else(|| format!("`{}` isn't a whole number from 0 to 16", shown(text)))
}

fn per_cent(text: &str) -> Result<usize, String> {
    let number = text.strip_suffix('%').unwrap_or(text).trim_end().parse().ok();
    let number = number.filter(|number| *number <= 100);
    number.ok_or_else(|| format!("`{}` isn't a whole per cent from 0 to 100", shown(text)))
}

fn tilts(text: &str) -> Result<Vec<f64>, String> {
    let tilts = angle::parse_list(text)?;
    if tilts.len() > 16 {
        Err(format!("{} tilts, at most 16 are taken", tilts.len()))
    } else {
        Ok(tilts)
    }
}

/// Reads a file of seeds: a line for each, two tilts with their unit, or a camera's fx fy cx cy and two tilts.
///
/// # Errors
///
/// Names the line, what was read and what is expected.
pub fn parse_seeds(
    text: &str,
    base: FxFyCxCy,
    options: &Options,
) -> Result<Vec<(Source, Seed)>, String> {
    let lines =
        text.lines().enumerate().map(|(i, line)| (i, line.split('#').next().unwrap_or("").trim()));
    let seeds = lines.filter(|(_, line)| !line.is_empty()).map(|(i, line)| {
        let seed = seed(line, base, options)
            .map_err(|fault| format!("line {}: read `{}`; {fault}", i + 1, shown(line)))?;
        Ok((Source::SeedFile, seed))
    });
    let seeds = seeds.collect::<Result<Vec<_>, String>>()?;
    match seeds.len() {
        0 => Err("no seed in it. Write a line `-1.2deg 0.4deg` for each".into()),
        1..=255 => Ok(seeds),
        many => Err(format!("{many} seeds, at most 255 are taken. Leave some out")),
    }
}

fn seed(line: &str, base: FxFyCxCy, options: &Options) -> Result<Seed, String> {
    let words: Vec<&str> = line.split_whitespace().collect();
    let (k, x, y) = match words[..] {
        [x, y] => (base, x, y),
        [fx, fy, cx, cy, x, y] => (
            FxFyCxCy {
                fx: above_0(number(fx)?)?,
                fy: above_0(number(fy)?)?,
                cx: number(cx)?,
                cy: number(cy)?,
            },
            x,
            y,
        ),
        _ => {
            return Err(
                "expected two tilts, as `-1.2deg 0.4deg`, or fx fy cx cy and two tilts".into()
            );
        }
    };
    let [tilt_x, tilt_y] = [angle::parse(x)?, angle::parse(y)?];
    if options.one_axis && tilt_y != 0.0 {
        return Err("one-axis holds tilt y at 0. Write 0 as the second tilt".into());
    }
    let bound = options.max_abs_tilt;
    if tilt_x.abs() > bound || tilt_y.abs() > bound {
        return Err(format!(
            "a tilt is beyond the bound, {}°. Leave the seed out, or raise --bound",
            angle::degrees(bound)
        ));
    }
    Ok(Seed { reference_k: k, sensor: ScheimpflugParams { tilt_x, tilt_y } })
}

#[cfg(test)]
mod tests {
    use super::*;

    #[test]
    fn a_file_is_read_and_the_command_line_wins() {
        let text = "# the lab's\ntilts-x -3deg, 0, 3deg\nrounds 4\nno-decomposition\ncentre 655 470\n\
                    seeds my seeds.txt\n";
        let file = Choices::parse(text).unwrap();
        assert_eq!(file.tilts[0].as_ref().map(Vec::len), Some(3));
        assert_eq!((file.centre, file.no_decomposition), (Some([655.0, 470.0]), Some(())));
        assert_eq!(file.seeds, Some("my seeds.txt".into()));
        let typed = Choices { rounds: Some(2), ..Choices::default() };
        assert_eq!(typed.or(file).options().refine_rounds, 2);
    }

    #[test]
    fn what_the_host_needs_again_is_read_back() {
        let text = "centre 655.1 -0.5\ncentre-within 2\nlens -0.1, 0.02, 1e-3, 0, 1e-300\nlens-within 0.001\nmirrored\nmax-tilt 1.5deg\nmax-mean 0.1\nrounds 3\n";
        let choices = Choices::parse(text).unwrap();
        let again = Choices::parse(&choices.host_lines().join("\n")).unwrap();
        assert_eq!(again, Choices { rounds: None, ..choices });
        for text in ["guess-centre", "lens exact", "tangential"] {
            let choices = Choices::parse(text).unwrap();
            assert_eq!(Choices::parse(&choices.host_lines().join("\n")), Ok(choices));
        }
    }

    #[test]
    fn faults_of_a_file_are_named_with_their_line() {
        for (text, fault) in [
            ("\ntilt-x 0", "line 2: read `tilt-x 0`; expected one of centre, guess-centre"),
            ("tilts-x 3", "line 1: read `tilts-x 3`; `3` has no unit"),
            ("rounds", "line 1: read `rounds`; rounds lacks a value"),
            ("rounds 17", "`17` isn't a whole number from 0 to 16"),
            ("centre 1 2 3", "`3` is too much for centre"),
            ("no-decomposition 1", "`1` is too much for no-decomposition"),
            ("step 0", "it isn't above 0"),
            ("bound 0.50001rad", "`0.50001rad` is above 0.5rad, which is 28.6°"),
            ("min-counted 101", "`101` isn't a whole per cent from 0 to 100"),
            ("min-counted 0.5", "`0.5` isn't a whole per cent from 0 to 100"),
            ("step 1deg\nstep 1deg", "line 2: read `step 1deg`; it is stated twice"),
            ("lens 1,2,3,4", "`1,2,3,4` is neither `exact` nor five numbers, K1,K2,P1,P2,K3"),
            ("lens none", "`none` isn't a finite number"),
        ] {
            let told = Choices::parse(text).unwrap_err();
            assert!(told.contains(fault), "{told}");
        }
    }

    #[test]
    fn most_dots_must_be_counted_unless_a_lab_says_otherwise() {
        let min_counted = |text: &str| Choices::parse(text).unwrap().options().min_counted;
        assert_eq!(min_counted(""), MIN_COUNTED);
        assert_eq!(
            ["0", "75", "100%", "75 %"].map(|n| min_counted(&format!("min-counted {n}"))),
            [0, 75, 100, 75]
        );
    }

    #[test]
    fn what_is_said_of_the_lens_goes_together() {
        let choices = |text: &str| Choices::parse(text).unwrap();
        assert_eq!(choices("").lens(), Lens::Open);
        assert_eq!(choices("lens exact").lens(), Lens::Exact);
        assert_eq!(choices("lens 1,2,3,4,5").lens(), Lens::Exact);
        assert_eq!(choices("lens 1,2,3,4,5\nlens-within 0.1").lens(), Lens::Within(0.1));
        assert_eq!(choices("lens 1,2,3,4,5").model().lens.k3, 5.0);
        assert!(choices("tangential").model().tangential);
        for text in
            ["lens exact\nlens-within 0.1", "lens 1,2,3,4,5\ntangential", "lens exact\ntangential"]
        {
            assert!(choices(text).check().unwrap_err().ends_with("eave one of the two out"));
        }
    }

    #[test]
    fn seeds_are_read_with_their_faults() {
        let base = FxFyCxCy { fx: 1.0, fy: 1.0, cx: 0.0, cy: 0.0 };
        let mut options = Options::default();
        let seeds =
            parse_seeds("-1deg 0 # one\n900 900 640 480 0.01rad 2deg\n", base, &options).unwrap();
        assert_eq!(seeds[0].1.reference_k, base);
        assert_eq!(seeds[1].1.numbers()[..5], [900.0, 900.0, 640.0, 480.0, 0.01]);
        for (text, fault) in [
            ("1deg\n", "line 1: read `1deg`; expected two tilts"),
            ("\n1 2deg", "line 2: read `1 2deg`; `1` has no unit"),
            ("20deg 0", "a tilt is beyond the bound, 17.189°"),
            ("0 900 640 480 0 0", "it isn't above 0"),
            ("# none", "no seed in it"),
        ] {
            let told = parse_seeds(text, base, &options).unwrap_err();
            assert!(told.contains(fault), "{told}");
        }
        options.one_axis = true;
        assert_eq!(parse_seeds("-1deg -0", base, &options).map(|seeds| seeds.len()), Ok(1));
        let told = parse_seeds("0 0\n-1deg 0.1deg", base, &options).unwrap_err();
        assert!(told.contains("line 2: read `-1deg 0.1deg`; one-axis holds tilt y at 0"), "{told}");
    }

    #[test]
    fn one_axis_has_a_y_list_of_its_own() {
        let choices = |text: &str| Choices::parse(text).unwrap();
        assert_eq!(choices("one-axis").options().tilt_y_seeds, [0.0]);
        assert!(choices("one-axis\ntilts-x 1deg").options().one_axis);
        assert_eq!(choices("one-axis\ntilts-y 0").check(), Ok(()));
        assert_eq!(choices("tilts-y 0, 1deg").check(), Ok(()));
        let told = choices("one-axis").or(choices("tilts-y 0, 1deg")).check().unwrap_err();
        assert!(told.contains("Leave one of the two out"), "{told}");
    }
}
