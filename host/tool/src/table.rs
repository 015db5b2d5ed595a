//! A search as a table: what it was asked, then a line for each tried tilt, fields separated by commas.

use crate::drive::{Dots, Scored, Source, Tried};
use crate::typed::shown;
use jinnychair::{BrownConrady5, FxFyCxCy, Outcome, PinholeCamera, Seed, SkipReason};

/// How a table begins.
pub const HEAD: &str = "# Every tilt that a search of jinnychair tried.";

/// What a table says of its axes where tilt y was held.
pub const ONE_AXIS: &str = "x alone; tilt y is held at 0";

/// The name of what is said of a journal that isn't known to be its run's.
pub const UNCHECKED: &str = "checked";

/// The name of the lean's tilts and their bounds, in radians, x and y.
pub const LEAN: &str = "lean_rad";

/// The names of the fields, with their units.
pub const FIELDS: &str = "number,round,source,tilt_x_deg,tilt_y_deg,outcome,score,mean_px,rms_px,counted_rows,rows,\
                          fx_px,fy_px,cx_px,cy_px,p1,p2,tilt_x_rad,tilt_y_rad,\
                          seed_fx_px,seed_fy_px,seed_cx_px,seed_cy_px";

/// The letters of the skip reasons, and their words in a chart.
pub const SKIPS: &[(SkipReason, char, &str)] = &[
    (SkipReason::HostFailed, 'H', "the host found no camera"),
    (SkipReason::BadCamera, 'C', "not a camera"),
    (SkipReason::NoMean, 'E', "too few dots counted, or no finite mean"),
    (SkipReason::NoNumber, 'N', "the score is not a number"),
];

/// A search as it is kept: a chart is drawn from it.
#[derive(Clone, Debug, Default, PartialEq)]
pub struct Record {
    /// What it was asked and how it ended: names and texts, in their order. A name may occur again.
    pub about: Vec<(String, String)>,
    /// Every tried tilt.
    pub tried: Vec<Tried>,
}

impl Record {
    /// Adds a text about the search; a line's end in it becomes a space.
    pub fn add(&mut self, name: &str, text: &str) {
        let text: String = text.chars().map(|c| if c.is_control() { ' ' } else { c }).collect();
        self.about.push((name.into(), text.trim().into()));
    }

    /// The first text of a name.
    #[must_use]
    pub fn about(&self, name: &str) -> Option<&str> {
        self.all_about(name).next()
    }

    /// Whether tilt y was held at 0.
    #[must_use]
    pub fn is_one_axis(&self) -> bool {
        self.about("axes") == Some(ONE_AXIS)
    }

    /// The lean's tilts and, where the views determine them, their bounds, in radians.
    #[must_use]
    pub fn lean(&self) -> Option<([f64; 2], Option<[f64; 2]>)> {
        let numbers = self.about(LEAN)?.split(' ').map(|word| word.parse().ok());
        match numbers.collect::<Option<Vec<f64>>>()?[..] {
            [x, y] => Some(([x, y], None)),
            [x, y, by_x, by_y] => Some(([x, y], Some([by_x, by_y]))),
            _ => None,
        }
    }

    /// All texts of a name.
    pub fn all_about(&self, name: &str) -> impl Iterator<Item = &str> {
        self.about.iter().filter(move |(other, _)| other == name).map(|(_, text)| text.as_str())
    }

    /// The table. Numbers are the shortest decimals that are read back to the same float; those in degrees are for
    /// the eye, and radians count. A skipped tilt has a minus sign in place of what it lacks.
    #[must_use]
    pub fn table(&self) -> String {
        let mut text = format!("{HEAD}\n");
        text.extend(self.about.iter().map(|(name, about)| format!("# {name}: {about}\n")));
        text += FIELDS;
        text.push('\n');
        text.extend(self.tried.iter().map(|one| format!("{}\n", fields(one).join(","))));
        text
    }

    /// Reads a table.
    ///
    /// # Errors
    ///
    /// Names the line that isn't of this form, and why.
    pub fn parse(text: &str) -> Result<Self, String> {
        if !text.starts_with(HEAD) {
            let read = text.lines().next().unwrap_or("");
            return Err(format!(
                "line 1: read `{}`; expected `{HEAD}`. Name a table that `jinnychair search` wrote",
                shown(read)
            ));
        }
        let mut record = Self::default();
        let mut lines = text.lines().enumerate().skip(1);
        for (i, line) in lines.by_ref() {
            if line == FIELDS {
                break;
            }
            let about = line.strip_prefix("# ").and_then(|about| about.split_once(": "));
            let (name, about) = about.ok_or_else(|| {
                let expected = format!("`# NAME: TEXT`, or the names of the fields, {FIELDS}");
                format!("line {}: read `{}`; expected {expected}", i + 1, shown(line))
            })?;
            record.add(name, about);
        }
        let tried = lines
            .map(|(i, line)| parse_line(line).map_err(|fault| format!("line {}: {fault}", i + 1)));
        record.tried = tried.collect::<Result<_, _>>()?;
        Ok(record)
    }
}

/// The letter of an outcome.
#[must_use]
pub fn letter(outcome: &Outcome) -> char {
    match outcome {
        Outcome::Scored(_) => 'S',
        Outcome::Skipped(reason) => {
            SKIPS.iter().find(|skip| skip.0 == *reason).map_or('?', |skip| skip.1)
        }
    }
}

/// The words of a source, in a table and in a chart.
#[must_use]
pub fn source_text(source: Source) -> String {
    match source {
        Source::Decomposition => "decomposition".into(),
        Source::SeedFile => "seed file".into(),
        Source::Grid => "grid".into(),
        Source::Around(number) => format!("around {number}"),
    }
}

fn fields(one: &Tried) -> Vec<String> {
    let [fx, fy, cx, cy, x, y] = one.seed.numbers();
    let mut fields = vec![one.number.to_string(), one.round.to_string(), source_text(one.source)];
    fields.extend([x, y].map(|tilt| format!("{:.6}", tilt.to_degrees())));
    fields.push(letter(&one.outcome).into());
    let or_minus = |value: Option<f64>| value.map_or("-".into(), |value| value.to_string());
    let of_scored = |of: fn(&Scored) -> f64| or_minus(one.scored.as_ref().map(of));
    let rms = or_minus(one.scored.and_then(|scored| scored.rms));
    fields.extend([or_minus(one.outcome.score()), of_scored(|s| s.mean), rms]);
    let dots =
        |of: fn(&Dots) -> usize| one.dots.as_ref().map_or("-".into(), |dots| of(dots).to_string());
    fields.extend([dots(|dots| dots.counted), dots(|dots| dots.all)]);
    fields.extend([of_scored(|s| s.camera.k.fx), of_scored(|s| s.camera.k.fy)]);
    fields.extend([of_scored(|s| s.camera.k.cx), of_scored(|s| s.camera.k.cy)]);
    fields.extend([of_scored(|s| s.camera.dist.p1), of_scored(|s| s.camera.dist.p2)]);
    fields.extend([x, y, fx, fy, cx, cy].map(|number| number.to_string()));
    fields
}

fn parse_line(line: &str) -> Result<Tried, String> {
    let fields: Vec<&str> = line.split(',').collect();
    let count = FIELDS.split(',').count();
    if fields.len() != count {
        return Err(format!("{} fields, not {count}", fields.len()));
    }
    let [fx, fy, cx, cy] = numbers(&fields[19..23])?;
    let [x, y] = numbers(&fields[17..19])?;
    let (outcome, scored) = match fields[5] {
        "S" => {
            let [score, mean] = numbers(&fields[6..8])?;
            let rms = if fields[8] == "-" { None } else { Some(numbers::<1>(&fields[8..9])?[0]) };
            let [fx, fy, cx, cy, p1, p2] = numbers(&fields[11..17])?;
            let dist = BrownConrady5 { p1, p2, ..BrownConrady5::default() };
            let camera = PinholeCamera { k: FxFyCxCy { fx, fy, cx, cy }, dist };
            (Outcome::Scored(score), Some(Scored { camera, mean, rms }))
        }
        other => (Outcome::Skipped(skip(other, &[&fields[6..9], &fields[11..17]].concat())?), None),
    };
    let dots = match (fields[9], fields[10]) {
        ("-", "-") => None,
        (counted, all) => Some(Dots { counted: whole(counted)?, all: whole(all)? }),
    };
    let seed = Seed::from_numbers([fx, fy, cx, cy, x, y]);
    let (number, round) = (whole(fields[0])?, whole(fields[1])?);
    Ok(Tried { number, round, source: source(fields[2])?, seed, outcome, scored, dots })
}

fn skip(outcome: &str, later: &[&str]) -> Result<SkipReason, String> {
    let skip = SKIPS.iter().find(|skip| *outcome == skip.1.to_string());
    let skip = skip.ok_or_else(|| format!("`{}` is no outcome", shown(outcome)))?;
    if later.iter().any(|field| *field != "-") {
        return Err("a skipped tilt has minus signs for its score, errors and camera".into());
    }
    Ok(skip.0)
}

fn source(text: &str) -> Result<Source, String> {
    let given = [Source::Decomposition, Source::SeedFile, Source::Grid];
    match given.into_iter().find(|source| source_text(*source) == text) {
        Some(source) => Ok(source),
        None => {
            let number = text
                .strip_prefix("around ")
                .ok_or_else(|| format!("`{}` is no source of a seed", shown(text)))?;
            whole(number).map(Source::Around)
        }
    }
}

fn whole(text: &str) -> Result<usize, String> {
    text.parse().map_err(|_| format!("`{}` isn't a whole number", shown(text)))
}

fn numbers<const N: usize>(fields: &[&str]) -> Result<[f64; N], String> {
    let mut numbers = [0.0; N];
    for (number, field) in numbers.iter_mut().zip(fields) {
        *number = field.parse().map_err(|_| format!("`{}` isn't a number", shown(field)))?;
    }
    Ok(numbers)
}
