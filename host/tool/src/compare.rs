//! Where two journals part: in what their searches started from, in their seeds, outcomes, scores and cameras, and in
//! their winners.

use crate::journal::is_same_seed;
use crate::stretches::winner_text;
use crate::table::letter;
use jinnychair::Winner;
use jinnychair::journal::{
    HostVersion, Line, Recorded, ScoredFields, StoredInputs, stretch_winner,
};

/// What was found, line by line in words, and whether anything differs.
#[derive(Clone, Debug, Default, PartialEq, Eq)]
pub struct Comparison {
    /// In words.
    pub said: Vec<String>,
    /// Where they part first, if they do.
    pub parted: Option<String>,
}

impl Comparison {
    fn say(&mut self, name: &str, text: &str) {
        self.said.push(format!("{name:16}{text}"));
    }

    fn part(&mut self, place: impl Into<String>) {
        self.parted.get_or_insert(place.into());
    }
}

/// The lines of an inputs file that say what was searched. Neither the version nor the date nor the views' name does, nor
/// what is said about them.
const NAMES: &[&str] = &[
    "views-sha256",
    "views",
    "rounds",
    "step",
    "bound",
    "one-axis",
    "min-counted",
    "base-fx",
    "base-fy",
    "base-cx",
    "base-cy",
    "centre-x",
    "centre-y",
    "tilt-x",
    "tilt-y",
    "seed-fx",
    "seed-fy",
    "seed-cx",
    "seed-cy",
    "seed-tilt-x",
    "seed-tilt-y",
    "note decomposition-seeds",
    "note choice",
];

/// Compares what two searches started from. Versions are shown, but with different versions the same search needn't differ in anything.
pub fn inputs(a: &StoredInputs, b: &StoredInputs, found: &mut Comparison) {
    if a.library != b.library {
        found.say("versions", &format!("{} and {}", a.library, b.library));
    }
    if a.host != b.host {
        let name = |host: &Option<HostVersion>| {
            host.as_ref().map_or("not named".into(), HostVersion::to_string)
        };
        found.say("hosts", &format!("{} and {}", name(&a.host), name(&b.host)));
    }
    let texts = [a.text(), b.text()];
    let mut is_same = true;
    for name in NAMES {
        let [a, b] = texts.each_ref().map(|text| values(text, name));
        if a != b {
            is_same = false;
            found.say("inputs", &format!("{name}: {a} and {b}"));
        }
    }
    if is_same {
        found.say("inputs", "the same");
    } else {
        found.part("in what the searches started from");
    }
}

/// What the lines of a name say. A real has its bits before its decimals, which tell as much.
fn values(text: &str, name: &str) -> String {
    let is_bits = |word: &str| word.len() == 16 && word.bytes().all(|b| b.is_ascii_hexdigit());
    let values = text.lines().filter_map(|line| line.strip_prefix(name)?.strip_prefix(' '));
    let shown = values.map(|value| match value.split_once(' ') {
        Some((bits, decimals)) if is_bits(bits) => decimals,
        _ => value,
    });
    let shown: Vec<&str> = shown.collect();
    if shown.is_empty() { "none".into() } else { shown.join(", ") }
}

/// What is compared of two lines: a name, and what both have where they differ.
type Aspect = (&'static str, fn(&Line, &Line) -> Option<[String; 2]>);

const ASPECTS: &[Aspect] = &[
    ("seeds", seeds),
    ("outcomes", outcomes),
    ("scores", |a, b| numbers(a, b, |fields| vec![("", fields.score)])),
    ("means", |a, b| numbers(a, b, |fields| vec![("", fields.mean_reproj_error)])),
    ("cameras", |a, b| {
        numbers(a, b, |fields| {
            let k = fields.k;
            let names = ["fx ", "fy ", "cx ", "cy ", "p1 ", "p2 "];
            names.into_iter().zip([k.fx, k.fy, k.cx, k.cy, fields.p1, fields.p2]).collect()
        })
    }),
];

/// Compares the lines of two journals.
pub fn lines(a: &[Line], b: &[Line], found: &mut Comparison) {
    let both = a.len().min(b.len());
    found.say("lines", &format!("{} and {}", a.len(), b.len()));
    let mut firsts = vec![];
    for (name, differ) in ASPECTS {
        let differing: Vec<_> =
            (0..both).filter_map(|i| Some((i, differ(&a[i], &b[i])?))).collect();
        match differing.first() {
            None => found.say(name, &format!("the same in all {both} lines that both have")),
            Some((first, [a, b])) => {
                let count = differing.len();
                found.say(
                    name,
                    &format!(
                        "{count} of {both} lines differ, the first is line {}: {a} and {b}",
                        first + 1
                    ),
                );
                firsts.push((*first, *name));
            }
        }
    }
    if let Some((line, name)) = firsts.into_iter().min_by_key(|(line, _)| *line) {
        found.part(format!("in line {}, by their {name}", line + 1));
    }
    if a.len() != b.len() {
        let (longer, name) = if a.len() > b.len() { (a, "first") } else { (b, "second") };
        found.say(
            "more lines",
            &format!("lines {} to {} are in the {name} alone", both + 1, longer.len()),
        );
        found.part(format!("behind line {both}, where one of them ends"));
    }
}

/// Numbers, rounds and seeds.
fn seeds(a: &Line, b: &Line) -> Option<[String; 2]> {
    if (a.number, a.round) != (b.number, b.round) {
        return Some([a, b].map(|line| format!("no. {} in round {}", line.number, line.round)));
    }
    if is_same_seed(&a.seed, &b.seed) {
        return None;
    }
    Some(differing(
        &a.seed.numbers(),
        &b.seed.numbers(),
        &["fx ", "fy ", "cx ", "cy ", "tilt x ", "tilt y "],
    ))
}

fn outcomes(a: &Line, b: &Line) -> Option<[String; 2]> {
    let letters = [a, b].map(|line| letter(&line.outcome()));
    (letters[0] != letters[1]).then(|| letters.map(String::from))
}

/// Numbers of scored lines.
fn numbers(
    a: &Line,
    b: &Line,
    of: fn(&ScoredFields) -> Vec<(&'static str, f64)>,
) -> Option<[String; 2]> {
    let (Recorded::Scored(a), Recorded::Scored(b)) = (&a.outcome, &b.outcome) else { return None };
    let (names, a): (Vec<&str>, Vec<f64>) = of(a).into_iter().unzip();
    let b: Vec<f64> = of(b).into_iter().map(|(_, number)| number).collect();
    let is_same = a.iter().zip(&b).all(|(a, b)| a.to_bits() == b.to_bits());
    (!is_same).then(|| differing(&a, &b, &names))
}

/// The first number that differs, with its name and all its digits.
fn differing(a: &[f64], b: &[f64], names: &[&str]) -> [String; 2] {
    let pairs = a.iter().zip(b).zip(names);
    let first = pairs.into_iter().find(|((a, b), _)| a.to_bits() != b.to_bits());
    first.map_or_else(Default::default, |((a, b), name)| {
        [format!("{name}{a:?}"), format!("{name}{b:?}")]
    })
}

/// Compares the winners; where a run isn't over, its best so far.
pub fn winners(a: &[Line], b: &[Line], found: &mut Comparison) {
    let (a, b) = (stretch_winner(a), stretch_winner(b));
    let text = |won: &Option<Winner>| {
        won.map_or("none".into(), |won| format!("{} ({:?})", winner_text(&won), won.score))
    };
    if a == b {
        found.say("winners", &format!("the same: {}", text(&a)));
    } else {
        found.say("winners", &format!("{}, and {}", text(&a), text(&b)));
        found.part("in their winners");
    }
}
