//! The stored vectors: input words drawn for each operation, and the oracle's answers.

mod models;
mod points;
mod score;
mod searches;
mod seeds;
mod values;

use crate::operations::answer;
use random::Random;
use words::{NAN, case, file, float_words};

/// The random cases of a leaf operation; a file has its fixed cases besides.
const RANDOM_CASES: usize = 1000;

/// Draws the input words of one case.
type DrawCase = fn(&mut Random) -> Vec<u64>;

/// The cases of one operation.
struct Family {
    operation: &'static str,
    /// Cases that are there whatever is drawn: values worked out by hand, limits, exact edges.
    fixed: fn() -> Vec<Vec<u64>>,
    random: usize,
    draw: DrawCase,
}

fn families() -> Vec<Family> {
    let groups = [models::families(), points::families(), score::families(), seeds::families()];
    let mut families: Vec<Family> = groups.into_iter().flatten().collect();
    families.extend(searches::families());
    families
}

/// Every file's operation and text.
pub fn files() -> Vec<(&'static str, String)> {
    families().iter().map(|family| (family.operation, text(family))).collect()
}

/// A line for each case.
fn text(family: &Family) -> String {
    let name = family.operation;
    let mut patterns = Random::named(&format!("{name}, patterns of NaN"));
    let fixed = (family.fixed)().into_iter().map(|input| answered(name, input, &mut patterns));
    let mut cases: Vec<Case> = fixed.map(|case| case.expect("a fixed case")).collect();
    cases.extend(drawn(family, Random::named(name), patterns).take(family.random));
    let lines: Vec<String> = cases.iter().map(|(input, output)| case(input, output)).collect();
    let rule = if name == "search" { "; a NaN score loses" } else { "" };
    let made_by = format!(
        "oracle/answers, program generate: calibration-rs 1c21d7f0aa with the listed patches and \
         the specification's distortion lines{rule}; draws named {name}"
    );
    file(name, &made_by, &lines)
}

/// Input words and the oracle's answer.
pub type Case = (Vec<u64>, Vec<u64>);

/// The cases of one operation without end, of the same kinds as the stored ones but drawn from other sources.
pub struct Endless {
    pub operation: &'static str,
    pub cases: Box<dyn Iterator<Item = Case>>,
}

/// Every operation's cases, drawn from sources that `seed` names; of the design rows a second time,
/// at the least spread of their points.
pub fn endless(seed: &str) -> Vec<Endless> {
    let endless = |family: Family| {
        let operation = family.operation;
        let random = Random::named(&format!("{operation}, {seed}"));
        let patterns = Random::named(&format!("{operation}, {seed}, patterns of NaN"));
        Endless { operation, cases: Box::new(drawn(&family, random, patterns)) }
    };
    families().into_iter().chain([points::at_the_spread()]).map(endless).collect()
}

/// Drawn cases without end. A draw that the oracle can't answer is drawn again.
fn drawn(
    family: &Family,
    mut random: Random,
    mut patterns: Random,
) -> impl Iterator<Item = Case> + use<> {
    let (operation, draw) = (family.operation, family.draw);
    std::iter::repeat_with(move || answered(operation, draw(&mut random), &mut patterns)).flatten()
}

fn answered(operation: &str, mut input: Vec<u64>, patterns: &mut Random) -> Option<Case> {
    draw_nans(&mut input, patterns);
    answer(operation, &input).ok().map(|output| (input, output))
}

/// Gives each NaN of an input one of several patterns. They are drawn here, as words, since a NaN
/// that arithmetic makes may have any pattern, and the files may not.
fn draw_nans(input: &mut [u64], random: &mut Random) {
    let patterns =
        [NAN, NAN, NAN | 1 << 63, 0x7ff0_0000_0000_0001, 0xfff8_0000_dead_beef, u64::MAX];
    for word in input.iter_mut().filter(|word| **word == NAN) {
        *word = random.pick(&patterns);
    }
}

/// Input words: floats, then a list after its length.
fn with_list(floats: &[f64], list: &[f64]) -> Vec<u64> {
    let mut words = float_words(floats);
    words.push(list.len() as u64);
    words.extend(float_words(list));
    words
}

#[cfg(test)]
mod tests {
    use super::files;

    #[test]
    fn a_second_run_writes_the_same_bytes() {
        assert!(files() == files());
    }
}
