//! A journal in stretches and in rounds, and their winners. The winner of the winners is that of all lines together, ties
//! included, however they are cut.

use crate::angle::degrees;
use jinnychair::journal::{Line, round_winners, stretch_winner};
use jinnychair::{Winner, winner};
use std::fmt::{Display, Formatter, Result as FmtResult};

/// Lines that follow each other, counted from 1.
#[derive(Clone, Copy, Debug, PartialEq, Eq)]
pub struct Stretch {
    /// The first.
    pub first: usize,
    /// The last.
    pub last: usize,
}

impl Display for Stretch {
    fn fmt(&self, f: &mut Formatter) -> FmtResult {
        match self {
            Self { first, last } if first == last => write!(f, "line {first}"),
            Self { first, last } => write!(f, "lines {first} to {last}"),
        }
    }
}

impl Stretch {
    /// Those of its lines that there are.
    fn of<'a>(&self, lines: &'a [Line]) -> &'a [Line] {
        &lines[(self.first - 1).min(lines.len())..self.last.min(lines.len())]
    }

    fn parse(text: &str) -> Option<Self> {
        let (first, last) = text.split_once('-').unwrap_or((text, text));
        let [first, last] = [first, last].map(|number| number.trim().parse::<usize>());
        let (first, last) = (first.ok()?, last.ok()?);
        (1 <= first && first <= last).then_some(Self { first, last })
    }
}

/// Reads stretches as they are typed: `1-20,21-46`.
///
/// # Errors
///
/// Says what was read, and what is expected.
pub fn parse(text: &str) -> Result<Vec<Stretch>, String> {
    let mut stretches: Vec<Stretch> = vec![];
    for part in text.split(',') {
        let stretch = Stretch::parse(part).ok_or_else(|| {
            format!("`{part}` isn't a stretch: write its first and last line, as 1-20, from 1 on")
        })?;
        if stretches.last().is_some_and(|before| before.last >= stretch.first) {
            return Err(format!(
                "`{part}` doesn't lie behind the stretch before it: write them in order, each line in one of them"
            ));
        }
        stretches.push(stretch);
    }
    Ok(stretches)
}

/// A part of a journal, and its winner.
#[derive(Clone, Debug, PartialEq)]
pub struct Won {
    /// The part, in words.
    pub part: String,
    /// Its winner.
    pub winner: Option<Winner>,
    /// Why there is none.
    pub none: String,
}

impl Won {
    /// The winner in words, or why there is none.
    #[must_use]
    pub fn text(&self) -> String {
        self.winner.map_or_else(|| format!("none: {}", self.none), |won| winner_text(&won))
    }
}

/// A winner in words.
#[must_use]
pub fn winner_text(won: &Winner) -> String {
    let [x, y] = [won.sensor.tilt_x, won.sensor.tilt_y].map(degrees);
    format!("no. {}, score {:.5} at {x}° {y}°", won.number, won.score)
}

/// The winner of each stretch.
#[must_use]
pub fn of_stretches(lines: &[Line], stretches: &[Stretch]) -> Vec<Won> {
    let won = |stretch: &Stretch| {
        let none = match stretch.of(lines) {
            [] => format!("the journal has {} lines", lines.len()),
            _ => "no tilt in it was scored".into(),
        };
        Won { part: stretch.to_string(), winner: stretch_winner(stretch.of(lines)), none }
    };
    stretches.iter().map(won).collect()
}

/// The winner of each round.
#[must_use]
pub fn of_rounds(lines: &[Line]) -> Vec<Won> {
    let won = |(round, winner): (usize, Option<Winner>)| {
        let of_round = |line: &&Line| line.round == round;
        let (tried, part) = (lines.iter().filter(of_round).count(), format!("round {round}"));
        let none = match tried {
            0 => "it has no lines".into(),
            tried => format!("none of its {tried} tilts was scored"),
        };
        Won { part, winner, none }
    };
    round_winners(lines).into_iter().enumerate().map(won).collect()
}

/// The winner of winners.
#[must_use]
pub fn of_all(parts: &[Won]) -> Option<Winner> {
    parts.iter().fold(None, |best, part| winner(best, part.winner))
}

/// The lines of a journal that are in no stretch.
#[must_use]
pub fn left_out(lines: usize, stretches: &[Stretch]) -> Vec<Stretch> {
    let ends = stretches.iter().map(|stretch| stretch.last + 1);
    let firsts = [1].into_iter().chain(ends);
    let nexts = stretches.iter().map(|stretch| stretch.first).chain([lines + 1]);
    let gaps = firsts.zip(nexts).map(|(first, next)| Stretch { first, last: next - 1 });
    gaps.map(|gap| Stretch { last: gap.last.min(lines), ..gap })
        .filter(|gap| gap.first <= gap.last)
        .collect()
}

/// Winners of parts, and the winner of those, in words.
#[must_use]
pub fn text(name: &str, parts: &[Won]) -> String {
    let width = parts.iter().map(|part| part.part.chars().count()).max().unwrap_or(0).max(14);
    let mut text = format!("{name}\n");
    for part in parts {
        text += &format!("  {:width$}{}\n", part.part, part.text(), width = width + 2);
    }
    let all = of_all(parts).map_or("none: nothing was scored".into(), |won| winner_text(&won));
    text + &format!("  {:width$}{all}", "all of these", width = width + 2)
}

#[cfg(test)]
mod tests {
    use super::*;

    #[test]
    fn stretches_are_read_in_their_order() {
        let stretch = |first, last| Stretch { first, last };
        assert_eq!(
            parse("1-20, 21-46,50"),
            Ok(vec![stretch(1, 20), stretch(21, 46), stretch(50, 50)])
        );
        for (text, fault) in [
            ("", "`` isn't a stretch: write its first and last line, as 1-20"),
            ("0-3", "`0-3` isn't a stretch"),
            ("5-4", "`5-4` isn't a stretch"),
            ("1-2-3", "`1-2-3` isn't a stretch"),
            ("1-x", "`1-x` isn't a stretch"),
            ("1-20,20-30", "`20-30` doesn't lie behind the stretch before it"),
            ("5-9,1-2", "`1-2` doesn't lie behind the stretch before it"),
        ] {
            let told = parse(text).unwrap_err();
            assert!(told.contains(fault), "{told}");
        }
    }

    #[test]
    fn what_is_in_no_stretch_is_found() {
        let gaps = |lines, text: &str| {
            let gaps = left_out(lines, &parse(text).unwrap());
            gaps.iter().map(Stretch::to_string).collect::<Vec<_>>()
        };
        assert_eq!(gaps(10, "1-4,5-10"), Vec::<String>::new());
        assert_eq!(gaps(10, "2-4,6-9"), ["line 1", "line 5", "line 10"]);
        assert_eq!(gaps(10, "1-2,20-30"), ["lines 3 to 10"]);
        assert_eq!(gaps(10, "1-30"), Vec::<String>::new());
        assert_eq!(gaps(0, "1-30"), Vec::<String>::new());
    }
}
