//! The journal (docs/SPECIFICATION.md, 8.1 to 8.3): a line for each answered candidate, its writer and its reader.

use crate::{Camera, Entry, Outcome, Scored, Seed};

/// The letters of the skip reasons 1 to 4.
const LETTERS: [&str; 4] = ["H", "C", "E", "N"];

/// The buffer must have this many bytes, however short the line is.
const LEAST_ROOM: usize = 256;
const MOST_NUMBER: usize = 655;
const MOST_ROUND: usize = 16;

/// The bits' 16 digits; every NaN has the same.
fn real(x: f64) -> String {
    let bits = if x.is_nan() { 0x7ff8_0000_0000_0000 } else { x.to_bits() };
    format!("{bits:016x}")
}

/// The line of an entry, to be written to a buffer of so many bytes.
///
/// # Errors
///
/// 28: the buffer is too short, the number or the round too large, the score isn't a number, or there is no such reason.
pub fn write_line(entry: &Entry, room: usize) -> Result<Vec<u8>, u8> {
    let is_too_large = entry.number > MOST_NUMBER || entry.round > MOST_ROUND;
    let measures = measures(&entry.outcome).filter(|_| room >= LEAST_ROOM && !is_too_large);
    let mut fields = vec![entry.number.to_string(), entry.round.to_string()];
    fields.extend(entry.seed.numbers().map(real));
    fields.extend(measures.ok_or(28)?);
    Ok((fields.join(",") + "\n").into_bytes())
}

/// The fields from the outcome on; nothing for an outcome that no line has.
fn measures(outcome: &Outcome) -> Option<Vec<String>> {
    match outcome {
        Outcome::Skipped(reason) => {
            let letter = LETTERS.get(usize::from(*reason).checked_sub(1)?)?;
            Some([vec![*letter], vec!["-"; 8]].concat().into_iter().map(str::to_owned).collect())
        }
        Outcome::Scored(scored) => {
            let camera = scored.camera;
            let reals = [&[scored.score, scored.mean][..], &camera.k, &camera.tangential].concat();
            let fields = ["S".to_owned()].into_iter().chain(reals.into_iter().map(real));
            (!scored.score.is_nan()).then(|| fields.collect())
        }
    }
}

/// What stands at a position of a journal.
#[derive(Clone, Copy, Debug)]
pub enum Reading {
    /// A line, and the position behind its newline.
    Line(Entry, usize),
    /// Nothing.
    End,
    /// 29: what isn't a line, with its number, from 1.
    Refused(usize),
}

/// Reads a line; the radial distortion of its camera, which no line has, is 0.
pub fn read_line(journal: &[u8], at: usize) -> Reading {
    let rest = journal.get(at..).unwrap_or(&[]);
    if rest.is_empty() {
        return Reading::End;
    }
    let len = rest.iter().position(|&byte| byte == b'\n');
    match len.and_then(|len| Some((parse(&rest[..len])?, at + len + 1))) {
        Some((entry, next)) => Reading::Line(entry, next),
        None => Reading::Refused(1 + journal[..at].iter().filter(|&&byte| byte == b'\n').count()),
    }
}

fn parse(line: &[u8]) -> Option<Entry> {
    let fields: Vec<&str> = str::from_utf8(line).ok()?.split(',').collect();
    let [number, round, seed @ .., letter, _, _, _, _, _, _, _, _] = &fields[..] else {
        return None;
    };
    let seed: [f64; 6] = reals(seed)?;
    let measures = &fields[9..];
    let outcome = if *letter == "S" {
        let [score, mean, fx, fy, cx, cy, p1, p2] = reals(measures)?;
        let camera = Camera { k: [fx, fy, cx, cy], radial: [0.0; 3], tangential: [p1, p2] };
        (!score.is_nan()).then_some(Outcome::Scored(Scored { camera, mean, score }))?
    } else {
        let reason = 1 + LETTERS.iter().position(|other| other == letter)?;
        let is_skip = measures.iter().all(|field| *field == "-");
        is_skip.then_some(Outcome::Skipped(reason as u8))?
    };
    let (number, round) = (decimal(number, MOST_NUMBER)?, decimal(round, MOST_ROUND)?);
    Some(Entry { number, round, seed: Seed::from_numbers(&seed), outcome })
}

/// A number that is written as it must be: neither a leading zero nor a sign.
fn decimal(field: &str, most: usize) -> Option<usize> {
    let number: usize = field.parse().ok()?;
    (number <= most && number.to_string() == field).then_some(number)
}

/// As many reals, each written as it must be: 16 digits in lower case, and the one NaN.
fn reals<const N: usize>(fields: &[&str]) -> Option<[f64; N]> {
    let number = |field: &&str| {
        let x = f64::from_bits(u64::from_str_radix(field, 16).ok()?);
        (real(x) == **field).then_some(x)
    };
    fields.iter().map(number).collect::<Option<Vec<_>>>()?.try_into().ok()
}
