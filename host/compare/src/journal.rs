//! The journal's line and the report's in plain Rust, as one would write them. The benchmark compares the library with them.

use jinnychair::journal::{Line, Recorded, ScoredFields};
use jinnychair::{FxFyCxCy, ScheimpflugParams, Seed, SkipReason};
use std::io::Write;

/// Bytes that a buffer for a line has.
pub const LINE_LEN: usize = 256;

const DIGITS: &[u8; 16] = b"0123456789abcdef";
const NAN: u64 = 0x7ff8_0000_0000_0000;

fn write_decimal(number: usize, to: &mut [u8], mut at: usize) -> usize {
    for unit in [100, 10] {
        if number >= unit {
            to[at] = b'0' + (number / unit % 10) as u8;
            at += 1;
        }
    }
    to[at] = b'0' + (number % 10) as u8;
    at + 1
}

fn write_real(x: f64, to: &mut [u8], at: usize) -> usize {
    let bits = if x.is_nan() { NAN } else { x.to_bits() };
    to[at] = b',';
    for i in 0..16 {
        to[at + 1 + i] = DIGITS[(bits >> (60 - 4 * i)) as usize & 15];
    }
    at + 17
}

fn six(seed: &Seed) -> [f64; 6] {
    let (k, t) = (seed.reference_k, seed.sensor);
    [k.fx, k.fy, k.cx, k.cy, t.tilt_x, t.tilt_y]
}

/// Writes the line to the front of `to` and gives its length, where the journal has such a line and the buffer room for any.
#[inline(never)]
pub fn write_line(line: &Line, to: &mut [u8]) -> Option<usize> {
    if to.len() < LINE_LEN || line.number > 655 || line.round > 16 {
        return None;
    }
    if let Recorded::Scored(fields) = line.outcome
        && fields.score.is_nan()
    {
        return None;
    }
    let mut at = write_decimal(line.number, to, 0);
    to[at] = b',';
    at = write_decimal(line.round, to, at + 1);
    for x in six(&line.seed) {
        at = write_real(x, to, at);
    }
    to[at] = b',';
    at += 2;
    match line.outcome {
        Recorded::Scored(ScoredFields { score, mean_reproj_error: mean, k, p1, p2 }) => {
            to[at - 1] = b'S';
            for x in [score, mean, k.fx, k.fy, k.cx, k.cy, p1, p2] {
                at = write_real(x, to, at);
            }
        }
        Recorded::Skipped(reason) => {
            to[at - 1] = b"HCEN"[usize::from(reason.number()) - 1];
            for _ in 0..8 {
                to[at] = b',';
                to[at + 1] = b'-';
                at += 2;
            }
        }
    }
    to[at] = b'\n';
    Some(at + 1)
}

/// Takes bytes from the front.
struct Front<'a>(&'a [u8]);

impl Front<'_> {
    fn byte(&mut self) -> Option<u8> {
        let (&first, rest) = self.0.split_first()?;
        self.0 = rest;
        Some(first)
    }

    fn skip(&mut self, byte: u8) -> Option<()> {
        (self.byte()? == byte).then_some(())
    }

    fn decimal(&mut self, most: usize) -> Option<usize> {
        let len = self.0.iter().take(4).take_while(|byte| byte.is_ascii_digit()).count();
        let (digits, rest) = self.0.split_at(len);
        if len == 0 || len > 1 && digits[0] == b'0' {
            return None;
        }
        self.0 = rest;
        let number = digits.iter().fold(0, |n, digit| 10 * n + usize::from(digit - b'0'));
        (number <= most).then_some(number)
    }

    fn real(&mut self) -> Option<f64> {
        self.skip(b',')?;
        let (digits, rest) = self.0.split_at_checked(16)?;
        self.0 = rest;
        let mut bits = 0;
        for &byte in digits {
            let digit = match byte {
                b'0'..=b'9' => byte - b'0',
                b'a'..=b'f' => byte - b'a' + 10,
                _ => return None,
            };
            bits = bits << 4 | u64::from(digit);
        }
        let x = f64::from_bits(bits);
        (!x.is_nan() || bits == NAN).then_some(x)
    }

    fn reals<const N: usize>(&mut self) -> Option<[f64; N]> {
        let mut reals = [0.0; N];
        for x in &mut reals {
            *x = self.real()?;
        }
        Some(reals)
    }
}

/// The line that bytes begin with, and its length.
#[inline(never)]
pub fn read_line(bytes: &[u8]) -> Option<(Line, usize)> {
    let front = &mut Front(bytes);
    let number = front.decimal(655)?;
    front.skip(b',')?;
    let round = front.decimal(16)?;
    let [fx, fy, cx, cy, tilt_x, tilt_y] = front.reals()?;
    let seed = Seed {
        reference_k: FxFyCxCy { fx, fy, cx, cy },
        sensor: ScheimpflugParams { tilt_x, tilt_y },
    };
    front.skip(b',')?;
    let outcome = match front.byte()? {
        b'S' => {
            let [score, mean, fx, fy, cx, cy, p1, p2] = front.reals()?;
            let k = FxFyCxCy { fx, fy, cx, cy };
            if score.is_nan() {
                return None;
            }
            Recorded::Scored(ScoredFields { score, mean_reproj_error: mean, k, p1, p2 })
        }
        letter => {
            let reason = b"HCEN".iter().position(|other| *other == letter)?;
            for _ in 0..8 {
                front.skip(b',')?;
                front.skip(b'-')?;
            }
            Recorded::Skipped(SkipReason::ALL[reason])
        }
    };
    front.skip(b'\n')?;
    Some((Line { number, round, seed, outcome }, bytes.len() - front.0.len()))
}

/// The line that bytes begin with, written once more and compared with them, as the library does.
pub fn read_and_write_line(bytes: &[u8]) -> Option<(Line, usize)> {
    let (line, len) = read_line(bytes)?;
    let mut again = [0; LINE_LEN];
    let written = write_line(&line, &mut again)?;
    (again[..written] == bytes[..len]).then_some((line, len))
}

/// The report's line.
#[inline(never)]
pub fn write_report(counts: &[usize; 5], to: &mut [u8]) -> Option<usize> {
    let total = counts.iter().try_fold(0_usize, |sum, count| sum.checked_add(*count))?;
    if to.len() < 24 || total > 656 {
        return None;
    }
    let mut rest = &mut to[..];
    let [a, b, c, d, e] = counts;
    writeln!(rest, "{a},{b},{c},{d},{e},{total}").ok()?;
    let left = rest.len();
    Some(to.len() - left)
}
