//! The journal's line, by docs/SPECIFICATION.md, 8.1: fields are cut at their commas and tested one by one. The library, which is
//! compared with this, makes a line by position and compares what it would write.

/// The fields of a line, reals as their bits.
#[derive(Clone, Copy, Debug, PartialEq)]
pub struct Line {
    pub number: u64,
    pub round: u64,
    /// fx, fy, cx, cy, tilt x, tilt y.
    pub seed: [u64; 6],
    /// 0 for S, and else the reason.
    pub skipped: u64,
    /// Score, mean, fx, fy, cx, cy, p1, p2; zeros for a skipped candidate.
    pub scored: [u64; 8],
}

/// The one NaN that the journal has.
pub const NAN: u64 = 0x7ff8_0000_0000_0000;

pub fn is_nan(bits: u64) -> bool {
    f64::from_bits(bits).is_nan()
}

/// The letter of a reason, S for none.
const LETTERS: [&str; 5] = ["S", "H", "C", "E", "N"];

impl Line {
    /// As the stored cases have it.
    pub fn words(&self) -> Vec<u64> {
        let head = [self.number, self.round];
        [&head[..], &self.seed, &[self.skipped], &self.scored].concat()
    }

    /// The same with the one NaN for every NaN, and no numbers where none are written: what the line's bytes tell.
    #[cfg(test)]
    fn told(&self) -> Self {
        let one = |bits: u64| if is_nan(bits) { NAN } else { bits };
        let scored = if self.skipped == 0 { self.scored.map(one) } else { [0; 8] };
        Self { seed: self.seed.map(one), scored, ..*self }
    }

    /// Its text with the newline, where the journal has such a line.
    pub fn text(&self) -> Option<String> {
        let is_scored = self.skipped == 0;
        if self.number > 655
            || self.round > 16
            || self.skipped > 4
            || is_scored && is_nan(self.scored[0])
        {
            return None;
        }
        let real = |&bits: &u64| format!("{:016x}", if is_nan(bits) { NAN } else { bits });
        let mut fields = vec![self.number.to_string(), self.round.to_string()];
        fields.extend(self.seed.iter().map(real));
        fields.push(LETTERS[self.skipped as usize].to_owned());
        fields.extend(
            self.scored.iter().map(|bits| if is_scored { real(bits) } else { "-".to_owned() }),
        );
        Some(fields.join(",") + "\n")
    }
}

/// A decimal without leading zeros, at most `most`.
fn decimal(field: &str, most: u64) -> Option<u64> {
    let is_plain = !field.is_empty() && field.bytes().all(|byte| byte.is_ascii_digit());
    if !is_plain || field.len() > 1 && field.starts_with('0') {
        return None;
    }
    field.parse().ok().filter(|&number| number <= most)
}

/// A real's bits.
fn real(field: &str) -> Option<u64> {
    let is_digit = |byte: u8| matches!(byte, b'0'..=b'9' | b'a'..=b'f');
    if field.len() != 16 || !field.bytes().all(is_digit) {
        return None;
    }
    let bits = u64::from_str_radix(field, 16).ok()?;
    (!is_nan(bits) || bits == NAN).then_some(bits)
}

fn reals<const N: usize>(fields: &[&str]) -> Option<[u64; N]> {
    let bits: Option<Vec<u64>> = fields.iter().map(|field| real(field)).collect();
    bits?.try_into().ok()
}

/// The line that bytes begin with, if they do, and its length.
pub fn read(bytes: &[u8]) -> Option<(Line, usize)> {
    let end = bytes.iter().position(|&byte| byte == b'\n')?;
    let text = std::str::from_utf8(&bytes[..end]).ok()?;
    let fields: Vec<&str> = text.split(',').collect();
    if fields.len() != 17 {
        return None;
    }
    let (number, round) = (decimal(fields[0], 655)?, decimal(fields[1], 16)?);
    let skipped = LETTERS.iter().position(|letter| *letter == fields[8])? as u64;
    let scored: [u64; 8] = if skipped == 0 {
        reals(&fields[9..])?
    } else if fields[9..].iter().all(|field| *field == "-") {
        [0; 8]
    } else {
        return None;
    };
    if skipped == 0 && is_nan(scored[0]) {
        return None;
    }
    Some((Line { number, round, seed: reals(&fields[2..8])?, skipped, scored }, end + 1))
}

#[cfg(test)]
mod tests {
    use super::*;

    fn line() -> Line {
        let one = 1f64.to_bits();
        Line { number: 0, round: 0, seed: [one; 6], skipped: 0, scored: [one; 8] }
    }

    #[test]
    fn texts() {
        let one = "3ff0000000000000";
        let six = [one; 6].join(",");
        assert_eq!(line().text(), Some(format!("0,0,{six},S,{six},{one},{one}\n")));
        let skipped = Line { number: 655, round: 16, skipped: 4, ..line() };
        assert_eq!(skipped.text(), Some(format!("655,16,{six},N,-,-,-,-,-,-,-,-\n")));
        assert_eq!(skipped.text().map(|text| text.len()), Some(127));
        for bad in [
            Line { number: 656, ..line() },
            Line { round: 17, ..line() },
            Line { skipped: 5, ..line() },
            Line { scored: [NAN; 8], ..line() },
        ] {
            assert_eq!(bad.text(), None);
        }
    }

    #[test]
    fn what_is_written_is_read() {
        for skipped in 0..=4 {
            let line = Line { skipped, seed: [0xfff0_0000_0000_0001; 6], ..line() };
            let text = line.text().unwrap() + "0,0";
            assert_eq!(read(text.as_bytes()), Some((line.told(), text.len() - 3)));
            assert_eq!(read(&text.as_bytes()[..text.len() - 4]), None);
        }
    }
}
