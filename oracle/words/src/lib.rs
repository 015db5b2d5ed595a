//! Words: 64 bits, written as 16 hexadecimal digits; a float's bits, a count, a flag or a number.
//! Requests, answers and the stored files are made of them.

pub mod start;

use std::hint::black_box;

/// The folder of the stored files.
pub const STORED: &str = concat!(env!("CARGO_MANIFEST_DIR"), "/../stored");

/// The one NaN that floats are written with.
pub const NAN: u64 = 0x7ff8_0000_0000_0000;

/// The word of a float. The bits are hidden from the compiler, which may take one
/// NaN for another and then leaves out the choice between them.
pub fn word(value: f64) -> u64 {
    let bits = black_box(value.to_bits());
    let without_sign = bits & !(1 << 63);
    if without_sign > f64::INFINITY.to_bits() { NAN } else { bits }
}

/// The words of floats.
pub fn float_words(values: &[f64]) -> Vec<u64> {
    values.iter().map(|&value| word(value)).collect()
}

/// Words separated by single spaces.
pub fn line(words: &[u64]) -> String {
    let digits: Vec<String> = words.iter().map(|word| format!("{word:016x}")).collect();
    digits.join(" ")
}

/// The words of a line.
///
/// # Errors
///
/// Names the first text that isn't 16 lower-case hexadecimal digits.
pub fn parse<'a>(texts: impl Iterator<Item = &'a str>) -> Result<Vec<u64>, String> {
    let is_digit = |byte: u8| byte.is_ascii_digit() || (b'a'..=b'f').contains(&byte);
    texts
        .map(|text| match u64::from_str_radix(text, 16) {
            Ok(word) if text.len() == 16 && text.bytes().all(is_digit) => Ok(word),
            _ => Err(format!("`{text}` isn't a word")),
        })
        .collect()
}

/// A stored file: the header, then a line for each case.
pub fn file(operation: &str, made_by: &str, cases: &[String]) -> String {
    format!(
        "# jinnychair vectors 1\n# operation {operation}\n# cases {}\n# made by {made_by}\n{}",
        cases.len(),
        cases.concat()
    )
}

/// A case's line.
pub fn case(input: &[u64], output: &[u64]) -> String {
    format!("{} = {}\n", line(input), line(output))
}

/// Reads an operation's input words in order.
pub struct Reader<'a> {
    rest: &'a [u64],
}

impl<'a> Reader<'a> {
    pub fn new(words: &'a [u64]) -> Self {
        Self { rest: words }
    }

    /// # Errors
    ///
    /// The input is too short.
    pub fn number(&mut self) -> Result<u64, String> {
        let (&first, rest) = self.rest.split_first().ok_or("the input is too short")?;
        self.rest = rest;
        Ok(first)
    }

    /// # Errors
    ///
    /// The input is too short or the number doesn't fit.
    pub fn count(&mut self) -> Result<usize, String> {
        let number = self.number()?;
        usize::try_from(number).map_err(|_| format!("{number} is too large"))
    }

    /// # Errors
    ///
    /// The input is too short or the flag is neither 0 nor 1.
    pub fn flag(&mut self) -> Result<bool, String> {
        match self.number()? {
            0 => Ok(false),
            1 => Ok(true),
            other => Err(format!("{other} isn't a flag")),
        }
    }

    /// # Errors
    ///
    /// The input is too short.
    pub fn float(&mut self) -> Result<f64, String> {
        self.number().map(f64::from_bits)
    }

    /// # Errors
    ///
    /// The input is too short.
    pub fn floats<const N: usize>(&mut self) -> Result<[f64; N], String> {
        let mut values = [0.0; N];
        for value in &mut values {
            *value = self.float()?;
        }
        Ok(values)
    }

    /// A list of floats after its length.
    ///
    /// # Errors
    ///
    /// The input is too short.
    pub fn list(&mut self) -> Result<Vec<f64>, String> {
        let length = self.count()?;
        if length > self.rest.len() {
            return Err("the input is too short".to_owned());
        }
        (0..length).map(|_| self.float()).collect()
    }

    /// Whether all words are read.
    pub fn is_empty(&self) -> bool {
        self.rest.is_empty()
    }

    /// # Errors
    ///
    /// The input has words left over.
    pub fn end(self) -> Result<(), String> {
        if self.is_empty() {
            return Ok(());
        }
        Err(format!("{} words are left over", self.rest.len()))
    }
}

#[cfg(test)]
mod tests {
    use super::{Reader, line, parse, word};
    use std::hint::black_box;

    #[test]
    fn words_are_written_and_read() {
        let words = [0, 1.5_f64.to_bits(), u64::MAX];
        let text = line(&words);
        assert_eq!(text, "0000000000000000 3ff8000000000000 ffffffffffffffff");
        assert_eq!(parse(text.split(' ')), Ok(words.to_vec()));
        for wrong in ["1", "+000000000000001", "3FF8000000000000", "", "00000000000000001"] {
            assert!(parse([wrong].into_iter()).is_err(), "{wrong}");
        }
    }

    #[test]
    fn any_nan_is_answered_as_one() {
        for bits in [0xfff8_0000_0000_0000, 0xfff0_0000_0000_0001, 0x7ff0_0000_0000_0001, u64::MAX]
        {
            assert_eq!(word(f64::from_bits(bits)), 0x7ff8_0000_0000_0000);
        }
        assert_eq!(word(f64::sqrt(black_box(-1.0))), 0x7ff8_0000_0000_0000);
        assert_eq!(word(f64::NEG_INFINITY), 0xfff0_0000_0000_0000);
        assert_eq!(word(-0.0), 0x8000_0000_0000_0000);
    }

    #[test]
    fn short_and_long_inputs_are_refused() {
        let mut reader = Reader::new(&[2, 0]);
        assert!(reader.list().is_err());
        assert!(Reader::new(&[0]).end().is_err());
        assert!(Reader::new(&[2]).flag().is_err());
    }
}
