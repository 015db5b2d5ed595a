//! What the programs of this crate share: their words, the differences that they print, and how they end.

use std::process::ExitCode;

/// Beyond this many, differences are counted and not printed.
const MOST_PRINTED: usize = 20;

/// The differences that a program finds.
#[derive(Default)]
pub struct Differences {
    /// How many there are.
    pub count: usize,
}

impl Differences {
    /// Counts one, and prints it unless there are too many.
    pub fn add(&mut self, text: &str) {
        self.count += 1;
        if self.count <= MOST_PRINTED {
            println!("difference: {text}");
        }
    }

    /// Says how many there are, and ends the program: with 1 on any.
    pub fn end(&self) -> ExitCode {
        println!("{} differences", self.count);
        ExitCode::from(u8::from(self.count > 0))
    }
}

/// A whole number among a program's words.
///
/// # Errors
///
/// It is none.
pub fn number(name: &str, word: &str) -> Result<usize, String> {
    word.parse().map_err(|_| format!("{name} {word}: no whole number"))
}

/// Runs a program on its words: ends as it says, or with 2 on wrong words.
pub fn run(program: impl FnOnce(Vec<String>) -> Result<ExitCode, String>) -> ExitCode {
    program(std::env::args().skip(1).collect()).unwrap_or_else(|fault| {
        eprintln!("{fault}");
        ExitCode::from(2)
    })
}
