//! The benchmark: the library is compared with the published Rust (the oracle's build of it), or plain Rust where there is none, and
//! with plain C (`plain.c`, `leaves.c`): same inputs, same answers, same process, release builds. docs/PERFORMANCE.md says how it measures.
//!
//! Each program of the table (`src/bin/pad_*.rs`) is the same except for some bytes in front of its code. `src/bin/bench.rs` runs them and
//! makes one table of theirs.

mod calls;
mod geometry;
mod growth;
mod journal;
mod operation;
mod places;
mod runs;
mod scoring;
mod series;
pub mod table;
mod timing;
pub mod valgrind;
mod values;

use crate::program;
use operation::{Tried, agree};
use random::Random;
use std::process::ExitCode;

/// Bytes in front of the code, one program each: all places that the linker may give a function within 64 bytes, twice.
pub const PADS: [usize; 8] = [0, 16, 32, 48, 64, 80, 96, 112];

/// Makes a program of the table, with so many bytes in front of all code: the linker takes the program's own objects first.
#[macro_export]
macro_rules! padded {
    ($bytes:literal) => {
        ::std::arch::global_asm!(
            ".pushsection .text.pad, \"axR\", @progbits",
            ".p2align 6",
            ".fill 64 + {bytes}, 1, 0x90",
            ".popsection",
            bytes = const $bytes,
        );

        fn main() -> ::std::process::ExitCode {
            $crate::bench::main()
        }
    };
}

/// What is done with the sides of each row, once they are known to agree.
enum Measure {
    /// Nothing.
    Answers,
    /// All sides together take so many nanoseconds.
    Times(f64),
    /// They are counted by callgrind.
    Instructions,
}

/// Goes through the table's rows, on inputs that it draws.
struct Bench {
    random: Random,
    measure: Measure,
}

impl Bench {
    /// A row, of the library, the Rust and C, or as many as there are: compares the answers, and measures. Prints the row's name and a
    /// number for each side: median nanoseconds of an operation, or how many operations the counted instructions are of.
    ///
    /// # Panics
    ///
    /// Two sides disagree.
    fn row<const N: usize>(&mut self, name: &str, sides: [Tried; N]) {
        let sides = agree(name, sides);
        let numbers = match self.measure {
            Measure::Answers => return println!("{name}"),
            Measure::Times(budget) => timing::medians(budget, sides),
            Measure::Instructions => valgrind::count_sides(name, sides),
        };
        println!("{name}\t{}", numbers.map(|number| number.to_string()).join("\t"));
    }
}

/// A part of the table: goes through its rows.
type Part = (&'static str, fn(&mut Bench));

/// The table's parts, in their order.
const PARTS: &[Part] = &[
    ("scorings", scoring::scorings),
    ("runs", runs::runs),
    ("lists", runs::lists),
    ("calls", calls::all),
    ("journal", journal::all),
    ("geometry", geometry::all),
    ("distortions", geometry::distortions),
    ("sines", series::sines),
    ("roots", series::roots),
    ("values", values::all),
];

fn go(measure: Measure, asked: Option<&str>) -> Result<ExitCode, String> {
    let is_asked = |part: &&Part| asked.is_none_or(|asked| asked == part.0);
    let mut parts = PARTS.iter().filter(is_asked).peekable();
    if parts.peek().is_none() {
        return Err(format!("there is no part {}", asked.unwrap_or_default()));
    }
    let mut bench = Bench { random: Random::named(""), measure };
    for (name, part) in parts {
        bench.random = Random::named(name);
        part(&mut bench);
    }
    Ok(ExitCode::SUCCESS)
}

fn measured(words: Vec<String>) -> Result<ExitCode, String> {
    let words: Vec<&str> = words.iter().map(String::as_str).collect();
    match words[..] {
        ["answers", ref part @ ..] => go(Measure::Answers, part.first().copied()),
        ["times", milliseconds, ref part @ ..] => {
            let budget = program::number("times", milliseconds)? as f64 * 1e6;
            go(Measure::Times(budget), part.first().copied())
        }
        ["instructions", ref part @ ..] => {
            valgrind::count_empty_loops();
            go(Measure::Instructions, part.first().copied())
        }
        ["places"] => {
            println!("{}", places::of_code().map(|place| place.to_string()).join("\t"));
            Ok(ExitCode::SUCCESS)
        }
        ["growth"] => {
            growth::all(&mut Random::named("growth"));
            Ok(ExitCode::SUCCESS)
        }
        _ => {
            Err("answers [PART], times MILLISECONDS [PART], instructions [PART], places or growth"
                .to_owned())
        }
    }
}

/// A program of the table, on its words.
pub fn main() -> ExitCode {
    program::run(measured)
}

#[cfg(test)]
mod tests {
    use super::*;

    #[test]
    fn all_sides_of_all_rows_agree() {
        assert_eq!(go(Measure::Answers, None), Ok(ExitCode::SUCCESS));
        assert!(go(Measure::Answers, Some("no part")).is_err());
    }
}
