//! The cases of a stored file, each compared with what the library answers, and what is said of the file.

use crate::file::{Stored, case, counted, named};
use crate::library::{Fault, Operation};
use std::fmt::{Display, Formatter, Result as FmtResult};
use std::path::Path;

/// How a file ends, and whether as it should.
#[derive(Clone, Copy, Debug, PartialEq, Eq)]
pub enum Ending {
    /// With its last case.
    Whole,
    /// At a line that hasn't its form, or whose input hasn't the operation's.
    Damaged,
    /// Before its last case.
    Short,
    /// It goes on behind its last case.
    Long,
}

/// What became of a file's cases.
#[derive(Clone, Debug, PartialEq, Eq)]
pub struct Tally {
    /// How many the header counts.
    pub count: usize,
    /// How many were compared.
    pub compared: usize,
    /// How many of them differ.
    pub different: usize,
    /// The first that does, from 1, and in what.
    pub first: Option<(usize, String)>,
    /// How the file ends.
    pub ending: Ending,
}

/// What is said of a file.
#[derive(Clone, Debug, PartialEq, Eq)]
pub enum Said {
    /// It can't be read.
    Absent,
    /// Its first two lines haven't their form.
    NotNamed,
    /// The rest of its header hasn't.
    NotCounted(String),
    /// The library has no operation of its name.
    Unknown(String),
    /// Its cases were compared.
    Compared(String, Tally),
}

impl Display for Said {
    fn fmt(&self, f: &mut Formatter) -> FmtResult {
        match self {
            Self::Absent => f.write_str("no such file"),
            Self::NotNamed => f.write_str("the header is damaged"),
            Self::NotCounted(name) => write!(f, "{name}: the header is damaged"),
            Self::Unknown(name) => write!(f, "{name}: no such operation"),
            Self::Compared(name, tally) => write!(f, "{name}, {tally}"),
        }
    }
}

impl Display for Tally {
    fn fmt(&self, f: &mut Formatter) -> FmtResult {
        write!(f, "{} compared, {} differ", self.compared, self.different)?;
        if let Some((number, _)) = &self.first {
            write!(f, ", first in case {number}")?;
        }
        let count = self.count;
        match self.ending {
            Ending::Whole => Ok(()),
            Ending::Damaged => write!(f, "; then a damaged line, of {count} cases"),
            Ending::Short => write!(f, "; then the file ends, of {count} cases"),
            Ending::Long => write!(f, "; the file goes on after {count} cases"),
        }
    }
}

impl Said {
    /// In what the first different case differs.
    #[must_use]
    pub fn difference(&self) -> Option<&str> {
        match self {
            Self::Compared(_, tally) => tally.first.as_ref().map(|(_, text)| text.as_str()),
            _ => None,
        }
    }
}

/// Compares the cases of a file.
#[must_use]
pub fn compare(path: &Path) -> Said {
    match std::fs::read(path) {
        // A byte that is no text is no digit either, and is reported as its line's damage.
        Ok(bytes) => compare_text(&String::from_utf8_lossy(&bytes)),
        Err(_) => Said::Absent,
    }
}

/// Compares the cases of a file's text.
#[must_use]
pub fn compare_text(text: &str) -> Said {
    let Some((name, rest)) = named(text) else { return Said::NotNamed };
    let Some(stored) = counted(rest) else { return Said::NotCounted(name.to_owned()) };
    let Some(operation) = Operation::named(name) else { return Said::Unknown(name.to_owned()) };
    Said::Compared(name.to_owned(), compare_cases(operation, stored))
}

fn compare_cases(operation: Operation, stored: Stored) -> Tally {
    let Stored { count, mut lines } = stored;
    let mut tally = Tally { count, compared: 0, different: 0, first: None, ending: Ending::Whole };
    for _ in 0..count {
        let Some(line) = lines.next() else {
            tally.ending = Ending::Short;
            return tally;
        };
        let Some(difference) = compare_line(operation, line) else {
            tally.ending = Ending::Damaged;
            return tally;
        };
        tally.compared += 1;
        if let Err(difference) = difference {
            tally.different += 1;
            tally.first.get_or_insert((tally.compared, difference));
        }
    }
    if lines.next().is_some() {
        tally.ending = Ending::Long;
    }
    tally
}

/// In what a case differs; nothing where the line, or its input, hasn't its form.
fn compare_line(operation: Operation, line: &str) -> Option<Result<(), String>> {
    let [input, output] = case(line)?;
    match operation.answer(&input) {
        Ok(words) => Some(compare_words(&words, &output)),
        Err(Fault::Wrong(text)) => Some(Err(text)),
        Err(Fault::Malformed(_)) => None,
    }
}

fn compare_words(library: &[u64], stored: &[u64]) -> Result<(), String> {
    let mut pairs = library.iter().zip(stored).enumerate();
    if let Some((i, (a, b))) = pairs.find(|(_, (a, b))| !is_same(**a, **b)) {
        let place = i + 1;
        return Err(format!("word {place} is {a:016x}, and {b:016x} is stored"));
    }
    match (library.len(), stored.len()) {
        (given, expected) if given == expected => Ok(()),
        (given, expected) => Err(format!("{given} words, and {expected} are stored")),
    }
}

/// Whether two words are the same; any two NaNs are.
fn is_same(a: u64, b: u64) -> bool {
    let is_nan = |word: u64| f64::from_bits(word).is_nan();
    a == b || is_nan(a) && is_nan(b)
}

#[cfg(test)]
mod tests {
    use super::{Said, compare, compare_text};
    use std::path::Path;
    use words::STORED;

    /// The roots of 1 to 5.
    const ROOTS: [&str; 5] = [
        "3ff0000000000000 = 3ff0000000000000\n",
        "4000000000000000 = 3ff6a09e667f3bcd\n",
        "4008000000000000 = 3ffbb67ae8584caa\n",
        "4010000000000000 = 4000000000000000\n",
        "4014000000000000 = 4001e3779b97f4a8\n",
    ];

    fn roots() -> String {
        words::file("sqrt", "hand", &ROOTS.map(str::to_owned))
    }

    /// What is said of a text in which one thing is changed, which stands there once.
    fn said_with(text: &str, old: &str, new: &str) -> String {
        assert_eq!(text.matches(old).count(), 1, "{old}");
        compare_text(&text.replace(old, new)).to_string()
    }

    /// The first cases of an operation's stored file.
    fn first_cases(operation: &str, count: usize) -> Vec<String> {
        let path = Path::new(STORED).join(format!("{operation}.txt"));
        let text = std::fs::read_to_string(path).expect("a stored file");
        text.split_inclusive('\n').skip(4).take(count).map(str::to_owned).collect()
    }

    #[test]
    fn good_files() {
        assert_eq!(compare_text(&roots()).to_string(), "sqrt, 5 compared, 0 differ");
        let more = said_with(&roots(), "hand\n", "hand\n# and by heart\n");
        assert_eq!(more, "sqrt, 5 compared, 0 differ");
        assert_eq!(
            compare_text(&words::file("sqrt", "", &[])).to_string(),
            "sqrt, 0 compared, 0 differ"
        );
    }

    #[test]
    fn a_wrong_value_differs() {
        let wrong = roots().replace(ROOTS[3], "4010000000000000 = 4000000000000001\n");
        let said = compare_text(&wrong);
        assert_eq!(said.to_string(), "sqrt, 5 compared, 1 differ, first in case 4");
        let difference = "word 1 is 4000000000000000, and 4000000000000001 is stored";
        assert_eq!(said.difference(), Some(difference));
        let two = wrong.replace(ROOTS[4], "4014000000000000 = 4001e3779b97f4a8 0000000000000000\n");
        let said = compare_text(&two).to_string();
        assert_eq!(said, "sqrt, 5 compared, 2 differ, first in case 4");
        let longer = roots().replace(ROOTS[0], &ROOTS[0].replace('\n', " 3ff0000000000000\n"));
        assert_eq!(compare_text(&longer).difference(), Some("1 words, and 2 are stored"));
    }

    /// The last word of an answer begins with another digit, with which it is no NaN either.
    #[test]
    fn a_wrong_digit_of_every_operation_differs() {
        let report = include_str!("../tests/report.txt").lines();
        for name in report.filter_map(|line| line.split([' ', ',']).nth(1)) {
            let mut cases = first_cases(name, 3);
            let last = cases.last_mut().expect("a case");
            let at = last.len() - 17;
            let digit = if last[at..].starts_with('1') { "2" } else { "1" };
            last.replace_range(at..=at, digit);
            let number = cases.len();
            let said = compare_text(&words::file(name, "hand", &cases)).to_string();
            let expected = format!("{name}, {number} compared, 1 differ, first in case {number}");
            assert_eq!(said, expected);
        }
    }

    #[test]
    fn any_nan_is_any_other_and_zeros_have_signs() {
        let cases =
            ["bff0000000000000 = fff800000000dead\n", "8000000000000000 = 0000000000000000\n"];
        let said = compare_text(&words::file("sqrt", "hand", &cases.map(str::to_owned)));
        assert_eq!(said.to_string(), "sqrt, 2 compared, 1 differ, first in case 2");
    }

    #[test]
    fn damaged_lines() {
        for (old, new) in [
            ("3ffbb67ae8584caa", "3ffbb67ae8584cag"),
            ("3ffbb67ae8584caa", "3ffbb67ae8584caA"),
            ("3ffbb67ae8584caa", "3ffbb67ae8584ca"),
            ("3ffbb67ae8584caa", "3ffbb67ae8584caa "),
            ("3ffbb67ae8584caa", "3ffbb67ae8584caa\r"),
            ("3ffbb67ae8584caa", "3ffbb67ae8584ca\u{fffd}"),
            ("4008000000000000 = ", "4008000000000000  = "),
            ("4008000000000000 = ", "4008000000000000 "),
            ("4008000000000000 = ", " = "),
            (" = 3ffbb67ae8584caa", " = "),
            (" = 3ffbb67ae8584caa", ""),
            // another number of inputs than the operation has
            ("4008000000000000 = ", "4008000000000000 4008000000000000 = "),
            ("4008000000000000 = 3ffbb67ae8584caa", "# a remark"),
            ("4008000000000000 = 3ffbb67ae8584caa", ""),
        ] {
            let said = said_with(&roots(), old, new);
            let expected = "sqrt, 2 compared, 0 differ; then a damaged line, of 5 cases";
            assert_eq!(said, expected, "{new}");
        }
        let cut = said_with(&roots(), "4001e3779b97f4a8\n", "4001e3779b97f4");
        assert_eq!(cut, "sqrt, 4 compared, 0 differ; then a damaged line, of 5 cases");
        let no_line_feed = said_with(&roots(), "4001e3779b97f4a8\n", "4001e3779b97f4a8");
        assert_eq!(no_line_feed, cut);
    }

    #[test]
    fn damaged_headers() {
        for (old, new) in [
            ("# cases 5\n", ""),
            ("# cases 5\n", "# cases 5\n# cases 5\n"),
            ("# cases 5", "# cases +5"),
            ("# cases 5", "# cases five"),
            ("# cases 5", "# cases "),
            ("# cases 5", "# cases 0000000005"),
            ("# made by hand\n", ""),
        ] {
            let said = said_with(&roots(), old, new);
            assert_eq!(said, "sqrt: the header is damaged", "{new}");
        }
        for (old, new) in [("vectors 1", "vectors 2"), ("# operation sqrt\n", ""), ("# j", "j")] {
            assert_eq!(said_with(&roots(), old, new), "the header is damaged", "{new}");
        }
        assert_eq!(compare_text(""), Said::NotNamed);
        assert_eq!(compare_text("# jinnychair vectors 1\n# operation sqrt"), Said::NotNamed);
    }

    #[test]
    fn missing_and_extra_cases() {
        let short = said_with(&roots(), &ROOTS[3..].concat(), "");
        assert_eq!(short, "sqrt, 3 compared, 0 differ; then the file ends, of 5 cases");
        let long = said_with(&roots(), "# cases 5", "# cases 3");
        assert_eq!(long, "sqrt, 3 compared, 0 differ; the file goes on after 3 cases");
        let blank = compare_text(&(roots() + "\n")).to_string();
        assert_eq!(blank, "sqrt, 5 compared, 0 differ; the file goes on after 5 cases");
    }

    #[test]
    fn an_unknown_operation_and_no_file() {
        let unknown = said_with(&roots(), "# operation sqrt", "# operation root");
        assert_eq!(unknown, "root: no such operation");
        assert_eq!(compare(&Path::new(STORED).join("absent.txt")).to_string(), "no such file");
    }
}
