//! A stored file: its header, and the lines of its cases.

/// The lines of a file, each with its line feed, of which the last may have none.
type Lines<'a> = std::str::SplitInclusive<'a, char>;

/// A file whose header has its form.
pub(crate) struct Stored<'a> {
    /// How many cases the header counts.
    pub count: usize,
    /// What stands behind the header.
    pub lines: Lines<'a>,
}

/// The operation's name, where the first two lines have their form, and the lines behind them.
pub(crate) fn named(text: &str) -> Option<(&str, Lines<'_>)> {
    let mut lines = text.split_inclusive('\n');
    if lines.next()? != "# jinnychair vectors 1\n" {
        return None;
    }
    let name = lines.next()?.strip_prefix("# operation ")?.strip_suffix('\n')?;
    Some((name, lines))
}

/// The rest of the header: how many cases there are, who made the file, and any further lines.
pub(crate) fn counted(mut lines: Lines<'_>) -> Option<Stored<'_>> {
    let count = decimal(lines.next()?.strip_prefix("# cases ")?.strip_suffix('\n')?)?;
    let made_by = lines.next()?;
    if !made_by.starts_with("# made by ") || !made_by.ends_with('\n') {
        return None;
    }
    let mut behind = lines.clone();
    while behind.next().is_some_and(|line| line.starts_with("# ")) {
        lines = behind.clone();
    }
    Some(Stored { count, lines })
}

/// A number of one to nine digits, and of nothing else: a sign is none.
fn decimal(text: &str) -> Option<usize> {
    let is_whole = (1..=9).contains(&text.len()) && text.bytes().all(|byte| byte.is_ascii_digit());
    text.parse().ok().filter(|_| is_whole)
}

/// The input and output words of a case's line; nothing where it hasn't its form.
pub(crate) fn case(line: &str) -> Option<[Vec<u64>; 2]> {
    let (input, output) = line.strip_suffix('\n')?.split_once(" = ")?;
    Some([words::parse(input.split(' ')).ok()?, words::parse(output.split(' ')).ok()?])
}
