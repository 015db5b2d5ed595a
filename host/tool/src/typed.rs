//! What people type, and how it is shown back to them.

/// How many letters of what was read are shown.
const MOST_SHOWN: usize = 80;

/// A number as it is typed; U+2212 is a minus, as text processors and this program's own pages write it.
#[must_use]
pub fn number(text: &str) -> Option<f64> {
    match text.strip_prefix('\u{2212}') {
        None => text.parse().ok(),
        Some(digits) if digits.starts_with(['+', '-']) => None,
        Some(digits) => format!("-{digits}").parse().ok(),
    }
}

/// What was read, for a sentence: control bytes escaped, and of a long line its beginning.
#[must_use]
pub fn shown(text: &str) -> String {
    let letters = text.chars().count();
    if letters <= MOST_SHOWN {
        return escaped(text);
    }
    let head: String = text.chars().take(MOST_SHOWN).collect();
    format!("{} ... ({letters} letters)", escaped(head.trim_end()))
}

/// Text without control bytes, which would move a terminal's cursor or change its colours. A line's end stays.
#[must_use]
pub fn escaped(text: &str) -> String {
    let escape = |letter: char| match letter {
        '\n' => vec![letter],
        letter if letter.is_control() => letter.escape_default().collect(),
        letter => vec![letter],
    };
    text.chars().flat_map(escape).collect()
}

#[cfg(test)]
mod tests {
    use super::*;

    #[test]
    fn a_minus_may_be_that_of_print() {
        assert_eq!(["\u{2212}1.5", "-1.5", "2"].map(number), [Some(-1.5), Some(-1.5), Some(2.0)]);
        assert_eq!(
            ["\u{2212}-1", "\u{2212}", "1\u{2212}2", "", "\u{2013}1"].map(number),
            [None; 5]
        );
    }

    #[test]
    fn long_lines_are_cut_and_control_bytes_escaped() {
        assert_eq!(shown("a\u{1b}[31mb\r"), "a\\u{1b}[31mb\\r");
        assert_eq!(shown(&"é".repeat(80)), "é".repeat(80));
        assert_eq!(shown(&"é".repeat(81)), format!("{} ... (81 letters)", "é".repeat(80)));
        assert_eq!(escaped("two\nlines\u{9b}"), "two\nlines\\u{9b}");
    }
}
