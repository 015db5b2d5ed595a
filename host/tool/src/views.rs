//! The views of a plate, and the text file that they are read from:
//!
//! ```text
//! # What follows the sign is a comment.
//! centre 655 470           # the optical centre in pixels
//! view IMG_0012.png        # begins a view; its name may follow
//! 0.00 0.00 412.3 305.8    # a dot: its place on the plate, then the pixel where it is seen
//! ```

use crate::typed::{self, shown};
use jinnychair::Pt2;
use std::collections::BTreeSet;
use std::fmt::{Display, Formatter};

/// The dots that one view shows.
#[derive(Clone, Debug, Default, PartialEq)]
pub struct View {
    /// Places on the plate; any unit of length.
    pub board: Vec<Pt2>,
    /// Seen pixels, one for each place.
    pub pixels: Vec<Pt2>,
    /// Its name, as that of its photograph; empty where it has none.
    pub name: String,
}

impl View {
    /// How many dots the view shows.
    pub fn dots(&self) -> usize {
        self.board.len()
    }
}

/// The views of a plate.
#[derive(Clone, Debug, Default, PartialEq)]
pub struct Plate {
    /// Where the optical axis meets the sensor, in pixels, if stated.
    pub centre: Option<[f64; 2]>,
    /// The views.
    pub views: Vec<View>,
}

/// The fewest dots that a view may have: with fewer it has no map.
pub const LEAST_DOTS: usize = 4;
/// The most dots that a tilt is scored by.
pub const MOST_SCORED: usize = 1024;

/// What is wrong with a file, and where.
#[derive(Clone, Debug, PartialEq)]
pub struct ViewsError {
    /// The line, counted from 1; none where the file as a whole is at fault.
    pub line: Option<usize>,
    /// What is wrong.
    pub fault: String,
}

impl Display for ViewsError {
    fn fmt(&self, f: &mut Formatter) -> std::fmt::Result {
        match self.line {
            Some(line) => write!(f, "line {line}: {}", self.fault),
            None => f.write_str(&self.fault),
        }
    }
}

impl std::error::Error for ViewsError {}

/// How a file of this program's own begins.
pub const HEAD: &str = "# Views of a plate, for jinnychair.";

const CENTRE_FORM: &str = "`centre X Y`, two numbers in pixels, as `centre 655 470`";
const DOT_FORM: &str =
    "four numbers parted by spaces, place and pixel of a dot, as `0 20 412.3 305.8`";

const PIXELS_FIRST: &str = "the last two numbers of a line are the same in each view, and the first two never: so the pixels stand \
                            first. Write the place on the plate first, and then the pixel";

impl Plate {
    /// Reads the text of a file.
    ///
    /// # Errors
    ///
    /// The text isn't of this form, or shows too few or too many dots or views.
    pub fn parse(text: &str) -> Result<Self, ViewsError> {
        let mut plate = Self::default();
        for (i, line) in text.lines().enumerate() {
            let line = line.split('#').next().unwrap_or("").trim();
            plate.take_line(line).map_err(|fault| ViewsError { line: Some(i + 1), fault })?;
        }
        plate.check().map_err(|fault| ViewsError { line: None, fault })?;
        Ok(plate)
    }

    fn take_line(&mut self, line: &str) -> Result<(), String> {
        let words: Vec<&str> = line.split_whitespace().collect();
        match words[..] {
            [] => {}
            ["view", ref name @ ..] => {
                self.views.push(View { name: name.join(" "), ..View::default() });
            }
            ["centre" | "center", ref rest @ ..] => {
                if self.centre.is_some() {
                    return Err("the centre is stated twice. Leave one of the lines out".into());
                }
                self.centre = Some(
                    numbers(rest)
                        .map_err(|why| format!("{}{why}", unexpected(line, CENTRE_FORM)))?,
                );
            }
            ref dot => {
                let [x, y, u, v] =
                    numbers(dot).map_err(|why| format!("{}{why}", unexpected(line, DOT_FORM)))?;
                let view = self.views.last_mut();
                let view = view
                    .ok_or("a dot before the first `view`. Begin each view with a line `view`")?;
                view.board.push(Pt2 { x, y });
                view.pixels.push(Pt2 { x: u, y: v });
            }
        }
        Ok(())
    }

    fn check(&self) -> Result<(), String> {
        if self.views.len() < 3 {
            return Err(format!(
                "{} views, at least 3 are needed. Take more, each with the plate held at another angle",
                self.views.len()
            ));
        }
        for (i, view) in self.views.iter().enumerate() {
            let dots = view.dots();
            if dots < LEAST_DOTS {
                return Err(format!(
                    "view {} has {dots} dots, at least {LEAST_DOTS} are needed. Leave the view out",
                    called(i, &view.name)
                ));
            }
        }
        if self.begins_with_pixels() {
            return Err(PIXELS_FIRST.into());
        }
        Ok(())
    }

    /// Whether the pixels stand where the places belong: a plate has the same places in each view, and is seen in others.
    fn begins_with_pixels(&self) -> bool {
        let bits = |points: &[Pt2]| -> BTreeSet<[u64; 2]> {
            points.iter().map(|point| [point.x.to_bits(), point.y.to_bits()]).collect()
        };
        let are_shared = |points: fn(&View) -> &[Pt2]| {
            let first = bits(points(&self.views[0]));
            let shared =
                self.views[1..].iter().map(|view| bits(points(view)).intersection(&first).count());
            shared.collect::<Vec<_>>()
        };
        let (places, pixels) = (are_shared(|view| &view.board), are_shared(|view| &view.pixels));
        places.iter().all(|count| *count == 0) && pixels.iter().all(|count| *count > 3)
    }

    /// How many dots all views show.
    pub fn dots(&self) -> usize {
        self.views.iter().map(View::dots).sum()
    }

    /// All seen pixels.
    pub fn pixels(&self) -> Vec<Pt2> {
        self.views.iter().flat_map(|view| &view.pixels).copied().collect()
    }

    /// The text that [`Plate::parse`] reads.
    pub fn text(&self) -> String {
        let mut text = format!(
            "{HEAD}\n# centre X Y: the optical centre in pixels. view: begins a view; its name may follow.\n\
             # Then a line for each dot: its place on the plate, and the pixel where it is seen.\n"
        );
        if let Some([x, y]) = self.centre {
            text += &format!("centre {x} {y}\n");
        }
        for view in &self.views {
            text += format!("view {}", view.name).trim_end();
            text += "\n";
            for (place, pixel) in view.board.iter().zip(&view.pixels) {
                text += &format!("{} {} {} {}\n", place.x, place.y, pixel.x, pixel.y);
            }
        }
        text
    }
}

/// A view, counted from 0, as it is called in a sentence: its number from 1, and its name.
#[must_use]
pub fn called(view: usize, name: &str) -> String {
    match name {
        "" => (view + 1).to_string(),
        name => format!("{} ({})", view + 1, shown(name)),
    }
}

/// What was read, and what is expected in its place.
fn unexpected(read: &str, expected: &str) -> String {
    format!("read `{}`; expected {expected}", shown(read))
}

/// As many finite numbers as asked for; else why not.
fn numbers<const N: usize>(words: &[&str]) -> Result<[f64; N], String> {
    if words.iter().any(|word| word.contains(',')) {
        return Err(". Part numbers by spaces, and write decimals with a point".into());
    }
    let words: [&str; N] = words.try_into().map_err(|_| format!(" ({} words)", words.len()))?;
    let mut numbers = [0.0; N];
    for (number, word) in numbers.iter_mut().zip(words) {
        *number = match typed::number(word) {
            Some(value) if value.is_finite() => value,
            _ => return Err(format!(" (`{}` isn't a finite number)", shown(word))),
        };
    }
    Ok(numbers)
}

#[cfg(test)]
mod tests {
    use super::*;

    fn fault(text: &str) -> String {
        Plate::parse(text).unwrap_err().to_string()
    }

    #[test]
    fn faults_say_what_was_read_and_what_is_expected() {
        let dot = "expected four numbers parted by spaces, place and pixel of a dot, as `0 20 412.3 305.8`";
        for (line, why) in [
            ("1 2 3", " (3 words)"),
            ("1 2 3 4 5", " (5 words)"),
            ("1 2 3 NaN", " (`NaN` isn't a finite number)"),
            ("1 2 3 x", " (`x` isn't a finite number)"),
            ("1,2,3,4", ". Part numbers by spaces, and write decimals with a point"),
            ("1 2 412,3 305,8", ". Part numbers by spaces, and write decimals with a point"),
        ] {
            assert_eq!(
                fault(&format!("view\n{line}\n")),
                format!("line 2: read `{line}`; {dot}{why}")
            );
        }
        let centre = "expected `centre X Y`, two numbers in pixels, as `centre 655 470` (3 words)";
        assert_eq!(
            fault("centre 655 470 px # optical"),
            format!("line 1: read `centre 655 470 px`; {centre}")
        );
        assert!(
            fault("# none yet\n1 2 3 4\n").starts_with("line 2: a dot before the first `view`")
        );
        assert!(
            fault("centre 1 2\ncenter 1 2\n").starts_with("line 2: the centre is stated twice")
        );
        assert!(fault("").starts_with("0 views, at least 3 are needed"));
        assert!(
            fault("view\nview\nview\n").starts_with("view 1 has 0 dots, at least 4 are needed")
        );
    }

    #[test]
    fn pixels_that_stand_first_are_told() {
        let mut plate = crate::synthetic::BUILT_IN.plate();
        assert!(Plate::parse(&plate.text()).is_ok());
        for view in &mut plate.views {
            std::mem::swap(&mut view.board, &mut view.pixels);
        }
        assert!(fault(&plate.text()).starts_with("the last two numbers of a line are the same"));
        // A plate that is seen from one place alone, or whose dots differ from view to view, has them where they belong.
        plate.views.iter_mut().for_each(|view| view.board = view.pixels.clone());
        assert!(Plate::parse(&plate.text()).is_ok());
    }

    #[test]
    fn a_minus_may_be_that_of_print_and_what_is_shown_is_cut() {
        let minus = "view\n\u{2212}1 0 \u{2212}2.5 1\n0 0 1 2\n1 0 1 2\n1 1 1 2\n".repeat(3);
        let plate = Plate::parse(&minus).unwrap();
        assert_eq!((plate.views[0].board[0].x, plate.views[0].pixels[0].x), (-1.0, -2.5));
        let told = fault(&format!("view\n{}\n", "1 ".repeat(1_000_000)));
        assert!(told.len() < 300 && told.contains("1 1 1 ... (1999999 letters)"), "{told}");
        assert!(fault("view\n\u{1b}[31m 1 2 3\n").contains("read `\\u{1b}[31m 1 2 3`"));
    }

    #[test]
    fn text_is_read_back_also_with_the_other_spelling() {
        let board = [[0.0, 0.5], [1.0, 0.0], [1.0, 1.0], [0.0, 1.0]].map(|[x, y]| Pt2 { x, y });
        let pixels = vec![Pt2 { x: 0.1, y: 0.2 }; 4];
        let view = View { board: board.to_vec(), pixels, name: String::new() };
        let named = View { name: "IMG 12.png".into(), ..view.clone() };
        let plate = Plate { centre: Some([640.5, 480.0]), views: vec![view.clone(), named, view] };
        assert_eq!(Plate::parse(&plate.text()), Ok(plate.clone()));
        let other = plate.text().replace("\ncentre", "\r\ncenter");
        assert_eq!(Plate::parse(&other), Ok(plate));
    }

    #[test]
    fn a_view_is_called_by_its_number_and_its_name() {
        let dots = "0 0 1 1\n".repeat(4);
        let few = format!("view\n{dots}view\t two  words.png # mine\n0 0 1 1\nview\n{dots}");
        assert!(
            fault(&few).starts_with("view 2 (two words.png) has 1 dots, at least 4 are needed")
        );
        assert_eq!([called(0, ""), called(1, "a")], ["1", "2 (a)"]);
        assert_eq!(called(0, "\u{1b}[31m"), "1 (\\u{1b}[31m)");
    }
}
