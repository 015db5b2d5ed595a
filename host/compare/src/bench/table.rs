//! The rows of each pad's program, and one table of them.

use super::PADS;
use super::valgrind::Counts;

/// What a program printed of a row: its name, and a number for each side.
struct Printed<'a> {
    name: &'a str,
    numbers: Vec<f64>,
}

fn printed(said: &str) -> Result<Vec<Printed<'_>>, String> {
    let row = |line: &'_ str| {
        let (name, numbers) = line.split_once('\t')?;
        let numbers = numbers.split('\t').map(str::parse).collect::<Result<_, _>>().ok()?;
        Some((name.len(), numbers))
    };
    said.lines()
        .map(|line| {
            let (name, numbers) = row(line).ok_or(format!("no row: {line}"))?;
            Ok(Printed { name: &line[..name], numbers })
        })
        .collect()
}

/// Nanoseconds of each side over the pads.
struct Times(Vec<Vec<f64>>);

/// The middle one, or the mean of the middle two.
fn median(mut numbers: Vec<f64>) -> f64 {
    numbers.sort_by(f64::total_cmp);
    let half = numbers.len() / 2;
    if numbers.len() % 2 == 1 { numbers[half] } else { (numbers[half - 1] + numbers[half]) / 2.0 }
}

impl Times {
    /// The median of a side's times.
    fn of(&self, side: usize) -> Option<f64> {
        let times = self.0.iter().map(|sides| sides.get(side).copied());
        times.collect::<Option<Vec<f64>>>().map(median)
    }

    /// The library's time beside another side's, at each pad: the median of the ratios, the lowest and the highest.
    fn ratio(&self, side: usize) -> Option<[f64; 3]> {
        let ratios = self.0.iter().map(|sides| sides.get(side).map(|other| sides[0] / other));
        let mut ratios = ratios.collect::<Option<Vec<f64>>>()?;
        ratios.sort_by(f64::total_cmp);
        let [lowest, highest] = [ratios[0], ratios[ratios.len() - 1]];
        Some([median(ratios), lowest, highest])
    }
}

fn time(ns: f64) -> String {
    let (value, unit) = match ns {
        ns if ns < 1e3 => (ns, "ns"),
        ns if ns < 1e6 => (ns / 1e3, "µs"),
        ns => (ns / 1e6, "ms"),
    };
    if value < 100.0 { format!("{value:.1} {unit}") } else { format!("{value:.0} {unit}") }
}

fn count(instructions: f64) -> String {
    let digits = format!("{instructions:.0}");
    let first = digits.len() % 3;
    let (front, rest) = digits.split_at(first);
    let rest = rest.as_bytes().chunks(3).map(|three| String::from_utf8_lossy(three).into_owned());
    let groups = (!front.is_empty()).then(|| front.to_owned()).into_iter().chain(rest);
    groups.collect::<Vec<_>>().join(",")
}

const NONE: &str = "–";

fn or_none<T>(cell: Option<T>, shown: impl Fn(T) -> String) -> String {
    cell.map_or(NONE.to_owned(), shown)
}

/// The instructions of each side of each row.
pub struct Counted(Vec<(String, Vec<f64>)>);

impl Counted {
    /// From what the counted program printed, how many operations each side's turn has, and what was counted.
    ///
    /// # Errors
    ///
    /// A row is none, or wasn't counted.
    pub fn new(said: &str, counts: &Counts) -> Result<Self, String> {
        let of_row = |row: Printed| {
            let sides = row.numbers.iter().enumerate();
            let of_side =
                |(i, operations): (usize, &f64)| counts.of_operation(row.name, i, *operations);
            Ok((row.name.to_owned(), sides.map(of_side).collect::<Result<_, String>>()?))
        };
        printed(said)?.into_iter().map(of_row).collect::<Result<_, _>>().map(Self)
    }

    /// The table of instructions alone.
    pub fn table(&self) -> String {
        let line = |(name, sides): &(String, Vec<f64>)| {
            let of = |side: usize| or_none(sides.get(side), |instructions| count(*instructions));
            let ratio =
                |side: usize| or_none(sides.get(side), |other| format!("{:.2}", sides[0] / other));
            format!(
                "| {name} | {} | {} | {} | {} | {} |\n",
                of(0),
                of(1),
                ratio(1),
                of(2),
                ratio(2)
            )
        };
        INSTRUCTIONS_HEAD.to_owned() + &self.0.iter().map(line).collect::<String>()
    }

    /// The cells of a row.
    fn cells(&self, name: &str) -> Result<[String; 3], String> {
        let row = self.0.iter().find(|(other, _)| other == name);
        let (_, sides) = row.ok_or(format!("{name}: no instructions were counted"))?;
        Ok([0, 1, 2].map(|side| or_none(sides.get(side), |instructions| count(*instructions))))
    }
}

const INSTRUCTIONS_HEAD: &str = "\
| what: instructions | library | Rust | ratio | C | ratio |
|---|---|---|---|---|---|
";
const HEAD: &str = "\
| what | library | Rust | ratio | lowest to highest | C | ratio | instructions: library | Rust | C |
|---|---|---|---|---|---|---|---|---|---|
";

/// The table: times and ratios as medians over the pads, from what each pad's program printed, and instructions where they were counted.
///
/// # Errors
///
/// The programs printed different rows.
pub fn table(times: &[String], counted: Option<&Counted>) -> Result<String, String> {
    let times = times.iter().map(|said| printed(said)).collect::<Result<Vec<_>, _>>()?;
    let first = times.first().ok_or("nothing was timed")?;
    let mut table = HEAD.to_owned();
    for (i, row) in first.iter().enumerate() {
        let is_same = |rows: &Vec<Printed>| rows.get(i).is_some_and(|other| other.name == row.name);
        if !times.iter().all(is_same) {
            return Err(format!("{}: not all programs have this row", row.name));
        }
        let times = Times(times.iter().map(|rows| rows[i].numbers.clone()).collect());
        let counts = counted.map(|counted| counted.cells(row.name)).transpose()?;
        table += &line(row.name, &times, &counts.unwrap_or([(); 3].map(|()| NONE.to_owned())));
    }
    Ok(table)
}

fn line(name: &str, times: &Times, counts: &[String; 3]) -> String {
    let of = |side| or_none(times.of(side), time);
    let ratio = |side| or_none(times.ratio(side), |[ratio, ..]| format!("{ratio:.2}"));
    let spread = or_none(times.ratio(1), |[_, low, high]| format!("{low:.2} to {high:.2}"));
    let cells = [of(0), of(1), ratio(1), spread, of(2), ratio(2), counts.join(" | ")];
    format!("| {name} | {} |\n", cells.join(" | "))
}

/// Whether each pad moved the code by as much as it has bytes.
pub fn are_moved(places: &[Vec<usize>]) -> bool {
    let moved = |(pad, of): (&usize, &Vec<usize>)| {
        of.iter().zip(&places[0]).all(|(place, first)| *place == (first + pad) % 64)
    };
    PADS.iter().zip(places).all(moved)
}

#[cfg(test)]
mod tests {
    use super::*;

    #[test]
    fn medians_over_pads() {
        let said = ["list\t200\t100", "list\t220\t100", "list\t180\t200"].map(str::to_owned);
        let row = "| list | 200 ns | 100 ns | 2.00 | 0.90 to 2.20 | – | – | – | – | – |\n";
        assert_eq!(table(&said, None), Ok(format!("{HEAD}{row}")));
    }

    #[test]
    fn rows_that_differ_are_refused() {
        let said = ["list\t200\t100", "root\t220\t100"].map(str::to_owned);
        assert!(table(&said, None).is_err());
    }

    #[test]
    fn an_even_number_of_pads() {
        assert_eq!(median(vec![4.0, 1.0, 3.0, 2.0]), 2.5);
    }

    #[test]
    fn groups_of_three_digits() {
        assert_eq!([7.4, 365.0, 1641.0, 105_570.0].map(count), ["7", "365", "1,641", "105,570"]);
    }

    #[test]
    fn code_that_stayed_is_seen() {
        let mut places: Vec<Vec<usize>> =
            PADS.iter().map(|pad| vec![pad % 64, (pad + 16) % 64]).collect();
        assert!(are_moved(&places));
        places[3][1] = 16;
        assert!(!are_moved(&places));
    }
}
