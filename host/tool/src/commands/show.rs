//! `show`: the lines of a journal as a table, in decimals and degrees.

use super::{Asked, Command, End, Fault, Form, Words, check_believed, end_of};
use crate::screen::Screen;
use crate::table::letter;
use crate::walk::Walked;
use jinnychair::journal::{Line, Recorded};

pub(super) const COMMAND: Command = Command { name: "show", run };

const FORM: Form =
    Form { missing: &["no journal is named"], most: 1, options: &[], flags: &["--unchecked"] };

const HEADS: [&str; 17] = [
    "number",
    "round",
    "tilt x °",
    "tilt y °",
    "outcome",
    "score",
    "mean px",
    "fx px",
    "fy px",
    "cx px",
    "cy px",
    "p1",
    "p2",
    "seed fx",
    "seed fy",
    "seed cx",
    "seed cy",
];

fn run(words: Words, screen: &mut Screen) -> Result<End, Fault> {
    let asked = Asked::read(words, &FORM)?;
    let walked = Walked::read(&asked.files[0])?;
    check_believed(&walked, asked.has("--unchecked"))?;
    if let Some(mark) = walked.mark() {
        screen.say(mark);
    }
    screen.say(table(&walked.journal.lines));
    screen.say(walked.text());
    Ok(end_of(&walked))
}

/// Columns as wide as their widest field.
fn table(lines: &[Line]) -> String {
    let mut rows = vec![HEADS.map(str::to_owned).to_vec()];
    rows.extend(lines.iter().map(fields));
    let width = |column: usize| rows.iter().map(|row| row[column].chars().count()).max();
    let widths: Vec<usize> = (0..HEADS.len()).map(|column| width(column).unwrap_or(0)).collect();
    let shown = |row: &Vec<String>| {
        let fields = row.iter().zip(&widths).map(|(field, width)| format!("{field:>width$}"));
        fields.collect::<Vec<_>>().join("  ")
    };
    rows.iter().map(shown).collect::<Vec<_>>().join("\n")
}

fn fields(line: &Line) -> Vec<String> {
    let [fx, fy, cx, cy, x, y] = line.seed.numbers();
    let mut fields = vec![line.number.to_string(), line.round.to_string()];
    fields.extend([x, y].map(|tilt| format!("{:.6}", tilt.to_degrees())));
    fields.push(letter(&line.outcome()).into());
    fields.extend(match line.outcome {
        Recorded::Skipped(_) => vec!["-".to_owned(); 8],
        Recorded::Scored(f) => {
            let errors = [f.score, f.mean_reproj_error].map(|number| format!("{number:.6}"));
            let camera = [f.k.fx, f.k.fy, f.k.cx, f.k.cy].map(|number| format!("{number:.3}"));
            let p = [f.p1, f.p2].map(|number| format!("{number:.6}"));
            [&errors[..], &camera, &p].concat()
        }
    });
    fields.extend([fx, fy, cx, cy].map(|number| format!("{number:.3}")));
    fields
}
