//! Prints the statistics of the example host's answers: `cargo run --release -p statistics -- --help`.

use random::Random;
use statistics::cells::{NOISES, Runner, TYPED, lens, typed};
use statistics::draw::{Kind, between, draw};
use statistics::measured::{Measured, covered_by_two_deviations};
use statistics::summary::Summary;
use statistics::tally::Share;
use std::fs;
use std::path::{Path, PathBuf};
use std::process::ExitCode;
use std::time::{SystemTime, UNIX_EPOCH};

const HELP: &str = "statistics [--sets N] [--seed WORD] [--threads N] [--only PART,PART] [--keep FOLDER]

Draws views of a plate with known tilts, searches them as `jinnychair search` does, fits them by an independent least
squares, and prints what comes out as tables. A new seed each time unless one is named; 500 sets of each cell.

parts: clean, exact, centre, lenses, long, typed, large, hard, level; all unless named
--keep writes the views of each set that failed, was called doubtful without a cause, isn't at the optimum, or lies silently
beyond its bounds
statistics search ... is jinnychair search ...: to look at them";

/// Draws, searches and prints.
type Part = fn(&Asked);

const VIEWS: [usize; 6] = [3, 4, 6, 8, 14, 20];
const PARTS: &[(&str, Part)] = &[
    ("clean", clean),
    ("exact", exact),
    ("centre", centre),
    ("lenses", lenses),
    ("long", long),
    ("typed", all_typed),
    ("large", large),
    ("hard", hard),
    ("level", level),
];

/// What the words ask for.
struct Asked {
    runner: Runner,
    only: Vec<String>,
    keep: Option<PathBuf>,
}

impl Asked {
    fn read(words: impl Iterator<Item = String>) -> Result<Self, String> {
        let now = SystemTime::now().duration_since(UNIX_EPOCH).map_err(|e| e.to_string())?;
        let seed = format!("{:x}", now.as_nanos());
        let runner = Runner { seed, sets: 500, threads: 1 };
        let mut asked = Self { runner, only: vec![], keep: None };
        let mut words = words;
        while let Some(word) = words.next() {
            let mut value = || words.next().ok_or(format!("{word} lacks a value"));
            let count = |text: String| match text.parse() {
                Ok(count) if count > 0 => Ok(count),
                _ => Err(format!("`{text}` isn't a count")),
            };
            match word.as_str() {
                "--sets" => asked.runner.sets = count(value()?)?,
                "--seed" => asked.runner.seed = value()?,
                "--threads" => asked.runner.threads = count(value()?)?,
                "--keep" => asked.keep = Some(value()?.into()),
                "--only" => asked.only = value()?.split(',').map(str::to_owned).collect(),
                _ => return Err(format!("what is `{word}`?\n\n{HELP}")),
            }
        }
        match asked.only.iter().find(|part| PARTS.iter().all(|(name, _)| name != part)) {
            Some(part) => Err(format!("what is `{part}`?\n\n{HELP}")),
            None => Ok(asked),
        }
    }

    /// Keeps the views of the sets that are to be looked at.
    fn keep(&self, cell: &str, sets: &[Measured], is_wanted: impl Fn(&Measured) -> bool) {
        let Some(folder) = &self.keep else { return };
        for one in sets.iter().filter(|one| one.answer.is_err() || one.is_off() || is_wanted(one)) {
            let name = format!("{} {} {}.views", self.runner.seed, cell, one.set);
            let path = folder.join(name.replace([' ', '/'], "-"));
            if let Err(error) = write(folder, &path, &one.file()) {
                eprintln!("{}: {error}", path.display());
            }
        }
    }
}

fn write(folder: &Path, path: &Path, text: &str) -> std::io::Result<()> {
    fs::create_dir_all(folder)?;
    fs::write(path, text)
}

fn main() -> ExitCode {
    let words: Vec<String> = std::env::args().skip(1).collect();
    if words.first().is_some_and(|word| word == "search") {
        return tool::commands::run(words.into_iter().map(Into::into).collect());
    }
    if words.iter().any(|word| word == "--help") {
        println!("{HELP}");
        return ExitCode::SUCCESS;
    }
    let asked = match Asked::read(words.into_iter()) {
        Ok(asked) => asked,
        Err(fault) => {
            eprintln!("{fault}");
            return ExitCode::from(2);
        }
    };
    println!("seed `{}`, {} sets of each cell", asked.runner.seed, asked.runner.sets);
    for (name, part) in PARTS {
        if asked.only.is_empty() || asked.only.iter().any(|only| only == name) {
            part(&asked);
        }
    }
    ExitCode::SUCCESS
}

/// How often each reason stands.
fn say_reasons(cells: &[(String, Summary)]) {
    for (cell, summary) in cells {
        for (reason, count) in &summary.reasons {
            println!("- {cell}: {count} × {reason}");
        }
        if summary.unfitted > 0 {
            println!("- {cell}: {} sets without an independent fit", summary.unfitted);
        }
    }
}

/// The head of the table of cells' shares.
fn say_head() {
    println!(
        "| cell | end with 0 | tilts within the ±, where it ends with 0 | within the winner's own ± |"
    );
    println!("|---|---|---|---|");
}

/// A cell's row in it.
fn say_row(cell: &str, s: &Summary) {
    println!("| {cell} | {} | {} | {} |", s.good, s.covered, s.winner_covered);
}

/// The table of what is measured, and the reasons.
fn say_measures(cells: &[(String, Summary)], width: fn(&Summary) -> [f64; 2]) {
    println!("\n| cell | width | of 95 % below | errors | winner's errors | residuals |");
    println!("|---|---|---|---|---|---|");
    for (cell, s) in cells {
        let ([width, most], [error, of_winner]) = (width(s), s.errors);
        let residuals = s.residuals;
        println!(
            "| {cell} | {width:.3} | {most:.3} | {error:.4} | {of_winner:.4} | {residuals:.6} |"
        );
    }
    println!();
    say_reasons(cells);
}

/// Both tables of cells whose bounds have a lens in them.
fn say_cells(cells: &[(String, Summary)]) {
    say_head();
    cells.iter().for_each(|(cell, summary)| say_row(cell, summary));
    say_measures(cells, |summary| summary.width);
}

/// All cells of views and noise, with these options; then all together, and those of 8 views and more.
fn by_views_and_noise(asked: &Asked, name: &str, options: &str, width: fn(&Summary) -> [f64; 2]) {
    let (mut cells, mut all) = (vec![], vec![]);
    let mut say = |cell: String, sets: &[Measured]| {
        let summary = Summary::new(sets);
        say_row(&cell, &summary);
        cells.push((cell, summary));
    };
    say_head();
    for (views, noise) in VIEWS.iter().flat_map(|views| NOISES.map(|noise| (*views, noise))) {
        let named = format!("{name} {views} {noise}");
        let mut sets = asked.runner.sets(&named, options, |_, random| Kind {
            is_spread: random.below(2) == 0,
            ..Kind::clean(views, noise)
        });
        asked.keep(&named, &sets, |one| !one.is_good() && views >= 8);
        say(format!("{views} views, {noise} px"), &sets);
        sets.iter_mut().for_each(|one| one.plate.views.clear());
        all.append(&mut sets);
    }
    say("all".into(), &all);
    all.retain(|one| one.views >= 8);
    say("8 views and more".into(), &all);
    say_measures(&cells, width);
}

fn clean(asked: &Asked) {
    println!("\n## Clean views, nothing said of the lens\n");
    println!("Width: of the exact covariance with k1, k2, p1 and p2 free.\n");
    by_views_and_noise(asked, "clean", "", |summary| summary.width);
}

fn exact(asked: &Asked) {
    println!("\n## Clean views, `--lens exact`\n");
    println!("Width: of the exact covariance without a lens.\n");
    by_views_and_noise(asked, "exact", "lens exact", |summary| summary.plain_width);
}

/// Whether two deviations cover what their level says: of so many sets that chance is small, fitted without a search.
fn level(asked: &Asked) {
    println!("\n## Two deviations by Student's distribution, whose level is 95.45 %\n");
    println!(
        "By the independent fit without a lens, {} sets of each cell.\n",
        40 * asked.runner.sets
    );
    println!("| cell | tilts within |");
    println!("|---|---|");
    for (views, noise) in [(3, 0.05), (3, 0.3), (4, 0.3), (8, 0.1)] {
        let covered = |set: usize| {
            let name = format!("{} level {views} {noise} {set}", asked.runner.seed);
            let mut random = Random::named(&name);
            let is_spread = random.below(2) == 0;
            let kind = Kind { is_spread, ..Kind::clean(views, noise) };
            covered_by_two_deviations(&draw(&kind, &mut random))
        };
        let covered: Vec<_> = (0..40 * asked.runner.sets).filter_map(covered).collect();
        let share = Share::of(covered.into_iter().flatten());
        println!("| {views} views, {noise} px | {share}: {:.2} % |", 100.0 * share.part());
    }
}

fn centre(asked: &Asked) {
    println!("\n## A centre within 2 px of the stated one, which says so\n");
    let mut cells = vec![];
    for lens in ["", "lens exact"] {
        let named = format!("centre {lens}");
        let options = format!("centre-within 2\n{lens}");
        let sets = asked.runner.sets(&named, &options, |_, random| Kind {
            centre_off: 2.0,
            ..Kind::clean(random.pick(&[6, 8, 14]), random.pick(&NOISES))
        });
        asked.keep(&named, &sets, Measured::is_silently_beyond);
        let lens = if lens.is_empty() { "nothing said of the lens" } else { "--lens exact" };
        cells.push((lens.to_owned(), Summary::new(&sets)));
    }
    say_cells(&cells);
}

fn lenses(asked: &Asked) {
    println!("\n## Lenses that nobody stated\n");
    println!("p of 0.0005 to 0.01, k1 of ±0.005 to ±0.3, noise 0.05 to 0.4 px, 4 to 20 views.\n");
    let sets = asked.runner.sets("lenses", "", |_, random| lens(random));
    asked.keep("lenses", &sets, Measured::is_silently_beyond);
    let summary = Summary::new(&sets);
    println!("- end with 0 and a tilt beyond its bounds: {}", summary.silent);
    println!("- end with 0: {}", summary.good);
    println!("- tilts within the bounds where it ends with 0: {}", summary.covered);
    println!("- a lens among the reasons: {}", summary.lens);
    println!("- fail: {}", summary.failed);
    say_reasons(&[("lenses".into(), summary)]);
}

fn long(asked: &Asked) {
    println!("\n## Long focal lengths\n");
    let mut cells = vec![];
    for focal in [14_000.0, 50_000.0] {
        let named = format!("long {focal}");
        let sets = asked.runner.sets(&named, "", |_, random| Kind {
            focal: [0.98 * focal, 1.02 * focal],
            ..Kind::clean(random.pick(&[6, 8, 10, 14]), between(random, 0.02, 0.1))
        });
        asked.keep(&named, &sets, |one| {
            one.is_silently_beyond() || one.answer.as_ref().is_ok_and(|a| a.blames_the_lens())
        });
        cells.push((format!("{focal} px"), Summary::new(&sets)));
    }
    say_cells(&cells);
    for (cell, summary) in &cells {
        println!("- {cell}: a lens or a distortion among the reasons: {}", summary.lens);
    }
}

fn all_typed(asked: &Asked) {
    println!("\n## Typed tilts within ±15° that aren't tried\n");
    let runner = Runner { sets: 242 * asked.runner.sets.div_ceil(242), ..asked.runner.clone() };
    let sets = runner.sets("typed", TYPED, typed);
    let is_missed = |one: &Measured| one.answer.as_ref().map_or(true, |answer| answer.typed[1] > 0);
    asked.keep("typed", &sets, is_missed);
    let summary = Summary::new(&sets);
    println!(
        "- sets that fail, or with a typed tilt that is skipped: {}",
        Share::of(sets.iter().map(is_missed))
    );
    println!("- sets that fail: {}", summary.failed);
    println!("- typed tilts that are skipped: {}", summary.skipped);
    println!("- end with 0: {}", summary.good);
    println!("- tilts within the bounds where it ends with 0: {}", summary.covered);
    println!("- end with 0 and a tilt beyond its bounds: {}", summary.silent);
    say_reasons(&[("typed".into(), summary)]);
}

fn large(asked: &Asked) {
    println!("\n## Many dots\n");
    let mut cells = vec![];
    for (views, dots, sets) in
        [(20, [10, 7], asked.runner.sets), (60, [20, 15], asked.runner.sets.div_ceil(20))]
    {
        let named = format!("large {views}");
        let runner = Runner { sets, ..asked.runner.clone() };
        let sets = runner.sets(&named, "", |_, random| Kind {
            dots: Some(dots),
            ..Kind::clean(views, random.pick(&NOISES))
        });
        asked.keep(&named, &sets, |one| !one.is_good() || one.is_silently_beyond());
        cells.push((format!("{views} views of {}", dots[0] * dots[1]), Summary::new(&sets)));
    }
    say_cells(&cells);
}

/// What is at the edge of what views can show, or beyond it: here no share has a bar, but no run may mislead.
fn hard(asked: &Asked) {
    println!("\n## Hard views\n");
    let usual = Kind::clean(6, 0.1);
    let steep = "bound 28deg\ntilts-x -25deg,-15deg,-5deg,5deg,15deg,25deg\n\
                 tilts-y -25deg,-15deg,-5deg,5deg,15deg,25deg\nstep 5deg\nrounds 8";
    let kinds = [
        ("wide field, 400 to 800 px", "", Kind { focal: [400.0, 800.0], ..usual }),
        ("3 views of 4 dots", "", Kind { dots: Some([2, 2]), views: 3, ..usual }),
        ("4 views of 9 dots", "", Kind { dots: Some([3, 3]), views: 4, ..usual }),
        ("no noise", "", Kind { noise: 0.0, ..usual }),
        ("1 px", "", Kind { noise: 1.0, ..usual }),
        ("tilts to 25°", steep, Kind { tilts: [[-25.0, 25.0]; 2], ..usual }),
        ("turned by 40° to 70°", "", Kind { turn: [40.0, 70.0], ..usual }),
        ("turned by up to 10°", "", Kind { turn: [0.0, 10.0], ..usual }),
    ];
    println!(
        "| cell | end with 0 | end with 0 and a tilt beyond its ± | typed tilts skipped | fail |"
    );
    println!("|---|---|---|---|---|");
    let mut cells = vec![];
    for (cell, options, kind) in kinds {
        let sets = asked.runner.sets(cell, options, |_, _| kind);
        asked.keep(cell, &sets, Measured::is_silently_beyond);
        let s = Summary::new(&sets);
        println!("| {cell} | {} | {} | {} | {} |", s.good, s.silent, s.skipped, s.failed);
        cells.push((cell.to_owned(), s));
    }
    println!();
    say_reasons(&cells);
}
