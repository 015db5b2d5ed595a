//! `report`: the morning report of a journal.

use super::{Asked, Command, End, Fault, Form, Words, check_believed, end_of, give};
use crate::fleet;
use crate::journal::Journal;
use crate::output::{Output, Over};
use crate::page::{self, Kind, Told};
use crate::report;
use crate::screen::Screen;
use crate::stretches::{self, Stretch};
use crate::summary;
use crate::walk::Walked;
use jinnychair::Counts;
use jinnychair::journal::inputs_path;
use std::path::{Path, PathBuf};

pub(super) const COMMAND: Command = Command { name: "report", run };

const FORM: Form = Form {
    missing: &["no journal is named"],
    most: usize::MAX,
    options: &["--stretches", "--page", "--views"],
    flags: &["--force", "--unchecked", "--json", "--csv", "--no-views"],
};

fn run(words: Words, screen: &mut Screen) -> Result<End, Fault> {
    let asked = Asked::read(words, &FORM)?;
    if asked.has("--csv") || asked.files.len() > 1 || asked.files[0].is_dir() {
        return many(&asked, screen);
    }
    let views = asked.path("--views");
    if views.is_some() && asked.path("--page").is_none() && !asked.has("--json") {
        return Err(Fault::Usage("--views is for a page. Name that with --page".into()));
    }
    check_together(&asked, &["--views", "--no-views"])?;
    let typed = asked.text("--stretches")?.map(|text| stretches::parse(&text)).transpose();
    let typed = typed.map_err(|fault| Fault::Usage(format!("--stretches: {fault}")))?;
    let path = asked.files[0].as_path();
    let page = open_page(&asked, path, views.as_deref())?;
    screen.leave_to(&page);
    let walked = Walked::read(path)?;
    check_believed(&walked, asked.has("--unchecked"))?;
    let lines = &walked.journal.lines;
    screen.say(format!("journal         {}, {} lines", path.display(), lines.len()));
    screen.say(walked.text());
    let named = |fault: String| format!("{}: {fault}", path.display());
    screen.say(report::counts(&Counts::of(lines)).map_err(named)?);
    if let Some(stretches) = &typed {
        say_winners(&walked.journal, stretches, screen);
    }
    let told = match page.is_some() || asked.has("--json") {
        true => told(&walked, views, &asked, screen)?,
        false => None,
    };
    let mut end = end_of(&walked);
    if let Some(page) = page {
        let told = told.as_ref().ok_or_else(|| no_page(&walked))?;
        page.write(&told.page(typed.as_deref()))?;
        screen.say(format!("written: {}", page.name()));
    }
    if told.as_ref().is_some_and(|told| told.kind != Kind::Good) {
        end = End::Doubtful;
    }
    if !asked.has("--json") {
        return Ok(end);
    }
    let object = match &told {
        Some(told) => summary::of_told("report", &walked, told),
        None => summary::of_walked("report", &walked),
    };
    give(object, end, screen)
}

/// All that can be said of a journal that is the run's.
fn told<'a>(
    walked: &'a Walked,
    views: Option<PathBuf>,
    asked: &Asked,
    screen: &mut Screen,
) -> Result<Option<Told<'a>>, Fault> {
    if !walked.is_the_runs() {
        return Ok(None);
    }
    let told = Told::new(walked, views.as_deref(), !asked.has("--no-views"))?;
    if let Some(why) = told.no_views() {
        screen.say(format!("views           not at hand: {why}. Name them with --views"));
    }
    Ok(Some(told))
}

fn no_page(walked: &Walked) -> Fault {
    Fault::Failed(format!(
        "{}: no page is made of such a journal. {}",
        walked.path.display(),
        walked.text()
    ))
}

/// Options that don't go together.
fn check_together(asked: &Asked, options: &[&str]) -> Result<(), Fault> {
    let stated: Vec<_> = options.iter().filter(|option| asked.states(option)).copied().collect();
    if stated.len() < 2 {
        return Ok(());
    }
    Err(Fault::Usage(format!("{}: they don't go together. Leave one out", stated.join(" and "))))
}

/// A row for each journal, or an object for each: what is wrong with one stands in its own.
fn many(asked: &Asked, screen: &mut Screen) -> Result<End, Fault> {
    check_together(asked, &["--csv", "--json"])?;
    for option in ["--stretches", "--page", "--views", "--force", "--unchecked"] {
        if asked.states(option) {
            return Err(Fault::Usage(format!(
                "{option} is for one journal. Leave it out, or name one alone"
            )));
        }
    }
    let journals = named(&asked.files)?;
    let is_json = asked.has("--json");
    if !is_json {
        screen.give(&summary::heads());
    }
    let with_views = !asked.has("--no-views");
    let work = |path: &Path| {
        let found = fleet::one(path, with_views);
        let text = if is_json { found.to_string() } else { summary::row(&found) };
        (text, fleet::is_good(&found))
    };
    let mut are_good = true;
    fleet::each(&journals, work, |(text, is_good): (String, bool)| {
        screen.give(&text);
        are_good &= is_good;
    });
    Ok(if are_good { End::Good } else { End::Doubtful })
}

/// The journals that are named, and those in folders.
fn named(paths: &[PathBuf]) -> Result<Vec<PathBuf>, Fault> {
    let mut journals = vec![];
    for path in paths {
        let found = if path.is_dir() { fleet::below(path)? } else { vec![path.clone()] };
        if found.is_empty() {
            let name = path.display();
            return Err(Fault::Failed(format!(
                "{name}: there is no journal in it: neither a file with .inputs beside it nor one that begins as a journal"
            )));
        }
        journals.extend(found);
    }
    Ok(journals)
}

fn open_page(
    asked: &Asked,
    journal: &Path,
    views: Option<&Path>,
) -> Result<Option<Output>, String> {
    let Some(page) = asked.path("--page") else { return Ok(None) };
    let beside = inputs_path(journal);
    let inputs: Vec<&Path> = [Some(journal), Some(&beside), views].into_iter().flatten().collect();
    let over = Over::Own(page::HEAD).or_all(asked.has("--force"));
    Output::open(&page, "--page", over, &inputs).map(Some)
}

/// The winners of stretches and of rounds.
fn say_winners(journal: &Journal, typed: &[Stretch], screen: &mut Screen) {
    let lines = &journal.lines;
    screen.say(stretches::text("winners of stretches", &stretches::of_stretches(lines, typed)));
    for gap in stretches::left_out(lines.len(), typed) {
        screen.say(format!("  left out        {gap}: in no stretch"));
    }
    screen.say(stretches::text("winners of rounds", &stretches::of_rounds(lines)));
}
