//! A journal as one page of HTML that needs nothing else: the verdict, the winner, the chart, the counts, the winners of
//! rounds and stretches, what was tried and could be missed, versions and checksums, and every tried tilt.

mod candidates;
mod html;

use crate::again;
use crate::angle::degrees;
use crate::case::{Case, Judged, add_lean, library_version};
use crate::chart::chart;
use crate::date::now;
use crate::drive::{self, Finished, last_step};
use crate::journal;
use crate::open::Open;
use crate::plan::Plan;
use crate::report::{self, Row};
use crate::stretches::{self, Stretch, Won};
use crate::table::{Record, SKIPS};
use crate::verdict::{self, ONLY_BY_VIEWS, Point};
use crate::walk::Walked;
use html::{css_string, element, escaped, facts, list, paragraph, part, section, wide};
use jinnychair::RunError;
use jinnychair::journal::{Line, StoredInputs, Views, sha256};
use std::path::Path;

/// How a page begins.
pub const HEAD: &str = "<!DOCTYPE html>\n<!-- A page of jinnychair. -->";

/// Nothing is fetched: a page has all that it shows.
const POLICY: &str = "default-src 'none'; style-src 'unsafe-inline'; script-src 'unsafe-inline'";

/// What is said where nothing speaks against the winner, as far as can be said.
const NOT_WHOLE: &str = "nothing that can be looked at without the views speaks against the winner";

/// How good a result is.
#[derive(Clone, Copy, Debug, PartialEq, Eq)]
pub enum Kind {
    /// Nothing speaks against the winner.
    Good,
    /// Something does.
    Doubtful,
    /// As far as can be said without the views, nothing does.
    Part,
    /// There is no winner.
    Failed,
}

/// All that a page shows.
pub struct Told<'a> {
    name: String,
    /// Its checksum, its length, and that of its inputs' file.
    sums: [String; 2],
    len: usize,
    inputs: &'a StoredInputs,
    lines: Vec<Line>,
    /// What is strange about the journal's end.
    remark: Option<String>,
    plan: Plan,
    finished: Finished,
    /// What the views say, where they are at hand.
    judged: Option<Judged>,
    open: Option<Open>,
    /// How good it is.
    pub kind: Kind,
    head: String,
    against: Vec<Point>,
    /// Why the views aren't at hand.
    no_views: Option<String>,
}

impl<'a> Told<'a> {
    /// Gathers what a page shows from a journal that was run again and, where they are asked for and at hand, its views.
    ///
    /// # Errors
    ///
    /// The journal isn't one that its inputs lead to.
    pub fn new(walked: &'a Walked, views: Option<&Path>, with_views: bool) -> Result<Self, String> {
        let (path, bytes, journal) = (walked.path.as_path(), &walked.bytes[..], &walked.journal);
        let (Some(inputs), Some(search), true) =
            (&walked.inputs, &walked.search, walked.is_the_runs())
        else {
            return Err(format!(
                "{}: no page is made of such a journal. {}",
                path.display(),
                walked.text()
            ));
        };
        let plate = match with_views {
            true => again::plate(inputs, path, views),
            false => Err("they weren't asked for".into()),
        };
        let case = plate.and_then(|plate| Case::of_inputs(inputs, plate, None));
        let case = match (case, views) {
            (Err(fault), Some(_)) => return Err(fault),
            (case, _) => case,
        };
        let sources = journal::sources(inputs);
        let tried = match &case {
            Ok(case) => case.tried(&journal.lines),
            Err(_) => drive::of_lines(&journal.lines, (&inputs.decomposition, &sources)),
        };
        let seeds: Vec<_> = sources.into_iter().zip(inputs.decomposition.iter().copied()).collect();
        let mut told = Self {
            name: path.file_name().unwrap_or(path.as_os_str()).display().to_string(),
            sums: [walked.sha256().to_owned(), sha256(inputs.text().as_bytes())],
            len: bytes.len(),
            inputs,
            remark: journal.ending_text(),
            lines: journal.lines.clone(),
            plan: Plan::new(&inputs.options, &seeds),
            finished: drive::as_it_stands(search, tried),
            judged: None,
            open: None,
            kind: Kind::Failed,
            head: String::new(),
            against: vec![],
            no_views: None,
        };
        told.judge(case)?;
        Ok(told)
    }

    fn judge(&mut self, case: Result<Case, String>) -> Result<(), String> {
        let winner = match self.finished.winner {
            Ok(winner) => winner,
            Err(error) => {
                self.head = no_winner(&self.finished, error);
                let few = || verdict::too_few_counted(&self.finished.tried, &self.inputs.options);
                self.against = case.as_ref().ok().and_then(|_| few()).into_iter().collect();
                self.no_views = case.err();
                return Ok(());
            }
        };
        match case {
            Ok(case) => {
                let judged = case.judge(&self.finished, &winner)?;
                (self.open, self.against) = (Some(judged.open), judged.against.clone());
                self.judged = Some(judged);
            }
            Err(why) => {
                let choices = journal::choices(self.inputs)?;
                let stop = self.finished.stop.as_ref();
                let plan =
                    stop.map_or(self.plan.clone(), |s| self.plan.stopped_in(s.progress.round));
                let open = Open::without_views(&winner, &plan, choices.centre_within);
                self.against =
                    verdict::without_views(&self.finished, &winner, &self.plan, &open, &choices);
                (self.open, self.no_views) = (Some(open), Some(why));
            }
        }
        let head = report::verdict_head(&self.against);
        (self.kind, self.head) = match (&self.no_views, self.against.is_empty()) {
            (None, true) => (Kind::Good, without_word(&head)),
            (_, false) => (Kind::Doubtful, without_word(&head)),
            (Some(_), true) => (Kind::Part, NOT_WHOLE.into()),
        };
        Ok(())
    }

    /// How the search stands, what is left open, and what speaks against its winner.
    #[must_use]
    pub fn found(&self) -> (&Finished, Option<&Open>, &[Point]) {
        (&self.finished, self.open.as_ref(), &self.against)
    }

    /// Why the views aren't at hand, if they aren't.
    #[must_use]
    pub fn no_views(&self) -> Option<&str> {
        self.no_views.as_deref()
    }

    /// The page.
    #[must_use]
    pub fn page(&self, typed: Option<&[Stretch]>) -> String {
        let title = escaped(&format!("Tilt search: {}", self.name));
        let body = [
            self.heading(),
            self.verdict(),
            self.winner(),
            self.chart(),
            self.counts(),
            self.winners(typed),
            self.errors(),
            self.without_views(),
            self.tried(),
            self.options(),
            self.versions(),
            candidates::table(&self.finished),
        ];
        format!(
            "{HEAD}\n<html lang=\"en\">\n<head>\n<meta charset=\"utf-8\">\n\
             <meta name=\"viewport\" content=\"width=device-width, initial-scale=1\">\n\
             <meta http-equiv=\"Content-Security-Policy\" content=\"{POLICY}\">\n<title>{title}</title>\n\
             <style>\n{}{}</style>\n</head>\n<body>\n{}<script>\n{}</script>\n</body>\n</html>\n",
            include_str!("page/style.css"),
            self.footer(),
            body.concat(),
            include_str!("page/sort.js")
        )
    }

    /// What stands below each printed page.
    fn footer(&self) -> String {
        let (name, date, sum) = (&self.name, &self.inputs.date, &self.sums[0][..16]);
        let text = format!("Tilt search: {name}, begun {date}, journal's SHA-256 {sum}...");
        format!("@page {{ @bottom-left {{ content: {}; }} }}\n", css_string(&text))
    }

    fn heading(&self) -> String {
        let begun = format!("Begun {} with jinnychair {}", self.inputs.date, self.inputs.library);
        let about = |name: &str, words: &str| {
            let text = journal::about(self.inputs).about(name).map(|text| format!("{words}{text}"));
            text.map_or(String::new(), |text| paragraph("sub", &text))
        };
        let title = element("h1", &format!("Tilt search: {}", self.name));
        let (views, centre) = (about("input", "Views: "), about("centre", "Optical centre "));
        format!("<header>\n{title}{}{views}{centre}</header>\n", paragraph("sub", &begun))
    }

    /// The verdict, by a word and a sign, and what speaks against the winner.
    fn verdict(&self) -> String {
        let (class, sign) = match self.kind {
            Kind::Good => ("good", "✓ GOOD"),
            Kind::Doubtful => ("doubtful", "! DOUBTFUL"),
            Kind::Part => ("part", "? NOT WHOLE"),
            Kind::Failed => ("failed", "✗ NO WINNER"),
        };
        let mut text =
            format!("<section class=\"verdict {class}\">\n<p class=\"sign\">{sign}</p>\n");
        text += &element("p", &self.head);
        if !self.against.is_empty() {
            let points = self.against.iter().map(|point| element("li", &point.to_string()));
            text += &format!("<ol>\n{}</ol>\n", points.collect::<String>());
        }
        if let Some(remark) = &self.remark {
            text += &element("p", &format!("The journal: {remark}."));
        }
        if let Some(why) = &self.no_views {
            let why = format!("The views aren't at hand: {why}. So this wasn't looked at:");
            text += &element("p", &why);
            let missing = self.not_looked_at().into_iter().map(|what| element("li", what));
            text += &format!("<ul>\n{}</ul>\n", missing.collect::<String>());
        }
        text + "</section>\n"
    }

    /// What only the views tell.
    fn not_looked_at(&self) -> Vec<&'static str> {
        if self.kind == Kind::Failed {
            return vec!["how many dots were counted for each tilt"];
        }
        let held = "whether the sensor leans about the axis that is held";
        let held = self.inputs.options.one_axis.then_some(held);
        ONLY_BY_VIEWS.iter().copied().chain(held).collect()
    }

    /// The tilts that the verdict is about, in large figures: the lean, or where it isn't known the winner's.
    fn headline(&self, open: &Open) -> String {
        let ([x, y], bounds) = open.headline();
        // Without views a bound would have the steps and the centre in it, and nothing of noise and lens.
        let (name, unknown, bounds) = match (open.lean, &self.judged) {
            (Some(_), _) => ("lean", "not determined", bounds),
            (None, Some(_)) => ("tilt", "not determined", None),
            (None, None) => ("tilt", "± not known", None),
        };
        let tilt = |axis: &str, radians: f64, i: usize| {
            let bound = bounds.map_or(unknown.into(), |b| format!("± {}°", degrees(b[i])));
            let text = format!("{:+.4}° {bound}", radians.to_degrees());
            let radians = format!("{radians:+.6} rad");
            let [text, radians] = [text, radians].map(|text| text.replace('-', "−"));
            format!("<div><span>{name} {axis}</span>{text}<span>{radians}</span></div>\n")
        };
        let y = match open.held {
            None => tilt("y", y, 1),
            Some(_) => format!("<div><span>{name} y</span>held at 0°</div>\n"),
        };
        format!("<div class=\"tilts\">\n{}{y}</div>\n", tilt("x", x, 0))
    }

    fn winner(&self) -> String {
        let (Ok(winner), Some(open)) = (&self.finished.winner, &self.open) else {
            return String::new();
        };
        let mut lean = self.headline(open);
        let mut about: Vec<Row> = vec![];
        match &self.judged {
            Some(judged) => {
                about.push(("left open".into(), sum_text(open)));
                // The tilts stand above; of one that is held more is said.
                let is_above =
                    |row: &Row| row.0 == "lean x" || (row.0 == "lean y" && open.held.is_none());
                about.extend(report::lean_rows(judged).into_iter().filter(|row| !is_above(row)));
            }
            None => {
                let unknown =
                    "the lean isn't known without the views: these are the winner's tilts";
                let not_in_it = "not known without the views";
                about.push(("lean".into(), unknown.into()));
                about.push(("  by noise, lens".into(), not_in_it.into()));
                about.extend(report::centre_rows(open));
            }
        }
        lean += &facts(&about);
        let fit = self.judged.as_ref().map(|judged| &judged.fit);
        let mut text = facts(&report::winner_rows(&self.finished, winner, fit, open));
        if let Some(stop) = &self.finished.stop {
            let said = report::stop(stop, &self.inputs.options);
            text += &facts(&said.lines().map(columns).collect::<Vec<_>>());
        }
        let heading =
            if self.finished.stop.is_some() { "Best so far" } else { "Winner of the search" };
        section("keep", "Lean", &lean) + &section("keep", heading, &text)
    }

    /// The chart, without the notes that stand elsewhere on the page.
    fn chart(&self) -> String {
        if self.finished.tried.is_empty() {
            return section("", "Chart", &element("p", "No tilt was tried."));
        }
        let about = journal::about(self.inputs).about;
        let needed = |name: &str| ["bound_rad", "axes"].contains(&name);
        let about = about.into_iter().filter(|(name, _)| needed(name)).collect();
        let mut record = Record { about, tried: self.finished.tried.clone() };
        if let Some(judged) = &self.judged {
            add_lean(&mut record, judged);
        }
        if let Some(stop) = &self.finished.stop {
            record.add("stopped", &report::stop_place(stop));
        }
        section("keep", "Chart", &wide(&format!("<figure>\n{}</figure>", chart(&record))))
    }

    fn counts(&self) -> String {
        let counts = &self.finished.counts;
        let mut rows = vec![vec!["S".into(), counts.scored.to_string(), "scored".into()]];
        for &(reason, letter, words) in SKIPS {
            let count = counts.skipped(reason).to_string();
            rows.push(vec![letter.into(), count, format!("skipped: {words}")]);
        }
        rows.push(vec!["".into(), counts.total().to_string(), "tried".into()]);
        let line = counts.report_line().unwrap_or_default();
        let line = format!("<p class=\"note\">As one line: <code>{}</code></p>\n", line.trim_end());
        section("keep", "How many of each", &(list(&["", "#Tilts", ""], &rows, true) + &line))
    }

    fn winners(&self, typed: Option<&[Stretch]>) -> String {
        let mut text = part("Of rounds", &won("Round", &stretches::of_rounds(&self.lines)));
        if let Some(typed) = typed {
            let mut holds = won("Lines", &stretches::of_stretches(&self.lines, typed));
            let count = self.lines.len();
            let gaps = stretches::left_out(count, typed);
            let gaps = gaps.iter().map(|gap| element("p", &format!("In no stretch: {gap}.")));
            holds.extend(gaps);
            if typed.last().is_some_and(|stretch| stretch.last > count) {
                holds += &element("p", &format!("The journal has {count} lines."));
            }
            holds += &paragraph("note", "Lines are counted from 1, candidates from 0.");
            text += &part("Of stretches", &holds);
        }
        section("", "Winners", &format!("<div class=\"beside\">\n{text}</div>\n"))
    }

    /// The leans without each view in turn.
    fn without_views(&self) -> String {
        let found = self.judged.as_ref().and_then(|judged| judged.outliers.as_ref());
        let without = found.map_or(&[][..], |found| &found.without);
        let Some(by_views) = report::by_views_text(without) else { return String::new() };
        let rows: Vec<_> = without.iter().map(|one| report::without_row(one).to_vec()).collect();
        let heads = ["#Without view", "#Lean x °", "#Lean y °"];
        section(
            "keep",
            "Without each view",
            &(list(&heads, &rows, false) + &paragraph("note", &by_views)),
        )
    }

    /// The winner's errors, view by view.
    fn errors(&self) -> String {
        let Some(Judged { fit, .. }) = &self.judged else { return String::new() };
        let heads = ["#View", "#Counted", "#Mean px", "#RMS px", "#Worst px"];
        let rows: Vec<_> = report::view_rows(fit).iter().map(|row| row.to_vec()).collect();
        let worst = report::worst_texts(fit);
        let worst: String = worst.iter().map(|text| element("p", text)).collect();
        let views = part("View by view", &list(&heads, &rows, false));
        let text = views + &part("The dots that are furthest off", &worst);
        section("", "The winner's errors", &format!("<div class=\"beside\">\n{text}</div>\n"))
    }

    /// What was tried, and what could be missed.
    fn tried(&self) -> String {
        let plan = self.plan.text();
        let (tried, missed) = plan.split_once("\nwhat can be missed").unwrap_or((&plan, ""));
        let rows = |text: &str| facts(&text.lines().skip(1).map(columns).collect::<Vec<_>>());
        let tried = part("What was tried", &rows(tried));
        section("", "The search", &(tried + &part("What could be missed", &rows(missed))))
    }

    fn options(&self) -> String {
        let (inputs, options) = (self.inputs, &self.inputs.options);
        let row = |name: &str, value: String| (name.to_owned(), value);
        let tilts = |tilts: &[f64]| {
            tilts.iter().map(|tilt| format!("{}°", degrees(*tilt))).collect::<Vec<_>>().join(", ")
        };
        let (base, seeds) = (inputs.base, inputs.decomposition.len());
        let last = match options.refine_rounds {
            0 => String::new(),
            _ => format!(", the last with a step of {}°", degrees(last_step(options))),
        };
        let mut rows = vec![
            row("tilts x", tilts(&options.tilt_x_seeds)),
            row("tilts y", tilts(&options.tilt_y_seeds)),
            row(
                "one axis",
                if options.one_axis { "yes: tilt y is held at 0" } else { "no" }.into(),
            ),
            row("bound", format!("{}°", degrees(options.max_abs_tilt))),
            row("first step", format!("{}°", degrees(options.refine_step))),
            row("rounds", format!("{} after the grid{last}", options.refine_rounds)),
            row("counted", format!("at least {} % of a tilt's dots", options.min_counted)),
            row("seeds", format!("{seeds} beside the grid")),
            row("views", inputs.views.to_string()),
            row(
                "base camera",
                format!(
                    "fx {:.3} px  fy {:.3} px  cx {:.3} px  cy {:.3} px",
                    base.fx, base.fy, base.cx, base.cy
                ),
            ),
            row("centre of views", format!("{:.3} px  {:.3} px", inputs.center.x, inputs.center.y)),
        ];
        rows.extend(self.choices());
        let note = format!("Numbers are rounded; {}.inputs has every bit.", self.name);
        section("keep", "Options", &(facts(&rows) + &paragraph("note", &note)))
    }

    /// The options that Start isn't given.
    fn choices(&self) -> Vec<Row> {
        let choices = journal::choices(self.inputs).unwrap_or_default();
        let centre = choices.guess_centre.map(|()| "guessed".into());
        let within = choices.centre_within.map(|pixels| format!("within {pixels} px"));
        let tilt = choices.max_tilt.map(|tilt| format!("tilts up to {}°", degrees(tilt)));
        let mean = choices.max_mean.map(|pixels| format!("a mean error up to {pixels} px"));
        let named = [
            ("optical centre", centre),
            ("optical centre", within),
            ("service's limit", tilt),
            ("service's limit", mean),
        ];
        named.into_iter().filter_map(|(name, text)| Some((name.to_owned(), text?))).collect()
    }

    fn versions(&self) -> String {
        let (inputs, row) = (self.inputs, |name: &str, value: String| (name.to_owned(), value));
        let mut rows = vec![
            row("search", format!("jinnychair {}, begun {}", inputs.library, inputs.date)),
            row("this page", format!("jinnychair {}, {}", library_version(), now())),
            row(
                "journal",
                format!("{}, {} lines, {} bytes", self.name, self.lines.len(), self.len),
            ),
            row("  SHA-256", self.sums[0].clone()),
            row("inputs", format!("{}.inputs", self.name)),
            row("  SHA-256", self.sums[1].clone()),
        ];
        match &inputs.plate {
            Views::BuiltIn => rows.push(row("views", "built-in".into())),
            Views::File { name, sha256 } => {
                rows.extend([row("views", name.clone()), row("  SHA-256", sha256.clone())]);
            }
        }
        let text = "The journal was run again from its inputs for this page: every line has the number, round and seed \
                    that the search hands out, bit by bit, and the score that its own numbers give.";
        section("keep", "Versions and checksums", &(facts(&rows) + &paragraph("note", text)))
    }
}

/// Why there is no winner.
fn no_winner(finished: &Finished, error: RunError) -> String {
    let RunError::Result(error) = error else { return error.to_string() };
    if finished.stop.is_some() {
        return "nothing is scored yet, and the journal ends before the run".into();
    }
    let why = match finished.tried.len() {
        0 => "no tilt was tried: no pair of typed tilts lies within the bound, and there is no seed beside the grid".into(),
        tried => format!("every tried tilt was skipped, {tried} in all. Look at the reasons below"),
    };
    format!("{} ({}): {why}.", error.fault(), error.number())
}

/// What the bounds of the lean are made of.
fn sum_text(open: &Open) -> String {
    let Some([x, y]) = open.lean_total().map(|bounds| bounds.map(degrees)) else {
        return "more than the views determine".into();
    };
    let y = if open.held.is_some() { String::new() } else { format!(", ±{y}° y") };
    let these = if open.centre_within.is_some() { "these" } else { "what is known of these" };
    format!("±{x}° x{y}, the sum of {these}")
}

/// A verdict without the word that stands above it.
fn without_word(head: &str) -> String {
    head.split_once(": ").map_or(head, |(_, head)| head).into()
}

/// Winners of parts, and the winner of those.
fn won(name: &str, parts: &[Won]) -> String {
    let all = Won {
        part: "all of these".into(),
        winner: stretches::of_all(parts),
        none: "nothing was scored".into(),
    };
    let row = |won: &Won| {
        let mut row = vec![won.part.clone()];
        row.extend(match won.winner {
            None => [format!("none: {}", won.none), "".into(), "".into(), "".into()],
            Some(winner) => [
                format!("no. {}", winner.number),
                // All digits: the winners of late rounds differ in the last ones.
                format!("{:?}", winner.score),
                format!("{:.4}", winner.sensor.tilt_x.to_degrees()),
                format!("{:.4}", winner.sensor.tilt_y.to_degrees()),
            ],
        });
        row
    };
    let rows: Vec<_> = parts.iter().chain([&all]).map(row).collect();
    list(&[name, "Winner", "#Score", "#Tilt x °", "#Tilt y °"], &rows, true)
}

/// A line of text as it is shown, split into its name and its value; some have no name.
fn columns(line: &str) -> Row {
    let letters: Vec<char> = line.chars().collect();
    let text = |letters: &[char]| letters.iter().collect::<String>().trim().to_owned();
    match letters.get(14..16) {
        Some([' ', ' ']) => (text(&letters[..16]), text(&letters[16..])),
        Some([_, ' ']) if letters[0] != ' ' => (text(&letters[..16]), text(&letters[16..])),
        _ => (String::new(), text(&letters)),
    }
}
