//! A search with all that it starts from: its views, its host, its options and its seeds. It is run, and judged.

use crate::angle::degrees;
use crate::bad_view;
use crate::choices::{Choices, parse_seeds};
use crate::date::now;
use crate::drive::{self, Finished, Source, Tried};
use crate::files::read;
use crate::journal;
use crate::lean::Lean;
use crate::next_view::{NextView, next_view};
use crate::open::Open;
use crate::outliers::Outliers;
use crate::plan::Plan;
use crate::progress::Bar;
use crate::report;
use crate::residuals::Fit;
use crate::rivals;
use crate::screen::{Screen, aside};
use crate::solve::{self, Host};
use crate::stop::Stopper;
use crate::table::{self, Record};
use crate::verdict::{self, Point};
use crate::views::{MOST_SCORED, Plate};
use jinnychair::journal::{
    HostVersion, JournalFileError, JournalWriter, Line, StoredInputs, Views, inputs_path,
};
use jinnychair::{FxFyCxCy, Inputs, Options, Progress, Pt2, RunError, Search, Seed, Winner};
use std::io::IsTerminal;
use std::ops::ControlFlow;
use std::path::Path;

/// A search with all that it starts from.
pub struct Case {
    input: String,
    views: Views,
    host: Host,
    is_guessed: bool,
    /// The file's centre, where another one is held.
    other_centre: Option<[f64; 2]>,
    base: FxFyCxCy,
    center: Pt2,
    choices: Choices,
    options: Options,
    seeds: Vec<(Source, Seed)>,
    plan: Plan,
    about: Record,
}

/// What the views say of a winner: the lean beside it, what is left open, and what speaks against both.
pub struct Judged {
    /// The winner's errors, dot by dot.
    pub fit: Fit,
    /// The lean; nothing where the views determine none.
    pub lean: Option<Lean>,
    /// What is left open.
    pub open: Open,
    /// Dots and views that disagree, and the leans without each view.
    pub outliers: Option<Outliers>,
    /// Which turn of the plate would shrink the ± most.
    pub next: Option<NextView>,
    /// What speaks against the result.
    pub against: Vec<Point>,
}

/// This host, as inputs name it.
#[must_use]
pub fn this_host() -> HostVersion {
    HostVersion { name: solve::NAME.into(), version: solve::VERSION.into() }
}

/// Holds the stated centre, or otherwise the file's, and gives the file's where the two differ.
fn hold_centre(plate: &mut Plate, stated: Option<[f64; 2]>) -> Option<[f64; 2]> {
    let of_file = plate.centre;
    plate.centre = stated.or(of_file);
    of_file.filter(|_| plate.centre != of_file)
}

impl Case {
    /// A search of a plate; `input` names it in words. What is read and left out is shown.
    ///
    /// # Errors
    ///
    /// Says why the views give no camera, or what is wrong with a file of seeds.
    pub fn new(
        mut plate: Plate,
        (views, input): (Views, String),
        choices: &Choices,
        screen: &mut Screen,
    ) -> Result<Self, String> {
        let other_centre = hold_centre(&mut plate, choices.centre);
        let is_guessed = plate.centre.is_none();
        screen.say(format!(
            "read            {input}: {} views, {} dots",
            plate.views.len(),
            plate.dots()
        ));
        let named = |fault: String| format!("{input}: {fault}");
        let host = Host::with_model(plate, choices.model()).map_err(named)?;
        say_what_is_held(&host, is_guessed, other_centre, screen);
        let base = host.base();
        let options = choices.options();
        let seeds = seeds(&host, choices, base, &options, screen)?;
        let mut case = Self {
            is_guessed,
            other_centre,
            base,
            center: host.observed_centre(),
            choices: choices.clone(),
            plan: Plan::new(&options, &seeds),
            about: Record::default(),
            input,
            views,
            host,
            options,
            seeds,
        };
        case.about = case.asked();
        Ok(case)
    }

    /// The search that a journal's inputs began, with its views found again; `input` names them in words. All that the
    /// search started from is as it was, bit by bit.
    ///
    /// # Errors
    ///
    /// Says why the views or the notes beside the inputs aren't taken.
    pub fn of_inputs(
        stored: &StoredInputs,
        (mut plate, input): (Plate, String),
        minutes: Option<f64>,
    ) -> Result<Self, String> {
        let choices = Choices { minutes, ..journal::choices(stored)? };
        let other_centre = hold_centre(&mut plate, choices.centre);
        let (is_guessed, views) = (plate.centre.is_none(), plate.views.len());
        if views != stored.views {
            let began = stored.views;
            return Err(format!("{input}: {views} views, and the search began with {began}"));
        }
        let host = Host::with_model(plate, choices.model());
        let host = host.map_err(|fault| format!("{input}: {fault}"))?;
        let sources = journal::sources(stored);
        let seeds: Vec<_> = sources.into_iter().zip(stored.decomposition.iter().copied()).collect();
        let mut about = journal::about(stored);
        if stored.library != library_version() {
            about.add("resumed", &format!("with jinnychair {}", library_version()));
        }
        if stored.host.as_ref() != Some(&this_host()) {
            about.add("resumed", &format!("with another host, {}", this_host()));
        }
        Ok(Self {
            input,
            views: stored.plate.clone(),
            host,
            is_guessed,
            other_centre,
            base: stored.base,
            center: stored.center,
            choices,
            plan: Plan::new(&stored.options, &seeds),
            options: stored.options.clone(),
            seeds,
            about,
        })
    }

    /// Whether this program works out from the views what the search began with. Another version or another computer may
    /// not, in the last bits; what it finds for a seed may then differ as well.
    #[must_use]
    pub fn is_as_begun(&self) -> bool {
        let bits = |k: FxFyCxCy, c: Pt2| [k.fx, k.fy, k.cx, k.cy, c.x, c.y].map(f64::to_bits);
        bits(self.host.base(), self.host.observed_centre()) == bits(self.base, self.center)
    }

    /// What the views are solved by.
    #[must_use]
    pub fn host(&self) -> &Host {
        &self.host
    }

    /// Whether the centre is guessed.
    #[must_use]
    pub fn is_guessed(&self) -> bool {
        self.is_guessed
    }

    /// What will be tried.
    #[must_use]
    pub fn plan(&self) -> &Plan {
        &self.plan
    }

    /// Where the seeds come from, and the seeds.
    fn sources_and_seeds(&self) -> (Vec<Source>, Vec<Seed>) {
        self.seeds.iter().copied().unzip()
    }

    fn inputs<'a>(&'a self, decomposition: &'a [Seed]) -> Inputs<'a> {
        let (views, base, center) = (self.host.plate().views.len(), self.base, self.center);
        Inputs { views, options: &self.options, decomposition, base, center }
    }

    /// Begins a journal, with what the search starts from beside it.
    fn begin_journal(&self, path: &Path) -> Result<JournalWriter, String> {
        let (sources, decomposition) = self.sources_and_seeds();
        let inputs = self.inputs(&decomposition);
        let date = self.about.about("date").unwrap_or_default();
        let mut stored = StoredInputs::new(&inputs, self.views.clone(), date);
        stored.host = Some(this_host());
        journal::add_notes(&mut stored, &self.about, &sources, &self.choices);
        JournalWriter::create(path, &stored).map_err(|error| not_begun(&error))
    }

    /// Searches; a journal is begun once it is known that the search can start.
    ///
    /// # Errors
    ///
    /// Says why the search can't start, or why the journal can't be written.
    pub fn search(&self, journal: Option<&Path>) -> Result<Finished, String> {
        let search = drive::start(&self.inputs(&self.sources_and_seeds().1))?;
        let journal = journal.map(|path| self.begin_journal(path)).transpose()?;
        self.run(search, vec![], journal)
    }

    /// Searches to the end without a word, and judges the winner: what the program's `search` answers, for programs around
    /// this crate.
    ///
    /// # Errors
    ///
    /// Says why the search can't start, or why there is no winner.
    pub fn answer(&self) -> Result<(Finished, Winner, Judged), String> {
        let (sources, decomposition) = self.sources_and_seeds();
        let solve = |seed: &Seed| self.host.solve(seed);
        let inputs = self.inputs(&decomposition);
        let finished = drive::run(&inputs, &sources, solve, drive::to_the_end)?;
        let winner = finished.winner.map_err(|error| self.no_winner(&finished, error))?;
        let judged = self.judge(&finished, &winner)?;
        Ok((finished, winner, judged))
    }

    /// Goes on with a search behind the lines of its journal.
    ///
    /// # Errors
    ///
    /// Says why the journal can't be written.
    pub fn go_on(
        &self,
        search: Search,
        lines: &[Line],
        journal: JournalWriter,
    ) -> Result<Finished, String> {
        self.run(search, self.tried(lines), Some(journal))
    }

    /// The tilts of a journal's lines, with what only the views tell.
    #[must_use]
    pub fn tried(&self, lines: &[Line]) -> Vec<Tried> {
        let (sources, decomposition) = self.sources_and_seeds();
        let mut tried = drive::of_lines(lines, (&decomposition, &sources));
        for one in &mut tried {
            if let Some(solution) = self.host.solve(&one.seed) {
                drive::complete(one, &solution);
            }
        }
        tried
    }

    fn run(
        &self,
        search: Search,
        tried: Vec<Tried>,
        mut journal: Option<JournalWriter>,
    ) -> Result<Finished, String> {
        let (sources, decomposition) = self.sources_and_seeds();
        let keep = |line: &Line| match &mut journal {
            Some(journal) => journal.write(line).map_err(|error| error.to_string()),
            None => Ok(()),
        };
        let mut bar = Bar::new(&self.options, &tried, std::io::stderr().is_terminal());
        let mut stopper = Stopper::new(self.choices.minutes);
        if stopper.hears_enter() {
            aside("Enter stops the search after the tilt that is being tried.\n");
        }
        let watch = |one: &Tried, before: &Progress| {
            bar.show(one, before);
            stopper.asks().map_or(ControlFlow::Continue(()), ControlFlow::Break)
        };
        let (search, given) = ((search, tried), (&decomposition[..], &sources[..]));
        let finished = drive::go_on(search, given, |seed| self.host.solve(seed), keep, watch)?;
        bar.end(finished.tried.len());
        Ok(finished)
    }

    /// Shows the counts, the winner and what speaks against it, and gives the record of the search, with the points or, where
    /// there is no winner, why not.
    pub fn show(
        &self,
        finished: Finished,
        screen: &mut Screen,
    ) -> (Record, Result<Vec<Point>, String>) {
        let judged = match finished.winner {
            Ok(winner) => self
                .judge(&finished, &winner)
                .map(|judged| (report::result(&finished, &winner, &judged), judged)),
            Err(error) => Err(self.no_winner(&finished, error)),
        };
        // A search never has more than the report takes.
        screen.say(report::counts(&finished.counts).unwrap_or_default());
        let mut record = self.about.clone();
        if let Some(stop) = &finished.stop {
            screen.say(report::stop(stop, &self.options));
            record.add("stopped", &report::stop_place(stop));
        }
        let against = judged.map(|(text, judged)| {
            screen.say(text);
            screen.say(report::verdict(&judged.against));
            add_lean(&mut record, &judged);
            record.add("verdict", &report::verdict_head(&judged.against));
            judged.against.iter().for_each(|point| record.add("against", &point.to_string()));
            judged.against
        });
        if against.is_err() {
            record.add("verdict", "failed: there is no winner");
        }
        record.tried = finished.tried;
        (record, against)
    }

    fn no_winner(&self, finished: &Finished, error: RunError) -> String {
        let cause = match &finished.stop {
            None => error.to_string(),
            Some(stop) => format!("stopped by {} before any tilt was scored", stop.why),
        };
        let few = verdict::too_few_counted(&finished.tried, &self.options);
        let few = few.map_or(String::new(), |point| format!(" Also: {point}"));
        let bad =
            bad_view::text(self.host.plate()).map_or(String::new(), |text| format!(" {text}."));
        format!("{}: no winner: {cause}{few}{bad}", self.input)
    }

    /// Judges a winner by the views.
    ///
    /// # Errors
    ///
    /// The winner isn't one of this search's.
    pub fn judge(&self, finished: &Finished, winner: &Winner) -> Result<Judged, String> {
        let one = finished
            .tried
            .get(winner.number)
            .ok_or("the winner isn't among the tried tilts".to_owned())?;
        let fit = self
            .host
            .fit(&one.seed)
            .ok_or("the winner's camera can't be solved for again".to_owned())?;
        let stop = finished.stop.as_ref();
        let plan = stop.map_or(self.plan.clone(), |s| self.plan.stopped_in(s.progress.round));
        let within = self.choices.centre_within;
        let lean = Lean::new(&self.host, &one.seed, self.choices.lens());
        let Some(lean) = lean else {
            let open = Open::without_views(winner, &plan, within);
            let against = self.against(finished, (winner, &fit), &open, None);
            return Ok(Judged { fit, lean: None, open, outliers: None, next: None, against });
        };
        let open = Open::new(winner, &lean, &plan, within);
        let outliers = Outliers::new(&self.host, &lean);
        let (host, lean_of_rest) = outliers.rest(&self.host, &lean);
        let next = next_view(host, lean_of_rest, open.held.is_some());
        let found = Some((&lean, &outliers, next.as_ref()));
        let against = self.against(finished, (winner, &fit), &open, found);
        Ok(Judged { fit, lean: Some(lean), open, outliers: Some(outliers), next, against })
    }

    /// All that speaks against a result, in the order in which it is shown.
    fn against(
        &self,
        finished: &Finished,
        (winner, fit): (&Winner, &Fit),
        open: &Open,
        found: Option<(&Lean, &Outliers, Option<&NextView>)>,
    ) -> Vec<Point> {
        let (seen, held) = (self.host.seen(), self.host.held_centre());
        let mut points = vec![];
        points.extend(finished.stop.as_ref().map(verdict::of_stop));
        points.extend(verdict::of_centre(held, self.is_guessed, seen, open));
        points.extend(verdict::of_two_centres(held, self.other_centre, open));
        points.extend(verdict::of_plan(&self.plan));
        points.extend(verdict::of_search(finished, winner, &self.options));
        points.extend(verdict::of_held(open));
        points.extend(verdict::of_fit(fit, self.choices.mirrored.is_some()));
        if let Some((lean, outliers, _)) = found {
            points.extend(verdict::of_outliers(outliers, fit));
            let (host, lean_of_rest) = outliers.rest(&self.host, lean);
            points.extend(verdict::of_model(host, lean_of_rest));
            points.extend(verdict::of_rivals(&rivals::of(&self.host, finished, fit, lean)));
        }
        points.extend(verdict::of_limits(winner, open, self.choices.limits()));
        let noise =
            found.and_then(|(lean, outliers, _)| outliers.rest(&self.host, lean).1.noise_share());
        points.extend(verdict::of_noise(
            noise,
            open.held.is_some(),
            found.and_then(|found| found.2),
        ));
        points.extend(verdict::of_distance(open));
        points
    }

    /// What was asked, for table, chart and inputs; the date is that of the search's begin.
    fn asked(&self) -> Record {
        let mut record = Record::default();
        record.add("library", &format!("jinnychair {}", library_version()));
        record.add("date", &now());
        record.add(
            "input",
            &format!(
                "{}, {} views, {} dots",
                self.input,
                self.host.plate().views.len(),
                self.host.plate().dots()
            ),
        );
        record.add("centre", &centre_text(&self.host, self.is_guessed));
        if self.options.one_axis {
            record.add("axes", table::ONE_AXIS);
        }
        record.add("bound_rad", &self.options.max_abs_tilt.to_string());
        record.add("options", &self.options_text());
        record.add("counted", &self.plan.counted_text());
        record
    }

    fn options_text(&self) -> String {
        let options = &self.options;
        let list =
            |tilts: &[f64]| tilts.iter().map(|tilt| degrees(*tilt)).collect::<Vec<_>>().join(" ");
        let own = self.seeds.iter().filter(|(source, _)| *source == Source::SeedFile).count();
        format!(
            "tilts x {}; tilts y {}; bound {}; step {} (degrees); rounds {}; {}{}",
            list(&options.tilt_x_seeds),
            list(&options.tilt_y_seeds),
            degrees(options.max_abs_tilt),
            degrees(options.refine_step),
            options.refine_rounds,
            if self.seeds.len() > own { "decomposition seed" } else { "no decomposition seed" },
            if own > 0 { format!("; {own} seeds of a file") } else { String::new() }
        )
    }
}

/// The version of the library, as inputs have it.
#[must_use]
pub fn library_version() -> String {
    let [_, major, minor, patch] = jinnychair::VERSION.to_be_bytes();
    format!("{major}.{minor}.{patch}")
}

/// The centre that is held, views that say nothing new, and by how many dots tilts are scored.
fn say_what_is_held(
    host: &Host,
    is_guessed: bool,
    other_centre: Option<[f64; 2]>,
    screen: &mut Screen,
) {
    screen.say(format!("centre          {}", centre_text(host, is_guessed)));
    if let Some([x, y]) = other_centre {
        screen.say(format!("other centre    {x} {y} px, by the file: it isn't taken"));
    }
    let repeats = host.repeats();
    if !repeats.is_empty() {
        let pairs = repeats.iter().map(|[i, earlier]| format!("{} as {}", i + 1, earlier + 1));
        let pairs: Vec<_> = pairs.collect();
        screen.say(format!("repeated views  {}: they count once", pairs.join(", ")));
    }
    let dots = host.plate().dots();
    if dots > MOST_SCORED {
        let how = "chosen evenly; all are solved for";
        screen.say(format!("scored by       {MOST_SCORED} of {dots} dots, {how}"));
    }
}

/// The lean, for the eye and for the chart: tilts and bounds in radians, as far as they are known.
pub(crate) fn add_lean(record: &mut Record, judged: &Judged) {
    let open = &judged.open;
    let (Some([x, y]), total) = (open.lean, open.lean_total()) else { return };
    let of = |i: usize, tilt: f64| {
        report::tilt_text(tilt, total.map(|total| total[i]), open.centre_within.is_none())
    };
    let text_y = if open.held.is_some() { "held at 0".into() } else { of(1, y) };
    record.add("lean", &format!("x {}; y {text_y}", of(0, x)));
    let bounds = total.map_or(String::new(), |[x, y]| format!(" {x} {y}"));
    let y = if open.held.is_some() { 0.0 } else { y };
    record.add(table::LEAN, &format!("{x} {y}{bounds}"));
}

/// Why a journal isn't begun, and what to do.
fn not_begun(error: &JournalFileError) -> String {
    let JournalFileError::Exists(path) = error else { return error.to_string() };
    let name = path.display();
    if inputs_path(path).exists() {
        format!(
            "{name}: there is a journal of this name, and no journal is written over. `jinnychair resume {name}` goes on \
             with it; or name another with --journal"
        )
    } else {
        format!(
            "{name}: there is a file of this name, without the inputs of a search beside it. Name another with --journal"
        )
    }
}

fn centre_text(host: &Host, is_guessed: bool) -> String {
    let [x, y] = host.held_centre().map(|pixels| (1000.0 * pixels).round() / 1000.0);
    let how =
        if is_guessed { "GUESSED, and a wrong centre looks exactly like a tilt" } else { "stated" };
    format!("{x} {y} px ({how})")
}

/// The decomposition's seed, where it is wanted and within the bound, then the file's.
fn seeds(
    host: &Host,
    choices: &Choices,
    base: FxFyCxCy,
    options: &Options,
    screen: &mut Screen,
) -> Result<Vec<(Source, Seed)>, String> {
    let mut seeds = vec![];
    if choices.no_decomposition.is_none() {
        let bound = options.max_abs_tilt;
        let is_within =
            |seed: &Seed| seed.sensor.tilt_x.abs() <= bound && seed.sensor.tilt_y.abs() <= bound;
        let seed = match options.one_axis {
            true => host.decomposition_on_one_axis(),
            false => host.decomposition(),
        };
        match seed {
            Some(seed) if is_within(&seed) => seeds.push((Source::Decomposition, seed)),
            Some(seed) => screen.say(format!(
                "left out        the decomposition's seed, {}° {}°: beyond the bound",
                degrees(seed.sensor.tilt_x),
                degrees(seed.sensor.tilt_y)
            )),
            None => screen.say("left out        the decomposition's seed: the views give none"),
        }
    }
    if let Some(path) = &choices.seeds {
        let fault = |fault: String| format!("{}: {fault}", path.display());
        seeds.extend(parse_seeds(&read(path)?, base, options).map_err(fault)?);
    }
    Ok(seeds)
}
