//! Whole lists of calls, in right and wrong orders, on the library and on the reference model.

use crate::findings::Sent;
use crate::inputs::{for_library, on_one_axis};
use crate::lines::{self, LineTally};
use crate::record_words::*;
use crate::replays::{self, ReplayTally};
use crate::reports;
use crate::resumes::{self, ResumeTally};
use crate::{unsound, winners};
use book::{Book, Inputs};
use jinnychair::record::{Run, answer, counts, next, progress, result, seed, start, stop};
use jinnychair::{Handed, Outcome, SkipReason};
use random::Random;
use words::{float_words, word};

/// What was compared.
#[derive(Clone, Copy, Debug)]
pub struct Tally {
    /// Runs that Start accepted: on two axes, on one.
    pub runs: [usize; 2],
    /// Calls on sound records, Start included.
    pub calls: usize,
    /// Of these, the refused ones by their number.
    pub refused: [usize; 64],
    /// Answers that were entered: scored ones, then the skipped ones by their reason.
    pub entered: [usize; 1 + SkipReason::ALL.len()],
    /// Calls on records that no search can have made.
    pub unsound: usize,
    /// Runs that came to a result, and that ended with nothing scored.
    pub results: [usize; 2],
    /// Solved answers whose counted errors were compared, and of those skipped with reason 3 the ones with a counted row.
    pub errors: [usize; 2],
    /// After how many calls a round after round 0 had so many seeds.
    pub later_totals: [usize; 10],
    /// After how many calls nothing was left, nothing was scored, the round could gain, and it couldn't.
    pub stops: [usize; 4],
    /// Journals that were read again.
    pub lines: LineTally,
    /// Journals that were run again.
    pub replays: ReplayTally,
    /// Runs that went on from their journals.
    pub resumes: ResumeTally,
}

impl Default for Tally {
    fn default() -> Self {
        Self {
            runs: [0; 2],
            calls: 0,
            refused: [0; 64],
            entered: [0; 1 + SkipReason::ALL.len()],
            unsound: 0,
            results: [0; 2],
            errors: [0; 2],
            later_totals: [0; 10],
            stops: [0; 4],
            lines: LineTally::default(),
            replays: ReplayTally::default(),
            resumes: ResumeTally::default(),
        }
    }
}

/// Both sides of one run.
pub(crate) struct Pair {
    /// Whether the host's answers often tie.
    ties: bool,
    /// How seldom the host writes to the list.
    change_once_in: usize,
    pub(crate) run: Run,
    pub(crate) list: Vec<f64>,
    pub(crate) book: Book,
    book_list: Vec<f64>,
    /// The list before Start.
    pub(crate) lent: Vec<f64>,
    /// Whether the host has written to the list.
    pub(crate) is_changed: bool,
    /// All answers that were accepted so far.
    pub(crate) answers: Vec<Sent>,
    /// Their lines.
    pub(crate) journal: Vec<u8>,
}

/// Plays a list of calls drawn from `random` on Start's inputs.
///
/// # Errors
///
/// Says where the two sides differ.
pub fn play(mut inputs: Inputs, random: &mut Random, tally: &mut Tally) -> Result<(), String> {
    if random.once_in(8) {
        spoil(&mut inputs, random);
    }
    let Some(mut pair) = Pair::start(&inputs, random, tally)? else { return Ok(()) };
    tally.runs[usize::from(inputs.one_axis)] += 1;
    // Enough calls to end most runs, some of them far beyond their end.
    let calls = random.below(40) + if random.once_in(2) { 400 } else { 0 };
    let mut past_end = 0;
    for i in 0..calls {
        pair.call(random, tally).map_err(|fault| format!("call {i}: {fault}"))?;
        if random.once_in(40) {
            tally.unsound += unsound::compare(&pair.run, &pair.list, random)
                .map_err(|fault| format!("after call {i}: {fault}"))?;
        }
        pair.count(tally);
        past_end += usize::from(pair.book.is_over());
        if past_end > 8 {
            break;
        }
    }
    if pair.book.is_over() {
        tally.results[usize::from(pair.book.run_best().is_none())] += 1;
    }
    reports::compare_run(&pair.run, &pair.book, &pair.journal)?;
    winners::compare_run(&pair, random)?;
    lines::reread(&pair.journal, random, &mut tally.lines)?;
    if random.once_in(4) {
        replays::compare_run(&pair, random, &mut tally.replays)?;
        resumes::compare_run(&pair, random, &mut tally.resumes)?;
    }
    Ok(())
}

/// Inputs that Start may refuse.
fn spoil(inputs: &mut Inputs, random: &mut Random) {
    let odd = random.pick(&[f64::NAN, f64::INFINITY, 0.0, -0.0, -1.0, f64::MAX, 1e-310]);
    match random.below(12) {
        0 => inputs.views = random.below(4),
        1 => inputs.tilt_x_seeds.clear(),
        2 => inputs.tilt_y_seeds.resize(random.pick(&[0, 16, 17]), 0.125),
        3 => inputs.max_abs_tilt = odd,
        4 => inputs.refine_step = odd,
        5 => inputs.rounds = random.pick(&[0, 16, 17, usize::MAX]),
        6 => inputs.decomposition.push(odd),
        7 => inputs.decomposition.resize(6 * random.pick(&[255, 256, 257]), 0.01),
        8 => inputs.one_axis = true,
        9 => lean_aside(inputs, random),
        10 => inputs.min_counted = random.pick(&[100, 101, usize::MAX]),
        _ => inputs.tilt_x_seeds.push(odd),
    }
    if !inputs.decomposition.is_empty() && random.once_in(2) {
        let place = random.below(inputs.decomposition.len());
        inputs.decomposition[place] = odd;
    }
}

/// A run on one axis, mostly with a tilt about y that isn't 0, or with one too many.
fn lean_aside(inputs: &mut Inputs, random: &mut Random) {
    *inputs = on_one_axis(inputs.clone(), random);
    if random.once_in(3) {
        let lists: [&[f64]; 4] = [&[0.0, -0.0], &[5e-324], &[-0.01], &[f64::NAN]];
        inputs.tilt_y_seeds = random.pick(&lists).to_vec();
    }
    inputs.decomposition.extend(inputs.base);
    inputs.decomposition.extend([0.01, random.pick(&[-5e-324, 0.01, -0.0])]);
}

pub(crate) fn differ<T: PartialEq + std::fmt::Debug>(
    what: &str,
    library: T,
    book: T,
) -> Result<(), String> {
    if library == book {
        return Ok(());
    }
    Err(format!("{what}: the library gives {library:?}, the book {book:?}"))
}

/// A reply as words: its kind, then its numbers.
pub(crate) type Reply = Vec<u64>;

pub(crate) fn handed_words(handed: Result<Handed, u8>) -> Reply {
    match handed {
        Ok(Handed::Candidate { number, seed }) => {
            [vec![0, number as u64], float_words(&seed.numbers())].concat()
        }
        Ok(Handed::Over) => vec![1],
        Err(number) => vec![2, number.into()],
    }
}

impl Pair {
    fn start(
        inputs: &Inputs,
        random: &mut Random,
        tally: &mut Tally,
    ) -> Result<Option<Self>, String> {
        let demand = inputs.demand().min(100_000);
        let room = match random.below(20) {
            0 => demand - 1,
            1 => random.pick(&[53, 0]),
            2..5 => demand + 7,
            _ => demand,
        };
        let lent: Vec<f64> = (0..room).map(|_| f64::from_bits(random.bits())).collect();
        let (mut list, mut book_list) = (lent.clone(), lent.clone());
        let started = start(&for_library(inputs), &mut list).map_err(|e| e.number());
        let opened = Book::start(inputs.clone(), &mut book_list);
        differ("Start's number", started.as_ref().err(), opened.as_ref().err())?;
        differ("the list after Start", float_words(&list), float_words(&book_list))?;
        tally.calls += 1;
        let (run, book) = match (started, opened) {
            (Ok(run), Ok(book)) => (run, book),
            (Err(number), _) | (_, Err(number)) => {
                tally.refused[usize::from(number)] += 1;
                return Ok(None);
            }
        };
        let (ties, change_once_in) = (random.once_in(3), random.pick(&[25, 25, usize::MAX]));
        let pair = Self {
            ties,
            change_once_in,
            run,
            list,
            book,
            book_list,
            lent,
            is_changed: false,
            answers: vec![],
            journal: vec![],
        };
        pair.compare()?;
        Ok(Some(pair))
    }

    fn compare(&self) -> Result<(), String> {
        differ("the run", of_run(&self.run), of_book(&self.book))?;
        let (library, book) = (progress(&self.run), self.book.progress());
        differ("the progress", of_progress(library), of_book_progress(book))?;
        let (library, book) = (counts(&self.run), self.book.counts());
        differ("the counts", of_counts(&library), of_book_counts(&book))?;
        let (library, book) = self.stop(self.list.len());
        differ("the stop call", library, book)?;
        differ("the list", float_words(&self.list), float_words(&self.book_list))
    }

    /// Counts what was compared after a call.
    fn count(&self, tally: &mut Tally) {
        let progress = self.book.progress();
        if progress.round > 0 {
            tally.later_totals[progress.total] += 1;
        }
        let stopped = self.book.stop(&self.book_list).expect("the whole list");
        let kind = match (stopped.floor, stopped.best, stopped.no_gain) {
            (None, _, _) => 0,
            (Some(_), None, _) => 1,
            (Some(_), Some(_), false) => 2,
            (Some(_), Some(_), true) => 3,
        };
        tally.stops[kind] += 1;
    }

    /// One call: mostly the one that is due, with the whole list lent.
    fn call(&mut self, random: &mut Random, tally: &mut Tally) -> Result<(), String> {
        let before = self.book.entries().len();
        let due = if self.book.waiting().is_some() { 1 } else { 0 };
        let which = if random.once_in(4) { random.below(5) } else { due };
        let len = self.list.len();
        let lent = if random.once_in(15) { random.below(len + 1) } else { len };
        if random.once_in(self.change_once_in) {
            self.change_list(random);
        }
        let (library, book) = match which {
            0 => self.next(lent),
            1 => self.answer(lent, random, tally)?,
            2 => (
                seed(&self.run, &self.list[..lent]).map_or(vec![], |numbers| float_words(&numbers)),
                float_words(self.book.seed(&self.book_list[..lent])),
            ),
            3 => self.result(),
            _ => self.stop(lent),
        };
        tally.calls += 1;
        match *library {
            [2, number] => tally.refused[number as usize] += 1,
            [0, _] if which == 1 => tally.entered[0] += 1,
            [1, reason] => tally.entered[reason as usize] += 1,
            _ => {}
        }
        let names = ["Next", "Answer", "the seed call", "Result", "the stop call"];
        differ(names[which], library, book)?;
        self.compare()?;
        if self.book.entries().len() > before {
            lines::add(&self.run, &self.book, &mut self.journal)?;
        }
        Ok(())
    }

    /// The host writes to the list, with the numbers that may stand there in a run, and others.
    fn change_list(&mut self, random: &mut Random) {
        if self.list.is_empty() {
            return;
        }
        let place = random.below(self.list.len().min(60));
        let number =
            random.pick(&[0.01, -0.02, 0.5, 5.0, f64::NAN, f64::INFINITY, -0.0, 1e-13, 900.0]);
        self.list[place] = number;
        self.book_list[place] = number;
        self.is_changed = true;
    }

    fn next(&mut self, lent: usize) -> (Reply, Reply) {
        let library = next(&mut self.run, &self.list[..lent]).map_err(|e| e.number());
        let book = match self.book.next(&self.book_list[..lent]) {
            book::Handed::Candidate(number) => {
                let seed = self.book.waiting().expect("the candidate waits").numbers();
                [vec![0, number as u64], float_words(&seed)].concat()
            }
            book::Handed::Over => vec![1],
            book::Handed::Refused(number) => vec![2, number.into()],
        };
        (handed_words(library), book)
    }

    /// The errors of the rows are compared as well, even where the answer is refused.
    fn answer(
        &mut self,
        lent: usize,
        random: &mut Random,
        tally: &mut Tally,
    ) -> Result<(Reply, Reply), String> {
        let none = [800.0, 790.0, 320.0, 240.0, 0.0, 0.0];
        let seed = self.book.waiting().map_or(none, |seed| seed.numbers());
        let sent = Sent::draw(&seed, self.ties, random);
        let errors = sent.errors([seed[4], seed[5]]);
        let library = answer(&mut self.run, &sent.finding(), &mut self.list[..lent]);
        let library = match library {
            Ok(Outcome::Scored(score)) => vec![0, word(score)],
            Ok(Outcome::Skipped(reason)) => vec![1, reason.number().into()],
            Err(error) => vec![2, error.number().into()],
        };
        let (finding, rows) = sent.for_book();
        let book = match self.book.answer(&finding, rows, &mut self.book_list[..lent]) {
            book::Answered::Entered(book::Outcome::Scored(scored)) => vec![0, word(scored.score)],
            book::Answered::Entered(book::Outcome::Skipped(reason)) => vec![1, reason.into()],
            book::Answered::Refused(number) => vec![2, number.into()],
        };
        if let Some([library, counted]) = errors {
            differ("the counted errors", &library, &counted)?;
            tally.errors[0] += 1;
            tally.errors[1] += usize::from(book == [1, 3] && counted.last() != Some(&0));
        }
        if book[0] != 2 {
            self.answers.push(sent);
        }
        Ok((library, book))
    }

    fn result(&self) -> (Reply, Reply) {
        let library = match result(&self.run) {
            Ok(winner) => [vec![0], of_candidate(&winner)].concat(),
            Err(error) => vec![2, error.number().into()],
        };
        let book = match self.book.result() {
            Ok(winner) => [vec![0], of_book_candidate(&winner)].concat(),
            Err(number) => vec![2, number.into()],
        };
        (library, book)
    }

    fn stop(&self, lent: usize) -> (Reply, Reply) {
        let library = match stop(&self.run, &self.list[..lent]) {
            Ok(stopped) => [vec![0], of_stopped(&stopped)].concat(),
            Err(error) => vec![2, error.number().into()],
        };
        let book = match self.book.stop(&self.book_list[..lent]) {
            Ok(stopped) => [vec![0], of_book_stopped(&stopped)].concat(),
            Err(number) => vec![2, number.into()],
        };
        (library, book)
    }
}
