//! Journals run again on both sides: those of whole runs, cut, changed, damaged, and those of another Start.

use crate::calls::{Pair, differ};
use crate::inputs::{for_library, lent_to_search};
use crate::lines::damaged;
use book::{Entry, Inputs, Outcome, Scored};
use jinnychair::journal::{Difference, Replayed, what_differs};
use jinnychair::{ReplayError, record};
use random::Random;
use words::{float_words, word};

/// What was compared.
#[derive(Clone, Copy, Debug)]
pub struct ReplayTally {
    /// Replays with a winner, and with a next seed.
    pub ended: [usize; 2],
    /// Replays that were refused, by their number.
    pub refused: [usize; 64],
    /// Lines with one change that must be found there, by the field.
    pub found: [usize; 13],
    /// Changed cameras that weren't found, and that were with the next round.
    pub cameras: [usize; 2],
}

impl Default for ReplayTally {
    fn default() -> Self {
        Self { ended: [0; 2], refused: [0; 64], found: [0; 13], cameras: [0; 2] }
    }
}

/// The bytes of lines.
fn bytes(entries: &[Entry]) -> Vec<u8> {
    let lines = entries.iter().map(|entry| book::write_line(entry, 256).expect("a run's line"));
    lines.collect::<Vec<_>>().concat()
}

fn of_library(reply: Result<Replayed, ReplayError>) -> Vec<u64> {
    match reply {
        Ok(Replayed::Winner { number, score }) => vec![0, number as u64, word(score)],
        Ok(Replayed::Unfinished(seed)) => [vec![1], float_words(&seed.numbers())].concat(),
        Ok(Replayed::NothingScored) => vec![2, 11],
        Err(ReplayError::NotALine { line }) => vec![3, 29, line as u64],
        Err(ReplayError::NotTheRun { line }) => vec![3, 30, line as u64],
        Err(error) => vec![2, error.number().into()],
    }
}

fn of_book(reply: book::Replayed) -> Vec<u64> {
    match reply {
        book::Replayed::Winner(number, score) => vec![0, number as u64, word(score)],
        book::Replayed::Unfinished(seed) => [vec![1], float_words(&seed.numbers())].concat(),
        book::Replayed::Refused(number) => vec![2, number.into()],
        book::Replayed::RefusedLine(number, line) => vec![3, number.into(), line as u64],
    }
}

/// Runs a journal again on both sides, with a list that holds these numbers, and gives the reply.
///
/// # Errors
///
/// Says where the two sides differ.
pub fn compare(
    inputs: &Inputs,
    journal: &[u8],
    lent: &[f64],
    tally: &mut ReplayTally,
) -> Result<book::Replayed, String> {
    let (mut list, mut book_list) = (lent.to_vec(), lent.to_vec());
    let library = of_library(record::replay(&for_library(inputs), journal, &mut list));
    let book = book::replay(inputs.clone(), journal, &mut book_list);
    match library[..] {
        [2 | 3, number, ..] => tally.refused[number as usize] += 1,
        [kind, ..] => tally.ended[kind as usize] += 1,
        [] => {}
    }
    let what = || format!("the replay of\n{}", String::from_utf8_lossy(journal));
    differ("the replay", library, of_book(book)).map_err(|fault| what() + &fault)?;
    differ("the list after a replay", float_words(&list), float_words(&book_list))?;
    Ok(book)
}

/// A run's journal as it is, then in other ways.
///
/// # Errors
///
/// Says where the two sides differ, or which reply isn't the run's.
pub(crate) fn compare_run(
    pair: &Pair,
    random: &mut Random,
    tally: &mut ReplayTally,
) -> Result<(), String> {
    let (inputs, lent) = (pair.book.inputs(), &pair.lent[..]);
    let whole = compare(inputs, &pair.journal, lent, tally)?;
    if !pair.is_changed {
        is_the_runs(pair, whole)?;
        cut_after_lines(pair, tally)?;
        if !pair.journal.is_empty() {
            let place = random.below(pair.book.entries().len());
            change_fields(pair, place, random, tally)?;
            change_camera(pair, place, whole, tally)?;
        }
    }
    for _ in 0..4 {
        compare(inputs, &damaged(&pair.journal, random), lent, tally)?;
        compare(&another(inputs, random), &pair.journal, lent, tally)?;
    }
    compare(inputs, &pair.journal, &lent[..random.below(lent.len() + 1)], tally)?;
    if pair.book.entries().len() < 3 {
        for cut in 0..pair.journal.len() {
            compare(inputs, &pair.journal[..cut], lent, tally)?;
        }
    }
    Ok(())
}

/// The winner of a run that is over; else the seed that it hands out next, or waits for.
fn is_the_runs(pair: &Pair, reply: book::Replayed) -> Result<(), String> {
    let expected = match pair.book.result() {
        Ok(best) => vec![0, best.number as u64, word(best.scored.score)],
        Err(14) => {
            let at = 6 * pair.book.position();
            [vec![1], float_words(&pair.list[at..at + 6])].concat()
        }
        Err(number) => vec![2, number.into()],
    };
    differ("the replay of a run", of_book(reply), expected)
}

/// Before each line its seed comes next.
fn cut_after_lines(pair: &Pair, tally: &mut ReplayTally) -> Result<(), String> {
    let mut cut = 0;
    for (number, entry) in pair.book.entries().iter().enumerate() {
        let reply = compare(pair.book.inputs(), &pair.journal[..cut], &pair.lent, tally)?;
        let expected = of_book(book::Replayed::Unfinished(entry.seed));
        differ(&format!("the replay of {number} lines"), of_book(reply), expected)?;
        cut += bytes(&[*entry]).len();
    }
    Ok(())
}

/// The run's journal with another line at a place.
fn with_line(pair: &Pair, place: usize, entry: Entry) -> Vec<u8> {
    let mut entries = pair.book.entries().to_vec();
    entries[place] = entry;
    bytes(&entries)
}

/// Each field of a line in turn gets another value, and is found there.
fn change_fields(
    pair: &Pair,
    place: usize,
    random: &mut Random,
    tally: &mut ReplayTally,
) -> Result<(), String> {
    let entry = pair.book.entries()[place];
    for field in 0..tally.found.len() {
        let Some(entry) = with_another(entry, field, random) else { continue };
        let journal = with_line(pair, place, entry);
        let reply = compare(pair.book.inputs(), &journal, &pair.lent, tally)?;
        let expected = book::Replayed::RefusedLine(30, place + 1);
        differ(&format!("a change of field {field}"), of_book(reply), of_book(expected))?;
        let said = lent_to_search(pair.book.inputs(), |inputs| what_differs(inputs, &journal));
        if !said.is_some_and(|difference| is_of_field(&difference, field)) {
            return Err(format!("of a change of field {field} it is said that {said:?}"));
        }
        tally.found[field] += 1;
    }
    Ok(())
}

/// Whether it is the field that is named; a factor that isn't finite is a fault of the camera.
fn is_of_field(difference: &Difference, field: usize) -> bool {
    match difference {
        Difference::Number { .. } => field == 0,
        Difference::Round { .. } => field == 1,
        Difference::Seed { name, .. } => {
            ["fx", "fy", "cx", "cy", "tilt x", "tilt y"].get(field.wrapping_sub(2)) == Some(name)
        }
        Difference::Score { .. } => field == 8 || field == 9,
        Difference::Mean { .. } => field == 10,
        Difference::Tangential { name, .. } => [(11, "p1"), (12, "p2")].contains(&(field, name)),
        Difference::Camera => field == 11 || field == 12,
        _ => false,
    }
}

/// The last bit of each number of a line's camera in turn: the reply is as before, or the next round's first line is refused.
fn change_camera(
    pair: &Pair,
    place: usize,
    whole: book::Replayed,
    tally: &mut ReplayTally,
) -> Result<(), String> {
    let (entry, inputs) = (pair.book.entries()[place], pair.book.inputs());
    // Around a far centre that bit can be too much for the square of the distance.
    let is_far = inputs.centre.iter().any(|number| *number > 1e9);
    let Outcome::Scored(scored) = entry.outcome else { return Ok(()) };
    for i in 0..if is_far { 0 } else { 4 } {
        let mut camera = scored.camera;
        camera.k[i] = f64::from_bits(camera.k[i].to_bits() ^ 1);
        let outcome = Outcome::Scored(Scored { camera, ..scored });
        let journal = with_line(pair, place, Entry { outcome, ..entry });
        let reply = compare(inputs, &journal, &pair.lent, tally)?;
        let later = pair.book.entries().iter().position(|other| other.round > entry.round);
        let is_found = later.is_some_and(|i| reply == book::Replayed::RefusedLine(30, i + 1));
        // A run whose next round has no line yet hands out the changed camera.
        let is_next = later.is_none() && matches!(reply, book::Replayed::Unfinished(_));
        if !is_found && !is_next {
            differ("a changed camera", of_book(reply), of_book(whole))?;
        }
        tally.cameras[usize::from(is_found)] += 1;
    }
    Ok(())
}

/// A line with another value of its form in one field, by which it can't be the run's; nothing where it has no such field.
fn with_another(mut entry: Entry, field: usize, random: &mut Random) -> Option<Entry> {
    match field {
        0 => entry.number = (entry.number + 1 + random.below(655)) % 656,
        1 => entry.round = (entry.round + 1 + random.below(16)) % 17,
        2..8 => {
            let mut numbers = entry.seed.numbers();
            numbers[field - 2] = other(numbers[field - 2], random);
            entry.seed = book::Seed::from_numbers(&numbers);
        }
        _ => {
            let Outcome::Scored(scored) = &mut entry.outcome else { return None };
            let p = random.pick(&[0.05_f64.next_up(), -0.06, f64::NAN, f64::NEG_INFINITY, 1e300]);
            match field {
                8 => scored.score = other_score(scored.score, random),
                9 => scored.mean = 2.0 * scored.mean + 1.0,
                10 => scored.mean = random.pick(&[f64::NAN, f64::INFINITY, -1e-300, -5.0]),
                11 => scored.camera.tangential[0] = p,
                _ => scored.camera.tangential[1] = p,
            }
        }
    }
    Some(entry)
}

/// Another number, or a NaN for a number.
fn other(x: f64, random: &mut Random) -> f64 {
    let last_bit = f64::from_bits(x.to_bits() ^ 1);
    let any = f64::from_bits(random.bits());
    let found = random.pick(&[last_bit, -x, f64::NAN, 0.0, any]);
    if word(found) == word(x) { 0.125 } else { found }
}

fn other_score(score: f64, random: &mut Random) -> f64 {
    let found = other(score, random);
    if found.is_nan() { f64::INFINITY } else { found }
}

/// What another search started from.
pub(crate) fn another(inputs: &Inputs, random: &mut Random) -> Inputs {
    let mut inputs = inputs.clone();
    match random.below(9) {
        0 => inputs.base[random.below(4)] += 1.0,
        1 => inputs.centre[random.below(2)] = random.pick(&[0.0, 1e200, f64::NAN]),
        2 => inputs.refine_step *= 2.0,
        3 => inputs.rounds = random.below(18),
        4 => inputs.max_abs_tilt = random.pick(&[0.05, 0.2, 0.5, 0.6]),
        5 => inputs.one_axis = !inputs.one_axis,
        6 => inputs.min_counted = random.pick(&[0, 100, 101]),
        7 => inputs.tilt_x_seeds.reverse(),
        _ => inputs.decomposition.extend([800.0, 790.0, 320.0, 240.0, 0.01, 0.0]),
    }
    inputs
}
