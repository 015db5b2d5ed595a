//! How far a search has come: on a terminal one line that is drawn again after each tried tilt, elsewhere plain lines.

use crate::drive::{Tried, best};
use crate::screen::aside;
use crate::system::columns;
use jinnychair::{Options, Progress};
use std::time::{Duration, Instant};

/// The cells of a bar.
const CELLS: usize = 8;
/// How wide a terminal is that doesn't say so.
const USUAL_COLUMNS: usize = 80;
/// Where no terminal is, a round that takes longer than this has a line of its own before it ends.
const SILENCE: Duration = Duration::from_secs(60);

/// Shows the progress of a search beside its results.
pub struct Bar {
    is_terminal: bool,
    /// The most seeds that a round after round 0 can have.
    most: usize,
    started: Instant,
    last_line: Instant,
    best: Option<Best>,
    /// How wide the line is that stands on the terminal.
    drawn: usize,
    /// How many tilts were tried before.
    before: usize,
}

/// The best so far.
#[derive(Clone, Copy)]
struct Best {
    score: f64,
    tilts: [f64; 2],
}

impl Best {
    fn of(one: &Tried) -> Option<Self> {
        let sensor = one.seed.sensor;
        one.outcome.score().map(|score| Self { score, tilts: [sensor.tilt_x, sensor.tilt_y] })
    }
}

impl Bar {
    /// A search begins, or goes on behind the tilts that were tried before.
    #[must_use]
    pub fn new(options: &Options, tried: &[Tried], is_terminal: bool) -> Self {
        let (most, now) = (if options.one_axis { 3 } else { 9 }, Instant::now());
        let (best, before) = (best(tried).and_then(Best::of), tried.len());
        Self { is_terminal, most, started: now, last_line: now, best, drawn: 0, before }
    }

    /// A tilt was tried; `before` is how far the search had come until then.
    pub fn show(&mut self, one: &Tried, before: &Progress) {
        let is_better = |new: &Best| self.best.is_none_or(|best| new.score < best.score);
        self.best = Best::of(one).filter(is_better).or(self.best);
        let tried = before.answered_in_run + 1 - self.before;
        let left = time_left(before, self.most, self.started.elapsed(), tried);
        if self.is_terminal {
            let bar = fitting(&bar(before, self.best, left), columns().unwrap_or(USUAL_COLUMNS));
            self.draw(&bar);
        } else if before.answered + 1 == before.total || self.last_line.elapsed() > SILENCE {
            self.last_line = Instant::now();
            aside(&format!("{}\n", line(before, self.best, left)));
        }
    }

    /// The search has ended, or was stopped, after this many tilts.
    pub fn end(&mut self, tried: usize) {
        if self.is_terminal {
            let text = format!("{tried} tilts tried, {}", best_text(self.best));
            self.draw(&text);
            aside("\n");
        }
    }

    /// Draws over the line that stands there, and never into the next one.
    fn draw(&mut self, text: &str) {
        let width = text.chars().count();
        let room = columns().unwrap_or(USUAL_COLUMNS).saturating_sub(1);
        let blanks = " ".repeat(self.drawn.min(room).saturating_sub(width));
        aside(&format!("\r{text}{blanks}"));
        self.drawn = width;
    }
}

/// What the rest takes if each tilt takes as long as those that were tried in the time: this round's exactly, later rounds with
/// all that they can have.
fn time_left(before: &Progress, most: usize, elapsed: Duration, tried: usize) -> Duration {
    let later = most * (before.rounds - before.round.min(before.rounds));
    let left = before.total.saturating_sub(before.answered + 1) + later;
    elapsed.mul_f64(left as f64 / tried as f64)
}

/// The parts of a bar, the ones first that matter most: at most 79 letters together.
fn bar(before: &Progress, best: Option<Best>, left: Duration) -> [String; 5] {
    let (round, rounds, total) = (before.round, before.rounds, before.total);
    let tried = before.answered + 1;
    let filled = (CELLS * tried).checked_div(total).unwrap_or(CELLS).min(CELLS);
    let cells = "#".repeat(filled) + &".".repeat(CELLS - filled);
    let (best, place) = match best {
        None => ("nothing scored yet".into(), String::new()),
        Some(Best { score, tilts }) => {
            let [x, y] = tilts.map(f64::to_degrees);
            let digits = if score < 100.0 { 5 } else { 1 };
            (format!("best {score:.digits$}"), format!(" at {x:+.3}° {y:+.3}°"))
        }
    };
    [
        format!("round {round}/{rounds} "),
        format!("[{cells}] {tried}/{total}"),
        format!("  {best}"),
        place,
        format!("  {} left", time_text(left)),
    ]
}

/// As many of the parts as a terminal's line has room for, its last column left free.
fn fitting(parts: &[String], columns: usize) -> String {
    let mut room = columns.saturating_sub(1);
    let fits = |part: &&String| {
        let rest = room.checked_sub(part.chars().count());
        room = rest.unwrap_or(0);
        rest.is_some()
    };
    parts.iter().take_while(fits).map(String::as_str).collect()
}

fn line(before: &Progress, best: Option<Best>, left: Duration) -> String {
    let (round, rounds, total) = (before.round, before.rounds, before.total);
    let (tried, best) = (before.answered + 1, best_text(best));
    let left = match left {
        Duration::ZERO => String::new(),
        left => format!("; about {} left", time_text(left)),
    };
    format!("round {round} of {rounds}: {tried} of {total} tried, {best}{left}")
}

fn best_text(best: Option<Best>) -> String {
    best.map_or("nothing scored yet".into(), |best| {
        let [x, y] = best.tilts.map(f64::to_degrees);
        format!("best score {:.5} at {x:+.4}° {y:+.4}°", best.score)
    })
}

fn time_text(time: Duration) -> String {
    let seconds = time.as_secs_f64().ceil() as u64;
    match seconds {
        0..120 => format!("{seconds} s"),
        120..7200 => format!("{} min", seconds.div_ceil(60)),
        _ => format!("{} h", seconds.div_ceil(3600)),
    }
}

#[cfg(test)]
mod tests {
    use super::*;

    const BEST: Best = Best { score: 0.073_348, tilts: [-0.020_843, -0.006_941] };

    fn progress(round: usize, answered: usize, total: usize) -> Progress {
        Progress { round, rounds: 6, answered, total, answered_in_run: 46 + answered }
    }

    #[test]
    fn a_bar_counts_exactly_within_its_round() {
        let left = Duration::from_secs(12);
        let shown = |answered| bar(&progress(1, answered, 6), Some(BEST), left).concat();
        let best = "best 0.07335 at -1.194° -0.398°  12 s left";
        assert_eq!(shown(0), format!("round 1/6 [#.......] 1/6  {best}"));
        assert_eq!(shown(2), format!("round 1/6 [####....] 3/6  {best}"));
        assert_eq!(shown(5), format!("round 1/6 [########] 6/6  {best}"));
        let unscored = bar(&progress(1, 0, 6), None, left).concat();
        assert!(unscored.contains("1/6  nothing scored yet  12 s left"));
    }

    #[test]
    fn a_narrow_terminal_is_shown_less() {
        let parts = bar(&progress(1, 2, 6), Some(BEST), Duration::from_secs(12));
        for (columns, expected) in [
            (100, "round 1/6 [####....] 3/6  best 0.07335 at -1.194° -0.398°  12 s left"),
            (69, "round 1/6 [####....] 3/6  best 0.07335 at -1.194° -0.398°  12 s left"),
            (68, "round 1/6 [####....] 3/6  best 0.07335 at -1.194° -0.398°"),
            (40, "round 1/6 [####....] 3/6  best 0.07335"),
            (38, "round 1/6 [####....] 3/6"),
            (20, "round 1/6 "),
            (5, ""),
            (0, ""),
        ] {
            let text = fitting(&parts, columns);
            assert_eq!(text, expected);
            assert!(text.chars().count() < columns.max(1));
        }
    }

    #[test]
    fn a_bar_fits_a_terminals_line() {
        let (first, last) = (progress(0, 511, 512), progress(16, 8, 9));
        for before in [first, last].map(|before| Progress { rounds: 16, ..before }) {
            for score in [99.99, 12_345.0] {
                let best = Best { score, tilts: [-0.5, -0.5] };
                let text = bar(&before, Some(best), Duration::from_secs(7199)).concat();
                assert!(text.chars().count() < 80, "{text}");
            }
        }
    }

    #[test]
    fn a_line_says_the_same_in_words() {
        let text = line(&progress(0, 45, 46), Some(BEST), Duration::from_millis(2100));
        let expected =
            "round 0 of 6: 46 of 46 tried, best score 0.07335 at -1.1942° -0.3977°; about 3 s left";
        assert_eq!(text, expected);
        let last = line(&progress(6, 8, 9), None, Duration::ZERO);
        assert_eq!(last, "round 6 of 6: 9 of 9 tried, nothing scored yet");
    }

    #[test]
    fn the_time_left_is_of_this_rounds_seeds_and_of_the_later_rounds() {
        // Ten answers took ten seconds; two seeds are left here, and five rounds follow.
        let time = |before: &Progress, most| time_left(before, most, Duration::from_secs(10), 10);
        let before = progress(1, 6, 9);
        assert_eq!(time(&before, 9), Duration::from_secs(2 + 5 * 9));
        assert_eq!(time(&before, 3), Duration::from_secs(2 + 5 * 3));
        assert_eq!(time(&progress(6, 8, 9), 9), Duration::ZERO);
    }

    #[test]
    fn times_have_the_unit_that_people_count_in() {
        let text = |seconds| time_text(Duration::from_secs_f64(seconds));
        assert_eq!([0.0, 0.2, 119.0].map(text), ["0 s", "1 s", "119 s"]);
        assert_eq!([120.0, 600.5, 7200.0].map(text), ["2 min", "11 min", "2 h"]);
    }
}
