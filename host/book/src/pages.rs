//! The book: the round, its list, the candidates with their outcomes, and which one waits.

use crate::outcome::tilt_penalty;
use crate::{Finding, Inputs, Outcome, Rows, Scored, Seed};

/// An answered candidate.
#[derive(Clone, Copy, Debug)]
pub struct Entry {
    /// Counted from 0 over the run.
    pub number: usize,
    /// The round in which it was handed out.
    pub round: usize,
    /// The seed that was handed out.
    pub seed: Seed,
    /// What became of it.
    pub outcome: Outcome,
}

/// The best of a round or of the run.
#[derive(Clone, Copy, Debug, PartialEq)]
pub struct Winner {
    /// The candidate's number.
    pub number: usize,
    /// Its tilts.
    pub tilts: [f64; 2],
    /// Its camera, mean and score.
    pub scored: Scored,
}

/// Next's reply.
#[derive(Clone, Copy, Debug, PartialEq)]
pub enum Handed {
    /// The candidate's number.
    Candidate(usize),
    /// The run has a result.
    Over,
    /// 9, 10 or 11.
    Refused(u8),
}

/// Answer's reply.
#[derive(Clone, Copy, Debug, PartialEq)]
pub enum Answered {
    /// The candidate's outcome.
    Entered(Outcome),
    /// 12, 10, 13 or 27.
    Refused(u8),
}

/// How far a run has come.
#[derive(Clone, Copy, Debug, PartialEq, Eq)]
pub struct Progress {
    /// The current round; once the run is over, the last one.
    pub round: usize,
    /// How many rounds follow round 0.
    pub rounds: usize,
    /// How many seeds of the round's list are answered.
    pub answered: usize,
    /// How many seeds the round's list has.
    pub total: usize,
    /// How many seeds of the run are answered.
    pub answered_in_run: usize,
}

/// How a run stands when it is stopped.
#[derive(Clone, Copy, Debug, PartialEq)]
pub struct Stopped {
    /// The run's best so far.
    pub best: Option<Winner>,
    /// The lowest tilt penalty among the seeds of the round's list that aren't answered; nothing where none is left.
    pub floor: Option<f64>,
    /// Whether there is a best, and the floor isn't below its score.
    pub no_gain: bool,
}

/// A run's book.
#[derive(Clone, Debug)]
pub struct Book {
    inputs: Inputs,
    round: usize,
    /// How many seeds the round's list has; their numbers stand in the lent list.
    list_len: usize,
    entries: Vec<Entry>,
    waiting: Option<Seed>,
    is_over: bool,
}

fn write(list: &[Seed], lent: &mut [f64]) {
    for (place, seed) in lent.chunks_exact_mut(6).zip(list) {
        place.copy_from_slice(&seed.numbers());
    }
}

/// Lower replaces, equal doesn't. No score is NaN: its candidate is left out.
pub(crate) fn best<'a>(entries: impl Iterator<Item = &'a Entry>) -> Option<Winner> {
    let scored = entries.filter_map(|entry| match entry.outcome {
        Outcome::Skipped(_) => None,
        Outcome::Scored(scored) => {
            Some(Winner { number: entry.number, tilts: entry.seed.tilts, scored })
        }
    });
    scored.reduce(|best, new| if new.scored.score < best.scored.score { new } else { best })
}

impl Book {
    /// Opens the model and writes round 0's list to the front of the lent list.
    ///
    /// # Errors
    ///
    /// The number 1 to 8, 27, 31, 32 or 33 with which Start refuses; then nothing is written.
    pub fn start(inputs: Inputs, lent: &mut [f64]) -> Result<Self, u8> {
        if let Some(number) = inputs.refusal(lent.len()) {
            return Err(number);
        }
        let list = inputs.first_list();
        write(&list, lent);
        Ok(Self {
            inputs,
            round: 0,
            list_len: list.len(),
            entries: Vec::new(),
            waiting: None,
            is_over: list.is_empty(),
        })
    }

    /// Hands out the list's next seed, with the numbers that stand in the lent list.
    pub fn next(&mut self, lent: &[f64]) -> Handed {
        if self.waiting.is_some() {
            return Handed::Refused(9);
        }
        if lent.len() < self.inputs.demand() {
            return Handed::Refused(10);
        }
        self.waiting = self.next_seed(lent);
        match (self.waiting, self.run_best()) {
            (Some(_), _) => Handed::Candidate(self.entries.len()),
            (None, Some(_)) => Handed::Over,
            (None, None) => Handed::Refused(11),
        }
    }

    /// The seed that comes next, unless the run is over.
    pub(crate) fn next_seed(&self, lent: &[f64]) -> Option<Seed> {
        let at = 6 * self.position();
        (!self.is_over).then(|| Seed::from_numbers(&lent[at..at + 6]))
    }

    /// The waiting seed's part of the lent list, or an empty part.
    pub fn seed<'a>(&self, lent: &'a [f64]) -> &'a [f64] {
        if self.waiting.is_none() || lent.len() < self.inputs.demand() {
            return &[];
        }
        let at = 6 * self.position();
        &lent[at..at + 6]
    }

    /// Enters the waiting candidate's outcome; at the end of a round the next list is written.
    pub fn answer(&mut self, finding: &Finding, rows: Rows, lent: &mut [f64]) -> Answered {
        let Some(seed) = self.waiting else { return Answered::Refused(12) };
        if lent.len() < self.inputs.demand() {
            return Answered::Refused(10);
        }
        if let Some(number) = finding.refusal(seed, rows) {
            return Answered::Refused(number);
        }
        let outcome = finding.outcome(seed, &self.inputs, rows);
        self.waiting = None;
        let number = self.entries.len();
        self.enter(Entry { number, round: self.round, seed, outcome }, lent);
        Answered::Entered(outcome)
    }

    /// Enters an answered candidate; at the end of a round the next list is written.
    pub(crate) fn enter(&mut self, entry: Entry, lent: &mut [f64]) {
        self.entries.push(entry);
        while !self.is_over && self.position() == self.list_len {
            self.end_round(lent);
        }
    }

    fn end_round(&mut self, lent: &mut [f64]) {
        let Some(best) = self.round_best().or(self.run_best()) else {
            self.is_over = true;
            return;
        };
        if self.round == self.inputs.rounds {
            self.is_over = true;
            return;
        }
        self.round += 1;
        let list = self.inputs.next_list(self.round, best.scored.camera.k, best.tilts);
        write(&list, lent);
        self.list_len = list.len();
    }

    /// The run's best, once it is over.
    ///
    /// # Errors
    ///
    /// 14 while it isn't over, 11 where nothing is scored.
    pub fn result(&self) -> Result<Winner, u8> {
        if !self.is_over {
            return Err(14);
        }
        self.run_best().ok_or(11)
    }

    /// How the run stands. The waiting seed counts as it was handed out, the others as they stand in the lent list.
    ///
    /// # Errors
    ///
    /// 10 where the lent list is too short.
    pub fn stop(&self, lent: &[f64]) -> Result<Stopped, u8> {
        if lent.len() < self.inputs.demand() {
            return Err(10);
        }
        let listed = lent.chunks_exact(6).take(self.list_len).map(Seed::from_numbers);
        let taken = self.position() + usize::from(self.waiting.is_some());
        let left = self.waiting.into_iter().chain(listed.skip(taken));
        // A penalty that isn't a number comes from a changed list.
        let penalties = left.map(|seed| tilt_penalty(seed.tilts));
        let floor = penalties.map(|p| if p.is_nan() { f64::INFINITY } else { p }).reduce(f64::min);
        let best = self.run_best();
        let no_gain = best.zip(floor).is_some_and(|(best, floor)| floor >= best.scored.score);
        Ok(Stopped { best, floor, no_gain })
    }

    /// How far the run has come. The total of a later round is the model's own count.
    pub fn progress(&self) -> Progress {
        let (round, rounds, answered) = (self.round, self.inputs.rounds, self.position());
        let total = match self.centre() {
            Some(best) => self.inputs.next_len(round, best.scored.camera.k, best.tilts),
            None => self.list_len,
        };
        Progress { round, rounds, answered, total, answered_in_run: self.entries.len() }
    }

    /// What the current list lies around: the best of the round before, or of all before; nothing in round 0.
    fn centre(&self) -> Option<Winner> {
        let before = self.entries.iter().filter(|entry| entry.round < self.round);
        best(before.clone().filter(|entry| entry.round + 1 == self.round)).or(best(before))
    }

    /// What the run was started with.
    pub fn inputs(&self) -> &Inputs {
        &self.inputs
    }

    /// The current round.
    pub fn round(&self) -> usize {
        self.round
    }

    /// How many seeds the current round's list has.
    pub fn list_len(&self) -> usize {
        self.list_len
    }

    /// How many seeds of the current round's list are answered.
    pub fn position(&self) -> usize {
        self.entries.iter().filter(|entry| entry.round == self.round).count()
    }

    /// The answered candidates.
    pub fn entries(&self) -> &[Entry] {
        &self.entries
    }

    /// The seed that was handed out and isn't answered.
    pub fn waiting(&self) -> Option<Seed> {
        self.waiting
    }

    /// Whether the run is over.
    pub fn is_over(&self) -> bool {
        self.is_over
    }

    /// The current round's best.
    pub fn round_best(&self) -> Option<Winner> {
        best(self.entries.iter().filter(|entry| entry.round == self.round))
    }

    /// The run's best.
    pub fn run_best(&self) -> Option<Winner> {
        best(self.entries.iter())
    }
}
