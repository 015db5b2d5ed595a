//! Journals of whole runs, cut after any byte and damaged: gone on from and run again on both sides, and from a cut to the run's end.

use beside::findings::Sent;
use beside::inputs::{draw, for_library};
use beside::lines::damaged;
use beside::record_words::of_run;
use beside::replays::{self, ReplayTally};
use beside::resumes::{self, ResumeTally};
use jinnychair::Handed;
use jinnychair::journal::write_line;
use jinnychair::record::{Run, answer, last_line, next, start};
use random::Random;
use words::float_words;

/// How many places of a journal are cut.
const PER_RUN: usize = 16;

/// What was compared.
#[derive(Clone, Copy, Debug, Default)]
pub struct Tally {
    /// Runs, and the bytes of their journals.
    pub runs: [usize; 2],
    /// Cuts from which a run went on to its end.
    pub cuts: usize,
    /// Runs that went on, by what ended the front.
    pub resumes: ResumeTally,
    /// Journals that were run again.
    pub replays: ReplayTally,
}

/// A run to its end, with the answers that it took and its journal.
struct Whole {
    inputs: book::Inputs,
    lent: Vec<f64>,
    list: Vec<f64>,
    run: Run,
    answers: Vec<Sent>,
    journal: Vec<u8>,
}

impl Whole {
    /// Nothing where Start refuses.
    fn draw(random: &mut Random) -> Result<Option<Self>, String> {
        let inputs = draw(random);
        let room = inputs.demand().min(100_000) + random.below(9);
        let lent: Vec<f64> = (0..room).map(|_| f64::from_bits(random.bits())).collect();
        let mut list = lent.clone();
        let Ok(run) = start(&for_library(&inputs), &mut list) else { return Ok(None) };
        let mut whole = Self { inputs, lent, list, run, answers: vec![], journal: vec![] };
        let ties = random.once_in(3);
        while let Ok(Handed::Candidate { seed, .. }) = next(&mut whole.run, &whole.list) {
            whole.answer(Sent::draw(&seed.numbers(), ties, random))?;
        }
        Ok(Some(whole))
    }

    /// An answer that is refused is sent again as Failed.
    fn answer(&mut self, mut sent: Sent) -> Result<(), String> {
        if answer(&mut self.run, &sent.finding(), &mut self.list).is_err() {
            sent = Sent::Failed;
            answer(&mut self.run, &sent.finding(), &mut self.list).map_err(|e| e.to_string())?;
        }
        let mut buffer = [0; 256];
        let line = last_line(&self.run).ok_or("no line for an answer")?;
        let len = write_line(&line, &mut buffer).map_err(|error| error.to_string())?;
        self.journal.extend_from_slice(&buffer[..len]);
        self.answers.push(sent);
        Ok(())
    }

    /// From the journal cut after `at` bytes the run goes on with the same answers, and ends as it had ended.
    fn goes_on(&self, at: usize, tally: &mut Tally) -> Result<(), String> {
        let front = &self.journal[..at];
        replays::compare(&self.inputs, front, &self.lent, &mut tally.replays)?;
        let resumed = resumes::compare(&self.inputs, front, &self.lent, &mut tally.resumes)?;
        let (mut run, mut list, report) = resumed.map_err(|n| format!("refused with {n}"))?;
        let lines = front.iter().filter(|byte| **byte == b'\n').count();
        if (report.lines, report.kept + report.dropped) != (lines, at) {
            return Err(format!("{lines} lines in {at} bytes: {report:?}"));
        }
        for sent in &self.answers[lines..] {
            let _ = next(&mut run, &list).map_err(|error| error.to_string())?;
            answer(&mut run, &sent.finding(), &mut list).map_err(|error| error.to_string())?;
        }
        let _ = next(&mut run, &list);
        if of_run(&run) != of_run(&self.run) || float_words(&list) != float_words(&self.list) {
            return Err("the run that went on ends otherwise".into());
        }
        tally.cuts += 1;
        Ok(())
    }
}

/// Plays a run to its end, cuts its journal in some places, and damages it.
///
/// # Errors
///
/// Says where the two sides differ, or which run doesn't go on as it had gone.
pub fn compare(random: &mut Random, tally: &mut Tally) -> Result<(), String> {
    let Some(whole) = Whole::draw(random)? else { return Ok(()) };
    tally.runs[0] += 1;
    tally.runs[1] += whole.journal.len();
    for _ in 0..PER_RUN {
        let at = random.below(whole.journal.len() + 1);
        whole.goes_on(at, tally).map_err(|fault| format!("cut after {at} bytes: {fault}"))?;
        let bytes = damaged(&whole.journal, random);
        replays::compare(&whole.inputs, &bytes, &whole.lent, &mut tally.replays)?;
        let _ = resumes::compare(&whole.inputs, &bytes, &whole.lent, &mut tally.resumes)?;
    }
    Ok(())
}
