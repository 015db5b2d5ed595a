//! Hostile cases through the C boundary, as many as wanted, in one command: roots beside the machine's and the C library's; leaf
//! operations and rows beside plain C; runs, lines, reports, winners, and journals that were cut or damaged beside the reference model; forged
//! records by what no call may do. Prints what was tried and every difference, and ends with 1 on any.
//!
//!     soak [--only PART] [--roots N] [--leaves N] [--rows N] [--runs N] [--lines N] [--cuts N] [--records N]
//!          [--seed WORD] [--threads N]
//!
//! A part that isn't wanted gets 0, or another is asked for alone. Each seed has cases of its own; the same seed has the same ones. Roots
//! and leaves are shared out among the threads, with the same cases however many there are.

use beside::calls::{Tally, play};
use beside::inputs::draw;
use beside::lines::{LineTally, write_and_read};
use beside::{reports, winners};
use compare::chunks::in_chunks;
use compare::program::{self, Differences, number};
use compare::{blocks, cuts, forged, leaves, roots};
use random::Random;
use std::process::ExitCode;
use std::sync::Mutex;
use std::time::Instant;

/// The parts with how many cases each has.
struct Asked {
    only: Option<String>,
    roots: usize,
    leaves: usize,
    rows: usize,
    runs: usize,
    lines: usize,
    cuts: usize,
    records: usize,
    seed: String,
    threads: usize,
}

impl Asked {
    fn read(words: Vec<String>) -> Result<Self, String> {
        let mut asked = Self {
            only: None,
            roots: 1_000_000,
            leaves: 1_000_000,
            rows: 50_000,
            runs: 10_000,
            lines: 200_000,
            cuts: 2_000,
            records: 5_000,
            seed: "1".to_owned(),
            threads: 1,
        };
        let mut words = words.into_iter();
        while let Some(name) = words.next() {
            let value = words.next().ok_or(format!("{name} needs a value"))?;
            let number = || number(&name, &value);
            match name.as_str() {
                "--only" => asked.only = Some(value),
                "--threads" => asked.threads = number()?,
                "--roots" => asked.roots = number()?,
                "--leaves" => asked.leaves = number()?,
                "--rows" => asked.rows = number()?,
                "--runs" => asked.runs = number()?,
                "--lines" => asked.lines = number()?,
                "--cuts" => asked.cuts = number()?,
                "--records" => asked.records = number()?,
                "--seed" => asked.seed = value,
                _ => return Err(format!("{name} isn't known")),
            }
        }
        Ok(asked)
    }
}

/// One part: what it tries, and what it has found.
struct Part<'a> {
    asked: &'a Asked,
    differences: &'a mut Differences,
    parts: usize,
}

impl Part<'_> {
    /// Goes through a part, and says how long it took.
    fn go(&mut self, name: &str, count: usize, part: fn(&mut Self, &mut Random) -> String) {
        if count == 0 || self.asked.only.as_deref().is_some_and(|only| only != name) {
            return;
        }
        self.parts += 1;
        let (start, before) = (Instant::now(), self.differences.count);
        let said = part(self, &mut Random::named(&format!("soak, {name}, {}", self.asked.seed)));
        let (time, found) = (start.elapsed().as_secs_f64(), self.differences.count - before);
        println!("{name:9}{said}: {found} differ, {time:.1} s");
    }

    fn roots(&mut self, _: &mut Random) -> String {
        let (count, seed) = (self.asked.roots, &self.asked.seed);
        let differences = Mutex::new(&mut *self.differences);
        let add = |fault: String| differences.lock().expect("no thread panics").add(&fault);
        let scored = Mutex::new([0, 0]);
        in_chunks("roots", count, 1 << 20, self.asked.threads, |chunk, cases| {
            let of_chunk = &mut Random::named(&format!("soak, roots, {seed}, {chunk}"));
            let [single, in_block] = roots::compare(cases, of_chunk, add);
            let mut scored = scored.lock().expect("no thread panics");
            *scored = [scored[0] + single, scored[1] + in_block];
        });
        let [single, in_blocks] = scored.into_inner().expect("no thread panics");
        let kinds = roots::KINDS.len();
        format!(
            "{count} numbers of {kinds} kinds, from the bits, by the machine and by the C library; of {single} the root of a row, \
             of {in_blocks} that of a row in a block"
        )
    }

    fn leaves(&mut self, _: &mut Random) -> String {
        let each = self.asked.leaves.div_ceil(leaves::COUNT);
        let (seed, differences) = (&self.asked.seed, Mutex::new(&mut *self.differences));
        in_chunks("leaves", each, 1 << 16, self.asked.threads, |chunk, cases| {
            let of_chunk = &mut Random::named(&format!("soak, leaves, {seed}, {chunk}"));
            let faults = leaves::compare(cases, of_chunk);
            let mut differences = differences.lock().expect("no thread panics");
            faults.iter().for_each(|fault| differences.add(fault));
        });
        format!("{each} cases of each of {} operations beside plain C", leaves::COUNT)
    }

    fn rows(&mut self, random: &mut Random) -> String {
        let (placed, faults) = blocks::in_each_place(random);
        let others = blocks::at_random(self.asked.rows, random);
        faults.iter().chain(&others).for_each(|fault| self.differences.add(fault));
        format!("{placed} and {} sets beside the plain loop", self.asked.rows)
    }

    fn runs(&mut self, random: &mut Random) -> String {
        let mut tally = Tally::default();
        for i in 0..self.asked.runs {
            let inputs = draw(random);
            if let Err(fault) = play(inputs.clone(), &mut random.fork(), &mut tally) {
                self.differences.add(&format!("list of calls {i}, {inputs:?}: {fault}"));
            }
        }
        let ([two, one], refused) = (tally.runs, tally.refused.iter().sum::<usize>());
        format!(
            "{two} on two axes, {one} on one, {} calls, {refused} refused, beside the book",
            tally.calls
        )
    }

    fn lines(&mut self, random: &mut Random) -> String {
        let mut tally = LineTally::default();
        for _ in 0..self.asked.lines {
            let line = write_and_read(random, &mut tally);
            let other = reports::compare_drawn(random).and(winners::compare_drawn(random));
            [line.err(), other.err()]
                .iter()
                .flatten()
                .for_each(|fault| self.differences.add(fault));
        }
        let ([written, refused], [lines, ends, not_lines]) = (tally.written, tally.read);
        format!(
            "{written} written, {refused} refused; of damaged ones {lines} read, {ends} ends, {not_lines} refused; as many reports and winners, beside the book"
        )
    }

    fn cuts(&mut self, random: &mut Random) -> String {
        let mut tally = cuts::Tally::default();
        for i in 0..self.asked.cuts {
            if let Err(fault) = cuts::compare(random, &mut tally) {
                self.differences.add(&format!("journal {i}: {fault}"));
            }
        }
        let ([runs, bytes], [whole, newline, not_line, not_run]) =
            (tally.runs, tally.resumes.ended);
        let ([winners, unfinished], refused) = (tally.replays.ended, tally.replays.refused);
        format!(
            "{runs} journals of {bytes} bytes; {} cuts, from each on to the end; resumed: {whole} whole, {newline} without a newline, \
             {not_line} with 29, {not_run} with 30; run again: {winners} winners, {unfinished} unfinished, {} with 11, {} with 29, \
             {} with 30, beside the book",
            tally.cuts, refused[11], refused[29], refused[30]
        )
    }

    fn records(&mut self, random: &mut Random) -> String {
        let mut tally = forged::Tally::default();
        for i in 0..self.asked.records {
            if let Err(fault) = forged::compare(random, &mut tally) {
                self.differences.add(&format!("forged records {i}: {fault}"));
            }
        }
        let [calls, refused] = tally.sound;
        format!(
            "{} calls on records that no search can have made, {calls} on others, {refused} refused",
            tally.unsound
        )
    }
}

fn main() -> ExitCode {
    program::run(soak)
}

fn soak(words: Vec<String>) -> Result<ExitCode, String> {
    let asked = Asked::read(words)?;
    println!("seed {}", asked.seed);
    let mut differences = Differences::default();
    let mut part = Part { asked: &asked, differences: &mut differences, parts: 0 };
    part.go("roots", asked.roots, Part::roots);
    part.go("leaves", asked.leaves, Part::leaves);
    part.go("rows", asked.rows, Part::rows);
    part.go("runs", asked.runs, Part::runs);
    part.go("lines", asked.lines, Part::lines);
    part.go("cuts", asked.cuts, Part::cuts);
    part.go("records", asked.records, Part::records);
    if part.parts == 0 {
        return Err("no part was asked for".to_owned());
    }
    Ok(differences.end())
}
