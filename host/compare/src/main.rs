//! Compares the library with the oracle, with the reference model and, for rows in blocks, with the plain loop, and prints what was compared and every difference with its input.
//!
//!     compare [LEAF CASES] [SEARCHES] [SEED]

use beside::calls::{Tally, play};
use beside::inputs::{on_one_axis, share};
use beside::lines::{LineTally, write_and_read};
use beside::{reports, winners};
use compare::blocks;
use compare::program::{self, Differences, number};
use oracle::generate::{Endless, endless};
use random::Random;
use std::process::ExitCode;
use stored::library::Operation;
use words::start::Inputs;
use words::{Reader, line, word};

fn main() -> ExitCode {
    program::run(compare_all)
}

fn compare_all(words: Vec<String>) -> Result<ExitCode, String> {
    let count = |i: usize, name: &str, default: usize| {
        words.get(i).map_or(Ok(default), |word| number(name, word))
    };
    let (leaves, searches) = (count(0, "leaf cases", 1_000_000)?, count(1, "searches", 10_000)?);
    let seed = words.get(2).map_or("1", String::as_str);
    println!("seed {seed}");

    let mut differences = Differences::default();
    let families = endless(seed);
    let operations = families.iter().filter(|family| family.operation != "search").count() + 1;
    let each = leaves.div_ceil(operations);
    compare_roots(each, seed, &mut differences);
    for family in families {
        let count = if family.operation == "search" { searches } else { each };
        compare_with_oracle(family, count, &mut differences);
    }
    compare_blocks(each, seed, &mut differences);
    compare_with_book(searches, seed, &mut differences);
    compare_lines(each, seed, &mut differences);
    compare_reports(each, seed, &mut differences);
    compare_winners(each, seed, &mut differences);
    Ok(differences.end())
}

/// The machine's root is IEEE's.
fn compare_roots(count: usize, seed: &str, differences: &mut Differences) {
    let mut random = Random::named(&format!("roots, {seed}"));
    for _ in 0..count {
        let x = f64::from_bits(random.bits());
        let (library, machine) = (word(jinnychair::geometry::sqrt(x)), word(x.sqrt()));
        if library != machine {
            differences.add(&format!("sqrt {}: {library:016x}, {machine:016x}", line(&[word(x)])));
        }
    }
    println!("{:28}{count} cases", "sqrt (the machine's)");
}

/// Rows in blocks beside the plain loop.
fn compare_blocks(count: usize, seed: &str, differences: &mut Differences) {
    let mut random = Random::named(&format!("blocks, {seed}"));
    let (placed, faults) = blocks::in_each_place(&mut random);
    let others = blocks::at_random(count, &mut random);
    faults.iter().chain(&others).for_each(|fault| differences.add(fault));
    println!("{:28}{placed} and {count} cases", "rows in blocks (plain C)");
}

fn compare_with_oracle(family: Endless, count: usize, differences: &mut Differences) {
    let operation = family.operation;
    let library = Operation::named(operation).expect("the library has the oracle's operations");
    for (input, output) in family.cases.take(count) {
        match library.answer(&input) {
            Ok(words) if words == output => {}
            Ok(words) => differences.add(&format!(
                "{operation} {}: the library gives {}, the oracle {}",
                line(&input),
                line(&words),
                line(&output)
            )),
            Err(fault) => differences.add(&format!("{operation} {}: {fault}", line(&input))),
        }
    }
    println!("{operation:28}{count} cases");
}

/// Start's inputs as the oracle drew them, on two axes or, once in three, on one, with a share of counted rows.
fn book_inputs(input: &[u64], random: &mut Random) -> book::Inputs {
    let drawn = Inputs::read(&mut Reader::new(input)).expect("the oracle answered them");
    let inputs = book::Inputs {
        views: drawn.views,
        tilt_x_seeds: drawn.tilt_x_seeds,
        tilt_y_seeds: drawn.tilt_y_seeds,
        rounds: drawn.rounds,
        refine_step: drawn.refine_step,
        max_abs_tilt: drawn.max_abs_tilt,
        one_axis: false,
        min_counted: share(random),
        decomposition: drawn.decomposition,
        base: drawn.base,
        centre: drawn.center,
    };
    if random.once_in(3) { on_one_axis(inputs, random) } else { inputs }
}

fn compare_with_book(count: usize, seed: &str, differences: &mut Differences) {
    let lists = endless(&format!("{seed}, calls")).into_iter();
    let lists = lists.filter(|family| family.operation == "seed_lists").flat_map(|f| f.cases);
    let mut random = Random::named(&format!("calls, {seed}"));
    let mut tally = Tally::default();
    for (i, (input, _)) in lists.take(count).enumerate() {
        let inputs = book_inputs(&input, &mut random);
        if let Err(fault) = play(inputs.clone(), &mut random.fork(), &mut tally) {
            differences.add(&format!("list of calls {i}, {inputs:?}: {fault}"));
        }
    }
    println!("lists of calls              {count} cases");
    print_tally(&tally);
}

fn print_tally(tally: &Tally) {
    let [two_axes, one_axis] = tally.runs;
    println!("  {two_axes} accepted Starts on two axes, {one_axis} on one");
    println!("  {} calls in all", tally.calls);
    let [scored, skipped @ ..] = tally.entered;
    println!("  {scored} answers scored, skipped, by reason: {skipped:?}");
    let refused = tally.refused.iter().enumerate().filter(|(_, times)| **times > 0);
    let refused: Vec<String> = refused.map(|(n, times)| format!("{n}: {times}")).collect();
    println!("  refused, by number: {}", refused.join(", "));
    println!("  {} runs with a result, {} that ended without", tally.results[0], tally.results[1]);
    let [errors, few] = tally.errors;
    println!("  {errors} times counted errors; {few} answers with some rows counted, but too few");
    println!(
        "  calls after which a later round had so many seeds, from 0: {:?}",
        tally.later_totals
    );
    let [nothing_left, unscored, gain, no_gain] = tally.stops;
    println!(
        "  stopped with nothing left after {nothing_left} calls, with nothing scored {unscored},"
    );
    println!("    with something to gain {gain}, with nothing to gain {no_gain}");
    println!("  {} calls on records that no search can have made", tally.unsound);
    let [lines, ends, refused] = tally.lines.read;
    println!("  {lines} lines, {ends} ends and {refused} refusals read from their journals");
    let ([winners, unfinished], refused) = (tally.replays.ended, &tally.replays.refused);
    println!("  journals run again: {winners} winners, {unfinished} next seeds,");
    println!("    {} times 11, {} times 29, {} times 30", refused[11], refused[29], refused[30]);
    let [unseen, seen] = tally.replays.cameras;
    println!("    each field changed {:?} times, and found there", tally.replays.found);
    println!("    another camera found with the next round {seen} times, not found {unseen} times");
    let [whole, newline, not_lines, not_runs] = tally.resumes.ended;
    println!("  journals kept whole {whole} times, ended by a missing newline {newline} times,");
    println!("    by 29 {not_lines} times, by 30 {not_runs} times");
    println!("    {} runs went on to where they had been", tally.resumes.gone_on);
}

/// Lines with any numbers.
fn compare_lines(count: usize, seed: &str, differences: &mut Differences) {
    let mut random = Random::named(&format!("lines, {seed}"));
    let mut tally = LineTally::default();
    for _ in 0..count {
        if let Err(fault) = write_and_read(&mut random, &mut tally) {
            differences.add(&fault);
        }
    }
    let ([written, refused], [lines, ends, not_lines]) = (tally.written, tally.read);
    println!("{:28}{written} written, {refused} refused", "lines of a journal");
    println!(
        "  {lines} lines, {ends} ends and {not_lines} refusals read again, most of them damaged"
    );
}

/// Reports of any five counts.
fn compare_reports(count: usize, seed: &str, differences: &mut Differences) {
    let mut random = Random::named(&format!("reports, {seed}"));
    let mut written = [0; 2];
    for _ in 0..count {
        match reports::compare_drawn(&mut random) {
            Ok(is_written) => written[usize::from(is_written)] += 1,
            Err(fault) => differences.add(&fault),
        }
    }
    println!("{:28}{} written, {} refused", "reports", written[1], written[0]);
}

/// Winners of any two records.
fn compare_winners(count: usize, seed: &str, differences: &mut Differences) {
    let mut random = Random::named(&format!("winners, {seed}"));
    let mut found = [0; 2];
    for _ in 0..count {
        match winners::compare_drawn(&mut random) {
            Ok(is_found) => found[usize::from(is_found)] += 1,
            Err(fault) => differences.add(&fault),
        }
    }
    println!("{:28}{} found, {} times none", "winners of two", found[1], found[0]);
}
