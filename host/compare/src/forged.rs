//! Records that the caller made up: every call must be total, change nothing where it refuses, and write no further than the list
//! that the record demands.

use beside::findings::Sent;
use beside::inputs::{draw, for_library};
use beside::record_words::of_run;
use beside::unsound;
use jinnychair::Handed;
use jinnychair::record::{Run, answer, last_line, next, progress, result, seed, start, stop};
use random::Random;
use words::float_words;

/// What was tried.
#[derive(Clone, Copy, Debug, Default)]
pub struct Tally {
    /// Calls on records that no search can have made.
    pub unsound: usize,
    /// Calls on records that one could have made, with other numbers in them, and how many of these were refused.
    pub sound: [usize; 2],
}

/// Plays a run of drawn answers, and forges a record after each of them.
///
/// # Errors
///
/// Says what a call did that it must not do.
pub fn compare(random: &mut Random, tally: &mut Tally) -> Result<(), String> {
    let inputs = draw(random);
    let mut list = vec![0.25; inputs.demand().min(100_000)];
    let Ok(mut run) = start(&for_library(&inputs), &mut list) else { return Ok(()) };
    for _ in 0..1 + random.below(40) {
        tally.unsound += unsound::compare(&run, &list, random)?;
        sound(with_other_numbers(run, random), random, tally)?;
        let Ok(Handed::Candidate { seed, .. }) = next(&mut run, &list) else { break };
        tally.unsound += unsound::compare(&run, &list, random)?;
        let sent = Sent::draw(&seed.numbers(), false, random);
        let _ = answer(&mut run, &sent.finding(), &mut list);
        let _ = answer(&mut run, &jinnychair::Finding::Failed, &mut list);
    }
    Ok(())
}

/// Any numbers where nothing is counted by them.
fn with_other_numbers(mut run: Run, random: &mut Random) -> Run {
    let mut any = || f64::from_bits(random.bits());
    run.options.refine_step = any();
    run.options.max_abs_tilt = any();
    (run.center.x, run.center.y, run.place.step) = (any(), any(), any());
    let numbers = [any(), any(), any(), any(), any(), any()];
    run.waiting.seed = jinnychair::Seed::from_numbers(numbers);
    for best in [&mut run.round_best, &mut run.run_best] {
        let c = &mut best.candidate;
        (c.camera.k.fx, c.camera.k.cy, c.score) = (any(), any(), any());
        (c.sensor.tilt_x, c.sensor.tilt_y) = (any(), any());
    }
    if random.once_in(2) {
        run.round_best.found = random.pick(&[0, 1, 2, 255]);
        run.run_best.found = random.pick(&[0, 1, 2, 255]);
        run.options.one_axis = random.pick(&[0, 1, 7]);
    }
    run
}

/// Every call on a record, with a list of any numbers that is longer than it demands.
fn sound(mut run: Run, random: &mut Random, tally: &mut Tally) -> Result<(), String> {
    let (demand, spare) = (run.place.demand, 5);
    let mut list: Vec<f64> = (0..demand + spare).map(|_| f64::from_bits(random.bits())).collect();
    let before = float_words(&list);
    for _ in 0..4 {
        let (was, number) = (of_run(&run), run.place.number);
        let _ = (progress(&run), last_line(&run), result(&run), seed(&run, &list));
        let _ = stop(&run, &list);
        tally.sound[0] += 6;
        if next(&mut run, &list).is_err() {
            tally.sound[1] += 1;
            is_same("a refused Next", &of_run(&run), &was)?;
        }
        let (was, lent) = (of_run(&run), float_words(&list));
        let sent = Sent::draw(&run.waiting.seed.numbers(), false, random);
        match answer(&mut run, &sent.finding(), &mut list) {
            Ok(_) if run.place.number != number + 1 => return Err("an answer isn't counted".into()),
            Ok(_) => {}
            Err(_) => {
                tally.sound[1] += 1;
                is_same("a refused Answer", &of_run(&run), &was)?;
                is_same("the list of a refused Answer", &float_words(&list), &lent)?;
            }
        }
    }
    is_same("the list's tail", &float_words(&list[demand..]), &before[demand..])
}

fn is_same(what: &str, found: &[u64], expected: &[u64]) -> Result<(), String> {
    // Flags come back as 0 or 1.
    let differs = |(a, b): (&u64, &u64)| a != b && !(*a <= 1 && *b <= 255 && *a == (*b).min(1));
    if found.len() != expected.len() || found.iter().zip(expected).any(differs) {
        return Err(format!("{what} changes it: {found:x?}, {expected:x?}"));
    }
    Ok(())
}
