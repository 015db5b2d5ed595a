//! Records that no search can have made: every call must answer as a run that ended with nothing scored, and change nothing.

use crate::calls::{Reply, differ, handed_words};
use crate::record_words::{of_counts, of_progress, of_run, of_stopped};
use jinnychair::record::{Run, answer, counts, last_line, next, progress, result, seed, stop};
use jinnychair::{Counts, Finding};
use random::Random;
use words::float_words;

/// Damages a sound record, and gives the number of calls that were made with it.
///
/// # Errors
///
/// Says which reply isn't that of a run that ended, or what has changed.
pub fn compare(sound: &Run, sound_list: &[f64], random: &mut Random) -> Result<usize, String> {
    let mut run = damaged(*sound, random);
    let before = of_run(&with_plain_flags(run));
    let mut list = sound_list.to_vec();
    let number = |number: u8| vec![2, number.into()];
    let replies: Vec<Reply> = vec![
        handed_words(next(&mut run, &list).map_err(|e| e.number())),
        seed(&run, &list).map_or(vec![], |numbers| float_words(&numbers)),
        answer(&mut run, &Finding::Failed, &mut list)
            .map_or_else(|e| number(e.number()), |_| vec![0]),
        result(&run).map_or_else(|e| number(e.number()), |_| vec![0]),
        of_progress(progress(&run)),
        stop(&run, &list).map_or_else(|e| number(e.number()), |stopped| of_stopped(&stopped)),
        last_line(&run).map_or(vec![], |_| vec![1]),
        of_counts(&counts(&run)),
    ];
    // The progress, the stop and the counts call give zeros.
    let [ended, refused, zeros] = [vec![2, 11], vec![2, 12], vec![0; 5]];
    let expected =
        [ended.clone(), vec![], refused, ended, zeros.clone(), vec![0; 18], vec![], zeros];
    if replies != expected {
        return Err(format!("an unsound record {run:?} gets {replies:?}"));
    }
    differ("an unsound record afterwards", of_run(&run), before)?;
    differ("the list beside it", float_words(&list), float_words(sound_list))?;
    Ok(replies.len())
}

/// A record with one damage.
fn damaged(mut run: Run, random: &mut Random) -> Run {
    let big = random.pick(&[usize::MAX, 1 << 63, 1 << 32, 4000]);
    let place = &mut run.place;
    match random.below(13) {
        0 => run.options.refine_rounds = big,
        1 => place.round = run.options.refine_rounds + 1 + random.below(3),
        2 => place.len = big,
        3 => place.number = random.pick(&[657, big]),
        4 => place.demand = random.pick(&[0, 53, 3073, big]),
        5 => place.len = place.demand / 6 + 1,
        6 => (place.over, run.waiting.is_waiting) = (1, random.pick(&[1, 2, 255])),
        7 => (place.over, place.at) = (0, place.len),
        8 => (place.over, place.at) = (0, big),
        9 => run.options.min_counted = random.pick(&[101, big]),
        10 => place.number = if place.number == 0 { 1 } else { place.number - 1 },
        11 => run.counts = miscounted(run.counts, random),
        _ => run = zeroed(run),
    }
    run
}

/// Counts that don't add up to the answers, or do so only where the sum wraps round.
fn miscounted(mut counts: Counts, random: &mut Random) -> Counts {
    let Counts { scored, host_failed, bad_camera, no_mean, no_number } = &mut counts;
    let all = [scored, host_failed, bad_camera, no_mean, no_number];
    let place = random.below(5);
    let other = (place + 1 + random.below(4)) % 5;
    match random.below(4) {
        0 => *all[place] += 1,
        1 => *all[place] = all[place].wrapping_sub(1),
        2 => *all[place] = usize::MAX,
        _ => {
            let half = 1 << 63;
            *all[place] = all[place].wrapping_add(half);
            *all[other] = all[other].wrapping_add(half);
        }
    }
    counts
}

/// A flag is read as 0 or not 0, and comes back as 0 or 1.
fn with_plain_flags(mut run: Run) -> Run {
    let Run { options, place, waiting, round_best, run_best, last, .. } = &mut run;
    let found = [&mut round_best.found, &mut run_best.found, &mut last.found];
    let others = [&mut options.one_axis, &mut place.over, &mut waiting.is_waiting];
    for flag in others.into_iter().chain(found) {
        *flag = (*flag).min(1);
    }
    run
}

/// The record that a refused Start leaves.
fn zeroed(mut run: Run) -> Run {
    run.options.refine_rounds = 0;
    let place = &mut run.place;
    (place.demand, place.round, place.len, place.at, place.number) = (0, 0, 0, 0, 0);
    (place.step, place.over, run.waiting.is_waiting) = (0.0, 0, 0);
    (run.round_best.found, run.run_best.found) = (0, 0);
    run.counts = Counts::default();
    run
}
