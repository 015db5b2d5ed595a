//! Two thousand lists of calls; `host/compare` has a program for as many as wanted.
#![allow(missing_docs)]

use beside::calls::{Tally, play};
use beside::inputs::draw;
use random::Random;

#[test]
fn every_reply_every_list_and_every_record_are_the_books() {
    let mut random = Random::named("the gate");
    let mut tally = Tally::default();
    for i in 0..2000 {
        let inputs = draw(&mut random);
        play(inputs.clone(), &mut random.fork(), &mut tally)
            .unwrap_or_else(|fault| panic!("list of calls {i}, {inputs:?}: {fault}"));
    }
    // What was compared: runs on two axes and on one, to their end, each outcome, and each refusal of a search.
    assert!(tally.runs[0] > 1000 && tally.runs[1] > 400, "{tally:?}");
    assert!(tally.calls > 40_000 && tally.unsound > 2000, "{tally:?}");
    assert!(tally.results.iter().all(|&times| times > 0), "{tally:?}");
    // Later rounds with all their tilts within the bound, and with fewer.
    assert!([1, 2, 3, 4, 6, 9].iter().all(|&total| tally.later_totals[total] > 0), "{tally:?}");
    assert!(tally.stops.iter().all(|&times| times > 100), "{tally:?}");
    // Counted errors; and rows that were counted, but too few of them.
    assert!(tally.errors[0] > 10_000 && tally.errors[1] > 200, "{tally:?}");
    assert!(tally.entered.iter().all(|&times| times > 100), "{tally:?}");
    // Lines of runs, whole and damaged.
    assert!(tally.lines.read.iter().all(|&times| times > 1000), "{tally:?}");
    // Their journals run again.
    let replays = tally.replays;
    assert!(replays.ended.iter().all(|&times| times > 300), "{tally:?}");
    assert!([8, 11, 27, 29, 30, 33].iter().all(|&number| replays.refused[number] > 5), "{tally:?}");
    assert!(replays.found.iter().all(|&times| times > 50), "{tally:?}");
    assert!(replays.cameras.iter().all(|&times| times > 20), "{tally:?}");
    // Runs that went on from them.
    let resumes = tally.resumes;
    assert!(resumes.ended.iter().all(|&times| times > 100), "{tally:?}");
    assert!(resumes.refused > 50 && resumes.gone_on > 1000 && resumes.cut > 20, "{tally:?}");
    assert!((1..15).chain([27, 31, 32, 33]).all(|number| tally.refused[number] > 0), "{tally:?}");
}
