//! Journals run again as support meets them: the winner, and what is wrong with a line in words.
#![allow(missing_docs)]

mod common;

use common::{K, bytes, inputs, journaled, options};
use jinnychair::journal::{Line, Recorded, Replayed, ScoredFields, lines, replay, what_differs};
use jinnychair::*;

/// The lines of a search.
fn searched() -> Vec<Line> {
    lines(&journaled(&options()).1).map(Result::unwrap).collect()
}

fn fields(line: &mut Line) -> &mut ScoredFields {
    match &mut line.outcome {
        Recorded::Scored(fields) => fields,
        Recorded::Skipped(reason) => panic!("{reason}"),
    }
}

#[test]
fn a_search_and_its_journal_have_one_winner() {
    let options = options();
    let (winner, journal) = journaled(&options);
    let replayed = replay(&inputs(&options), &journal);
    let Winner { number, score, .. } = winner;
    assert_eq!(replayed, Ok(Replayed::Winner { number, score }));
    assert_eq!(what_differs(&inputs(&options), &journal), None);
}

#[test]
fn lines_that_run_out_say_what_comes_next() {
    let (options, lines) = (options(), searched());
    for count in [0, 1, 44, 45, 46, lines.len() - 1] {
        let replayed = replay(&inputs(&options), &bytes(&lines[..count]));
        assert_eq!(replayed, Ok(Replayed::Unfinished(lines[count].seed)));
    }
    let failed = Recorded::Skipped(SkipReason::HostFailed);
    let none: Vec<Line> =
        lines[..45].iter().map(|line| Line { outcome: failed, ..*line }).collect();
    assert_eq!(replay(&inputs(&options), &bytes(&none)), Ok(Replayed::NothingScored));
}

#[test]
fn refusals_name_the_line_and_say_what_to_do() {
    let (mut options, lines) = (options(), searched());
    let mut journal = bytes(&lines[..3]);
    journal.extend(b"0,0\n");
    let error = replay(&inputs(&options), &journal).unwrap_err();
    assert_eq!((error, error.number()), (ReplayError::NotALine { line: 4 }, 29));
    assert!(error.to_string().starts_with("line 4: this isn't a line of a journal (29)"));
    assert_eq!(what_differs(&inputs(&options), &journal), None);
    let error = replay(&inputs(&options), &bytes(&lines[1..])).unwrap_err();
    assert_eq!((error, error.number()), (ReplayError::NotTheRun { line: 1 }, 30));
    let text = error.to_string();
    assert!(
        text.starts_with("line 1: the line isn't the run's") && text.contains("(30)"),
        "{text}"
    );
    options.max_abs_tilt = 0.6;
    let error = replay(&inputs(&options), &journal).unwrap_err();
    assert_eq!((error, error.number()), (ReplayError::Start(StartError::TiltTooLarge), 27));
}

/// What is said of a search's journal with a change of one line, which must be refused there.
fn said(place: usize, change: impl FnOnce(&mut Line)) -> String {
    let (options, mut lines) = (options(), searched());
    change(&mut lines[place]);
    let (inputs, journal) = (inputs(&options), bytes(&lines));
    let refused = ReplayError::NotTheRun { line: place + 1 };
    assert_eq!(replay(&inputs, &journal), Err(refused));
    what_differs(&inputs, &journal).unwrap().to_string()
}

#[test]
fn what_differs_is_said_in_words() {
    let is_scored = |line: &Line| matches!(line.outcome, Recorded::Scored(_));
    let place = searched().iter().rposition(is_scored).unwrap();
    for (said, words) in [
        (said(2, |line| line.number = 5), "the line's number is 5; the next candidate is no. 2"),
        (said(50, |line| line.round = 0), "the line's round is 0; the run is in round 1"),
        (
            said(1, |line| line.seed.sensor.tilt_y = 0.25),
            "the seed's tilt y is 0.25; the run hands out -0.02",
        ),
        (
            said(50, |line| line.seed.reference_k.cx = -0.0),
            "the seed's cx is -0.0; the run hands out 640.0",
        ),
        (
            said(place, |line| fields(line).k.fy = 0.0),
            "a number of the scored camera isn't finite, or a focal length isn't above 0",
        ),
        (
            said(place, |line| fields(line).p1 = 0.07),
            "the scored camera's p1 is 0.07, which is beyond 0.05",
        ),
        (
            said(place, |line| fields(line).mean_reproj_error = -1.0),
            "the mean error is -1.0, which isn't finite or is below 0",
        ),
        (
            said(place, |line| fields(line).score = 0.5),
            "the score is 0.5; the line's own numbers give ",
        ),
    ] {
        assert!(said.starts_with(words), "{said}");
    }
}

#[test]
fn a_line_behind_the_end_is_told() {
    let (options, mut lines) = (options(), searched());
    lines.push(lines[0]);
    let difference = what_differs(&inputs(&options), &bytes(&lines));
    assert_eq!(difference.unwrap().to_string(), "the run was over before this line");
}

#[test]
fn inputs_of_another_search_are_found_where_the_seeds_part() {
    let (mut options, journal) = (options(), journaled(&options()).1);
    // The grid is the same, the first round after it has another step.
    options.refine_step = 0.03;
    let error = replay(&inputs(&options), &journal).unwrap_err();
    assert_eq!(error, ReplayError::NotTheRun { line: 46 });
    let said = what_differs(&inputs(&options), &journal).unwrap().to_string();
    assert!(said.starts_with("the seed's tilt x is "), "{said}");
    let other = Inputs { base: FxFyCxCy { fx: 999.0, ..K }, ..inputs(&options) };
    let said = what_differs(&other, &journal).unwrap().to_string();
    assert_eq!(said, "the seed's fx is 1000.0; the run hands out 999.0");
}
