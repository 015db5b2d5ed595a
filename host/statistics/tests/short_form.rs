//! The statistics in short, with fixed seeds: small plates, so that the gate can wait for them. The bars are those of the long
//! form, docs/LEAN-STATISTICS.md; a share of so few sets may lie below its bar by four of its standard deviations.
#![allow(missing_docs)]

use random::Random;
use statistics::cells::{NOISES, Runner, TYPED, lens, typed};
use statistics::draw::Kind;
use statistics::summary::Summary;
use statistics::tally::Share;

const SMALL: Option<[usize; 2]> = Some([5, 4]);

fn runner(sets: usize) -> Runner {
    Runner { seed: "gate".into(), sets, threads: 2 }
}

/// Small plates of 4 to 14 views with all noises.
fn clean(set: usize, random: &mut Random) -> Kind {
    Kind {
        dots: SMALL,
        is_spread: random.below(2) == 0,
        ..Kind::clean([4, 6, 8, 14][set % 4], NOISES[set / 4 % 3])
    }
}

/// Whether a share of so many may have this mean.
fn may_be(share: Share, least: f64) -> bool {
    let deviation = (least * (1.0 - least) / share.of as f64).sqrt();
    share.part() >= least - 4.0 * deviation
}

#[test]
fn clean_views_end_with_0_and_their_bounds_cover() {
    let sets = runner(96).sets("clean", "", clean);
    let summary = Summary::new(&sets);
    assert_eq!((summary.failed, summary.unfitted, summary.skipped.count), (0, 0, 0), "{summary:?}");
    for share in [summary.covered, summary.all_covered, summary.winner_covered] {
        assert!(may_be(share, 0.95), "{summary:?}");
    }
    let many: Vec<_> = sets.into_iter().filter(|one| one.views >= 8).collect();
    assert!(may_be(Summary::new(&many).good, 0.95), "{summary:?}");
    assert!(summary.width[0] <= 1.3, "{summary:?}");
    assert!(summary.errors[0] <= 1.02 && summary.residuals <= 1.001, "{summary:?}");
}

/// A wrong covariance shows in the width, whatever the count of sets.
#[test]
fn bounds_with_an_exact_lens_are_as_wide_as_the_exact_covariance() {
    let summary = Summary::new(&runner(48).sets("exact", "lens exact", clean));
    let [median, most] = summary.plain_width;
    assert!((0.99..=1.3).contains(&median) && most <= 1.3, "{summary:?}");
    assert!(may_be(summary.covered, 0.95) && summary.failed == 0, "{summary:?}");
}

#[test]
fn lenses_that_nobody_stated_are_seldom_missed_silently() {
    let sets = runner(60).sets("lenses", "", |_, random| Kind { dots: SMALL, ..lens(random) });
    let summary = Summary::new(&sets);
    assert!(summary.silent.count <= 2, "{summary:?}");
    // Many of these lenses are found, or the test would show nothing.
    assert!(summary.lens.count >= 15, "{summary:?}");
}

#[test]
fn a_long_focal_length_is_no_distortion() {
    let sets = runner(40).sets("long", "", |set, _| Kind {
        dots: SMALL,
        focal: [[14_000.0; 2], [50_000.0; 2]][set % 2],
        ..Kind::clean(8, 0.05)
    });
    let summary = Summary::new(&sets);
    // 5 of 100, and four of its deviations.
    assert!(summary.lens.count <= 7 && summary.failed == 0, "{summary:?}");
    assert!(may_be(summary.covered, 0.95), "{summary:?}");
}

/// Every eleventh of the 242 sets.
#[test]
fn every_typed_tilt_within_15_degrees_is_tried() {
    let sets = runner(22).sets("typed", TYPED, |set, random| Kind {
        dots: SMALL,
        ..typed(11 * set + set % 11, random)
    });
    let summary = Summary::new(&sets);
    assert_eq!((summary.failed, summary.skipped.count), (0, 0), "{summary:?}");
    assert!(summary.skipped.of >= 22 * 49, "{summary:?}");
}
