//! The specification's distortion lines and its rule for NaN scores beside the published ones.

use oracle::operations::answer;
use std::path::Path;
use words::{STORED, float_words, parse};

fn stored(name: &str) -> String {
    std::fs::read_to_string(Path::new(STORED).join(name)).expect("the stored file")
}

fn both(operation: &str, input: &[u64]) -> [Vec<u64>; 2] {
    [operation.to_owned(), format!("{operation}_as_published")]
        .map(|operation| answer(&operation, input).expect("both variants take this input"))
}

#[test]
fn the_tangential_parts_differ() {
    let [specified, published] =
        both("distort", &float_words(&[0.0, 0.0, 0.0, 0.2, 0.0, 0.1, 0.6]));
    assert_eq!(specified, [0x3fbf_be76_c8b4_3959, 0x3fea_2d0e_5604_1893]);
    assert_eq!(published, [0x3fbf_be76_c8b4_3958, 0x3fea_2d0e_5604_1893]);
}

/// The derivatives agree on every stored input, the points not always.
#[test]
fn the_derivatives_agree() {
    let stored = stored("distort_with_jacobian.txt");
    let mut other_points = 0;
    for case in stored.lines().filter(|line| !line.starts_with('#')) {
        let (input, _) = case.split_once(" = ").expect("two sides");
        let input = parse(input.split(' ')).expect("words");
        let [specified, published] = both("distort_with_jacobian", &input);
        assert_eq!(specified[2..], published[2..], "{case}");
        other_points += u32::from(specified[..2] != published[..2]);
    }
    assert!(other_points > 0);
}

/// On every stored search the two agree but where a score is NaN.
#[test]
fn searches_without_nan_agree() {
    let stored = stored("search.txt");
    let mut others = 0;
    for case in stored.lines().filter(|line| !line.starts_with('#')) {
        let (input, output) = case.split_once(" = ").expect("two sides");
        let input = parse(input.split(' ')).expect("words");
        let published = answer("search_as_published", &input);
        match published {
            Ok(words) if words == parse(output.split(' ')).expect("words") => {}
            Ok(words) => {
                assert!(words.contains(&0x7ff8_0000_0000_0000), "{case}");
                others += 1;
            }
            Err(_) => others += 1,
        }
    }
    assert!(others > 0);
}
