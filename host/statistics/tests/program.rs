//! What is counted is what the program prints: the same verdict and the same numbers, bit by bit.
#![allow(missing_docs)]

use random::Random;
use statistics::answer::answer;
use statistics::cells::lens;
use statistics::draw::{Kind, draw};
use std::fs;
use std::path::Path;
use std::process::Command;
use tool::views::Plate;

/// The program's exit code, its headline in radians (tilts, then their bounds), and how many points are against it.
fn printed(folder: &Path, plate: &Plate) -> (i32, Vec<f64>, usize) {
    let (views, out) = (folder.join("drawn.views"), folder.join("drawn"));
    fs::write(&views, plate.text()).unwrap();
    let mut program = Command::new(env!("CARGO_BIN_EXE_statistics"));
    let ended = program.arg("search").arg(&views).arg("--out").arg(&out).output().unwrap();
    let table = fs::read_to_string(out.with_extension("csv")).unwrap();
    let headline = table.lines().find_map(|line| line.strip_prefix("# lean_rad: ")).unwrap();
    let numbers = headline.split(' ').map(|word| word.parse().unwrap()).collect();
    let against = table.lines().filter(|line| line.starts_with("# against: ")).count();
    (ended.status.code().unwrap(), numbers, against)
}

#[test]
fn the_counted_answers_are_those_that_the_program_prints() {
    let folder = std::env::temp_dir().join(format!("statistics-{}", std::process::id()));
    fs::create_dir_all(&folder).unwrap();
    let mut random = Random::named("printed");
    let mut codes = vec![];
    for set in 0..6 {
        let kind = if set < 3 { Kind::clean(3 + 2 * set, 0.1) } else { lens(&mut random) };
        let plate = draw(&Kind { dots: Some([5, 4]), ..kind }, &mut random).plate;
        let here = answer(plate.clone(), "").unwrap();
        let (code, numbers, against) = printed(&folder, &plate);
        assert_eq!(numbers, [here.lean, here.lean_bounds].concat(), "set {set}");
        assert_eq!((code, against), (3 * i32::from(!here.is_good()), here.reasons.len()));
        codes.push(code);
    }
    fs::remove_dir_all(&folder).unwrap();
    assert!(codes.contains(&0) && codes.contains(&3), "{codes:?}");
}
