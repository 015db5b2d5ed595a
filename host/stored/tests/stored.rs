//! Every stored answer is the library's, bit by bit: of each file of `oracle/stored` is said what `report.txt` says, which names
//! every file, its operation and how many cases it has.
#![allow(missing_docs)]

use std::collections::BTreeSet;
use std::fs;
use std::path::Path;
use stored::comparison::compare;
use words::STORED;

/// A file's name, and what is to be said of it.
fn expected() -> Vec<(&'static str, &'static str)> {
    let lines = include_str!("report.txt").lines();
    let pair = |line: &'static str| line.split_once(": ").expect("a name and what is said");
    let all: Vec<_> = lines.map(pair).collect();
    assert!(all.iter().all(|(_, said)| said.ends_with(" compared, 0 differ")), "none may differ");
    all
}

#[test]
fn the_folder_has_the_listed_files_and_no_others() {
    let found = fs::read_dir(STORED).expect("the stored files").map(|file| {
        file.expect("a file of the folder").file_name().into_string().expect("a name of letters")
    });
    let found: BTreeSet<String> = found.collect();
    let listed: BTreeSet<String> = expected().iter().map(|(name, _)| (*name).to_owned()).collect();
    let unlisted: Vec<_> = found.difference(&listed).collect();
    let missing: Vec<_> = listed.difference(&found).collect();
    assert!(
        unlisted.is_empty() && missing.is_empty(),
        "not listed {unlisted:?}, not there {missing:?}"
    );
}

#[test]
fn every_stored_answer_is_the_librarys() {
    let mut faults = vec![];
    for (name, expected) in expected() {
        let said = compare(&Path::new(STORED).join(name));
        println!("{name}: {said}");
        if said.to_string() != expected {
            let difference = said.difference().map_or(String::new(), |text| format!("\n  {text}"));
            faults.push(format!("{name}: {said}{difference}\n  and not: {expected}"));
        }
    }
    assert!(faults.is_empty(), "\n{}", faults.join("\n"));
}
