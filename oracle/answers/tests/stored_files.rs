//! The stored files are what the generator writes.

use oracle::generate::files;
use std::path::Path;
use words::STORED;

#[test]
fn the_stored_files_are_the_generated_ones() {
    for (operation, text) in files() {
        let path = Path::new(STORED).join(format!("{operation}.txt"));
        let stored = std::fs::read_to_string(&path)
            .unwrap_or_else(|error| panic!("{}: {error}", path.display()));
        assert!(stored == text, "{} isn't what `generate` writes", path.display());
    }
}

#[test]
fn sides_of_a_case_keep_to_their_length() {
    let length = |side: &str| side.split(' ').count();
    for (operation, text) in files() {
        for case in text.lines().filter(|line| !line.starts_with('#')) {
            let (input, output) = case.split_once(" = ").expect("two sides");
            assert!(length(input) <= 8192 && length(output) <= 8192, "{operation}");
        }
    }
}
