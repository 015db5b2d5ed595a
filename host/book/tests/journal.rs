//! The journal's lines by docs/SPECIFICATION.md, chapter 8: what is written, what is read back, and what isn't a line.
#![allow(missing_docs)]

use book::{Camera, Entry, Outcome, Reading, Scored, Seed, read_line, write_line};

/// A scored entry with numbers whose bits are well known.
fn scored() -> Entry {
    let camera = Camera { k: [2.0, -2.0, 1.0, -0.0], radial: [0.0; 3], tangential: [0.5, 0.0] };
    let seed = Seed { k: [1.0, -1.0, 0.0, -0.0], tilts: [f64::INFINITY, f64::NAN] };
    let outcome = Outcome::Scored(Scored { camera, mean: 0.25, score: 0.5 });
    Entry { number: 655, round: 16, seed, outcome }
}

fn skipped(reason: u8) -> Entry {
    Entry { number: 0, round: 0, outcome: Outcome::Skipped(reason), ..scored() }
}

const SEED: &str = "3ff0000000000000,bff0000000000000,0000000000000000,8000000000000000,\
                    7ff0000000000000,7ff8000000000000";
const MEASURES: &str = "3fe0000000000000,3fd0000000000000,4000000000000000,c000000000000000,\
                        3ff0000000000000,8000000000000000,3fe0000000000000,0000000000000000";

fn text(entry: &Entry) -> String {
    String::from_utf8(write_line(entry, 256).unwrap()).unwrap()
}

/// Whether bytes are one line, which is then written again with the same bytes.
fn is_line(bytes: &[u8]) -> bool {
    match read_line(bytes, 0) {
        Reading::Line(entry, next) => {
            assert_eq!((write_line(&entry, 256).as_deref(), next), (Ok(bytes), bytes.len()));
            true
        }
        Reading::Refused(line) => {
            assert_eq!(line, 1);
            false
        }
        Reading::End => false,
    }
}

#[test]
fn fields_stand_in_their_order_and_form() {
    assert_eq!(text(&scored()), format!("655,16,{SEED},S,{MEASURES}\n"));
    for (reason, letter) in [(1, 'H'), (2, 'C'), (3, 'E'), (4, 'N')] {
        let line = text(&skipped(reason));
        assert_eq!(line, format!("0,0,{SEED},{letter},-,-,-,-,-,-,-,-\n"));
        assert_eq!(line.len(), 124);
    }
    assert_eq!(text(&scored()).len(), 247);
}

#[test]
fn every_nan_is_written_alike() {
    for bits in [0x7ff8_0000_0000_0001, 0x7ff0_0000_0000_0001, 0xfff8_0000_0000_0000] {
        let mut entry = scored();
        entry.seed.tilts[1] = f64::from_bits(bits);
        assert_eq!(text(&entry), text(&scored()));
    }
}

#[test]
fn the_writer_refuses_with_28() {
    let entry = scored();
    assert_eq!(write_line(&entry, 255), Err(28));
    assert_eq!(write_line(&skipped(1), 255), Err(28));
    assert_eq!(write_line(&Entry { number: 656, ..entry }, 256), Err(28));
    assert_eq!(write_line(&Entry { round: 17, ..entry }, 256), Err(28));
    assert_eq!(write_line(&skipped(0), 256), Err(28));
    assert_eq!(write_line(&skipped(5), 256), Err(28));
    let Outcome::Scored(numbers) = entry.outcome else { panic!("it is scored") };
    let of = |numbers| Entry { outcome: Outcome::Scored(numbers), ..entry };
    assert_eq!(write_line(&of(Scored { score: f64::NAN, ..numbers }), 256), Err(28));
    // Only the score must be a number.
    assert!(write_line(&of(Scored { mean: f64::NAN, ..numbers }), 256).is_ok());
}

#[test]
fn what_is_not_of_the_form_is_29() {
    let line = text(&scored());
    assert!(is_line(line.as_bytes()));
    let changed = |from: &str, to: &str| {
        let changed = line.replacen(from, to, 1);
        assert_ne!(changed, line, "{from}");
        assert!(!is_line(changed.as_bytes()), "{changed}");
    };
    for number in ["656,", "0655,", "+655,", " 655,", "655 ,", "-0,", ",", "65536,", "x,", "655.0,"]
    {
        changed("655,", number);
    }
    changed(",16,", ",17,");
    changed(",16,", ",016,");
    for real in [
        "3FF0000000000000",
        "3ff000000000000",
        "03ff0000000000000",
        "-",
        "+3ff000000000000",
        "3ff00000000000g0",
    ] {
        changed("3ff0000000000000", real);
    }
    for nan in ["fff8000000000000", "7ff8000000000001", "7ff0000000000001"] {
        changed("7ff8000000000000", nan);
    }
    for letter in ["H", "s", "", "N", "SS"] {
        changed("S", letter);
    }
    changed("S,3fe0000000000000", "S,7ff8000000000000");
    changed("\n", "");
    changed("\n", "\r\n");
    changed("\n", ",\n");
    changed(",0000000000000000\n", "\n");
    let skip = text(&skipped(3));
    assert!(is_line(skip.as_bytes()));
    for other in [
        skip.replace('E', "S"),
        skip.replacen(",-", ",3ff0000000000000", 1),
        skip.replacen(",-", "", 1),
    ] {
        assert!(!is_line(other.as_bytes()), "{other}");
    }
    assert!(!is_line(b"\n") && !is_line(b"\xff\n"));
}

#[test]
fn the_reader_checks_the_form_alone() {
    // Focal lengths below 0, infinite means, any order of numbers and rounds.
    let line = text(&scored()).replace(",3fd0000000000000,", ",7ff0000000000000,");
    assert!(is_line(line.as_bytes()));
    assert!(is_line(line.replace("655,16,", "3,0,").as_bytes()));
}

#[test]
fn lines_come_one_after_the_other_and_then_the_end() {
    let journal = [text(&skipped(1)), text(&scored()), "0,0\n".into(), text(&scored())].concat();
    let bytes = journal.as_bytes();
    let Reading::Line(first, at) = read_line(bytes, 0) else { panic!("a line") };
    assert!(matches!(first.outcome, Outcome::Skipped(1)) && at == 124);
    let Reading::Line(second, at) = read_line(bytes, at) else { panic!("a line") };
    assert_eq!((second.number, second.round, at), (655, 16, 371));
    assert!(matches!(read_line(bytes, at), Reading::Refused(3)));
    assert!(matches!(read_line(bytes, 375), Reading::Line(_, 622)));
    assert!(matches!(read_line(bytes, 622), Reading::End));
    assert!(matches!(read_line(bytes, 623), Reading::End));
    assert!(matches!(read_line(b"", 0), Reading::End));
}
