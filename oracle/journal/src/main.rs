//! Writes the stored cases of the journal and of the report: `journal [FOLDER]`, by default `oracle/stored`. What a line's text is,
//! and whether bytes are one, is worked out in `form.rs` from docs/SPECIFICATION.md, what a report's text is in `report.rs`; no published file
//! is needed. Each run writes the same bytes.

mod damage;
mod form;
mod reading;
mod report;
mod writing;

use form::Line;
use random::Random;
use std::path::PathBuf;
use words::{STORED, file};

fn main() -> Result<(), String> {
    let folder = PathBuf::from(std::env::args().nth(1).unwrap_or_else(|| STORED.to_owned()));
    std::fs::create_dir_all(&folder).map_err(|e| format!("{}: {e}", folder.display()))?;
    let made_by = "oracle/journal: lines as the specification has them; draws named journal";
    for (operation, cases) in [
        ("write_line", writing::cases()),
        ("read_line", reading::cases()),
        ("damaged_line", damage::cases()),
        ("write_report", report::cases()),
    ] {
        let path = folder.join(format!("{operation}.txt"));
        let text = file(operation, made_by, &cases);
        std::fs::write(&path, text).map_err(|e| format!("{}: {e}", path.display()))?;
        println!("{}", path.display());
    }
    Ok(())
}

/// Bytes, one to a word.
fn bytes_of(text: &[u8]) -> Vec<u64> {
    text.iter().map(|&byte| u64::from(byte)).collect()
}

/// Bits at the ends of the format, NaNs of every kind among them.
const REALS: [u64; 20] = [
    0,
    1 << 63,
    0x3ff0_0000_0000_0000,
    0xbff8_0000_0000_0000,
    0x408f_4000_0000_0000,
    0x3f9e_b851_eb85_1eb8,
    1,
    0x000f_ffff_ffff_ffff,
    0x0010_0000_0000_0000,
    0x8000_0000_0000_0001,
    0x7fef_ffff_ffff_ffff,
    0xffef_ffff_ffff_ffff,
    0x7ff0_0000_0000_0000,
    0xfff0_0000_0000_0000,
    form::NAN,
    0xfff8_0000_0000_0000,
    0x7ff0_0000_0000_0001,
    0x7ff8_0000_0000_0001,
    0x7fff_ffff_ffff_ffff,
    0xffff_ffff_ffff_ffff,
];

/// A line with reals of every kind; a scored one has a score that is a number.
fn drawn(random: &mut Random, number: u64, round: u64, skipped: u64) -> Line {
    let mut real = |all: bool| {
        let bits = if random.once_in(2) { random.bits() } else { random.pick(&REALS) };
        if all || !form::is_nan(bits) { bits } else { 0x3fe0_0000_0000_0000 }
    };
    let seed = std::array::from_fn(|_| real(true));
    let scored = std::array::from_fn(|i| if skipped == 0 { real(i > 0) } else { 0 });
    Line { number, round, seed, skipped, scored }
}
