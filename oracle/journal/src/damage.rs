//! Lines damaged at every place, and at which places they are still lines.

use crate::drawn;
use crate::form::{Line, read};
use random::Random;
use words::case;

/// What becomes of one byte: another in its place, nothing, the same twice, or another before it.
#[derive(Clone, Copy)]
enum Damage {
    Changed(u8),
    Dropped,
    Doubled,
    PutBefore(u8),
}

impl Damage {
    fn words(self) -> [u64; 2] {
        match self {
            Self::Changed(byte) => [0, byte.into()],
            Self::Dropped => [1, 0],
            Self::Doubled => [2, 0],
            Self::PutBefore(byte) => [3, byte.into()],
        }
    }

    fn of(self, text: &[u8], place: usize) -> Vec<u8> {
        let byte = text[place];
        let instead = match self {
            Self::Changed(other) => vec![other],
            Self::Dropped => vec![],
            Self::Doubled => vec![byte, byte],
            Self::PutBefore(other) => vec![other, byte],
        };
        [&text[..place], &instead, &text[place + 1..]].concat()
    }
}

fn all_damage() -> Vec<Damage> {
    let changed = b"01789afgAFSHN,-+. \n\r\0\x7f\xff".iter().map(|&byte| Damage::Changed(byte));
    let before = b"01-, \n".iter().map(|&byte| Damage::PutBefore(byte));
    changed.chain([Damage::Dropped, Damage::Doubled]).chain(before).collect()
}

/// A line, how many times it stands before the damaged one, and the damage = eight words of 32 places each, the first place the
/// lowest bit: at which of them the damaged bytes still begin with a line.
fn damaged(line: &Line, before: u64, damage: Damage) -> String {
    let text = line.text().expect("the journal has such a line");
    let mut words = [0; 8];
    for place in 0..text.len() {
        let is_line = read(&damage.of(text.as_bytes(), place)).is_some();
        words[place / 32] |= u64::from(is_line) << (place % 32);
    }
    case(&[line.words(), vec![before], damage.words().to_vec()].concat(), &words)
}

pub fn cases() -> Vec<String> {
    let random = &mut Random::named("journal damage");
    let mut lines: Vec<Line> = [
        (0, 0, 0),
        (9, 1, 0),
        (65, 16, 0),
        (655, 10, 0),
        (10, 0, 1),
        (100, 9, 2),
        (7, 16, 3),
        (650, 1, 4),
    ]
    .map(|(number, round, skipped)| drawn(random, number, round, skipped))
    .to_vec();
    // reals whose neighbours are NaNs: infinities, the one NaN, and a score that becomes NaN by one digit
    let infinite = 0x7ff0_0000_0000_0000;
    lines.push(Line {
        seed: [infinite, crate::form::NAN, 1 << 63 | infinite, 0x7fef_ffff_ffff_ffff, 0, 1 << 63],
        ..lines[0]
    });
    lines.push(Line { scored: [infinite; 8], ..lines[3] });
    let mut cases = vec![];
    for (i, line) in lines.iter().enumerate() {
        cases.extend(all_damage().into_iter().map(|damage| damaged(line, i as u64 % 4, damage)));
    }
    cases
}
