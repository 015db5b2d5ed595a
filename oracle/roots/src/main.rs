//! Writes the stored vectors of the square root, sqrt.txt and sqrt_from.txt: `roots [FOLDER]`, by
//! default `oracle/stored`. The answers are the machine's own roots, which IEEE 754 fixes; no
//! published file is needed. Each run writes the same bytes.

mod middles;

use random::Random;
use std::path::PathBuf;
use words::{STORED, case, file, word};

/// The word of an argument's root.
fn answer(argument: f64) -> u64 {
    word(argument.sqrt())
}

fn main() -> Result<(), String> {
    let folder = PathBuf::from(std::env::args().nth(1).unwrap_or_else(|| STORED.to_owned()));
    std::fs::create_dir_all(&folder).map_err(|e| format!("{}: {e}", folder.display()))?;
    for (name, text) in [("sqrt.txt", text()), ("sqrt_from.txt", text_from_guesses())] {
        let path = folder.join(name);
        std::fs::write(&path, text).map_err(|e| format!("{}: {e}", path.display()))?;
        println!("{}", path.display());
    }
    Ok(())
}

fn text() -> String {
    let line = |&bits: &u64| case(&[bits], &[answer(f64::from_bits(bits))]);
    let cases: Vec<String> = arguments().iter().map(line).collect();
    file("sqrt", "oracle/roots: the machine's correctly rounded f64 root; draws named sqrt", &cases)
}

/// Every third argument with a guess that is mostly far off: the root doesn't depend on it.
fn text_from_guesses() -> String {
    let mut random = Random::named("sqrt_from");
    let line = |(i, &bits): (usize, &u64)| {
        let guess = [0, u64::MAX, 0xffff_ffff, 0x8000_0000, random.bits()][i % 5];
        case(&[bits, guess], &[answer(f64::from_bits(bits))])
    };
    let cases: Vec<String> = arguments().iter().step_by(3).enumerate().map(line).collect();
    file("sqrt_from", "oracle/roots: as sqrt.txt, with bad guesses; draws named sqrt_from", &cases)
}

/// The bits of every argument, in the file's order.
fn arguments() -> Vec<u64> {
    let mut random = Random::named("sqrt");
    [
        special(&mut random),
        every_exponent(&mut random),
        subnormals(&mut random),
        squares(&mut random),
        middles::arguments(&mut random),
        (0..5400).map(|_| random.bits() >> 1).collect(),
    ]
    .concat()
}

/// Zeros, infinities, NaNs, and negative numbers of every size.
fn special(random: &mut Random) -> Vec<u64> {
    let infinity = f64::INFINITY.to_bits();
    let mut bits = vec![
        0,
        1 << 63,
        infinity,
        infinity | 1 << 63,
        infinity + 1,
        0x7ff8_0000_0000_0000,
        0xfff8_0000_0000_0000,
        u64::MAX,
        (-1.0_f64).to_bits(),
        (-f64::MIN_POSITIVE).to_bits(),
        f64::MIN.to_bits(),
        1 << 63 | 1,
        f64::MAX.to_bits(),
        2.0_f64.to_bits(),
        4.0_f64.to_bits(),
    ];
    bits.extend((0..200).map(|_| random.bits() | 1 << 63));
    bits
}

/// For each exponent the least and the greatest digits, their neighbours, and drawn ones.
fn every_exponent(random: &mut Random) -> Vec<u64> {
    let all_digits = (1_u64 << 52) - 1;
    (0..2047_u64)
        .flat_map(|exponent| {
            let drawn = random.bits() & all_digits;
            [0, 1, drawn, all_digits - 1, all_digits].map(|digits| exponent << 52 | digits)
        })
        .collect()
}

/// For each length: the least, the greatest and drawn ones.
fn subnormals(random: &mut Random) -> Vec<u64> {
    (0..52)
        .flat_map(|length| {
            let least = 1_u64 << length;
            let drawn: [u64; 6] = std::array::from_fn(|_| least | random.bits() & (least - 1));
            [vec![least, 2 * least - 1], drawn.to_vec()].concat()
        })
        .collect()
}

/// Exact squares of any even exponent, and the values on both sides of each.
fn squares(random: &mut Random) -> Vec<u64> {
    (0..800)
        .flat_map(|_| {
            let length = 1 + random.below(26);
            let root = (random.bits() & ((1 << length) - 1)).max(1);
            let scale = f64::from_bits((1023 + 2 * random.below(480) as u64 - 480) << 52);
            let square = ((root * root) as f64 * scale).to_bits();
            [square - 1, square, square + 1]
        })
        .collect()
}

#[cfg(test)]
mod tests {
    use super::{STORED, answer, arguments, text, text_from_guesses};
    use std::path::Path;

    #[test]
    fn a_second_run_writes_the_same_bytes() {
        assert!(text() == text());
        assert!(arguments().len() >= 20_000);
    }

    #[test]
    fn the_stored_files_are_the_generated_ones() {
        for (name, text) in [("sqrt.txt", text()), ("sqrt_from.txt", text_from_guesses())] {
            let stored =
                std::fs::read_to_string(Path::new(STORED).join(name)).expect("the stored file");
            assert!(stored == text, "{name} isn't what `roots` writes");
        }
    }

    #[test]
    fn values_worked_out_by_hand() {
        assert_eq!(answer(4.0), 2.0_f64.to_bits());
        assert_eq!(answer(2.0), 0x3ff6_a09e_667f_3bcd);
        assert_eq!(answer(-0.0), (-0.0_f64).to_bits());
        assert_eq!(answer(f64::INFINITY), f64::INFINITY.to_bits());
        assert_eq!(answer(-1.0), 0x7ff8_0000_0000_0000);
    }
}
