//! Arguments whose root lies as near as possible to the middle between two values.
//!
//! Let r be a root of 53 bits and a an argument of 53 bits, with a·2^j near to the square of the
//! middle r + 1/2, which is r² + r + 1/4. Then r² + r = a·2^j + d with a small d, so r solves
//! r² + r − d ≡ 0 modulo 2^j. The derivative 2r + 1 is odd, so for each even d either parity of r
//! lifts to exactly one solution.

use random::Random;

const LEAST: u64 = 1 << 52;
const LIMIT: u64 = 1 << 53;

/// The bits of the arguments for every even d from −1000 to 1000, each with a drawn exponent.
pub fn arguments(random: &mut Random) -> Vec<u64> {
    let mut bits = Vec::new();
    for d in (-1000..=1000_i128).step_by(2) {
        for j in [52, 53] {
            for parity in [0, 1] {
                let argument = lifted(d, j, parity).and_then(|r| argument(r, d, j));
                bits.extend(argument.map(|a| with_exponent(a, j, random)));
            }
        }
    }
    bits
}

/// The solution of r² + r ≡ d modulo 2^j with this parity, as a root of 53 bits.
fn lifted(d: i128, j: u32, parity: i128) -> Option<u64> {
    let mut r = parity;
    for digit in 1..j {
        if (r * r + r - d) >> digit & 1 == 1 {
            r += 1 << digit;
        }
    }
    let r = r as u64;
    let root = if r < LEAST { r + LEAST } else { r };
    (j == 52 || r >= LEAST).then_some(root)
}

/// The argument of 53 bits whose root is nearly r + 1/2.
fn argument(r: u64, d: i128, j: u32) -> Option<u64> {
    let r = i128::from(r);
    let a = u64::try_from((r * r + r - d) >> j).ok()?;
    (LEAST..LIMIT).contains(&a).then_some(a)
}

/// The argument as a float whose exponent makes its root's digits those of r.
fn with_exponent(a: u64, j: u32, random: &mut Random) -> u64 {
    // A value a·2^e has the root's digits of a·2^j where e and j are both even or both odd.
    let even = 2 * random.below(480) as u64;
    let exponent = 1023 - 480 + even + u64::from(j % 2 == 1);
    exponent << 52 | (a - LEAST)
}

#[cfg(test)]
mod tests {
    use super::{argument, arguments, lifted, with_exponent};
    use random::Random;

    #[test]
    fn roots_lie_next_to_the_middle() {
        for d in [-6, -2, 0, 2, 10, 998] {
            for (j, parity) in [(52, 0), (52, 1), (53, 0), (53, 1)] {
                let Some(r) = lifted(d, j, parity) else { continue };
                let Some(a) = argument(r, d, j) else { continue };
                assert_eq!((i128::from(a) << j) + d, i128::from(r) * i128::from(r) + i128::from(r));
                // Below the middle where d is 0 or more: the root is rounded down to r.
                let rounded = if d >= 0 { r } else { r + 1 };
                let float = f64::from_bits(with_exponent(a, j, &mut Random::named("test")));
                let digits = float.sqrt().to_bits() & ((1 << 52) - 1) | 1 << 52;
                assert_eq!(digits, rounded);
            }
        }
    }

    #[test]
    fn there_are_many() {
        assert!(arguments(&mut Random::named("test")).len() > 1000);
    }
}
