//! Reports of five counts (docs/SPECIFICATION.md, 8.5): some that are written, and counts and buffers that are refused.

use crate::writing::answer;
use random::Random;

/// The buffer that every report needs.
const LEAST_BUFFER: u64 = 24;

/// The most candidates that a report counts.
const MOST: u128 = 656;

/// Scored, then reasons 1 to 4.
type Counts = [u64; 5];

/// The report's text with the newline, where there is one. The sum of any five counts fits.
fn text(counts: &Counts) -> Option<String> {
    let total: u128 = counts.iter().map(|&count| u128::from(count)).sum();
    let mut fields: Vec<String> = counts.iter().map(u64::to_string).collect();
    fields.push(total.to_string());
    (total <= MOST).then(|| fields.join(",") + "\n")
}

/// Five counts and a buffer's length = 0, the text's length and its bytes; or 28.
fn reported(counts: Counts, buffer: u64) -> String {
    let input = [&counts[..], &[buffer]].concat();
    answer(&input, text(&counts).filter(|_| buffer >= LEAST_BUFFER))
}

/// Five counts that add up to the total.
fn parted(random: &mut Random, total: usize) -> Counts {
    let mut cuts: [usize; 4] = std::array::from_fn(|_| random.below(total + 1));
    cuts.sort_unstable();
    let ends = [cuts[0], cuts[1], cuts[2], cuts[3], total];
    std::array::from_fn(|i| (ends[i] - if i == 0 { 0 } else { ends[i - 1] }) as u64)
}

/// These numbers in this place and the one behind it, and zeros.
fn pair(place: usize, first: u64, second: u64) -> Counts {
    let mut counts = [0; 5];
    counts[place % 5] = first;
    counts[(place + 1) % 5] = second;
    counts
}

pub fn cases() -> Vec<String> {
    let random = &mut Random::named("journal report");
    let mut cases = vec![reported([0; 5], LEAST_BUFFER), reported([100; 5], LEAST_BUFFER)];
    // each count in its place, with decimals of every width
    for place in 0..5 {
        for count in [1, 9, 10, 42, 99, 100, 655, 656, 657, 999, 1000, 65535] {
            cases.push(reported(pair(place, count, 0), LEAST_BUFFER));
        }
    }
    for total in [1, 2, 5, 9, 10, 11, 99, 100, 101, 500, 654, 655, 656, 657, 658, 1000, 3280] {
        for buffer in [24, 25, 256, 512] {
            cases.push(reported(parted(random, total), buffer));
        }
    }
    // small buffers, for the shortest report and the longest
    for buffer in [0, 1, 2, 11, 12, 13, 22, 23] {
        cases.push(reported([0; 5], buffer));
        cases.push(reported([100; 5], buffer));
    }
    // sums that are 0, 1 and 656 again in 64 bits
    for place in 0..5 {
        for wrapped in [0, 1, 656] {
            cases.push(reported(pair(place, 1 << 63, (1 << 63) + wrapped), LEAST_BUFFER));
            cases.push(reported(pair(place, 0xfff << 52, (1 << 52) + wrapped), LEAST_BUFFER));
        }
        cases.push(reported(pair(place, 1 << 32, 0), LEAST_BUFFER));
        cases.push(reported(pair(place, u64::MAX, 1), LEAST_BUFFER));
    }
    cases
}

#[cfg(test)]
mod tests {
    use super::*;

    #[test]
    fn texts() {
        assert_eq!(text(&[0; 5]).as_deref(), Some("0,0,0,0,0,0\n"));
        assert_eq!(text(&[7, 1, 20, 300, 0]).as_deref(), Some("7,1,20,300,0,328\n"));
        assert_eq!(text(&[100; 5]).map(|text| text.len()), Some(24));
        assert_eq!(text(&[656, 1, 0, 0, 0]), None);
        assert_eq!(text(&[u64::MAX, 1, 0, 0, 0]), None);
    }

    #[test]
    fn parts_add_up() {
        let random = &mut Random::named("parts");
        for total in [0, 1, 656, 3280] {
            assert_eq!(parted(random, total).iter().sum::<u64>(), total as u64);
        }
    }
}
