//! Lines that are written, and lines and buffers that are refused.

use crate::form::Line;
use crate::{REALS, bytes_of, drawn};
use random::Random;
use words::case;

/// The buffer that every line needs.
pub const LEAST_BUFFER: u64 = 256;

/// An input = 0, the length of the text that is written and its bytes; or 28.
pub fn answer(input: &[u64], text: Option<String>) -> String {
    match text {
        Some(text) => {
            let head = vec![0, text.len() as u64];
            case(input, &[head, bytes_of(text.as_bytes())].concat())
        }
        None => case(input, &[28]),
    }
}

/// A line and a buffer's length = 0, the text's length and its bytes; or 28.
fn written(line: &Line, buffer: u64) -> String {
    let input = [line.words(), vec![buffer]].concat();
    answer(&input, line.text().filter(|_| buffer >= LEAST_BUFFER))
}

pub fn cases() -> Vec<String> {
    let random = &mut Random::named("journal");
    let mut cases = vec![];
    // every outcome, with decimals of every width
    for (i, number) in [0, 1, 9, 10, 42, 99, 100, 101, 600, 655].into_iter().enumerate() {
        let line = drawn(random, number, [0, 1, 9, 10, 16][i % 5], i as u64 % 5);
        cases.push(written(&line, [256, 257, 300, 512][i % 4]));
    }
    for round in 0..=16 {
        let line = drawn(random, round, round, 0);
        cases.push(written(&line, LEAST_BUFFER));
    }
    // each kind of real in each field of reals
    for (i, bits) in REALS.into_iter().enumerate() {
        let mut line = drawn(random, 3, 1, 0);
        line.seed[i % 6] = bits;
        line.scored[1 + i % 7] = bits;
        cases.push(written(&line, LEAST_BUFFER));
    }
    // a score may be anything but NaN
    for bits in REALS {
        let mut line = drawn(random, 7, 2, 0);
        line.scored[0] = bits;
        cases.push(written(&line, LEAST_BUFFER));
    }
    for (i, buffer) in [0, 1, 2, 123, 124, 246, 247, 248, 254, 255].into_iter().enumerate() {
        let line = drawn(random, 5, 0, i as u64 % 5);
        cases.push(written(&line, buffer));
    }
    for number in [656, 657, 999, 1000, 65535, 1 << 32, (1 << 32) + 3, u64::MAX] {
        cases.push(written(&drawn(random, number, 0, number % 5), 512));
    }
    for round in [17, 18, 99, 100, 1 << 32, (1 << 32) + 16, u64::MAX] {
        cases.push(written(&drawn(random, 0, round, round % 5), 512));
    }
    for skipped in [5, 6, 72, 83, 128, 255] {
        cases.push(written(&drawn(random, 0, 0, skipped), 512));
    }
    cases
}
