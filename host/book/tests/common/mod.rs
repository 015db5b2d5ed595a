//! A run that journals are tried with.
#![allow(dead_code)]

use book::{Book, Camera, Entry, Finding, Handed, Inputs, Rows, write_line};

/// Three tilts about x, then a round of nine around the best.
pub fn inputs() -> Inputs {
    Inputs {
        views: 3,
        tilt_x_seeds: vec![-0.125, 0.0, 0.125],
        tilt_y_seeds: vec![0.0],
        rounds: 1,
        refine_step: 0.0625,
        max_abs_tilt: 0.25,
        one_axis: false,
        min_counted: 0,
        decomposition: vec![],
        base: [2.0, 2.0, 0.0, 0.0],
        centre: [0.0, 0.0],
    }
}

/// The host's camera, which isn't the seeds'.
pub const K: [f64; 4] = [4.0, 4.0, 1.0, -1.0];

/// A run with a row that is off by the tilts' distance from 0.125, 0; every fourth candidate failed.
pub fn run(inputs: Inputs) -> Book {
    let mut lent = vec![7.0; 60];
    let mut book = Book::start(inputs, &mut lent).unwrap();
    go_on(&mut book, &mut lent);
    book
}

/// Answers until the run is over.
pub fn go_on(book: &mut Book, lent: &mut [f64]) {
    while let Handed::Candidate(number) = book.next(lent) {
        let [x, y] = book.waiting().unwrap().tilts;
        let camera = Camera { k: K, radial: [0.0; 3], tangential: [0.01, 0.0] };
        let error = (x - 0.125).abs() + y.abs();
        let finding = if number % 4 == 3 { Finding::Failed } else { Finding::Solved(camera) };
        let numbers = [0.0, 0.0, K[2] + error, K[3]];
        book.answer(&finding, Rows { numbers: &numbers, flags: &[1] }, lent);
    }
}

pub fn bytes(entries: &[Entry]) -> Vec<u8> {
    entries.iter().flat_map(|entry| write_line(entry, 256).unwrap()).collect()
}
