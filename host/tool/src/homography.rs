//! The map from the plate to the pixels of a view: the normalised direct linear transform, and from there on the map with
//! the smallest squares in the pixels.

use crate::linear::{Matrix3, factor, nearly_cancelled, product, solve_factored};
use jinnychair::Pt2;
use jinnychair::geometry::{Normalization, design_rows, normalize_points_2d};

/// The library takes no more points at once; of more, so many are taken evenly.
const MOST_POINTS: usize = 400;
/// Gauss-Newton's steps from the linear map: each gains some five digits.
const REFINEMENTS: usize = 6;

/// The homography that takes each place on the plate near its pixel, if the points determine one.
pub fn homography(board: &[Pt2], pixels: &[Pt2]) -> Option<Matrix3> {
    if board.len() > MOST_POINTS {
        let thinned = |points: &[Pt2]| -> Vec<Pt2> {
            (0..MOST_POINTS).map(|i| points[i * points.len() / MOST_POINTS]).collect()
        };
        return homography(&thinned(board), &thinned(pixels));
    }
    // `design_rows` normalises by itself; here the transforms are wanted, not the points.
    let mut unused = vec![Pt2::default(); board.len().max(pixels.len())];
    let from = normalize_points_2d(board, &mut unused).ok()?;
    let to = normalize_points_2d(pixels, &mut unused).ok()?;

    let mut rows = vec![0.0; 18 * board.len()];
    design_rows(board, pixels, &mut rows).ok()?;
    let (rows, _) = rows.as_chunks::<9>();
    let h = nearly_cancelled(rows);
    let normalised = [[h[0], h[1], h[2]], [h[3], h[4], h[5]], [h[6], h[7], h[8]]];
    Some(product(&inverse(to), &product(&normalised, &matrix(from))))
}

/// The smallest sum of squared distances from the pixels that any map has, from a linear one on, whose origin lies within
/// the view.
pub fn least_squares_of_map(board: &[Pt2], pixels: &[Pt2], linear: &Matrix3) -> f64 {
    let [first, second, third] = linear.map(|row| row.map(|entry| entry / linear[2][2]));
    let mut h = [first[0], first[1], first[2], second[0], second[1], second[2], third[0], third[1]];
    let mut best = f64::INFINITY;
    for _ in 0..REFINEMENTS {
        let (mut normal, mut slope, mut squares) = ([[0.0; 8]; 8], [0.0; 8], 0.0);
        for (place, pixel) in board.iter().zip(pixels) {
            for (error, by) in map_rows(&h, place, pixel) {
                squares += error * error;
                for i in 0..8 {
                    (0..=i).for_each(|j| normal[i][j] += by[i] * by[j]);
                    slope[i] += by[i] * error;
                }
            }
        }
        best = squares.min(best);
        let Some(l) = factor(&normal) else { break };
        let step = solve_factored(&l, slope);
        h.iter_mut().zip(step).for_each(|(entry, step)| *entry -= step);
    }
    best
}

/// For both coordinates of a pixel the error of a map, and how it moves with the map's eight numbers.
fn map_rows(h: &[f64; 8], place: &Pt2, pixel: &Pt2) -> [(f64, [f64; 8]); 2] {
    let (x, y) = (place.x, place.y);
    let depth = h[6] * x + h[7] * y + 1.0;
    let (u, v) = ((h[0] * x + h[1] * y + h[2]) / depth, (h[3] * x + h[4] * y + h[5]) / depth);
    let [px, py, one] = [x, y, 1.0].map(|entry| entry / depth);
    [
        (u - pixel.x, [px, py, one, 0.0, 0.0, 0.0, -u * px, -u * py]),
        (v - pixel.y, [0.0, 0.0, 0.0, px, py, one, -v * px, -v * py]),
    ]
}

fn matrix(t: Normalization) -> Matrix3 {
    [[t.scale, 0.0, t.offset_x], [0.0, t.scale, t.offset_y], [0.0, 0.0, 1.0]]
}

fn inverse(t: Normalization) -> Matrix3 {
    matrix(Normalization {
        scale: 1.0 / t.scale,
        offset_x: -t.offset_x / t.scale,
        offset_y: -t.offset_y / t.scale,
    })
}
