//! Minimum and maximum that keep the first of two equal numbers, as 01 says for zeros of two
//! signs.

pub fn min(kept: f64, next: f64) -> f64 {
    if next < kept { next } else { kept }
}

pub fn max(kept: f64, next: f64) -> f64 {
    if next > kept { next } else { kept }
}
