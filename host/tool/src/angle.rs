//! Angles as they are typed and shown: with their unit, and in degrees.

use crate::typed::{number as parsed, shown};

/// The radians of an angle that says its unit: `-3deg`, `2°`, `0.05rad`. A zero needs no unit.
///
/// # Errors
///
/// Says what was read and what is expected.
pub fn parse(text: &str) -> Result<f64, String> {
    let text = text.trim();
    let degrees = text.strip_suffix("deg").or(text.strip_suffix('°'));
    let number = degrees.or(text.strip_suffix("rad"));
    let read = shown(text);
    match parsed(number.unwrap_or(text).trim()) {
        Some(value) if !value.is_finite() => Err(format!("`{read}` isn't finite")),
        Some(value) if number.is_none() && value != 0.0 => {
            Err(format!("`{read}` has no unit: write {read}deg or {read}rad"))
        }
        Some(value) if degrees.is_some() => Ok(value.to_radians()),
        Some(value) => Ok(value),
        None => Err(format!("`{read}` isn't an angle such as -3deg or 0.05rad")),
    }
}

/// Angles separated by commas.
///
/// # Errors
///
/// As [`parse`].
pub fn parse_list(text: &str) -> Result<Vec<f64>, String> {
    text.split(',').map(parse).collect()
}

/// Degrees of radians, without a unit: as many digits as distinguish neighbours of the last step.
#[must_use]
pub fn degrees(radians: f64) -> String {
    let degrees = radians.to_degrees();
    let digits = if degrees == 0.0 || degrees.abs() >= 0.001 { 3 } else { 7 };
    let text = format!("{degrees:.digits$}");
    let is_zero = text.bytes().all(|byte| b"-0.".contains(&byte));
    if is_zero { "0".into() } else { text }
}

#[cfg(test)]
mod tests {
    use super::*;

    #[test]
    fn a_unit_is_demanded_and_kept() {
        assert_eq!(
            parse_list("-3deg, 0,0.05rad, 2°, \u{2212}3deg"),
            Ok(vec![-3f64.to_radians(), 0.0, 0.05, 2f64.to_radians(), -3f64.to_radians()])
        );
        assert_eq!(parse("3").unwrap_err(), "`3` has no unit: write 3deg or 3rad");
        assert!(
            parse("").is_err()
                && parse("deg").is_err()
                && parse("NaNdeg").is_err()
                && parse("1degree").is_err()
        );
        assert_eq!([0.0, -0.1, 1e-5].map(degrees), ["0", "-5.730", "0.0005730"]);
    }
}
