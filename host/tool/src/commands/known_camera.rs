//! `known-camera FX FY CX CY`: the camera formula checked against a camera that service chooses.

use super::{Command, End, Fault, Words};
use crate::screen::Screen;
use crate::typed;
use jinnychair::FxFyCxCy;
use jinnychair::geometry::{Conic, conic_to_camera, known_plate};

pub(super) const COMMAND: Command = Command { name: "known-camera", run };

fn run(words: Words, screen: &mut Screen) -> Result<End, Fault> {
    let chosen = camera(words)?;
    let conic = known_plate(chosen).map_err(|refusal| refusal.to_string())?;
    let back = conic_to_camera(conic).map_err(|refusal| different(&refusal.to_string()))?;
    screen.say(report(chosen, conic, back));
    verdict(chosen, back)?;
    screen.say("the same camera");
    Ok(End::Good)
}

fn camera(words: Words) -> Result<FxFyCxCy, Fault> {
    let four: Option<Vec<f64>> =
        words.left.iter().map(|word| word.to_str().and_then(typed::number)).collect();
    match four.as_deref() {
        Some(&[fx, fy, cx, cy]) => Ok(FxFyCxCy { fx, fy, cx, cy }),
        _ => Err(Fault::Usage("known-camera takes four numbers".into())),
    }
}

fn report(chosen: FxFyCxCy, conic: Conic, back: FxFyCxCy) -> String {
    let four = |k: FxFyCxCy| format!("fx {}  fy {}  cx {}  cy {}", k.fx, k.fy, k.cx, k.cy);
    let Conic { b11, b12, b22, b13, b23, b33 } = conic;
    [
        format!("chosen camera   {}", four(chosen)),
        format!("six numbers     b11 {b11}  b12 {b12}  b22 {b22}  b13 {b13}  b23 {b23}  b33 {b33}"),
        format!("camera back     {}", four(back)),
    ]
    .join("\n")
}

/// Whether the camera that came back is the chosen one; a zero may have changed its sign.
fn verdict(chosen: FxFyCxCy, back: FxFyCxCy) -> Result<(), String> {
    if back == chosen { Ok(()) } else { Err(different("another camera came back")) }
}

/// What it means that the chosen camera doesn't come back: it is proved that it does.
fn different(what: &str) -> String {
    format!(
        "{what}. It is proved that the same camera comes back wherever the arithmetic is IEEE 754's, so this library \
         or this machine is at fault: don't use its results. Build the library again, and run its tests."
    )
}

#[cfg(test)]
mod tests {
    use super::*;

    const CHOSEN: FxFyCxCy = FxFyCxCy { fx: 800.0, fy: 808.0, cx: 0.0, cy: -480.0 };

    #[test]
    fn a_zero_may_change_its_sign() {
        assert_eq!(verdict(CHOSEN, FxFyCxCy { cx: -0.0, ..CHOSEN }), Ok(()));
    }

    #[test]
    fn the_next_number_is_a_difference() {
        let next = f64::from_bits(800.0f64.to_bits() + 1);
        for back in [
            FxFyCxCy { fx: next, ..CHOSEN },
            FxFyCxCy { cx: 5e-324, ..CHOSEN },
            FxFyCxCy { cy: f64::NAN, ..CHOSEN },
        ] {
            assert!(verdict(CHOSEN, back).unwrap_err().contains("don't use its results"));
        }
    }
}
