//! A plate with a known answer, for a check of the closed form.

use crate::geometry::Conic;
use crate::{FxFyCxCy, PlateError, raw};

/// Six numbers from which [`conic_to_camera`](crate::geometry::conic_to_camera) gives exactly this camera back; a zero may come
/// back with the other sign.
///
/// # Errors
///
/// The four aren't whole numbers times one power of two. The power is 1, 2, 4 .. 256; the whole numbers are 1 to 256 for the
/// focal lengths and −256 to 256 for the centre. Choose such a camera.
///
/// ```
/// use jinnychair::geometry::{conic_to_camera, known_plate};
/// use jinnychair::FxFyCxCy;
///
/// let chosen = FxFyCxCy { fx: 800.0, fy: 808.0, cx: 640.0, cy: -480.0 };
/// assert_eq!(conic_to_camera(known_plate(chosen)?)?, chosen);
/// assert!(known_plate(FxFyCxCy { fx: 800.5, ..chosen }).is_err());
/// # Ok::<(), Box<dyn std::error::Error>>(())
/// ```
pub fn known_plate(k: FxFyCxCy) -> Result<Conic, PlateError> {
    let reply = raw::jc_known_plate(k);
    PlateError::check(reply.number).map(|()| reply.conic)
}

#[cfg(test)]
mod tests {
    use super::*;
    use crate::geometry::conic_to_camera;

    /// Whether x is `unit` times one of these whole numbers, which are tried one after the other: nothing is divided.
    fn times(x: f64, unit: i32, mut numbers: impl Iterator<Item = i32>) -> bool {
        numbers.any(|n| f64::from(n * unit) == x)
    }

    /// Whether there are six numbers for this camera.
    fn has_plate(k: FxFyCxCy) -> bool {
        (0..=8).map(|power| 1 << power).any(|unit| {
            [k.fx, k.fy].iter().all(|&x| times(x, unit, 1..=256))
                && [k.cx, k.cy].iter().all(|&x| times(x, unit, -256..=256))
        })
    }

    /// Holds the library's answer for a camera to `has_plate`, and says which it is.
    fn meets(k: FxFyCxCy) -> bool {
        let plate = known_plate(k);
        assert_eq!(plate.is_ok(), has_plate(k), "{k:?}");
        match plate {
            Ok(conic) => assert_eq!(conic_to_camera(conic), Ok(k)),
            Err(refusal) => assert_eq!(refusal.number(), 34),
        }
        plate.is_ok()
    }

    /// Numbers at both ends of the ranges and just beyond them, and those that are no numbers of pixels.
    const EDGES: [f64; 28] = [
        0.0,
        -0.0,
        1.0,
        -1.0,
        2.0,
        3.0,
        255.0,
        256.0,
        -256.0,
        257.0,
        -257.0,
        258.0,
        512.0,
        -512.0,
        514.0,
        32768.0,
        65024.0,
        65280.0,
        65535.0,
        65536.0,
        -65536.0,
        65537.0,
        65792.0,
        131072.0,
        0.5,
        5e-324,
        f64::NAN,
        f64::NEG_INFINITY,
    ];

    #[test]
    fn edges() {
        let mut given = 0;
        for fx in EDGES {
            for fy in EDGES {
                for cx in EDGES {
                    given += usize::from(meets(FxFyCxCy { fx, fy, cx, cy: 0.0 }));
                    given += usize::from(meets(FxFyCxCy { fx, fy, cx: -0.0, cy: cx }));
                }
            }
        }
        assert!(given > 1_000, "{given} of {}", 2 * EDGES.len().pow(3));
    }

    /// Multiplies and adds as Knuth's MMIX does.
    struct Draws(u64);

    impl Draws {
        fn below(&mut self, n: u64) -> i32 {
            self.0 = self.0.wrapping_mul(6364136223846793005).wrapping_add(1442695040888963407);
            ((self.0 >> 33) % n) as i32
        }
    }

    #[test]
    fn every_power_gives_cameras_back() {
        let mut draws = Draws(34);
        for power in 0..=8 {
            for _ in 0..1_000 {
                let [p, q] = [draws.below(256) + 1, draws.below(256) + 1];
                let [x, y] = [draws.below(513) - 256, draws.below(513) - 256];
                let [fx, fy, cx, cy] = [p, q, x, y].map(|n| f64::from(n << power));
                assert!(meets(FxFyCxCy { fx, fy, cx, cy }));
            }
        }
    }

    #[test]
    fn drawn_cameras() {
        let mut draws = Draws(12);
        let (mut given, cases) = (0, 5_000);
        for _ in 0..cases {
            // Numbers of few digits times a small power, so that both answers are frequent.
            let mut number = |from: i32| f64::from((draws.below(300) - from) << draws.below(10));
            let [fx, fy] = [number(-1), number(-1)];
            let [cx, cy] = [number(150), number(150)];
            given += usize::from(meets(FxFyCxCy { fx, fy, cx, cy }));
        }
        assert!(given > cases / 100 && given < cases, "{given} of {cases}");
    }
}
