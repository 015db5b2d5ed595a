//! What an operation reads from its input words, and the words of what it answers.

use super::Words;
use jinnychair::geometry::Matrix3;
use jinnychair::{BrownConrady5, FxFyCxCy, PinholeCamera, Pt2, ScheimpflugParams, TiltTrig};
use words::{Reader, float_words};

type Read<T> = Result<T, String>;

pub(super) fn point(r: &mut Reader) -> Read<Pt2> {
    let [x, y] = r.floats()?;
    Ok(Pt2 { x, y })
}

pub(super) fn point_words(p: Pt2) -> Words {
    float_words(&[p.x, p.y])
}

/// The points of a list of numbers; nothing where one is left over.
pub(super) fn points(numbers: &[f64]) -> Option<Vec<Pt2>> {
    let (pairs, rest) = numbers.as_chunks();
    rest.is_empty().then(|| pairs.iter().map(|&[x, y]| Pt2 { x, y }).collect())
}

pub(super) fn points_words(points: &[Pt2]) -> Words {
    points.iter().flat_map(|p| point_words(*p)).collect()
}

pub(super) fn intrinsics(r: &mut Reader) -> Read<FxFyCxCy> {
    let [fx, fy, cx, cy] = r.floats()?;
    Ok(FxFyCxCy { fx, fy, cx, cy })
}

pub(super) fn intrinsics_words(k: FxFyCxCy) -> Words {
    float_words(&[k.fx, k.fy, k.cx, k.cy])
}

pub(super) fn distortion(r: &mut Reader) -> Read<BrownConrady5> {
    let [k1, k2, k3, p1, p2] = r.floats()?;
    Ok(BrownConrady5 { k1, k2, k3, p1, p2 })
}

pub(super) fn camera(r: &mut Reader) -> Read<PinholeCamera> {
    Ok(PinholeCamera { k: intrinsics(r)?, dist: distortion(r)? })
}

pub(super) fn iterations(r: &mut Reader) -> Read<u32> {
    u32::try_from(r.number()?).map_err(|e| e.to_string())
}

pub(super) fn sensor(r: &mut Reader) -> Read<ScheimpflugParams> {
    let [tilt_x, tilt_y] = r.floats()?;
    Ok(ScheimpflugParams { tilt_x, tilt_y })
}

pub(super) fn trig(r: &mut Reader) -> Read<TiltTrig> {
    let [sin_x, cos_x, sin_y, cos_y] = r.floats()?;
    Ok(TiltTrig { sin_x, cos_x, sin_y, cos_y })
}

pub(super) fn matrix(r: &mut Reader) -> Read<Matrix3> {
    Ok([r.floats()?, r.floats()?, r.floats()?])
}

pub(super) fn byte(r: &mut Reader) -> Read<u8> {
    u8::try_from(r.number()?).map_err(|e| e.to_string())
}

/// The rows' numbers and their flags, which may be any bytes.
pub(super) fn rows(r: &mut Reader) -> Read<(Vec<f64>, Vec<u8>)> {
    let (mut numbers, mut flags) = (Vec::new(), Vec::new());
    for _ in 0..r.count()? {
        numbers.extend(r.floats::<4>()?);
        flags.push(byte(r)?);
    }
    Ok((numbers, flags))
}
