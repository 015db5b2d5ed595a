//! Operations of one step. The crate's own functions answer, and `raw` where their types can't hold the input.

use super::fields::*;
use super::{Answer, Fault, Words};
use jinnychair::geometry::{self, Conic};
use jinnychair::{ConicError, FxFyCxCy, Rows, TrigError, raw};
use words::{Reader, float_words, word};

pub(super) fn sqrt(r: &mut Reader) -> Answer {
    Ok(vec![word(geometry::sqrt(r.float()?))])
}

/// The root takes no guess from outside: it is the same whatever the case's guess.
pub(super) fn sqrt_from(r: &mut Reader) -> Answer {
    let root = sqrt(r)?;
    r.number()?;
    Ok(root)
}

fn series_words(answer: Result<f64, TrigError>) -> Words {
    answer.map_or_else(|e| vec![e.number().into()], |value| vec![0, word(value)])
}

pub(super) fn sine(r: &mut Reader) -> Answer {
    Ok(series_words(geometry::sine(r.float()?)))
}

pub(super) fn cosine(r: &mut Reader) -> Answer {
    Ok(series_words(geometry::cosine(r.float()?)))
}

pub(super) fn pixel_to_sensor(r: &mut Reader) -> Answer {
    Ok(point_words(intrinsics(r)?.pixel_to_sensor(point(r)?)))
}

pub(super) fn sensor_to_pixel(r: &mut Reader) -> Answer {
    Ok(point_words(intrinsics(r)?.sensor_to_pixel(point(r)?)))
}

pub(super) fn tilt_projection_matrix(r: &mut Reader) -> Answer {
    Ok(float_words(geometry::tilt_projection_matrix(trig(r)?).as_flattened()))
}

pub(super) fn inverse(r: &mut Reader) -> Answer {
    let m = matrix(r)?;
    Ok(match geometry::inverse(m) {
        Err(error) => vec![error.number().into()],
        Ok(inverse) => {
            let determinant = word(geometry::determinant(m));
            [vec![0, determinant], float_words(inverse.as_flattened())].concat()
        }
    })
}

pub(super) fn apply_homography(r: &mut Reader) -> Answer {
    Ok(point_words(geometry::apply_homography(matrix(r)?, point(r)?)))
}

pub(super) fn apply_homography_inverse(r: &mut Reader) -> Answer {
    Ok(point_words(geometry::apply_homography_inverse(matrix(r)?, point(r)?)))
}

pub(super) fn distort(r: &mut Reader) -> Answer {
    Ok(point_words(distortion(r)?.distort(point(r)?)))
}

pub(super) fn distort_with_jacobian(r: &mut Reader) -> Answer {
    let d = distortion(r)?.distort_with_jacobian(point(r)?);
    let j = d.jacobian;
    Ok(float_words(&[d.point.x, d.point.y, j.xx, j.xy, j.yx, j.yy]))
}

pub(super) fn undistort(r: &mut Reader) -> Answer {
    let (b, iters) = (distortion(r)?, iterations(r)?);
    Ok(point_words(b.undistort(iters, point(r)?)))
}

pub(super) fn points_are_collinear(r: &mut Reader) -> Answer {
    let numbers = r.list()?;
    let reply = raw::points_are_collinear(&numbers);
    let is_line = reply.collinear != 0;
    if points(&numbers).is_some_and(|points| geometry::points_are_collinear(&points) != is_line) {
        return Err(Fault::Wrong("the crate's line test isn't the library's".into()));
    }
    Ok(vec![if reply.number == 0 { is_line.into() } else { reply.number.into() }])
}

pub(super) fn observed_pixel_center(r: &mut Reader) -> Answer {
    let numbers = r.list()?;
    let reply = raw::observed_pixel_center(&numbers);
    let center = point_words(reply.center);
    if points(&numbers)
        .is_some_and(|points| point_words(geometry::observed_pixel_center(&points)) != center)
    {
        return Err(Fault::Wrong("the crate's centre isn't the library's".into()));
    }
    Ok(if reply.number == 0 { center } else { vec![reply.number.into()] })
}

fn camera_words(answer: Result<FxFyCxCy, ConicError>) -> Words {
    answer.map_or_else(|e| vec![e.number().into()], |k| [vec![0], intrinsics_words(k)].concat())
}

pub(super) fn conic_to_camera(r: &mut Reader) -> Answer {
    let [b11, b12, b22, b13, b23, b33] = r.floats()?;
    Ok(camera_words(geometry::conic_to_camera(Conic { b11, b12, b22, b13, b23, b33 })))
}

/// A zero may come back with either sign: 0 means both.
pub(super) fn known_plate(r: &mut Reader) -> Answer {
    let plus = |k: FxFyCxCy| FxFyCxCy { cx: k.cx + 0.0, cy: k.cy + 0.0, ..k };
    Ok(match geometry::known_plate(intrinsics(r)?) {
        Ok(b) => camera_words(geometry::conic_to_camera(b).map(plus)),
        Err(error) => vec![error.number().into()],
    })
}

pub(super) fn damp_seed_distortion(r: &mut Reader) -> Answer {
    let d = distortion(r)?.damped();
    Ok(float_words(&[d.k1, d.k2, d.k3, d.p1, d.p2]))
}

pub(super) fn distortion_complexity(r: &mut Reader) -> Answer {
    Ok(vec![word(distortion(r)?.complexity())])
}

pub(super) fn tilt_complexity(r: &mut Reader) -> Answer {
    Ok(vec![word(geometry::tilt_complexity(sensor(r)?))])
}

pub(super) fn principal_point_complexity(r: &mut Reader) -> Answer {
    let (k, center) = (intrinsics(r)?, point(r)?);
    Ok(vec![word(geometry::principal_point_complexity(k, center))])
}

pub(super) fn mean_reproj_error(r: &mut Reader) -> Answer {
    let (camera, t) = (camera(r)?, trig(r)?);
    let (numbers, flags) = rows(r)?;
    let rows = Rows { numbers: &numbers, flags: &flags };
    Ok(vec![word(geometry::mean_reproj_error(camera, t, rows))])
}
