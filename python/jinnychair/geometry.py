"""The proved geometry below the search, and what a score is made of.

Pixels are in px, sensor coordinates in focal lengths, angles in radians. A camera's ``k`` is fx, fy, cx, cy; a
distortion k1, k2, k3, p1, p2; a ``trig`` sin x, cos x, sin y, cos y of the two tilts. Where a function takes points,
an array of any shape ``(..., 2)`` will do unless a list of points is said, which has shape ``(n, 2)``. Each number
that comes back has the same bits on every machine.
"""

from __future__ import annotations

from collections.abc import Callable
from typing import Any, NamedTuple

import numpy as np
from numpy.typing import ArrayLike

from . import _declarations as c
from ._library import library
from ._values import (
    BrownConrady5,
    Floats,
    FxFyCxCy,
    Pt2,
    TiltTrig,
    count,
    doubles,
    numbers,
    points,
    rows_and_flags,
    struct,
)
from .errors import check

__all__ = [
    "ErrorCount",
    "Normalized",
    "apply_homography",
    "apply_homography_inverse",
    "conic_to_camera",
    "cosine",
    "count_errors",
    "damp_seed_distortion",
    "design_rows",
    "determinant",
    "distort",
    "distort_with_jacobian",
    "distortion_complexity",
    "ideal_points",
    "inverse",
    "known_plate",
    "mean_reproj_error",
    "normalize_points_2d",
    "observed_pixel_center",
    "pixel_to_sensor",
    "points_are_collinear",
    "principal_point_complexity",
    "sensor_to_pixel",
    "sine",
    "sqrt",
    "tilt_complexity",
    "tilt_projection_matrix",
    "trig",
    "undistort",
    "untilt_points",
]


class Normalized(NamedTuple):
    """Normalised points, of shape (n, 2), and the transform that makes them, of shape (3, 3)."""

    points: Floats
    transform: Floats


class ErrorCount(NamedTuple):
    """The sum of the errors that count, in px, and how many there are."""

    sum: float
    counted: int


def _each(function: Callable[[float], float], x: ArrayLike, what: str) -> Any:
    array = numbers(x, None, what)
    mapped = np.array([function(float(value)) for value in array.ravel()], np.float64).reshape(array.shape)
    return mapped if mapped.ndim else float(mapped)


def _each_point(function: Callable[[c.jc_pt2], Any], value: ArrayLike, what: str) -> Floats:
    array = numbers(value, None, what)
    if array.ndim == 0 or array.shape[-1] != 2:
        raise ValueError(f"{what}: an array of shape (..., 2) is needed, not {array.shape}")
    mapped = [doubles(function(c.jc_pt2(x, y))) for x, y in array.reshape(-1, 2).tolist()]
    return np.array(mapped, np.float64).reshape(array.shape)


def _matrix(value: ArrayLike, what: str) -> c.jc_matrix:
    return struct(c.jc_matrix, numbers(value, (3, 3), what).ravel(), what)


def _three_rows(matrix: c.jc_matrix) -> Floats:
    return np.array(doubles(matrix)).reshape(3, 3)


def sqrt(x: ArrayLike) -> Any:
    """The square root, correctly rounded as IEEE 754 lays down; NaN of a number below 0.

    Parameters
    ----------
    x : array_like
        Numbers of any shape.

    Returns
    -------
    float or ndarray
        Of the shape of `x`.
    """
    return _each(library().jc_sqrt, x, "x")


def _series(function: Any) -> Callable[[float], float]:
    def value(x: float) -> float:
        reply = function(x)
        check(reply.number)
        return float(reply.value)

    return value


def sine(x: ArrayLike) -> Any:
    """The sine by eight terms of its power series, within 2**-50 of their exact sum.

    Parameters
    ----------
    x : array_like
        Angles in radians, at most 0.5 in size.

    Returns
    -------
    float or ndarray
        Of the shape of `x`.

    Raises
    ------
    Refused
        27 where an angle is NaN or beyond 0.5.
    """
    return _each(_series(library().jc_sine), x, "x")


def cosine(x: ArrayLike) -> Any:
    """The cosine, as `sine`.

    Parameters
    ----------
    x : array_like
        Angles in radians, at most 0.5 in size.

    Returns
    -------
    float or ndarray
        Of the shape of `x`.

    Raises
    ------
    Refused
        27 where an angle is NaN or beyond 0.5.
    """
    return _each(_series(library().jc_cosine), x, "x")


def trig(sensor: ArrayLike) -> TiltTrig:
    """Sine and cosine of both tilts by `sine` and `cosine`, as the search takes them.

    Parameters
    ----------
    sensor : array_like, shape (2,)
        The tilts about x and y, in radians.

    Raises
    ------
    Refused
        27 where a tilt is NaN or beyond 0.5.
    """
    tilt_x, tilt_y = numbers(sensor, (2,), "sensor").tolist()
    return TiltTrig(sine(tilt_x), cosine(tilt_x), sine(tilt_y), cosine(tilt_y))


def pixel_to_sensor(k: ArrayLike, pixels: ArrayLike) -> Floats:
    """(u - cx) / fx, (v - cy) / fy.

    Parameters
    ----------
    k : array_like, shape (4,)
        fx, fy, cx, cy in px.
    pixels : array_like, shape (..., 2)
        In px.

    Returns
    -------
    ndarray, shape (..., 2)
        In focal lengths.
    """
    camera = struct(c.jc_intrinsics, k, "k")
    return _each_point(lambda p: library().jc_pixel_to_sensor(camera, p), pixels, "pixels")


def sensor_to_pixel(k: ArrayLike, sensor_points: ArrayLike) -> Floats:
    """fx x + cx, fy y + cy.

    Parameters
    ----------
    k : array_like, shape (4,)
        fx, fy, cx, cy in px.
    sensor_points : array_like, shape (..., 2)
        In focal lengths.

    Returns
    -------
    ndarray, shape (..., 2)
        In px.
    """
    camera = struct(c.jc_intrinsics, k, "k")
    return _each_point(lambda p: library().jc_sensor_to_pixel(camera, p), sensor_points, "sensor_points")


def tilt_projection_matrix(trig: ArrayLike) -> Floats:
    """The homography from the sensor without tilt to the tilted one.

    With R the rotation about x, then y, it is P R, where P is r22, 0, -r02; 0, r22, -r12; 0, 0, 1.

    Parameters
    ----------
    trig : array_like, shape (4,)
        sin x, cos x, sin y, cos y; see `trig`.

    Returns
    -------
    ndarray, shape (3, 3)
    """
    return _three_rows(library().jc_tilt_projection_matrix(struct(c.jc_trig, trig, "trig")))


def determinant(m: ArrayLike) -> float:
    """The determinant, expanded along the first row.

    Parameters
    ----------
    m : array_like, shape (3, 3)
    """
    return float(library().jc_determinant(_matrix(m, "m")))


def inverse(m: ArrayLike) -> Floats:
    """The transposed cofactors, each divided by the determinant.

    Parameters
    ----------
    m : array_like, shape (3, 3)

    Returns
    -------
    ndarray, shape (3, 3)

    Raises
    ------
    Refused
        15 where the determinant is 0.
    """
    reply = library().jc_inverse(_matrix(m, "m"))
    check(reply.number)
    return _three_rows(reply.inverse)


def apply_homography(h: ArrayLike, points: ArrayLike) -> Floats:
    """h (x, y, 1), the first two numbers divided by the third; one that isn't above 1e-12 counts as 1e-12.

    Parameters
    ----------
    h : array_like, shape (3, 3)
    points : array_like, shape (..., 2)

    Returns
    -------
    ndarray, shape (..., 2)
    """
    matrix = _matrix(h, "h")
    return _each_point(lambda p: library().jc_apply_homography(matrix, p), points, "points")


def apply_homography_inverse(h_inv: ArrayLike, points: ArrayLike) -> Floats:
    """As `apply_homography` for the inverse of a homography, where a third number below -1e-12 is divided by too.

    Parameters
    ----------
    h_inv : array_like, shape (3, 3)
    points : array_like, shape (..., 2)

    Returns
    -------
    ndarray, shape (..., 2)
    """
    matrix = _matrix(h_inv, "h_inv")
    return _each_point(lambda p: library().jc_apply_homography_inverse(matrix, p), points, "points")


def distort(dist: ArrayLike, points: ArrayLike) -> Floats:
    """The distorted points, after Brown and Conrady.

    Parameters
    ----------
    dist : array_like, shape (5,)
        k1, k2, k3, p1, p2.
    points : array_like, shape (..., 2)
        In focal lengths.

    Returns
    -------
    ndarray, shape (..., 2)
        In focal lengths.
    """
    b = numbers(dist, (5,), "dist").tolist()
    return _each_point(lambda p: library().jc_distort_numbers(*b, p.x, p.y), points, "points")


def distort_with_jacobian(dist: ArrayLike, point: ArrayLike) -> tuple[Pt2, Floats]:
    """A distorted point and its derivatives.

    Parameters
    ----------
    dist : array_like, shape (5,)
        k1, k2, k3, p1, p2.
    point : array_like, shape (2,)
        In focal lengths.

    Returns
    -------
    point : Pt2
        In focal lengths.
    jacobian : ndarray, shape (2, 2)
        Of x by x and y; of y by x and y.
    """
    p = struct(c.jc_pt2, numbers(point, (2,), "point"), "point")
    x, y, *derivatives = doubles(library().jc_distort_with_jacobian(struct(c.jc_distortion, dist, "dist"), p))
    return Pt2(x, y), np.array(derivatives).reshape(2, 2)


def undistort(dist: ArrayLike, points: ArrayLike, iters: int = 0) -> Floats:
    """The points that are distorted to these ones, by Newton's method.

    Parameters
    ----------
    dist : array_like, shape (5,)
        k1, k2, k3, p1, p2.
    points : array_like, shape (..., 2)
        In focal lengths.
    iters : int, optional
        At most so many steps for each point; 0 means 20.

    Returns
    -------
    ndarray, shape (..., 2)
        In focal lengths.
    """
    b, steps = struct(c.jc_distortion, dist, "dist"), count(iters, "iters", 2**32 - 1)
    return _each_point(lambda p: library().jc_undistort(b, steps, p), points, "points")


def conic_to_camera(conic: ArrayLike) -> FxFyCxCy:
    """Zhang's closed form: the camera whose conic this is.

    Parameters
    ----------
    conic : array_like, shape (6,)
        b11, b12, b22, b13, b23, b33.

    Raises
    ------
    Refused
        16 where no camera has it.
    """
    reply = library().jc_conic_to_camera(struct(c.jc_conic, conic, "conic"))
    check(reply.number)
    return FxFyCxCy(*doubles(reply.camera))


def known_plate(k: ArrayLike) -> Floats:
    """Six numbers from which `conic_to_camera` gives `k` back exactly; a zero may have the other sign.

    Parameters
    ----------
    k : array_like, shape (4,)
        Whole numbers (focal lengths 1 to 256, centre -256 to 256) times one power of two from 1 to 256.

    Returns
    -------
    ndarray, shape (6,)
        b11, b12, b22, b13, b23, b33.

    Raises
    ------
    Refused
        34 where `k` isn't of this kind.
    """
    reply = library().jc_known_plate(struct(c.jc_intrinsics, k, "k"))
    check(reply.number)
    return np.array(doubles(reply.conic))


def untilt_points(k: ArrayLike, trig: ArrayLike, pixels: ArrayLike) -> Floats:
    """The pixels that a sensor without tilt would show.

    Parameters
    ----------
    k : array_like, shape (4,)
        fx, fy, cx, cy in px.
    trig : array_like, shape (4,)
        sin x, cos x, sin y, cos y of the tilts.
    pixels : array_like, shape (n, 2)
        A list of at most 400.

    Returns
    -------
    ndarray, shape (n, 2)
        In px.

    Raises
    ------
    Refused
        17 for more than 400 points, 15 where the tilt has no inverse.
    """
    array = points(pixels, "pixels")
    to = np.empty(array.size)
    camera, tilt = struct(c.jc_intrinsics, k, "k"), struct(c.jc_trig, trig, "trig")
    check(library().jc_untilt_points(camera, tilt, array.ravel(), array.size, to, to.size))
    return to.reshape(-1, 2)


def ideal_points(camera: Any, trig: ArrayLike, pixels: ArrayLike, iters: int = 0) -> Floats:
    """The pixels that a camera with neither tilt nor distortion would show.

    Parameters
    ----------
    camera : PinholeCamera or array_like, shape (9,)
        fx, fy, cx, cy in px, then k1, k2, k3, p1, p2.
    trig : array_like, shape (4,)
        sin x, cos x, sin y, cos y of the tilts.
    pixels : array_like, shape (n, 2)
        A list of at most 400.
    iters : int, optional
        That of `undistort`.

    Returns
    -------
    ndarray, shape (n, 2)
        In px.

    Raises
    ------
    Refused
        17 for more than 400 points, 15 where the tilt has no inverse.
    """
    array, steps = points(pixels, "pixels"), count(iters, "iters", 2**32 - 1)
    to = np.empty(array.size)
    pinhole, tilt = struct(c.jc_pinhole_camera, camera, "camera"), struct(c.jc_trig, trig, "trig")
    check(library().jc_ideal_points(pinhole, steps, tilt, array.ravel(), array.size, to, to.size))
    return to.reshape(-1, 2)


def normalize_points_2d(points_: ArrayLike) -> Normalized:
    """The points moved and scaled so that their centroid is the origin and their mean distance from it the root of 2.

    Parameters
    ----------
    points_ : array_like, shape (n, 2)
        A list of at most 400.

    Raises
    ------
    Refused
        17 for more than 400 points, 19 for none or all in one place.
    """
    array = points(points_)
    to = np.empty(array.size)
    reply = library().jc_normalize_points_2d(array.ravel(), array.size, to, to.size)
    check(reply.number)
    transform = np.array([[reply.t00, 0.0, reply.t02], [0.0, reply.t00, reply.t12], [0.0, 0.0, 1.0]])
    return Normalized(to.reshape(-1, 2), transform)


def points_are_collinear(points_: ArrayLike) -> bool:
    """Whether all points lie on a line: the one through the first point and the next that is farther than 1e-9 from it.

    Parameters
    ----------
    points_ : array_like, shape (n, 2)
        A list of any length. Points all in one place lie on a line, fewer than three don't.
    """
    array = points(points_)
    reply = library().jc_points_are_collinear(array.ravel(), array.size)
    check(reply.number)
    return bool(reply.collinear)


def design_rows(source: ArrayLike, destination: ArrayLike) -> Floats:
    """The design matrix of the homography from source to destination, both normalised.

    Parameters
    ----------
    source, destination : array_like, shape (n, 2)
        Lists of 4 to 400 points, of one length.

    Returns
    -------
    ndarray, shape (2 n, 9)
        For each pair (x, y), (u, v) the rows -x, -y, -1, 0, 0, 0, u x, u y, u and 0, 0, 0, -x, -y, -1, v x, v y, v.

    Raises
    ------
    Refused
        17, or 20 to 25.
    """
    a, b = points(source, "source"), points(destination, "destination")
    to = np.empty(c.DESIGN_NUMBERS * len(a))
    check(library().jc_design_rows(a.ravel(), a.size, b.ravel(), b.size, to, to.size))
    return to.reshape(-1, 9)


def observed_pixel_center(pixels: ArrayLike) -> Pt2:
    """The centre of the finite pixels: half the greatest coordinates, or, where one is negative, the middle of their range.

    Parameters
    ----------
    pixels : array_like, shape (n, 2)
        In px; a list of any length. Without a finite one the centre is 0, 0.
    """
    array = points(pixels, "pixels")
    reply = library().jc_observed_pixel_center(array.ravel(), array.size)
    check(reply.number)
    return Pt2(*doubles(reply.center))


def damp_seed_distortion(dist: ArrayLike) -> BrownConrady5:
    """The distortion as it is scored: k1, k2, k3 become 0, p1 and p2 are brought within 0.05 in size.

    Parameters
    ----------
    dist : array_like, shape (5,)
        k1, k2, k3, p1, p2.
    """
    return BrownConrady5(*doubles(library().jc_damp_seed_distortion(struct(c.jc_distortion, dist, "dist"))))


def distortion_complexity(dist: ArrayLike) -> float:
    """0.25 (k1^2 + k2^2 + 0.25 k3^2 + p1^2 + p2^2).

    Parameters
    ----------
    dist : array_like, shape (5,)
        k1, k2, k3, p1, p2.
    """
    return float(library().jc_distortion_complexity(struct(c.jc_distortion, dist, "dist")))


def tilt_complexity(sensor: ArrayLike) -> float:
    """0.25 (tilt_x^2 + tilt_y^2).

    Parameters
    ----------
    sensor : array_like, shape (2,)
        The tilts in radians.
    """
    return float(library().jc_tilt_complexity(struct(c.jc_scheimpflug_params, sensor, "sensor")))


def principal_point_complexity(k: ArrayLike, center: ArrayLike) -> float:
    """0 times the squared distance of the camera's centre from the observed one, in focal lengths: 0, or NaN where it isn't finite.

    Parameters
    ----------
    k : array_like, shape (4,)
        fx, fy, cx, cy in px.
    center : array_like, shape (2,)
        The observed centre, in px.
    """
    return float(library().jc_principal_point_complexity(struct(c.jc_intrinsics, k, "k"), struct(c.jc_pt2, center, "center")))


def mean_reproj_error(camera: Any, trig: ArrayLike, rows: ArrayLike, in_front: ArrayLike | None = None) -> float:
    """The mean distance between projected and seen pixels, with the camera as it is given.

    Parameters
    ----------
    camera : PinholeCamera or array_like, shape (9,)
        fx, fy, cx, cy in px, then k1, k2, k3, p1, p2.
    trig : array_like, shape (4,)
        sin x, cos x, sin y, cos y of the tilts.
    rows : array_like, shape (n, 4)
        The ideal point x, y, then the seen pixel u, v.
    in_front : array_like of bool, shape (n,), optional
        Whether a point is in front of the camera; all are if not given.

    Returns
    -------
    float
        In px, over the rows in front with a finite error; infinity where there is none.
    """
    lent, front = rows_and_flags(rows, in_front)
    pinhole, tilt = struct(c.jc_pinhole_camera, camera, "camera"), struct(c.jc_trig, trig, "trig")
    return float(library().jc_mean_reproj_error(pinhole, tilt, lent, lent.size, front, front.size))


def count_errors(camera: Any, sensor: ArrayLike, rows: ArrayLike, in_front: ArrayLike | None = None) -> ErrorCount:
    """What the mean of an answer divides; the camera is damped here, as an answer's is.

    Parameters
    ----------
    camera : PinholeCamera or array_like, shape (9,)
        fx, fy, cx, cy in px, then k1, k2, k3, p1, p2.
    sensor : array_like, shape (2,)
        The tilts in radians.
    rows : array_like, shape (n, 4)
        The ideal point x, y, then the seen pixel u, v; at most 1,024.
    in_front : array_like of bool, shape (n,), optional
        Whether a point is in front of the camera; all are if not given.

    Raises
    ------
    Refused
        13 for too many rows or a flag above 1, 27 where a tilt is NaN or beyond 0.5.
    """
    lent, front = rows_and_flags(rows, in_front)
    pinhole, tilts = struct(c.jc_pinhole_camera, camera, "camera"), struct(c.jc_scheimpflug_params, sensor, "sensor")
    reply = library().jc_count_errors(pinhole, tilts, lent, lent.size, front, front.size)
    check(reply.number)
    return ErrorCount(reply.sum, reply.counted)
