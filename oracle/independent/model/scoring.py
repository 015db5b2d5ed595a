"""Scoring: damping, the camera check, rows, the mean, the share, penalties, the score and outcomes.

A camera is a tuple (fx, fy, cx, cy, k1, k2, k3, p1, p2). Rows are a flat list, four numbers a row, and a list
of flags, each a whole number from 0 to 255.

Specification: chapter 5
"""

from . import binary64 as b
from .binary64 import clamp, divide, finite, maximum
from .geometry import apply_homography, distance, distort, sensor_to_pixel, tilt_projection_matrix
from .values import Best, Failed, Refused, Scored, Skipped

MOST_ROWS = 1024


def damp(camera):
    """The camera with damped distortion. Specification: #score-damping"""
    fx, fy, cx, cy, _, _, _, p1, p2 = camera
    return (fx, fy, cx, cy, 0.0, 0.0, 0.0, clamp(p1, -0.05, 0.05), clamp(p2, -0.05, 0.05))


def damp_distortion(distortion):
    """`jc_damp_seed_distortion`. Specification: #score-damping"""
    return damp((0.0,) * 4 + tuple(distortion))[4:]


def valid(camera):
    """Specification: #score-camera"""
    return all(finite(x) for x in camera) and camera[0] > 0.0 and camera[1] > 0.0


def row_error(camera, matrix, row):
    """Specification: #score-rows"""
    x, y, u, v = row
    px, py = distort(camera[4:], x, y)
    qx, qy = apply_homography(matrix, px, py)
    return distance(sensor_to_pixel(camera[:4], qx, qy), (u, v))


def sum_errors(camera, trig, rows, flags):
    """The sum of the errors that count, and how many count. Specification: #score-rows, #score-mean"""
    matrix = tilt_projection_matrix(*trig)
    total, counted = 0.0, 0
    for i in range(min(len(rows) // 4, len(flags))):
        error = row_error(camera, matrix, rows[4 * i:4 * i + 4])
        if flags[i] == 1 and finite(error):
            total, counted = total + error, counted + 1
    return total, counted


def mean_of(total, counted):
    """Specification: #score-mean"""
    return b.INFINITY if counted == 0 else divide(total, float(counted))


def mean_reproj_error(camera, trig, rows, flags):
    """Refuses nothing; the camera isn't damped. Specification: #score-count"""
    return mean_of(*sum_errors(camera, trig, rows, flags))


def share_met(min_counted, rows, counted):
    """Specification: #score-share"""
    return min_counted * rows <= counted * 100


def distortion_penalty(distortion):
    """Specification: #score-penalties"""
    k1, k2, k3, p1, p2 = distortion
    return 0.25 * ((k1 * k1 + k2 * k2 + 0.25 * k3 * k3) + (p1 * p1 + p2 * p2))


def tilt_penalty(tilt_x, tilt_y):
    """Specification: #score-penalties"""
    return 0.25 * (tilt_x * tilt_x + tilt_y * tilt_y)


def centre_penalty(intrinsics, centre):
    """Specification: #score-penalties"""
    fx, fy, cx, cy = intrinsics
    dx = divide(cx - centre[0], maximum(fx, 1.0))
    dy = divide(cy - centre[1], maximum(fy, 1.0))
    return 0.0 * (dx * dx + dy * dy)


def score_of(mean, camera, tilt_x, tilt_y, centre):
    """Specification: #score-sum"""
    return mean + distortion_penalty(camera[4:]) + tilt_penalty(tilt_x, tilt_y) + centre_penalty(camera[:4], centre)


def rows_refusal(tilt_x, tilt_y, rows, flags):
    """What is refused of a Solved, or None. Specification: #score-finding"""
    if len(flags) > MOST_ROWS or len(rows) != 4 * len(flags) or any(flag > 1 for flag in flags):
        return Refused(13)
    if b.too_far(tilt_x) or b.too_far(tilt_y):
        return Refused(27)
    return None


def finding_refusal(finding, tilt_x, tilt_y, rows, flags):
    """What is refused of a finding, or None. Specification: #score-finding"""
    if isinstance(finding, Failed):
        return None
    return rows_refusal(tilt_x, tilt_y, rows, flags)


def outcome_of(finding, tilt_x, tilt_y, rows, flags, centre, min_counted):
    """Scored or Skipped, of a finding that isn't refused. Specification: #score-outcome"""
    if isinstance(finding, Failed):
        return Skipped(1)
    camera = damp(finding.camera)
    if not valid(camera):
        return Skipped(2)
    total, counted = sum_errors(camera, b.trig_numbers(tilt_x, tilt_y), rows, flags)
    mean = mean_of(total, counted)
    if not share_met(min_counted, len(flags), counted) or not finite(mean):
        return Skipped(3)
    score = score_of(mean, camera, tilt_x, tilt_y, centre)
    return Skipped(4) if score != score else Scored(camera, mean, score)


def count_errors(camera, tilt_x, tilt_y, rows, flags):
    """(sum, count), with the damped camera; 13, then 27. Specification: #score-count"""
    refusal = rows_refusal(tilt_x, tilt_y, rows, flags)
    if refusal is not None:
        return refusal
    return sum_errors(damp(camera), b.trig_numbers(tilt_x, tilt_y), rows, flags)


def beats(score, other):
    """Of two scores: the first isn't NaN, and the other is NaN or higher. Specification: #score-best"""
    return score == score and (other != other or score < other)


def best_of_entry(entry):
    """The record of a Scored entry. Specification: #call-result"""
    out = entry.outcome
    return Best(True, entry.number, out.camera, entry.seed[4], entry.seed[5], out.mean, out.score)


def best_of(entries):
    """The best of the Scored entries, or None: the earliest with the lowest score that is a number.

    Specification: #score-best, #stretches
    """
    found = None
    for entry in entries:
        out = entry.outcome
        if isinstance(out, Scored) and out.score == out.score:
            if found is None or beats(out.score, found.outcome.score):
                found = entry
    return None if found is None else best_of_entry(found)


def winner_of_two(first, second):
    """Of two bests, the earlier first, each of which may be None. Specification: #stretches"""
    if first is None:
        return second
    if second is None:
        return first
    return second if beats(second.score, first.score) else first


def winner(first, second):
    """`jc_winner`: of two records of a best; where the first's flag isn't set, the second as it was handed in.

    Specification: #stretches
    """
    if not first.flag:
        return second
    return winner_of_two(first, second if second.flag else None)


def floor_of(pairs):
    """The floor of the pairs of tilts that are left, at least one. Specification: #floor"""
    lowest = b.INFINITY
    for tilt_x, tilt_y in reversed(pairs):
        penalty = tilt_penalty(tilt_x, tilt_y)
        lowest = b.minimum(b.INFINITY if penalty != penalty else penalty, lowest)
    return lowest
