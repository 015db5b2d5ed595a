"""Declarations of the library's functions, made from include/jinnychair.h by python/tools/declare. Don't edit."""
# ruff: noqa: N801

from ctypes import POINTER, Structure, c_double, c_size_t, c_uint8, c_uint32
from enum import IntEnum

from numpy import float64, uint8
from numpy.ctypeslib import ndpointer

doubles = ndpointer(float64, ndim=1, flags=["C_CONTIGUOUS", "ALIGNED"])
octets = ndpointer(uint8, ndim=1, flags=["C_CONTIGUOUS", "ALIGNED"])
writable_doubles = ndpointer(float64, ndim=1, flags=["C_CONTIGUOUS", "ALIGNED", "WRITEABLE"])
writable_octets = ndpointer(uint8, ndim=1, flags=["C_CONTIGUOUS", "ALIGNED", "WRITEABLE"])

VERSION = 0xc00
VERSION_TEXT = "0.12.0"

MOST_POINTS = 400  # of a list of points, except for the line test and the centre
MOST_ROWS = 1024  # of an answer
MOST_TILTS = 16  # of a tilt list
MOST_SEEDS = 256  # of the decomposition
MOST_ROUNDS = 16  # after round 0
MOST_ANSWERS = 656  # of a run
SEED_NUMBERS = 6  # of a seed
ROW_NUMBERS = 4  # of an answer's row
DESIGN_NUMBERS = 18  # of a point's two design rows
MOST_LIST = 3072  # numbers that a seed list can need
LINE_LEN = 256  # bytes that a buffer for a line of the journal needs
REPORT_LEN = 24  # bytes that a buffer for a report needs


class Number(IntEnum):
    """Why a call is refused."""

    TOO_FEW_VIEWS = 1
    NO_TILTS = 2
    BAD_BOUND = 3
    BAD_STEP = 4
    TOO_MANY = 5
    BAD_SEED = 6
    TILT_NOT_FINITE = 7
    LIST_TOO_SHORT = 8
    SEED_WAITING = 9
    LIST_SHORTENED = 10
    NOTHING_SCORED = 11
    NO_SEED_WAITING = 12
    BAD_ROWS = 13
    NOT_OVER = 14
    SINGULAR_TILT = 15
    DEGENERATE_VIEWS = 16
    BAD_POINTS = 17
    DESTINATION_TOO_SHORT = 18
    COINCIDENT = 19
    SOURCE_NOT_FINITE = 20
    DESTINATION_NOT_FINITE = 21
    TOO_FEW_POINTS = 22
    COUNTS_DIFFER = 23
    SOURCE_COLLINEAR = 24
    DESTINATION_COLLINEAR = 25
    TILT_TOO_LARGE = 27
    NOT_WRITABLE = 28
    NOT_A_LINE = 29
    NOT_THE_RUN = 30
    TILTS_OFF_AXIS = 31
    SEED_OFF_AXIS = 32
    SHARE_TOO_LARGE = 33
    NO_SHARED_POWER = 34


REFUSALS = {
    1: 'fewer than 3 views',
    2: 'a tilt list is empty',
    3: "max_abs_tilt isn't finite or isn't above 0",
    4: "rounds are asked for and refine_step isn't finite or isn't above 0",
    5: "more tilts, decomposition seeds or rounds than the limits below; or the seeds aren't in sixes",
    6: "a decomposition seed that isn't finite, has a focal length not above 0, or lies beyond the bound",
    7: "a tilt of a list isn't finite",
    8: 'the seed list is shorter than JC_LIST_LEN',
    9: 'a seed is waiting for its answer',
    10: 'less of the seed list is lent than jc_start needed',
    11: 'the run ended and no candidate was scored',
    12: 'no seed is waiting',
    13: 'more than 1024 rows, not four numbers for each flag, or a flag above 1',
    14: "the run isn't over",
    15: "the tilt's determinant is 0",
    16: 'no camera has this conic',
    17: 'an odd number of coordinates, or more than 400 points',
    18: 'the destination is too short',
    19: 'no points, or all in one place',
    20: "a source coordinate isn't finite",
    21: "a destination coordinate isn't finite",
    22: 'fewer than 4 source points',
    23: 'not as many destination points as source points',
    24: 'the source points lie on a line',
    25: 'the destination points lie on a line',
    27: 'max_abs_tilt is above 0.5 radians (28.6 degrees), or a tilt is NaN or beyond that',
    28: "a line's buffer is below 256 bytes, or the line isn't one that a journal has; or a report's is below 24 bytes, or its total above 656",
    29: "the bytes at the position aren't those of a line",
    30: "a journal's line isn't the run's next answer",
    31: "a one-axis run's y tilts aren't the single value 0, of either sign",
    32: 'a decomposition seed of a one-axis run has a tilt y other than 0',
    33: 'min_counted is above 100',
    34: "no power of two makes whole numbers in their ranges of a camera's four",
}


class SkipReason(IntEnum):
    """Why a candidate isn't scored."""

    HOST_FAILED = 1
    BAD_CAMERA = 2
    NO_MEAN = 3
    NO_NUMBER = 4


SKIPS = {
    1: 'the host failed',
    2: "a number of the camera isn't finite, or a focal length isn't above 0",
    3: "less than min_counted of the rows count, or the mean error isn't finite",
    4: "the score isn't a number",
}


class EndedBy(IntEnum):
    """What ended the lines that a resumed run keeps; else a number."""

    NOTHING = 0
    MISSING_NEWLINE = 1


class jc_pt2(Structure):
    """A point: pixels, or coordinates on the sensor in focal lengths."""

    _fields_ = [
        ("x", c_double),
        ("y", c_double),
    ]


class jc_intrinsics(Structure):
    """Focal lengths and centre, in pixels."""

    _fields_ = [
        ("fx", c_double),
        ("fy", c_double),
        ("cx", c_double),
        ("cy", c_double),
    ]


class jc_distortion(Structure):
    """Radial (k) and tangential (p) distortion, after Brown and Conrady."""

    _fields_ = [
        ("k1", c_double),
        ("k2", c_double),
        ("k3", c_double),
        ("p1", c_double),
        ("p2", c_double),
    ]


class jc_jacobian(Structure):
    """Derivatives of a distorted point: of x by x, of x by y, of y by x, of y by y."""

    _fields_ = [
        ("xx", c_double),
        ("xy", c_double),
        ("yx", c_double),
        ("yy", c_double),
    ]


class jc_distorted_point(Structure):
    _fields_ = [
        ("point", jc_pt2),
        ("jacobian", jc_jacobian),
    ]


class jc_scheimpflug_params(Structure):
    """Tilts, in radians."""

    _fields_ = [
        ("tilt_x", c_double),
        ("tilt_y", c_double),
    ]


class jc_trig(Structure):
    """Sine and cosine of each tilt, for the geometry. jc_sine and jc_cosine give the same bits on every machine."""

    _fields_ = [
        ("sin_x", c_double),
        ("cos_x", c_double),
        ("sin_y", c_double),
        ("cos_y", c_double),
    ]


class jc_pinhole_camera(Structure):
    _fields_ = [
        ("k", jc_intrinsics),
        ("dist", jc_distortion),
    ]


class jc_conic(Structure):
    """A conic, the symmetric matrix K^-T K^-1 times any factor, in the order of Zhang's equations."""

    _fields_ = [
        ("b11", c_double),
        ("b12", c_double),
        ("b22", c_double),
        ("b13", c_double),
        ("b23", c_double),
        ("b33", c_double),
    ]


class jc_candidate_seed(Structure):
    """A camera and tilts to start from."""

    _fields_ = [
        ("reference_k", jc_intrinsics),
        ("sensor", jc_scheimpflug_params),
    ]


class jc_candidate(Structure):
    """A scored candidate: its number, its camera with damped distortion, its tilts, mean error in pixels and score."""

    _fields_ = [
        ("number", c_size_t),
        ("camera", jc_pinhole_camera),
        ("sensor", jc_scheimpflug_params),
        ("mean_reproj_error", c_double),
        ("score", c_double),
    ]


class jc_options(Structure):
    """The options of a search. refine_rounds: how many rounds follow round 0, each around the best candidate of the round before. refine_step: the step of the first of these rounds, in radians; it halves from round to round. max_abs_tilt: the bound on either tilt, in radians, at most 0.5. one_axis: not 0 where the module leans about the x axis alone; then every tilt y is 0, and a later round has at most three seeds, with tilt x minus the step, tilt x, and tilt x plus the step. min_counted: how many per cent of an answer's rows have to count, at most 100; with 0 one row that counts is enough."""

    _fields_ = [
        ("refine_rounds", c_size_t),
        ("refine_step", c_double),
        ("max_abs_tilt", c_double),
        ("one_axis", c_uint8),
        ("min_counted", c_size_t),
    ]


class jc_sum_reply(Structure):
    """0 and the sine or the cosine, or JC_TILT_TOO_LARGE."""

    _fields_ = [
        ("number", c_uint8),
        ("value", c_double),
    ]


class jc_matrix(Structure):
    """Three rows of three numbers."""

    _fields_ = [
        ("m00", c_double),
        ("m01", c_double),
        ("m02", c_double),
        ("m10", c_double),
        ("m11", c_double),
        ("m12", c_double),
        ("m20", c_double),
        ("m21", c_double),
        ("m22", c_double),
    ]


class jc_inverse_reply(Structure):
    """0 and the inverse, or JC_SINGULAR_TILT."""

    _fields_ = [
        ("number", c_uint8),
        ("inverse", jc_matrix),
    ]


class jc_camera_reply(Structure):
    """0 and the camera, or JC_DEGENERATE_VIEWS."""

    _fields_ = [
        ("number", c_uint8),
        ("camera", jc_intrinsics),
    ]


class jc_error_count_reply(Structure):
    """0, the sum of the errors that count and how many there are; or JC_BAD_ROWS or JC_TILT_TOO_LARGE."""

    _fields_ = [
        ("number", c_uint8),
        ("sum", c_double),
        ("counted", c_size_t),
    ]


class jc_plate_reply(Structure):
    """0 and six numbers, or JC_NO_SHARED_POWER."""

    _fields_ = [
        ("number", c_uint8),
        ("conic", jc_conic),
    ]


class jc_normalize_reply(Structure):
    """0 and elements (0,0), (0,2), (1,2) of the transform s, 0, a; 0, s, b; 0, 0, 1; or a refusal."""

    _fields_ = [
        ("number", c_uint8),
        ("t00", c_double),
        ("t02", c_double),
        ("t12", c_double),
    ]


class jc_line_reply(Structure):
    """0, and 1 where the points are collinear; or JC_BAD_POINTS."""

    _fields_ = [
        ("number", c_uint8),
        ("collinear", c_uint8),
    ]


class jc_center_reply(Structure):
    """0 and the centre, or JC_BAD_POINTS."""

    _fields_ = [
        ("number", c_uint8),
        ("center", jc_pt2),
    ]


class jc_place_record(Structure):
    """How far a run has come: how many numbers the list must have, the round, the step of its list, how many seeds the list has, how many of them are answered, the next candidate's number, and whether the run is over."""

    _fields_ = [
        ("demand", c_size_t),
        ("round", c_size_t),
        ("step", c_double),
        ("len", c_size_t),
        ("at", c_size_t),
        ("number", c_size_t),
        ("over", c_uint8),
    ]


class jc_waiting_record(Structure):
    """The seed that was handed out and is not answered yet."""

    _fields_ = [
        ("is_waiting", c_uint8),
        ("seed", jc_candidate_seed),
    ]


class jc_best_record(Structure):
    """The best so far, if found is not 0."""

    _fields_ = [
        ("found", c_uint8),
        ("candidate", jc_candidate),
    ]


class jc_line(Structure):
    """A line of the journal: an answered candidate's number, the round in which it was handed out, its seed, and its outcome. Where skipped is 0 the candidate was scored, with this score and mean error, and focal lengths, centre and tangential distortion are those of the scored camera. Otherwise skipped is JC_SKIP_..., and the numbers after it are not read; in a line that was read they are 0."""

    _fields_ = [
        ("number", c_size_t),
        ("round", c_size_t),
        ("seed", jc_candidate_seed),
        ("skipped", c_uint8),
        ("score", c_double),
        ("mean", c_double),
        ("k", jc_intrinsics),
        ("p1", c_double),
        ("p2", c_double),
    ]


class jc_last_line_record(Structure):
    """The last answered candidate's line, if found is not 0."""

    _fields_ = [
        ("found", c_uint8),
        ("line", jc_line),
    ]


class jc_count_record(Structure):
    """How many candidates were scored, and how many were skipped for each reason, in the order of JC_SKIP_..."""

    _fields_ = [
        ("scored", c_size_t),
        ("host_failed", c_size_t),
        ("bad_camera", c_size_t),
        ("no_mean", c_size_t),
        ("no_number", c_size_t),
    ]


class jc_run_record(Structure):
    """A run. The caller keeps it and passes it unchanged from one call to the next. It may be copied and stored, and has no pointers."""

    _fields_ = [
        ("options", jc_options),
        ("center", jc_pt2),
        ("place", jc_place_record),
        ("waiting", jc_waiting_record),
        ("round_best", jc_best_record),
        ("run_best", jc_best_record),
        ("last", jc_last_line_record),
        ("counts", jc_count_record),
    ]


class jc_start_flat(Structure):
    """0 and the run, or a refusal."""

    _fields_ = [
        ("number", c_uint8),
        ("run", jc_run_record),
    ]


class jc_next_flat(Structure):
    """0 and a candidate's number; 0 and over = 1; or a refusal."""

    _fields_ = [
        ("number", c_uint8),
        ("over", c_uint8),
        ("candidate", c_size_t),
        ("run", jc_run_record),
    ]


class jc_answer_flat(Structure):
    """0 and a score, where skipped is 0; 0 and skipped = JC_SKIP_...; or a refusal."""

    _fields_ = [
        ("number", c_uint8),
        ("skipped", c_uint8),
        ("score", c_double),
        ("run", jc_run_record),
    ]


class jc_result_flat(Structure):
    """0 and the winner, or a refusal."""

    _fields_ = [
        ("number", c_uint8),
        ("candidate", jc_candidate),
    ]


class jc_progress_reply(Structure):
    """How far a run has come, as a progress bar shows it: the round, how many rounds follow round 0, how many seeds of this round's list are answered, how many it has, and how many seeds of the whole run are answered."""

    _fields_ = [
        ("round", c_size_t),
        ("rounds", c_size_t),
        ("answered", c_size_t),
        ("total", c_size_t),
        ("answered_in_run", c_size_t),
    ]


class jc_stop_flat(Structure):
    """0 and what a stopped run has, or a refusal. best: the best so far, where has_best is 1. floor: where has_floor is 1, the lowest tilt penalty among the seeds of this round's list that are not answered yet; where has_floor is 0 there are none. no_gain: 1 where the floor isn't below the best's score, so that this round can't find a better one."""

    _fields_ = [
        ("number", c_uint8),
        ("has_best", c_uint8),
        ("has_floor", c_uint8),
        ("no_gain", c_uint8),
        ("best", jc_candidate),
        ("floor", c_double),
    ]


class jc_write_flat(Structure):
    """0 and how many bytes were written, or a refusal."""

    _fields_ = [
        ("number", c_uint8),
        ("len", c_size_t),
    ]


class jc_read_flat(Structure):
    """0 and a line; 0 and end = 1; or a refusal and the line's number, from 1. next is where to read on: behind the line that was read, and otherwise the position that was passed."""

    _fields_ = [
        ("number", c_uint8),
        ("end", c_uint8),
        ("line_number", c_size_t),
        ("line", jc_line),
        ("next", c_size_t),
    ]


class jc_replay_flat(Structure):
    """0 and, where is_over is 1, the winner's number and score, otherwise the seed that comes next; or one of jc_start's refusals; or JC_NOT_A_LINE or JC_NOT_THE_RUN and the line's number, from 1; or JC_NOTHING_SCORED."""

    _fields_ = [
        ("number", c_uint8),
        ("is_over", c_uint8),
        ("line_number", c_size_t),
        ("candidate", c_size_t),
        ("score", c_double),
        ("next", jc_candidate_seed),
    ]


class jc_resume_flat(Structure):
    """0, how many lines and bytes are kept, how many bytes aren't, what ended the kept ones (JC_ENDED_BY_..., JC_NOT_A_LINE, JC_NOT_THE_RUN), and the run; or one of jc_start's refusals."""

    _fields_ = [
        ("number", c_uint8),
        ("ended_by", c_uint8),
        ("lines", c_size_t),
        ("kept", c_size_t),
        ("dropped", c_size_t),
        ("run", jc_run_record),
    ]


# Name: the reply's type, and those of the parameters.
FUNCTIONS = {
    "jc_version": (c_uint32, ()),
    "jc_sqrt": (c_double, (c_double,)),
    "jc_sine": (jc_sum_reply, (c_double,)),
    "jc_cosine": (jc_sum_reply, (c_double,)),
    "jc_pixel_to_sensor": (jc_pt2, (jc_intrinsics, jc_pt2)),
    "jc_sensor_to_pixel": (jc_pt2, (jc_intrinsics, jc_pt2)),
    "jc_tilt_projection_matrix": (jc_matrix, (jc_trig,)),
    "jc_determinant": (c_double, (jc_matrix,)),
    "jc_inverse": (jc_inverse_reply, (jc_matrix,)),
    "jc_apply_homography": (jc_pt2, (jc_matrix, jc_pt2)),
    "jc_apply_homography_inverse": (jc_pt2, (jc_matrix, jc_pt2)),
    "jc_distort_numbers": (jc_pt2, (c_double, c_double, c_double, c_double, c_double, c_double, c_double)),
    "jc_distort_with_jacobian": (jc_distorted_point, (jc_distortion, jc_pt2)),
    "jc_undistort": (jc_pt2, (jc_distortion, c_uint32, jc_pt2)),
    "jc_conic_to_camera": (jc_camera_reply, (jc_conic,)),
    "jc_known_plate": (jc_plate_reply, (jc_intrinsics,)),
    "jc_untilt_points": (c_uint8, (jc_intrinsics, jc_trig, doubles, c_size_t, writable_doubles, c_size_t)),
    "jc_ideal_points": (c_uint8, (jc_pinhole_camera, c_uint32, jc_trig, doubles, c_size_t, writable_doubles, c_size_t)),
    "jc_normalize_points_2d": (jc_normalize_reply, (doubles, c_size_t, writable_doubles, c_size_t)),
    "jc_points_are_collinear": (jc_line_reply, (doubles, c_size_t)),
    "jc_design_rows": (c_uint8, (doubles, c_size_t, doubles, c_size_t, writable_doubles, c_size_t)),
    "jc_observed_pixel_center": (jc_center_reply, (doubles, c_size_t)),
    "jc_damp_seed_distortion": (jc_distortion, (jc_distortion,)),
    "jc_distortion_complexity": (c_double, (jc_distortion,)),
    "jc_tilt_complexity": (c_double, (jc_scheimpflug_params,)),
    "jc_principal_point_complexity": (c_double, (jc_intrinsics, jc_pt2)),
    "jc_mean_reproj_error": (c_double, (jc_pinhole_camera, jc_trig, doubles, c_size_t, octets, c_size_t)),
    "jc_count_errors": (jc_error_count_reply, (jc_pinhole_camera, jc_scheimpflug_params, doubles, c_size_t, octets, c_size_t)),
    "jc_start": (jc_start_flat, (c_size_t, jc_options, doubles, c_size_t, doubles, c_size_t, doubles, c_size_t, jc_intrinsics, jc_pt2, writable_doubles, c_size_t)),
    "jc_next": (jc_next_flat, (jc_run_record, doubles, c_size_t)),
    "jc_seed": (c_size_t, (jc_run_record, doubles, c_size_t, writable_doubles, c_size_t)),
    "jc_answer": (jc_answer_flat, (jc_run_record, c_uint8, jc_pinhole_camera, doubles, c_size_t, octets, c_size_t, writable_doubles, c_size_t)),
    "jc_result": (jc_result_flat, (jc_run_record,)),
    "jc_progress": (jc_progress_reply, (jc_run_record,)),
    "jc_stop": (jc_stop_flat, (jc_run_record, doubles, c_size_t)),
    "jc_counts": (jc_count_record, (jc_run_record,)),
    "jc_last_line": (jc_last_line_record, (jc_run_record,)),
    "jc_write_line": (jc_write_flat, (jc_line, writable_octets, c_size_t)),
    "jc_write_report": (jc_write_flat, (jc_count_record, writable_octets, c_size_t)),
    "jc_read_line": (jc_read_flat, (octets, c_size_t, c_size_t)),
    "jc_replay": (jc_replay_flat, (c_size_t, jc_options, doubles, c_size_t, doubles, c_size_t, doubles, c_size_t, jc_intrinsics, jc_pt2, octets, c_size_t, writable_doubles, c_size_t)),
    "jc_resume": (jc_resume_flat, (c_size_t, jc_options, doubles, c_size_t, doubles, c_size_t, doubles, c_size_t, jc_intrinsics, jc_pt2, octets, c_size_t, writable_doubles, c_size_t)),
    "jc_winner": (jc_best_record, (jc_best_record, jc_best_record)),
    "jc_echo_pt2": (jc_pt2, (jc_pt2,)),
    "jc_echo_intrinsics": (jc_intrinsics, (jc_intrinsics,)),
    "jc_echo_distortion": (jc_distortion, (jc_distortion,)),
    "jc_echo_jacobian": (jc_jacobian, (jc_jacobian,)),
    "jc_echo_distorted_point": (jc_distorted_point, (jc_distorted_point,)),
    "jc_echo_scheimpflug_params": (jc_scheimpflug_params, (jc_scheimpflug_params,)),
    "jc_echo_trig": (jc_trig, (jc_trig,)),
    "jc_echo_pinhole_camera": (jc_pinhole_camera, (jc_pinhole_camera,)),
    "jc_echo_sum_reply": (jc_sum_reply, (jc_sum_reply,)),
    "jc_echo_conic": (jc_conic, (jc_conic,)),
    "jc_echo_candidate_seed": (jc_candidate_seed, (jc_candidate_seed,)),
    "jc_echo_candidate": (jc_candidate, (jc_candidate,)),
    "jc_echo_options": (jc_options, (jc_options,)),
    "jc_echo_matrix": (jc_matrix, (jc_matrix,)),
    "jc_echo_inverse_reply": (jc_inverse_reply, (jc_inverse_reply,)),
    "jc_echo_camera_reply": (jc_camera_reply, (jc_camera_reply,)),
    "jc_echo_error_count_reply": (jc_error_count_reply, (jc_error_count_reply,)),
    "jc_echo_plate_reply": (jc_plate_reply, (jc_plate_reply,)),
    "jc_echo_normalize_reply": (jc_normalize_reply, (jc_normalize_reply,)),
    "jc_echo_line_reply": (jc_line_reply, (jc_line_reply,)),
    "jc_echo_center_reply": (jc_center_reply, (jc_center_reply,)),
    "jc_echo_place_record": (jc_place_record, (jc_place_record,)),
    "jc_echo_waiting_record": (jc_waiting_record, (jc_waiting_record,)),
    "jc_echo_best_record": (jc_best_record, (jc_best_record,)),
    "jc_echo_line": (jc_line, (jc_line,)),
    "jc_echo_last_line_record": (jc_last_line_record, (jc_last_line_record,)),
    "jc_echo_write_flat": (jc_write_flat, (jc_write_flat,)),
    "jc_echo_read_flat": (jc_read_flat, (jc_read_flat,)),
    "jc_echo_count_record": (jc_count_record, (jc_count_record,)),
    "jc_echo_replay_flat": (jc_replay_flat, (jc_replay_flat,)),
    "jc_echo_resume_flat": (jc_resume_flat, (jc_resume_flat,)),
    "jc_echo_run_record": (jc_run_record, (jc_run_record,)),
    "jc_echo_start_flat": (jc_start_flat, (jc_start_flat,)),
    "jc_echo_next_flat": (jc_next_flat, (jc_next_flat,)),
    "jc_echo_answer_flat": (jc_answer_flat, (jc_answer_flat,)),
    "jc_echo_result_flat": (jc_result_flat, (jc_result_flat,)),
    "jc_echo_progress_reply": (jc_progress_reply, (jc_progress_reply,)),
    "jc_echo_stop_flat": (jc_stop_flat, (jc_stop_flat,)),
}

# Struct: the size and the offsets that the header asserts.
LAYOUT = {
    jc_pt2: (16, {'y': 8}),
    jc_intrinsics: (32, {'fy': 8, 'cx': 16, 'cy': 24}),
    jc_distortion: (40, {'k2': 8, 'k3': 16, 'p1': 24, 'p2': 32}),
    jc_jacobian: (32, {'xy': 8, 'yx': 16, 'yy': 24}),
    jc_distorted_point: (48, {'jacobian': 16}),
    jc_scheimpflug_params: (16, {'tilt_y': 8}),
    jc_trig: (32, {'cos_x': 8, 'sin_y': 16, 'cos_y': 24}),
    jc_pinhole_camera: (72, {'dist': 32}),
    jc_sum_reply: (16, {'value': 8}),
    jc_conic: (48, {'b12': 8, 'b22': 16, 'b13': 24, 'b23': 32, 'b33': 40}),
    jc_candidate_seed: (48, {'sensor': 32}),
    jc_candidate: (112, {'camera': 8, 'sensor': 80, 'mean_reproj_error': 96, 'score': 104}),
    jc_options: (40, {'refine_step': 8, 'max_abs_tilt': 16, 'one_axis': 24, 'min_counted': 32}),
    jc_matrix: (72, {'m01': 8, 'm02': 16, 'm10': 24, 'm11': 32, 'm12': 40, 'm20': 48, 'm21': 56, 'm22': 64}),
    jc_inverse_reply: (80, {'inverse': 8}),
    jc_camera_reply: (40, {'camera': 8}),
    jc_error_count_reply: (24, {'sum': 8, 'counted': 16}),
    jc_plate_reply: (56, {'conic': 8}),
    jc_normalize_reply: (32, {'t00': 8, 't02': 16, 't12': 24}),
    jc_line_reply: (2, {'collinear': 1}),
    jc_center_reply: (24, {'center': 8}),
    jc_place_record: (56, {'round': 8, 'step': 16, 'len': 24, 'at': 32, 'number': 40, 'over': 48}),
    jc_waiting_record: (56, {'seed': 8}),
    jc_best_record: (120, {'candidate': 8}),
    jc_line: (136, {'round': 8, 'seed': 16, 'skipped': 64, 'score': 72, 'mean': 80, 'k': 88, 'p1': 120, 'p2': 128}),
    jc_last_line_record: (144, {'line': 8}),
    jc_write_flat: (16, {'len': 8}),
    jc_read_flat: (160, {'end': 1, 'line_number': 8, 'line': 16, 'next': 152}),
    jc_replay_flat: (80, {'is_over': 1, 'line_number': 8, 'candidate': 16, 'score': 24, 'next': 32}),
    jc_resume_flat: (624, {'ended_by': 1, 'lines': 8, 'kept': 16, 'dropped': 24, 'run': 32}),
    jc_count_record: (40, {'host_failed': 8, 'bad_camera': 16, 'no_mean': 24, 'no_number': 32}),
    jc_run_record: (592, {'center': 40, 'place': 56, 'waiting': 112, 'round_best': 168, 'run_best': 288, 'last': 408, 'counts': 552}),
    jc_start_flat: (600, {'run': 8}),
    jc_next_flat: (608, {'over': 1, 'candidate': 8, 'run': 16}),
    jc_answer_flat: (608, {'skipped': 1, 'score': 8, 'run': 16}),
    jc_result_flat: (120, {'candidate': 8}),
    jc_progress_reply: (40, {'rounds': 8, 'answered': 16, 'total': 24, 'answered_in_run': 32}),
    jc_stop_flat: (128, {'has_best': 1, 'has_floor': 2, 'no_gain': 3, 'best': 8, 'floor': 120}),
}
