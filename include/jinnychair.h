/* The proved sensor-tilt search and its geometry: the functions of libcapi.a, for x86-64 Linux. They need C11 or C++11, or later.
 *
 *     cc -std=c11 search.c $(pkg-config --cflags --libs jinnychair)           (a release: PKG_CONFIG_PATH=.../lib/pkgconfig)
 *     cc -std=c11 search.c -Iinclude target/staticlib/libcapi.a               (this repository)
 *
 * examples/search.c shows a whole search. Call jc_is_compatible() first: the structs of another version may differ.
 *
 * Slices. A slice is a pointer and a length in numbers. The pointer is not NULL, even where the length is 0 (pass any array); it is aligned for
 * its type and valid for the length, for reading, and where it is not const for writing too. Memory that a call may write to overlaps none of its
 * other arguments. A caller has to see to nothing else: every number is accepted, and every function returns.
 *
 * Replies. The number 0 means that the call was accepted. The other numbers are JC_TOO_FEW_VIEWS and so on below, and NUMBERS.md says what to do
 * about each. A function's comment has the numbers that it can give. Where several refusals apply, the one that the comment names first is given.
 * After a refusal nothing that was lent has changed, except after 29, 30 and 11 of jc_replay, and fields of a reply that have no value are 0.
 *
 * Flags of records and replies are read as 0 or not 0, and written as 0 or 1. The flags of rows are 0 or 1, and any other is refused.
 *
 * Lists of points hold x, then y; seed lists hold fx, fy, cx, cy, tilt x, tilt y. A list is written to the front of its destination, and the rest
 * of the destination stays as it was. Angles are in radians, pixels and focal lengths in pixels.
 *
 * Threads. Every call is a function of its arguments alone. Nothing is kept between calls, and threads need no lock.
 *
 * Floats. The processor has to round to nearest and to keep subnormal numbers, which is how every thread starts. Under another rounding mode
 * (fesetround), or with subnormals flushed to zero (-ffast-math at link time sets this), results have different bits.
 */
#ifndef JINNYCHAIR_H
#define JINNYCHAIR_H

#include <assert.h>
#include <stddef.h>
#include <stdint.h>

#ifndef __x86_64__
#error "libcapi.a is for x86-64"
#endif
#if !defined(__cplusplus) && (!defined(__STDC_VERSION__) || __STDC_VERSION__ < 201112L)
#error "C11 or later is needed"
#endif

#ifdef __cplusplus
extern "C" {
#endif

/* ---- version ---- */

/* The version that this header is for: 65,536 times the major, 256 times the minor, and the patch number, here 0.12.0. */
#define JC_VERSION 0x0c00u

/* The version of the linked archive. */
uint32_t jc_version(void);

/* 1 where the two versions are the same; 0 where the archive has to be replaced before anything else is called. */
static inline int jc_is_compatible(void) { return jc_version() == JC_VERSION; }

/* ---- numbers ---- */

/* Why a call refuses. */
enum {
    JC_TOO_FEW_VIEWS = 1,          /* fewer than 3 views */
    JC_NO_TILTS = 2,               /* a tilt list is empty */
    JC_BAD_BOUND = 3,              /* max_abs_tilt isn't finite or isn't above 0 */
    JC_BAD_STEP = 4,               /* rounds are asked for and refine_step isn't finite or isn't above 0 */
    JC_TOO_MANY = 5,               /* more tilts, decomposition seeds or rounds than the limits below; or the seeds aren't in sixes */
    JC_BAD_SEED = 6,               /* a decomposition seed that isn't finite, has a focal length not above 0, or lies beyond the bound */
    JC_TILT_NOT_FINITE = 7,        /* a tilt of a list isn't finite */
    JC_LIST_TOO_SHORT = 8,         /* the seed list is shorter than JC_LIST_LEN */
    JC_SEED_WAITING = 9,           /* a seed is waiting for its answer */
    JC_LIST_SHORTENED = 10,        /* less of the seed list is lent than jc_start needed */
    JC_NOTHING_SCORED = 11,        /* the run ended and no candidate was scored */
    JC_NO_SEED_WAITING = 12,       /* no seed is waiting */
    JC_BAD_ROWS = 13,              /* more than JC_MOST_ROWS rows, not four numbers for each flag, or a flag above 1 */
    JC_NOT_OVER = 14,              /* the run isn't over */
    JC_SINGULAR_TILT = 15,         /* the tilt's determinant is 0 */
    JC_DEGENERATE_VIEWS = 16,      /* no camera has this conic */
    JC_BAD_POINTS = 17,            /* an odd number of coordinates, or more than JC_MOST_POINTS points */
    JC_DESTINATION_TOO_SHORT = 18, /* the destination is too short */
    JC_COINCIDENT = 19,            /* no points, or all in one place */
    JC_SOURCE_NOT_FINITE = 20,     /* a source coordinate isn't finite */
    JC_DESTINATION_NOT_FINITE = 21, /* a destination coordinate isn't finite */
    JC_TOO_FEW_POINTS = 22,        /* fewer than 4 source points */
    JC_COUNTS_DIFFER = 23,         /* not as many destination points as source points */
    JC_SOURCE_COLLINEAR = 24,      /* the source points lie on a line */
    JC_DESTINATION_COLLINEAR = 25, /* the destination points lie on a line */
    JC_TILT_TOO_LARGE = 27,        /* max_abs_tilt is above 0.5 radians (28.6 degrees), or a tilt is NaN or beyond that */
    JC_NOT_WRITABLE = 28,          /* a line's buffer is below JC_LINE_LEN bytes, or the line isn't one that a journal has; or a report's is below
                                      JC_REPORT_LEN bytes, or its total above JC_MOST_ANSWERS */
    JC_NOT_A_LINE = 29,            /* the bytes at the position aren't those of a line */
    JC_NOT_THE_RUN = 30,           /* a journal's line isn't the run's next answer */
    JC_TILTS_OFF_AXIS = 31,        /* a one-axis run's y tilts aren't the single value 0, of either sign */
    JC_SEED_OFF_AXIS = 32,         /* a decomposition seed of a one-axis run has a tilt y other than 0 */
    JC_SHARE_TOO_LARGE = 33,       /* min_counted is above 100 */
    JC_NO_SHARED_POWER = 34        /* no power of two makes whole numbers in their ranges of a camera's four */
};

/* Why a candidate isn't scored. */
enum {
    JC_SKIP_HOST_FAILED = 1, /* the host failed */
    JC_SKIP_BAD_CAMERA = 2,  /* a number of the camera isn't finite, or a focal length isn't above 0 */
    JC_SKIP_NO_MEAN = 3,     /* less than min_counted of the rows count, or the mean error isn't finite */
    JC_SKIP_NO_NUMBER = 4    /* the score isn't a number */
};

/* What ended the lines that jc_resume keeps. The other two causes are JC_NOT_A_LINE and JC_NOT_THE_RUN. */
enum {
    JC_ENDED_BY_NOTHING = 0,        /* nothing follows them */
    JC_ENDED_BY_MISSING_NEWLINE = 1 /* a line without its newline */
};

/* Limits. */
enum {
    JC_MOST_POINTS = 400,   /* of a list of points, except for the line test and the centre */
    JC_MOST_ROWS = 1024,    /* of an answer */
    JC_MOST_TILTS = 16,     /* of a tilt list */
    JC_MOST_SEEDS = 256,    /* of the decomposition */
    JC_MOST_ROUNDS = 16,    /* after round 0 */
    JC_MOST_ANSWERS = 656,  /* of a run */
    JC_SEED_NUMBERS = 6,    /* of a seed */
    JC_ROW_NUMBERS = 4,     /* of an answer's row */
    JC_DESIGN_NUMBERS = 18, /* of a point's two design rows */
    JC_MOST_LIST = 3072,    /* numbers that a seed list can need */
    JC_LINE_LEN = 256,      /* bytes that a buffer for a line of the journal needs */
    JC_REPORT_LEN = 24      /* bytes that a buffer for a report needs */
};

/* How many numbers the seed list of a search needs. */
#define JC_LIST_LEN(seeds, x_tilts, y_tilts) \
    (6 * ((seeds) + (x_tilts) * (y_tilts)) < 54 ? 54 : 6 * ((seeds) + (x_tilts) * (y_tilts)))

/* ---- values ---- */

/* A point: pixels, or coordinates on the sensor in focal lengths. */
typedef struct {
    double x, y;
} jc_pt2;

/* Focal lengths and centre, in pixels. */
typedef struct {
    double fx, fy, cx, cy;
} jc_intrinsics;

/* Radial (k) and tangential (p) distortion, after Brown and Conrady. */
typedef struct {
    double k1, k2, k3, p1, p2;
} jc_distortion;

/* Derivatives of a distorted point: of x by x, of x by y, of y by x, of y by y. */
typedef struct {
    double xx, xy, yx, yy;
} jc_jacobian;

typedef struct {
    jc_pt2 point;
    jc_jacobian jacobian;
} jc_distorted_point;

/* Tilts, in radians. */
typedef struct {
    double tilt_x, tilt_y;
} jc_scheimpflug_params;

/* Sine and cosine of each tilt, for the geometry. jc_sine and jc_cosine give the same bits on every machine. */
typedef struct {
    double sin_x, cos_x, sin_y, cos_y;
} jc_trig;

typedef struct {
    jc_intrinsics k;
    jc_distortion dist;
} jc_pinhole_camera;

/* A conic, the symmetric matrix K^-T K^-1 times any factor, in the order of Zhang's equations. */
typedef struct {
    double b11, b12, b22, b13, b23, b33;
} jc_conic;

/* A camera and tilts to start from. */
typedef struct {
    jc_intrinsics reference_k;
    jc_scheimpflug_params sensor;
} jc_candidate_seed;

/* A scored candidate: its number, its camera with damped distortion, its tilts, mean error in pixels and score. */
typedef struct {
    size_t number;
    jc_pinhole_camera camera;
    jc_scheimpflug_params sensor;
    double mean_reproj_error, score;
} jc_candidate;

/* The options of a search. refine_rounds: how many rounds follow round 0, each around the best candidate of the round before. refine_step: the
 * step of the first of these rounds, in radians; it halves from round to round. max_abs_tilt: the bound on either tilt, in radians, at most 0.5.
 * one_axis: not 0 where the module leans about the x axis alone; then every tilt y is 0, and a later round has at most three seeds, with tilt x
 * minus the step, tilt x, and tilt x plus the step. min_counted: how many per cent of an answer's rows have to count, at most 100; with 0 one row
 * that counts is enough. */
typedef struct {
    size_t refine_rounds;
    double refine_step, max_abs_tilt;
    uint8_t one_axis;
    size_t min_counted;
} jc_options;

/* 0 and the sine or the cosine, or JC_TILT_TOO_LARGE. */
typedef struct {
    uint8_t number;
    double value;
} jc_sum_reply;

/* Three rows of three numbers. */
typedef struct {
    double m00, m01, m02, m10, m11, m12, m20, m21, m22;
} jc_matrix;

/* 0 and the inverse, or JC_SINGULAR_TILT. */
typedef struct {
    uint8_t number;
    jc_matrix inverse;
} jc_inverse_reply;

/* 0 and the camera, or JC_DEGENERATE_VIEWS. */
typedef struct {
    uint8_t number;
    jc_intrinsics camera;
} jc_camera_reply;

/* 0, the sum of the errors that count and how many there are; or JC_BAD_ROWS or JC_TILT_TOO_LARGE. */
typedef struct {
    uint8_t number;
    double sum;
    size_t counted;
} jc_error_count_reply;

/* 0 and six numbers, or JC_NO_SHARED_POWER. */
typedef struct {
    uint8_t number;
    jc_conic conic;
} jc_plate_reply;

/* 0 and elements (0,0), (0,2), (1,2) of the transform s, 0, a; 0, s, b; 0, 0, 1; or a refusal. */
typedef struct {
    uint8_t number;
    double t00, t02, t12;
} jc_normalize_reply;

/* 0, and 1 where the points are collinear; or JC_BAD_POINTS. */
typedef struct {
    uint8_t number, collinear;
} jc_line_reply;

/* 0 and the centre, or JC_BAD_POINTS. */
typedef struct {
    uint8_t number;
    jc_pt2 center;
} jc_center_reply;

/* How far a run has come: how many numbers the list must have, the round, the step of its list, how many seeds the list has, how many of them are
 * answered, the next candidate's number, and whether the run is over. */
typedef struct {
    size_t demand, round;
    double step;
    size_t len, at, number;
    uint8_t over;
} jc_place_record;

/* The seed that was handed out and is not answered yet. */
typedef struct {
    uint8_t is_waiting;
    jc_candidate_seed seed;
} jc_waiting_record;

/* The best so far, if found is not 0. */
typedef struct {
    uint8_t found;
    jc_candidate candidate;
} jc_best_record;

/* A line of the journal: an answered candidate's number, the round in which it was handed out, its seed, and its outcome. Where skipped is 0 the
 * candidate was scored, with this score and mean error, and focal lengths, centre and tangential distortion are those of the scored camera.
 * Otherwise skipped is JC_SKIP_..., and the numbers after it are not read; in a line that was read they are 0. */
typedef struct {
    size_t number, round;
    jc_candidate_seed seed;
    uint8_t skipped;
    double score, mean;
    jc_intrinsics k;
    double p1, p2;
} jc_line;

/* The last answered candidate's line, if found is not 0. */
typedef struct {
    uint8_t found;
    jc_line line;
} jc_last_line_record;

/* How many candidates were scored, and how many were skipped for each reason, in the order of JC_SKIP_... */
typedef struct {
    size_t scored, host_failed, bad_camera, no_mean, no_number;
} jc_count_record;

/* A run. The caller keeps it and passes it unchanged from one call to the next. It may be copied and stored, and has no pointers. */
typedef struct {
    jc_options options;
    jc_pt2 center;
    jc_place_record place;
    jc_waiting_record waiting;
    jc_best_record round_best, run_best;
    jc_last_line_record last;
    jc_count_record counts;
} jc_run_record;

/* 0 and the run, or a refusal. */
typedef struct {
    uint8_t number;
    jc_run_record run;
} jc_start_flat;

/* 0 and a candidate's number; 0 and over = 1; or a refusal. */
typedef struct {
    uint8_t number, over;
    size_t candidate;
    jc_run_record run;
} jc_next_flat;

/* 0 and a score, where skipped is 0; 0 and skipped = JC_SKIP_...; or a refusal. */
typedef struct {
    uint8_t number, skipped;
    double score;
    jc_run_record run;
} jc_answer_flat;

/* 0 and the winner, or a refusal. */
typedef struct {
    uint8_t number;
    jc_candidate candidate;
} jc_result_flat;

/* How far a run has come, as a progress bar shows it: the round, how many rounds follow round 0, how many seeds of this round's list are answered,
 * how many it has, and how many seeds of the whole run are answered. */
typedef struct {
    size_t round, rounds, answered, total, answered_in_run;
} jc_progress_reply;

/* 0 and what a stopped run has, or a refusal. best: the best so far, where has_best is 1. floor: where has_floor is 1, the lowest tilt penalty
 * among the seeds of this round's list that are not answered yet; where has_floor is 0 there are none. no_gain: 1 where the floor isn't below the
 * best's score, so that this round can't find a better one. */
typedef struct {
    uint8_t number, has_best, has_floor, no_gain;
    jc_candidate best;
    double floor;
} jc_stop_flat;

/* 0 and how many bytes were written, or a refusal. */
typedef struct {
    uint8_t number;
    size_t len;
} jc_write_flat;

/* 0 and a line; 0 and end = 1; or a refusal and the line's number, from 1. next is where to read on: behind the line that was read, and otherwise
 * the position that was passed. */
typedef struct {
    uint8_t number, end;
    size_t line_number;
    jc_line line;
    size_t next;
} jc_read_flat;

/* 0 and, where is_over is 1, the winner's number and score, otherwise the seed that comes next; or one of jc_start's refusals; or JC_NOT_A_LINE or
 * JC_NOT_THE_RUN and the line's number, from 1; or JC_NOTHING_SCORED. */
typedef struct {
    uint8_t number, is_over;
    size_t line_number, candidate;
    double score;
    jc_candidate_seed next;
} jc_replay_flat;

/* 0, how many lines and bytes are kept, how many bytes aren't, what ended the kept ones (JC_ENDED_BY_..., JC_NOT_A_LINE, JC_NOT_THE_RUN), and the
 * run; or one of jc_start's refusals. */
typedef struct {
    uint8_t number, ended_by;
    size_t lines, kept, dropped;
    jc_run_record run;
} jc_resume_flat;

/* ---- root, camera, tilt, distortion ---- */

/* The correctly rounded square root. */
double jc_sqrt(double x);
/* Sine and cosine, by eight terms of their power series, of a number of at most 0.5 in size. 0, or 27. */
jc_sum_reply jc_sine(double x);
jc_sum_reply jc_cosine(double x);
/* (u - cx) / fx, (v - cy) / fy. */
jc_pt2 jc_pixel_to_sensor(jc_intrinsics k, jc_pt2 pixel);
/* fx x + cx, fy y + cy. */
jc_pt2 jc_sensor_to_pixel(jc_intrinsics k, jc_pt2 sensor);
/* The homography from the sensor without tilt to the tilted one. With R the rotation about x, then y, it is P R, where P is
 * r22, 0, -r02; 0, r22, -r12; 0, 0, 1. */
jc_matrix jc_tilt_projection_matrix(jc_trig trig);
double jc_determinant(jc_matrix m);
/* The transposed cofactors, each divided by the determinant. */
jc_inverse_reply jc_inverse(jc_matrix m);
/* A point under a homography: h (x, y, 1), its first two numbers divided by the third. A third number that isn't above 1e-12 counts as 1e-12. */
jc_pt2 jc_apply_homography(jc_matrix h, jc_pt2 p);
/* The same for the inverse of a homography. Here a third number below -1e-12 divides as well. */
jc_pt2 jc_apply_homography_inverse(jc_matrix h_inv, jc_pt2 p);
/* The distorted point. The numbers are passed one by one, in registers, which is faster than a struct. */
jc_pt2 jc_distort_numbers(double k1, double k2, double k3, double p1, double p2, double x, double y);
static inline jc_pt2 jc_distort(jc_distortion b, jc_pt2 p) { return jc_distort_numbers(b.k1, b.k2, b.k3, b.p1, b.p2, p.x, p.y); }
jc_distorted_point jc_distort_with_jacobian(jc_distortion b, jc_pt2 p);
/* The point that is distorted to this one, by Newton's method with at most iters steps; 0 means 20. With numbers that no lens has, all steps may
 * be needed, so a call with iters near 2^32 can take long. */
jc_pt2 jc_undistort(jc_distortion b, uint32_t iters, jc_pt2 p);
/* Zhang's closed form: focal lengths and centre of the camera whose conic this is. 16 where no camera has it; a camera that is not finite isn't
 * refused. */
jc_camera_reply jc_conic_to_camera(jc_conic b);
/* Six numbers from which jc_conic_to_camera gives k back exactly; a zero may have the other sign. 34 where the four are not whole
 * numbers (focal lengths 1 to 256, centre -256 to 256) times one power of two from 1 to 256. */
jc_plate_reply jc_known_plate(jc_intrinsics k);

/* ---- lists of points ---- */

/* The pixels that a sensor without tilt would show. 0, or 17, 18, 15. As many numbers are written as points has. */
uint8_t jc_untilt_points(jc_intrinsics k, jc_trig trig, const double *points, size_t points_len, double *to, size_t to_len);
/* The pixels that a camera with neither tilt nor distortion would show. 0, or 17, 18, 15. iters is that of jc_undistort. */
uint8_t jc_ideal_points(jc_pinhole_camera camera, uint32_t iters, jc_trig trig, const double *points, size_t points_len,
                        double *to, size_t to_len);
/* The points moved and scaled so that their centroid is the origin and their mean distance from it is the root of 2. 17, 18, 19. */
jc_normalize_reply jc_normalize_points_2d(const double *points, size_t points_len, double *to, size_t to_len);
/* Whether all points lie on a line: the one through the first point and the next that is farther than 1e-9 from it. A point is off the line where
 * its cross product with these two is above 1e-6 in size. Points all in one place lie on a line; fewer than three points don't. 17 for an odd
 * length. */
jc_line_reply jc_points_are_collinear(const double *points, size_t points_len);
/* The design matrix of the homography h from source to destination, both normalised: for each pair of points (x, y) and (u, v) two rows of
 * nine numbers, -x, -y, -1, 0, 0, 0, u x, u y, u and 0, 0, 0, -x, -y, -1, v x, v y, v, whose products with h, row by row, should be 0.
 * 0, or 17, 18, 20 to 25. */
uint8_t jc_design_rows(const double *source, size_t source_len, const double *destination, size_t destination_len,
                       double *to, size_t to_len);
/* The centre of the finite pixels: half the greatest coordinates, or, where one is negative, the middle of their range; 0, 0 where there are
 * none. 17 for an odd length. */
jc_center_reply jc_observed_pixel_center(const double *pixels, size_t pixels_len);

/* ---- what a score is made of: mean error + distortion + tilt + centre ---- */

/* The distortion as it is scored: k1, k2, k3 become 0, and p1 and p2 are clamped to 0.05 in size. */
jc_distortion jc_damp_seed_distortion(jc_distortion distortion);
/* 0.25 (k1^2 + k2^2 + 0.25 k3^2 + p1^2 + p2^2). */
double jc_distortion_complexity(jc_distortion distortion);
/* 0.25 (tilt_x^2 + tilt_y^2). */
double jc_tilt_complexity(jc_scheimpflug_params sensor);
/* 0 times the squared distance between the camera's centre and the observed one, in focal lengths: 0, or NaN where that isn't finite. */
double jc_principal_point_complexity(jc_intrinsics k, jc_pt2 center);
/* The mean distance between projected and seen pixels. The camera is used as given, not damped. Rows have x, y (ideal point), u, v (seen pixel);
 * only rows with the flag 1 and a finite error count, and where none does the mean is infinity. The rows end at the shorter of the two lists.
 * Nothing is refused: a tilt whose determinant is 0 has some mean here. */
double jc_mean_reproj_error(jc_pinhole_camera camera, jc_trig trig, const double *rows, size_t rows_len, const uint8_t *flags,
                            size_t flags_len);
/* What the mean of an answer divides: the sum of the errors that count, and how many there are, as jc_answer has them. The camera is damped here,
 * and sines and cosines of the tilts come from the library's own series. 13, 27. */
jc_error_count_reply jc_count_errors(jc_pinhole_camera solved, jc_scheimpflug_params sensor, const double *rows, size_t rows_len,
                                     const uint8_t *flags, size_t flags_len);

/* ---- the search ---- */

/* Starts a run and writes round 0's seeds to the front of the list: the decomposition's, then the grid of the tilts (radians) with the base
 * camera. The list needs JC_LIST_LEN numbers, and the calls below have to be lent as many, or they refuse with 10. Where there are no
 * decomposition seeds, pass any array with the length 0. 0, or 1 to 8, or 27, 31, 32, 33. */
jc_start_flat jc_start(size_t views, jc_options options, const double *tilt_x_seeds, size_t tilt_x_seeds_len,
                       const double *tilt_y_seeds, size_t tilt_y_seeds_len, const double *decomposition, size_t decomposition_len,
                       jc_intrinsics base, jc_pt2 center, double *list, size_t list_len);
/* Hands out the list's next seed, as a candidate; or says that the run is over and has a result. 9, 10, 11. */
jc_next_flat jc_next(jc_run_record run, const double *list, size_t list_len);
/* Copies the waiting seed's six numbers to the front of `to`, and returns 6; 0 where no seed waits, or the list is too short. Where `to` has fewer
 * than six places it also returns 0, writes nothing, and says nothing about the run. */
size_t jc_seed(jc_run_record run, const double *list, size_t list_len, double *to, size_t to_len);
/* Takes the host's finding for the waiting seed. A round's last answer writes the next round's list. With is_solved 0 the host failed, and solved,
 * rows and flags are not read. Sines and cosines of the seed's tilts come from the library's own series. A row's flag is 1 for a point in front of
 * the camera, and otherwise 0. Of all rows, including those with the flag 0, min_counted per cent have to count, or the candidate is skipped with
 * JC_SKIP_NO_MEAN. 12, 10, 13, 27. */
jc_answer_flat jc_answer(jc_run_record run, uint8_t is_solved, jc_pinhole_camera solved, const double *rows, size_t rows_len,
                         const uint8_t *flags, size_t flags_len, double *list, size_t list_len);
/* The best candidate of a run that is over. 14, 11. */
jc_result_flat jc_result(jc_run_record run);
/* How far the run has come; once it is over, the last round's numbers. After round 0, with a step of this round from 1e-11 to 1, the total is
 * exactly the number of x tilts times the number of y tilts within the bound, out of x - s, x, x + s and y - s, y, y + s around the best of the
 * round before, each sum rounded. Nothing is refused; for a record that no call returned all numbers are 0. */
jc_progress_reply jc_progress(jc_run_record run);
/* The best so far, as jc_result gives it, and the floor: no candidate from the seeds left in this round can score below it, whichever camera the
 * host finds. It says nothing of later rounds. The call may be made at any time, while a seed waits and after the end too, and the run goes on
 * unchanged. The waiting seed counts as the run keeps it, the others as they stand in the list now; a penalty that isn't a number counts as
 * infinity. 10. */
jc_stop_flat jc_stop(jc_run_record run, const double *list, size_t list_len);
/* How many candidates were scored so far, and how many were skipped for each reason: as many as the run's journal has lines with S, H, C, E and N.
 * Neither the waiting seed nor a refused call is counted. Nothing is refused; for a record that no call returned all numbers are 0. */
jc_count_record jc_counts(jc_run_record run);

/* ---- the journal: a line for each answered candidate ---- */

/* The last answered candidate's line, if there is one. The run keeps only one, so write it before the next jc_answer. */
jc_last_line_record jc_last_line(jc_run_record run);
/* Writes the line to the front of `to`: 124 to 247 bytes, 17 fields with commas between them and a newline at the end: number, round, the seed's
 * six numbers, S or the skip's letter (H, C, E, N for 1 to 4), score, mean, fx, fy, cx, cy, p1, p2. Number and round are decimal, the others the
 * 16 hexadecimal digits of their bits, with 7ff8000000000000 for every NaN; after a skip's letter each field is a minus sign. 28 where `to` has
 * less than JC_LINE_LEN bytes, the number is above 655, the round above 16, skipped above 4, or the score of a scored line NaN. */
jc_write_flat jc_write_line(jc_line line, uint8_t *to, size_t to_len);
/* Writes a report to the front of `to`: 12 to 24 bytes, six decimal numbers with commas between them and a newline at the end: how many were
 * scored, how many were skipped for each of the reasons 1 to 4, and the total. 28 where `to` has less than JC_REPORT_LEN bytes or the total is
 * above JC_MOST_ANSWERS. */
jc_write_flat jc_write_report(jc_count_record counts, uint8_t *to, size_t to_len);
/* Reads the line at a position of a journal. At the journal's end, and beyond it, end is 1. 29 where the bytes there aren't, byte for byte, a line
 * that jc_write_line writes. */
jc_read_flat jc_read_line(const uint8_t *bytes, size_t bytes_len, size_t at);

/* Runs a journal again from jc_start's arguments, without a host, and gives the winner, or the seed that comes next after these answers.
 *
 * Each line is compared with the run: number, round and the seed's six numbers, bit by bit (any NaN equals any other). Of a scored line the camera
 * is checked too (finite, focal lengths above 0), p1 and p2 (at most 0.05 in size), the mean (finite, not below 0), and the score, which has to
 * be, bit by bit, the one that these numbers give. fx, fy, cx and cy of a line enter the score with weight 0, and of a skipped line nothing more
 * is checked: this doesn't authenticate a journal.
 *
 * It gives jc_start's refusals, after which the list is as it was lent. Then, line by line and with the line's number, it gives 29 where the bytes
 * aren't a line, and 30 where the line isn't the run's next answer or follows the end; after both the list is as the lines before left it. It
 * gives 11 where the run ended with nothing scored. After 11 and without a refusal the list is as all lines left it. */
jc_replay_flat jc_replay(size_t views, jc_options options, const double *tilt_x_seeds, size_t tilt_x_seeds_len,
                         const double *tilt_y_seeds, size_t tilt_y_seeds_len, const double *decomposition, size_t decomposition_len,
                         jc_intrinsics base, jc_pt2 center, const uint8_t *bytes, size_t bytes_len, double *list, size_t list_len);
/* Goes on from a journal that stops anywhere, as a power loss leaves it. It keeps the longest front of whole lines that jc_replay accepts, and
 * gives the run and the list as these lines leave them, with no seed waiting. Pass them to jc_next. Cut the file to the kept bytes before you add
 * a line. A run that is over is given back too. jc_start's refusals, after which the list is as it was lent. */
jc_resume_flat jc_resume(size_t views, jc_options options, const double *tilt_x_seeds, size_t tilt_x_seeds_len,
                         const double *tilt_y_seeds, size_t tilt_y_seeds_len, const double *decomposition, size_t decomposition_len,
                         jc_intrinsics base, jc_pt2 center, const uint8_t *bytes, size_t bytes_len, double *list, size_t list_len);
/* The winner of two stretches of a run, from the winner of each, the earlier stretch first. The lower score wins, and of equal scores the first.
 * Where found is 0 in one, the other wins; a score that is NaN loses to every number. However a run's answers are cut into stretches, and however
 * these are grouped, the winner of their winners is the run's. */
jc_best_record jc_winner(jc_best_record first, jc_best_record second);

/* ---- for tests only: each returns its struct unchanged, so that a test sees whether both sides lay it out alike ---- */

jc_pt2 jc_echo_pt2(jc_pt2 x);
jc_intrinsics jc_echo_intrinsics(jc_intrinsics x);
jc_distortion jc_echo_distortion(jc_distortion x);
jc_jacobian jc_echo_jacobian(jc_jacobian x);
jc_distorted_point jc_echo_distorted_point(jc_distorted_point x);
jc_scheimpflug_params jc_echo_scheimpflug_params(jc_scheimpflug_params x);
jc_trig jc_echo_trig(jc_trig x);
jc_pinhole_camera jc_echo_pinhole_camera(jc_pinhole_camera x);
jc_sum_reply jc_echo_sum_reply(jc_sum_reply x);
jc_conic jc_echo_conic(jc_conic x);
jc_candidate_seed jc_echo_candidate_seed(jc_candidate_seed x);
jc_candidate jc_echo_candidate(jc_candidate x);
jc_options jc_echo_options(jc_options x);
jc_matrix jc_echo_matrix(jc_matrix x);
jc_inverse_reply jc_echo_inverse_reply(jc_inverse_reply x);
jc_camera_reply jc_echo_camera_reply(jc_camera_reply x);
jc_error_count_reply jc_echo_error_count_reply(jc_error_count_reply x);
jc_plate_reply jc_echo_plate_reply(jc_plate_reply x);
jc_normalize_reply jc_echo_normalize_reply(jc_normalize_reply x);
jc_line_reply jc_echo_line_reply(jc_line_reply x);
jc_center_reply jc_echo_center_reply(jc_center_reply x);
jc_place_record jc_echo_place_record(jc_place_record x);
jc_waiting_record jc_echo_waiting_record(jc_waiting_record x);
jc_best_record jc_echo_best_record(jc_best_record x);
jc_line jc_echo_line(jc_line x);
jc_last_line_record jc_echo_last_line_record(jc_last_line_record x);
jc_write_flat jc_echo_write_flat(jc_write_flat x);
jc_read_flat jc_echo_read_flat(jc_read_flat x);
jc_count_record jc_echo_count_record(jc_count_record x);
jc_replay_flat jc_echo_replay_flat(jc_replay_flat x);
jc_resume_flat jc_echo_resume_flat(jc_resume_flat x);
jc_run_record jc_echo_run_record(jc_run_record x);
jc_start_flat jc_echo_start_flat(jc_start_flat x);
jc_next_flat jc_echo_next_flat(jc_next_flat x);
jc_answer_flat jc_echo_answer_flat(jc_answer_flat x);
jc_result_flat jc_echo_result_flat(jc_result_flat x);
jc_progress_reply jc_echo_progress_reply(jc_progress_reply x);
jc_stop_flat jc_echo_stop_flat(jc_stop_flat x);

#ifdef __cplusplus
}
#endif

/* ---- sizes and offsets ---- */

#ifdef __cplusplus
#define JC_ASSERT(claim) static_assert(claim, #claim)
#else
#define JC_ASSERT(claim) _Static_assert(claim, #claim)
#endif

JC_ASSERT(sizeof(jc_pt2) == 16);
JC_ASSERT(offsetof(jc_pt2, y) == 8);
JC_ASSERT(sizeof(jc_intrinsics) == 32);
JC_ASSERT(offsetof(jc_intrinsics, fy) == 8);
JC_ASSERT(offsetof(jc_intrinsics, cx) == 16);
JC_ASSERT(offsetof(jc_intrinsics, cy) == 24);
JC_ASSERT(sizeof(jc_distortion) == 40);
JC_ASSERT(offsetof(jc_distortion, k2) == 8);
JC_ASSERT(offsetof(jc_distortion, k3) == 16);
JC_ASSERT(offsetof(jc_distortion, p1) == 24);
JC_ASSERT(offsetof(jc_distortion, p2) == 32);
JC_ASSERT(sizeof(jc_jacobian) == 32);
JC_ASSERT(offsetof(jc_jacobian, xy) == 8);
JC_ASSERT(offsetof(jc_jacobian, yx) == 16);
JC_ASSERT(offsetof(jc_jacobian, yy) == 24);
JC_ASSERT(sizeof(jc_distorted_point) == 48);
JC_ASSERT(offsetof(jc_distorted_point, jacobian) == 16);
JC_ASSERT(sizeof(jc_scheimpflug_params) == 16);
JC_ASSERT(offsetof(jc_scheimpflug_params, tilt_y) == 8);
JC_ASSERT(sizeof(jc_trig) == 32);
JC_ASSERT(offsetof(jc_trig, cos_x) == 8);
JC_ASSERT(offsetof(jc_trig, sin_y) == 16);
JC_ASSERT(offsetof(jc_trig, cos_y) == 24);
JC_ASSERT(sizeof(jc_pinhole_camera) == 72);
JC_ASSERT(offsetof(jc_pinhole_camera, dist) == 32);
JC_ASSERT(sizeof(jc_sum_reply) == 16);
JC_ASSERT(offsetof(jc_sum_reply, value) == 8);
JC_ASSERT(sizeof(jc_conic) == 48);
JC_ASSERT(offsetof(jc_conic, b12) == 8);
JC_ASSERT(offsetof(jc_conic, b22) == 16);
JC_ASSERT(offsetof(jc_conic, b13) == 24);
JC_ASSERT(offsetof(jc_conic, b23) == 32);
JC_ASSERT(offsetof(jc_conic, b33) == 40);
JC_ASSERT(sizeof(jc_candidate_seed) == 48);
JC_ASSERT(offsetof(jc_candidate_seed, sensor) == 32);
JC_ASSERT(sizeof(jc_candidate) == 112);
JC_ASSERT(offsetof(jc_candidate, camera) == 8);
JC_ASSERT(offsetof(jc_candidate, sensor) == 80);
JC_ASSERT(offsetof(jc_candidate, mean_reproj_error) == 96);
JC_ASSERT(offsetof(jc_candidate, score) == 104);
JC_ASSERT(sizeof(jc_options) == 40);
JC_ASSERT(offsetof(jc_options, refine_step) == 8);
JC_ASSERT(offsetof(jc_options, max_abs_tilt) == 16);
JC_ASSERT(offsetof(jc_options, one_axis) == 24);
JC_ASSERT(offsetof(jc_options, min_counted) == 32);
JC_ASSERT(sizeof(jc_matrix) == 72);
JC_ASSERT(offsetof(jc_matrix, m01) == 8);
JC_ASSERT(offsetof(jc_matrix, m02) == 16);
JC_ASSERT(offsetof(jc_matrix, m10) == 24);
JC_ASSERT(offsetof(jc_matrix, m11) == 32);
JC_ASSERT(offsetof(jc_matrix, m12) == 40);
JC_ASSERT(offsetof(jc_matrix, m20) == 48);
JC_ASSERT(offsetof(jc_matrix, m21) == 56);
JC_ASSERT(offsetof(jc_matrix, m22) == 64);
JC_ASSERT(sizeof(jc_inverse_reply) == 80);
JC_ASSERT(offsetof(jc_inverse_reply, inverse) == 8);
JC_ASSERT(sizeof(jc_camera_reply) == 40);
JC_ASSERT(offsetof(jc_camera_reply, camera) == 8);
JC_ASSERT(sizeof(jc_error_count_reply) == 24);
JC_ASSERT(offsetof(jc_error_count_reply, sum) == 8);
JC_ASSERT(offsetof(jc_error_count_reply, counted) == 16);
JC_ASSERT(sizeof(jc_plate_reply) == 56);
JC_ASSERT(offsetof(jc_plate_reply, conic) == 8);
JC_ASSERT(sizeof(jc_normalize_reply) == 32);
JC_ASSERT(offsetof(jc_normalize_reply, t00) == 8);
JC_ASSERT(offsetof(jc_normalize_reply, t02) == 16);
JC_ASSERT(offsetof(jc_normalize_reply, t12) == 24);
JC_ASSERT(sizeof(jc_line_reply) == 2);
JC_ASSERT(offsetof(jc_line_reply, collinear) == 1);
JC_ASSERT(sizeof(jc_center_reply) == 24);
JC_ASSERT(offsetof(jc_center_reply, center) == 8);
JC_ASSERT(sizeof(jc_place_record) == 56);
JC_ASSERT(offsetof(jc_place_record, round) == 8);
JC_ASSERT(offsetof(jc_place_record, step) == 16);
JC_ASSERT(offsetof(jc_place_record, len) == 24);
JC_ASSERT(offsetof(jc_place_record, at) == 32);
JC_ASSERT(offsetof(jc_place_record, number) == 40);
JC_ASSERT(offsetof(jc_place_record, over) == 48);
JC_ASSERT(sizeof(jc_waiting_record) == 56);
JC_ASSERT(offsetof(jc_waiting_record, seed) == 8);
JC_ASSERT(sizeof(jc_best_record) == 120);
JC_ASSERT(offsetof(jc_best_record, candidate) == 8);
JC_ASSERT(sizeof(jc_line) == 136);
JC_ASSERT(offsetof(jc_line, round) == 8);
JC_ASSERT(offsetof(jc_line, seed) == 16);
JC_ASSERT(offsetof(jc_line, skipped) == 64);
JC_ASSERT(offsetof(jc_line, score) == 72);
JC_ASSERT(offsetof(jc_line, mean) == 80);
JC_ASSERT(offsetof(jc_line, k) == 88);
JC_ASSERT(offsetof(jc_line, p1) == 120);
JC_ASSERT(offsetof(jc_line, p2) == 128);
JC_ASSERT(sizeof(jc_last_line_record) == 144);
JC_ASSERT(offsetof(jc_last_line_record, line) == 8);
JC_ASSERT(sizeof(jc_write_flat) == 16);
JC_ASSERT(offsetof(jc_write_flat, len) == 8);
JC_ASSERT(sizeof(jc_read_flat) == 160);
JC_ASSERT(offsetof(jc_read_flat, end) == 1);
JC_ASSERT(offsetof(jc_read_flat, line_number) == 8);
JC_ASSERT(offsetof(jc_read_flat, line) == 16);
JC_ASSERT(offsetof(jc_read_flat, next) == 152);
JC_ASSERT(sizeof(jc_replay_flat) == 80);
JC_ASSERT(offsetof(jc_replay_flat, is_over) == 1);
JC_ASSERT(offsetof(jc_replay_flat, line_number) == 8);
JC_ASSERT(offsetof(jc_replay_flat, candidate) == 16);
JC_ASSERT(offsetof(jc_replay_flat, score) == 24);
JC_ASSERT(offsetof(jc_replay_flat, next) == 32);
JC_ASSERT(sizeof(jc_resume_flat) == 624);
JC_ASSERT(offsetof(jc_resume_flat, ended_by) == 1);
JC_ASSERT(offsetof(jc_resume_flat, lines) == 8);
JC_ASSERT(offsetof(jc_resume_flat, kept) == 16);
JC_ASSERT(offsetof(jc_resume_flat, dropped) == 24);
JC_ASSERT(offsetof(jc_resume_flat, run) == 32);
JC_ASSERT(sizeof(jc_count_record) == 40);
JC_ASSERT(offsetof(jc_count_record, host_failed) == 8);
JC_ASSERT(offsetof(jc_count_record, bad_camera) == 16);
JC_ASSERT(offsetof(jc_count_record, no_mean) == 24);
JC_ASSERT(offsetof(jc_count_record, no_number) == 32);
JC_ASSERT(sizeof(jc_run_record) == 592);
JC_ASSERT(offsetof(jc_run_record, center) == 40);
JC_ASSERT(offsetof(jc_run_record, place) == 56);
JC_ASSERT(offsetof(jc_run_record, waiting) == 112);
JC_ASSERT(offsetof(jc_run_record, round_best) == 168);
JC_ASSERT(offsetof(jc_run_record, run_best) == 288);
JC_ASSERT(offsetof(jc_run_record, last) == 408);
JC_ASSERT(offsetof(jc_run_record, counts) == 552);
JC_ASSERT(sizeof(jc_start_flat) == 600);
JC_ASSERT(offsetof(jc_start_flat, run) == 8);
JC_ASSERT(sizeof(jc_next_flat) == 608);
JC_ASSERT(offsetof(jc_next_flat, over) == 1);
JC_ASSERT(offsetof(jc_next_flat, candidate) == 8);
JC_ASSERT(offsetof(jc_next_flat, run) == 16);
JC_ASSERT(sizeof(jc_answer_flat) == 608);
JC_ASSERT(offsetof(jc_answer_flat, skipped) == 1);
JC_ASSERT(offsetof(jc_answer_flat, score) == 8);
JC_ASSERT(offsetof(jc_answer_flat, run) == 16);
JC_ASSERT(sizeof(jc_result_flat) == 120);
JC_ASSERT(offsetof(jc_result_flat, candidate) == 8);
JC_ASSERT(sizeof(jc_progress_reply) == 40);
JC_ASSERT(offsetof(jc_progress_reply, rounds) == 8);
JC_ASSERT(offsetof(jc_progress_reply, answered) == 16);
JC_ASSERT(offsetof(jc_progress_reply, total) == 24);
JC_ASSERT(offsetof(jc_progress_reply, answered_in_run) == 32);
JC_ASSERT(sizeof(jc_stop_flat) == 128);
JC_ASSERT(offsetof(jc_stop_flat, has_best) == 1);
JC_ASSERT(offsetof(jc_stop_flat, has_floor) == 2);
JC_ASSERT(offsetof(jc_stop_flat, no_gain) == 3);
JC_ASSERT(offsetof(jc_stop_flat, best) == 8);
JC_ASSERT(offsetof(jc_stop_flat, floor) == 120);

#undef JC_ASSERT

#endif
