/* What the header says in words, tested: compiled as C11 and as C++17, and run. */
#include "jinnychair.h"
#include <math.h>
#include <stdio.h>
#include <string.h>

static int failed = 0;

static void claim(int holds, const char *words) {
    if (!holds) {
        printf("not so: %s\n", words);
        failed = 1;
    }
}

static int same(double a, double b) { return memcmp(&a, &b, sizeof a) == 0; }

static const jc_intrinsics K = {1000.0, 900.0, 640.0, 480.0};
static const jc_trig LEVEL = {0.0, 1.0, 0.0, 1.0};
static const double TILTS[] = {-0.01, 0.01};

static void geometry(void) {
    jc_distortion b = {-0.2, 0.04, 0.01, 0.001, -0.002};
    jc_pt2 p = {0.3, -0.2};
    jc_pt2 inlined = jc_distort(b, p), called = jc_distort_numbers(b.k1, b.k2, b.k3, b.p1, b.p2, p.x, p.y);
    claim(same(inlined.x, called.x) && same(inlined.y, called.y), "jc_distort is jc_distort_numbers");
    jc_pt2 of_none = jc_undistort(b, 0, p), of_twenty = jc_undistort(b, 20, p);
    claim(same(of_none.x, of_twenty.x) && same(of_none.y, of_twenty.y), "0 steps mean 20");

    claim(jc_sine(0.5).number == 0 && same(jc_sine(-0.0).value, -0.0) && jc_cosine(-0.0).value == 1, "0.5 has a sine, and zeros give themselves and 1");
    claim(jc_sine(0.51).number == JC_TILT_TOO_LARGE && jc_cosine(NAN).number == JC_TILT_TOO_LARGE, "27 beyond 0.5");
    jc_matrix h = {1, 0, 0, 0, 1, 0, 0, 0, -2};
    claim(jc_apply_homography(h, p).x == 0.3 / 1e-12, "forward a third number below 0 counts as 1e-12");
    claim(jc_apply_homography_inverse(h, p).x == 0.3 / -2, "backward it is divided by");
    jc_matrix none = {0, 0, 0, 0, 0, 0, 0, 0, 0};
    jc_inverse_reply refused = jc_inverse(none);
    claim(refused.number == JC_SINGULAR_TILT && refused.inverse.m00 == 0, "a refusal's other fields are 0");

    const double line[] = {0, 0, 1, 1, 2, 2, 3, 3}, square[] = {0, 0, 1, 0, 1, 1, 0, 1};
    claim(jc_points_are_collinear(line, 8).collinear == 1, "a line is one");
    claim(jc_points_are_collinear(line, 4).collinear == 0, "two points aren't a line");
    claim(jc_points_are_collinear(line, 7).number == JC_BAD_POINTS, "an odd length is 17");
    double rows[4 * JC_DESIGN_NUMBERS + 1];
    rows[4 * JC_DESIGN_NUMBERS] = 7.0;
    claim(jc_design_rows(square, 8, square, 8, rows, 4 * JC_DESIGN_NUMBERS + 1) == 0, "a square has design rows");
    claim(rows[2] == -1 && rows[3] == 0 && rows[9] == 0 && rows[14] == -1, "-x, -y, -1, 0, 0, 0, ... and 0, 0, 0, -x, -y, -1, ...");
    claim(rows[4 * JC_DESIGN_NUMBERS] == 7.0, "the rest of a destination stays");
    claim(jc_design_rows(line, 8, square, 8, rows, sizeof rows / 8) == JC_SOURCE_COLLINEAR, "a line has none");
    claim(rows[2] == -1, "a refusal writes nothing");
    const double pixels[] = {2, 4, 10, 6}, signed_pixels[] = {-2, 4, 10, 6};
    claim(jc_observed_pixel_center(pixels, 4).center.x == 5, "half the greatest coordinate");
    claim(jc_observed_pixel_center(signed_pixels, 4).center.x == 4, "the middle of the range where one is negative");
    jc_conic conic = {1, 0, 1, -3, -1, 14};
    claim(jc_conic_to_camera(conic).camera.cx == 3, "a conic's camera");
}

static void scores(void) {
    jc_distortion d = {1, 2, 3, 0.3, -0.3};
    jc_distortion damped = jc_damp_seed_distortion(d);
    claim(damped.k1 == 0 && damped.p1 == 0.05 && damped.p2 == -0.05, "damping");
    jc_scheimpflug_params tilts = {0.5, 0};
    claim(jc_tilt_complexity(tilts) == 0.0625, "0.25 (tilt_x^2 + tilt_y^2)");
    jc_pt2 nowhere = {INFINITY, 0};
    claim(isnan(jc_principal_point_complexity(K, nowhere)), "a centre that isn't finite is NaN");
    jc_pinhole_camera camera = {K, {0, 0, 0, 0, 0}};
    const double row[] = {0, 0, 643, 484};
    const uint8_t on[] = {1, 1}, off[] = {0};
    claim(jc_mean_reproj_error(camera, LEVEL, row, 4, on, 2) == 5, "the mean ends at the shorter list");
    claim(jc_mean_reproj_error(camera, LEVEL, row, 4, off, 1) == INFINITY, "none counted is infinity");
    jc_trig singular = {1, 0, 0, 1};
    claim(!isnan(jc_mean_reproj_error(camera, singular, row, 4, on, 1)), "the mean refuses no tilt");
}

static void search(void) {
    jc_options options = {1, 0.005, 0.02, 0, 0};
    jc_pt2 center = {640, 480};
    double list[JC_MOST_LIST], seed[JC_SEED_NUMBERS];
    size_t len = JC_LIST_LEN(0, 2, 2);
    claim(len == 54, "nine seeds at least");
    jc_start_flat s = jc_start(3, options, TILTS, 2, TILTS, 2, TILTS, 0, K, center, list, len);
    claim(s.number == 0 && s.run.place.len == 4, "an empty decomposition is any array with the length 0");
    claim(jc_start(3, options, TILTS, 2, TILTS, 2, TILTS, 0, K, center, list, len - 1).number == JC_LIST_TOO_SHORT, "8");
    jc_options degrees = {1, 0.005, 3.0, 0, 0};
    claim(jc_start(3, degrees, TILTS, 2, TILTS, 2, TILTS, 0, K, center, list, len).number == JC_TILT_TOO_LARGE, "27");
    claim(jc_next(s.run, list, len - 1).number == JC_LIST_SHORTENED, "10");
    claim(jc_result(s.run).number == JC_NOT_OVER, "14");

    jc_next_flat n = jc_next(s.run, list, len);
    claim(n.number == 0 && n.over == 0 && n.candidate == 0, "candidate 0");
    claim(jc_seed(n.run, list, len, seed, 5) == 0 && jc_seed(n.run, list, len, seed, 6) == 6, "a seed needs room for six");
    claim(seed[0] == K.fx && seed[4] == -0.01, "fx, fy, cx, cy, tilt x, tilt y");
    jc_run_record odd = n.run;
    odd.waiting.is_waiting = 7;
    claim(jc_next(odd, list, len).number == JC_SEED_WAITING, "a record's flag is read as 0 or not 0");
    claim(jc_next(odd, list, len).run.waiting.is_waiting == 1, "and written as 0 or 1");

    jc_pinhole_camera solved = {K, {0, 0, 0, 0, 0}};
    const double row[] = {0, 0, 643, 484};
    const uint8_t one[] = {1}, two[] = {2};
    claim(jc_answer(n.run, 1, solved, row, 4, two, 1, list, len).number == JC_BAD_ROWS, "a row's flag of 2 is 13");
    claim(jc_answer(n.run, 0, solved, row, 3, two, 1, list, len).skipped == JC_SKIP_HOST_FAILED, "after a failure no row is read");
    jc_answer_flat a = jc_answer(n.run, 9, solved, row, 4, one, 1, list, len);
    claim(a.number == 0 && a.skipped == 0 && a.score > 5, "any is_solved but 0 is solved");
    claim(jc_answer(a.run, 1, solved, row, 4, one, 1, list, len).number == JC_NO_SEED_WAITING, "12");
}

static void one_axis(void) {
    jc_options options = {1, 0.005, 0.02, 7, 0};
    jc_pt2 center = {640, 480};
    const double level[] = {-0.0}, leaning[] = {1000, 900, 640, 480, 0, 0.01};
    double list[54];
    jc_start_flat s = jc_start(3, options, TILTS, 2, level, 1, TILTS, 0, K, center, list, 54);
    claim(s.number == 0 && s.run.place.len == 2 && s.run.options.one_axis == 1, "any one_axis but 0 is one axis");
    claim(same(list[5], -0.0), "round 0 keeps the sign of a zero");
    claim(jc_start(3, options, TILTS, 2, TILTS, 2, TILTS, 0, K, center, list, 54).number == JC_TILTS_OFF_AXIS, "31");
    claim(jc_start(3, options, TILTS, 2, level, 1, leaning, 6, K, center, list, 54).number == JC_SEED_OFF_AXIS, "32");

    jc_run_record run = s.run;
    jc_pinhole_camera solved = {K, {0, 0, 0, 0, 0}};
    const double row[] = {0, 0, 643, 484};
    const uint8_t one[] = {1};
    for (int i = 0; i < 2; i++) run = jc_answer(jc_next(run, list, 54).run, 1, solved, row, 4, one, 1, list, 54).run;
    claim(run.place.round == 1 && run.place.len == 3, "a later round has three seeds");
    claim(jc_progress(run).total == 3 && jc_progress(run).round == 1, "as the progress says");
    claim(list[4] == -0.01 - 0.005 && list[10] == -0.01 && list[16] == -0.01 + 0.005, "x - step, x, x + step");
    claim(same(list[5], 0.0) && same(list[11], 0.0) && same(list[17], 0.0), "with a tilt y of 0");
}

static void progress(void) {
    jc_options options = {1, 0.005, 0.01, 0, 0};
    jc_pt2 center = {640, 480};
    double list[54];
    jc_run_record run = jc_start(3, options, TILTS, 2, TILTS, 2, TILTS, 0, K, center, list, 54).run;
    jc_pinhole_camera solved = {K, {0, 0, 0, 0, 0}};
    const double row[] = {0, 0, 643, 484};
    const uint8_t one[] = {1};
    for (size_t i = 0; i < 4; i++) {
        jc_progress_reply p = jc_progress(run);
        claim(p.round == 0 && p.rounds == 1 && p.answered == i && p.total == 4 && p.answered_in_run == i, "each answer counts");
        run = jc_next(run, list, 54).run;
        claim(jc_progress(run).answered == i, "a seed that waits doesn't");
        run = jc_answer(run, 1, solved, row, 4, one, 1, list, 54).run;
    }
    jc_progress_reply p = jc_progress(run);
    claim(p.round == 1 && p.answered == 0 && p.total == 2 * 2 && p.answered_in_run == 4, "two tilts of each axis are within the bound");
    while (!run.place.over) run = jc_answer(jc_next(run, list, 54).run, 1, solved, row, 4, one, 1, list, 54).run;
    p = jc_progress(run);
    claim(p.round == 1 && p.answered == 4 && p.total == 4 && p.answered_in_run == 8, "at the end the last round's numbers");
    run.place.len = JC_MOST_LIST;
    p = jc_progress(run);
    claim(p.round + p.rounds + p.answered + p.total + p.answered_in_run == 0, "a record that no call returned has zeros");
}

static void stop(void) {
    jc_options options = {0, 0, 0.02, 0, 0};
    jc_pt2 center = {640, 480};
    const double tilts[] = {0, 0.01, 0.02};
    double list[54];
    jc_run_record run = jc_start(3, options, tilts, 3, tilts, 1, tilts, 0, K, center, list, 54).run;
    claim(jc_stop(run, list, 53).number == JC_LIST_SHORTENED, "10 of the stop");
    jc_stop_flat s = jc_stop(run, list, 54);
    claim(s.number == 0 && s.has_best == 0 && s.has_floor == 1 && s.floor == 0 && s.no_gain == 0, "no best yet, and a floor of 0");
    jc_pinhole_camera solved = {K, {0, 0, 0, 0, 0}};
    const double row[] = {0, 0, 640, 480};
    const uint8_t one[] = {1};
    run = jc_next(run, list, 54).run;
    list[4] = 0.02;
    claim(jc_stop(run, list, 54).floor == 0, "the waiting seed counts as it was handed out");
    run = jc_answer(run, 1, solved, row, 4, one, 1, list, 54).run;
    s = jc_stop(run, list, 54);
    claim(s.has_best == 1 && s.best.score == 0 && s.best.number == 0, "the best so far, as jc_result gives it");
    claim(s.has_floor == 1 && s.floor == 0.25 * (0.01 * 0.01) && s.no_gain == 1, "a floor not below the best's score: nothing to gain");
    while (!run.place.over) run = jc_answer(jc_next(run, list, 54).run, 1, solved, row, 4, one, 1, list, 54).run;
    s = jc_stop(run, list, 54);
    claim(s.number == 0 && s.has_best == 1 && s.has_floor == 0 && s.floor == 0 && s.no_gain == 0, "nothing is left at the end");
}

static void counted(void) {
    jc_pt2 center = {640, 480};
    double list[54];
    jc_pinhole_camera solved = {K, {9, 9, 9, 0, 0}};
    jc_scheimpflug_params level = {0, 0}, beyond = {0.6, 0};
    const double rows[] = {0, 0, 643, 484, 0, 0, 643, 484, 0, 0, 646, 488};
    const uint8_t two_of_three[] = {1, 0, 1};
    jc_error_count_reply e = jc_count_errors(solved, level, rows, 12, two_of_three, 3);
    claim(e.number == 0 && e.sum == 5 + 10 && e.counted == 2, "sum and count of the rows in front, the camera damped");
    claim(jc_count_errors(solved, level, rows, 11, two_of_three, 3).number == JC_BAD_ROWS, "13 as an answer");
    claim(jc_count_errors(solved, beyond, rows, 12, two_of_three, 3).number == JC_TILT_TOO_LARGE, "27 as an answer");
    for (size_t share = 66; share <= 67; share++) {
        jc_options options = {0, 0, 0.02, 0, share};
        jc_run_record run = jc_start(3, options, TILTS, 2, TILTS, 2, TILTS, 0, K, center, list, 54).run;
        run = jc_next(run, list, 54).run;
        jc_answer_flat a = jc_answer(run, 1, solved, rows, 12, two_of_three, 3, list, 54);
        claim(a.number == 0 && a.skipped == (share == 66 ? 0 : JC_SKIP_NO_MEAN), "two of three rows are 66 per cent, and not 67");
    }
    jc_options all = {0, 0, 0.02, 0, 100}, more = {0, 0, 0.02, 0, 101};
    claim(jc_start(3, all, TILTS, 2, TILTS, 2, TILTS, 0, K, center, list, 54).number == 0, "100 per cent");
    claim(jc_start(3, more, TILTS, 2, TILTS, 2, TILTS, 0, K, center, list, 54).number == JC_SHARE_TOO_LARGE, "33");
}

static int as_text(const uint8_t *bytes, size_t len, const char *text) { return len == strlen(text) && memcmp(bytes, text, len) == 0; }

static void counts(void) {
    jc_options options = {0, 0, 0.02, 0, 0};
    jc_pt2 center = {640, 480};
    double list[54];
    jc_run_record run = jc_start(3, options, TILTS, 2, TILTS, 2, TILTS, 0, K, center, list, 54).run;
    jc_count_record c = jc_counts(run);
    claim(c.scored + c.host_failed + c.bad_camera + c.no_mean + c.no_number == 0, "counts start at 0");
    jc_pinhole_camera solved = {K, {0, 0, 0, 0, 0}}, bad = {{0, 0, 0, 0}, {0, 0, 0, 0, 0}};
    const double row[] = {0, 0, 643, 484};
    const uint8_t one[] = {1}, none[] = {0}, two[] = {2};
    run = jc_next(run, list, 54).run;
    claim(jc_counts(run).scored == 0, "a seed that waits counts nowhere");
    claim(jc_counts(jc_answer(run, 1, solved, row, 4, two, 1, list, 54).run).scored == 0, "nor does a refused call");
    run = jc_answer(run, 1, solved, row, 4, one, 1, list, 54).run;
    run = jc_answer(jc_next(run, list, 54).run, 0, solved, row, 4, one, 1, list, 54).run;
    run = jc_answer(jc_next(run, list, 54).run, 1, bad, row, 4, one, 1, list, 54).run;
    run = jc_answer(jc_next(run, list, 54).run, 1, solved, row, 4, none, 1, list, 54).run;
    c = jc_counts(run);
    claim(c.scored == 1 && c.host_failed == 1 && c.bad_camera == 1 && c.no_mean == 1 && c.no_number == 0, "one of each");

    uint8_t to[JC_REPORT_LEN + 1];
    memset(to, 7, sizeof to);
    jc_write_flat w = jc_write_report(c, to, JC_REPORT_LEN);
    claim(w.number == 0 && as_text(to, w.len, "1,1,1,1,0,4\n") && to[w.len] == 7, "the report, and the rest stays");
    claim(jc_write_report(c, to, JC_REPORT_LEN - 1).number == JC_NOT_WRITABLE && to[0] == '1', "28 below 24 bytes, and nothing is written");
    jc_count_record longest = {100, 100, 100, 100, 100}, most = {656, 0, 0, 0, 0}, more = {656, 0, 0, 0, 1}, wrapped = {SIZE_MAX, 1, 0, 0, 0};
    w = jc_write_report(longest, to, JC_REPORT_LEN);
    claim(as_text(to, w.len, "100,100,100,100,100,500\n"), "24 bytes are enough");
    claim(jc_write_report(most, to, JC_REPORT_LEN).number == 0, "a total of JC_MOST_ANSWERS");
    claim(jc_write_report(more, to, JC_REPORT_LEN).number == JC_NOT_WRITABLE, "28 above it");
    w = jc_write_report(wrapped, to, JC_REPORT_LEN);
    claim(w.number == JC_NOT_WRITABLE && w.len == 0, "a total doesn't wrap round");

    run.counts.scored = 2;
    claim(jc_counts(run).scored == 0 && jc_next(run, list, 54).number == JC_NOTHING_SCORED, "counts that don't add up: no call returned this record");
    run.counts.scored = (size_t)1 + SIZE_MAX / 2 + 1;
    run.counts.host_failed = (size_t)1 + SIZE_MAX / 2 + 1;
    claim(jc_counts(run).scored == 0 && jc_next(run, list, 54).number == JC_NOTHING_SCORED, "nor where they do so only by wrapping round");
}

static const jc_options SHORT = {1, 0.005, 0.02, 1, 0};
static const jc_pt2 CENTER = {640, 480};
static const double LEVEL_TILT[] = {0};

/* A search of two tilts and a round of three, with the journal's five lines; ends[i] is where line i ends. */
typedef struct {
    jc_run_record run;
    double list[54];
    uint8_t bytes[5 * JC_LINE_LEN];
    size_t ends[6], len;
} journaled;

/* Answers until the run is over: an error of one pixel per 0.001 radians from 0.006. */
static void go_on(journaled *j, size_t answered) {
    jc_pinhole_camera solved = {{1001.0, 900, 640, 480}, {0, 0, 0, 0.01, 0}};
    const uint8_t one[] = {1};
    for (; answered < 5; answered++) {
        jc_run_record run = jc_next(j->run, j->list, 54).run;
        const double row[] = {0, 0, 640 + fabs(run.waiting.seed.sensor.tilt_x - 0.006) * 1000, 480};
        j->run = jc_answer(run, 1, solved, row, 4, one, 1, j->list, 54).run;
        uint8_t *to = j->bytes + j->ends[answered];
        jc_write_flat w = jc_write_line(jc_last_line(j->run).line, to, JC_LINE_LEN);
        j->len = j->ends[answered + 1] = j->ends[answered] + w.len;
    }
}

static journaled searched(void) {
    journaled j;
    memset(&j, 0, sizeof j);
    j.run = jc_start(3, SHORT, TILTS, 2, LEVEL_TILT, 1, TILTS, 0, K, CENTER, j.list, 54).run;
    go_on(&j, 0);
    return j;
}

static jc_replay_flat replayed(const uint8_t *bytes, size_t len, double *list) {
    return jc_replay(3, SHORT, TILTS, 2, LEVEL_TILT, 1, TILTS, 0, K, CENTER, bytes, len, list, 54);
}

static void replay(void) {
    journaled j = searched();
    jc_candidate winner = jc_result(j.run).candidate;
    double list[54] = {7}, before[54];
    jc_replay_flat r = replayed(j.bytes, j.len, list);
    claim(r.number == 0 && r.is_over == 1 && r.candidate == winner.number && same(r.score, winner.score), "a journal's winner is the search's");
    claim(r.line_number == 0 && r.next.reference_k.fx == 0 && memcmp(list, j.list, 18 * sizeof *list) == 0, "the list is as all lines left it");
    r = replayed(j.bytes, 0, list);
    claim(r.number == 0 && r.is_over == 0 && r.candidate == 0 && r.next.sensor.tilt_x == -0.01, "where the lines run out, the seed that comes next");
    r = replayed(j.bytes, j.ends[2], before);
    claim(r.number == 0 && r.next.reference_k.fx == 1001 && r.next.sensor.tilt_x == 0.01 - 0.005, "at a round's end that of the next list");
    r = replayed(j.bytes, j.ends[3] - 1, list);
    claim(r.number == JC_NOT_A_LINE && r.line_number == 3 && r.score == 0 && r.next.reference_k.fx == 0, "29 with the line's number");
    claim(memcmp(list, before, sizeof *list * 18) == 0, "and the list as the lines before left it");
    r = replayed(j.bytes + j.ends[1], j.ends[2] - j.ends[1], list);
    claim(r.number == JC_NOT_THE_RUN && r.line_number == 1 && list[4] == -0.01, "30 with the line's number");
    list[0] = 7;
    r = jc_replay(2, SHORT, TILTS, 2, LEVEL_TILT, 1, TILTS, 0, K, CENTER, j.bytes, j.len, list, 54);
    claim(r.number == JC_TOO_FEW_VIEWS && r.line_number == 0 && list[0] == 7, "Start's own refusals come first, and leave the list");
    jc_options narrow = {1, 0.005, 0.001, 1, 0};
    r = jc_replay(3, narrow, TILTS, 2, LEVEL_TILT, 1, TILTS, 0, K, CENTER, j.bytes, 0, list, 54);
    claim(r.number == JC_NOTHING_SCORED && r.is_over == 0, "11 where nothing was scored");
}

/* A line's camera counts for the next round's list alone. */
static void changed_camera(void) {
    for (size_t i = 0; i < 2; i++) {
        journaled j = searched();
        double list[54];
        jc_line line = jc_read_line(j.bytes, j.len, j.ends[i]).line;
        uint8_t to[JC_LINE_LEN];
        uint64_t bits;
        memcpy(&bits, &line.k.fx, sizeof bits);
        bits ^= 1;
        memcpy(&line.k.fx, &bits, sizeof bits);
        memcpy(j.bytes + j.ends[i], to, jc_write_line(line, to, JC_LINE_LEN).len);
        jc_replay_flat r = replayed(j.bytes, j.len, list);
        if (i == 0) claim(r.number == 0 && r.candidate == jc_result(j.run).candidate.number, "another camera that isn't its round's best isn't found");
        if (i == 1) claim(r.number == JC_NOT_THE_RUN && r.line_number == 3, "that of the best is found with the next round's first line");
    }
}

static jc_resume_flat resumed(const uint8_t *bytes, size_t len, double *list) {
    return jc_resume(3, SHORT, TILTS, 2, LEVEL_TILT, 1, TILTS, 0, K, CENTER, bytes, len, list, 54);
}

/* After each byte a search can be switched off. */
static void power_loss(void) {
    const journaled whole = searched();
    for (size_t cut = 0; cut <= whole.len; cut++) {
        journaled j = whole;
        memset(j.list, 0, sizeof j.list);
        memset(j.bytes + cut, 0, sizeof j.bytes - cut);
        jc_resume_flat r = resumed(j.bytes, cut, j.list);
        size_t lines = 0;
        while (lines < 5 && whole.ends[lines + 1] <= cut) lines++;
        claim(r.number == 0 && r.lines == lines && r.kept == whole.ends[lines] && r.dropped == cut - r.kept, "only the line is lost that the cut fell in");
        claim(r.ended_by == (r.dropped ? JC_ENDED_BY_MISSING_NEWLINE : JC_ENDED_BY_NOTHING), "by a missing newline, or by nothing");
        claim(r.run.waiting.is_waiting == 0 && jc_counts(r.run).scored == lines && jc_last_line(r.run).found == (lines > 0), "no seed waits");
        j.run = r.run;
        go_on(&j, lines);
        jc_candidate a = jc_result(j.run).candidate, b = jc_result(whole.run).candidate;
        claim(j.len == whole.len && memcmp(j.bytes, whole.bytes, whole.len) == 0, "with the same answers the journal is the same");
        claim(a.number == b.number && same(a.score, b.score) && memcmp(j.list, whole.list, sizeof j.list) == 0, "and so are winner and list");
    }
}

static void resume(void) {
    const journaled j = searched();
    double list[54];
    jc_resume_flat r = resumed((const uint8_t *)"x\n0,0", 5, list);
    claim(r.number == 0 && r.ended_by == JC_NOT_A_LINE && r.lines == 0 && r.kept == 0 && r.dropped == 5, "29 ends the lines, and refuses nothing");
    claim(r.run.place.len == 2 && list[4] == -0.01, "a run with no line kept is as Start leaves it");
    uint8_t twice[2 * JC_LINE_LEN];
    size_t line = j.ends[1];
    memcpy(twice, j.bytes, line);
    memcpy(twice + line, j.bytes, line);
    r = resumed(twice, 2 * line, list);
    claim(r.number == 0 && r.ended_by == JC_NOT_THE_RUN && r.lines == 1 && r.kept == line && r.dropped == line, "30 does too");
    list[0] = 7;
    jc_options degrees = {1, 0.005, 3, 1, 0};
    r = jc_resume(3, degrees, TILTS, 2, LEVEL_TILT, 1, TILTS, 0, K, CENTER, j.bytes, j.len, list, 54);
    claim(r.number == JC_TILT_TOO_LARGE && r.lines + r.kept + r.dropped == 0 && r.run.place.demand == 0 && list[0] == 7, "Start's refusals leave the list");
}

static jc_best_record best_of(uint8_t found, size_t number, double score) {
    jc_best_record best;
    memset(&best, 0, sizeof best);
    best.found = found;
    best.candidate.number = number;
    best.candidate.score = score;
    return best;
}

static void winners(void) {
    jc_best_record none = best_of(0, 9, 0.25), two = best_of(1, 2, 0.5), five = best_of(7, 5, 0.5), lost = best_of(1, 1, NAN);
    claim(jc_winner(two, five).candidate.number == 2 && jc_winner(five, two).candidate.number == 5, "the first of equal ones wins");
    claim(jc_winner(two, best_of(1, 6, 0.25)).candidate.number == 6, "the lower one wins");
    claim(jc_winner(none, two).candidate.number == 2 && jc_winner(two, none).candidate.number == 2, "none is left out");
    claim(jc_winner(none, none).found == 0, "none of none");
    claim(jc_winner(none, five).found == 1, "any found but 0 is found, and is written as 1");
    claim(jc_winner(lost, five).candidate.number == 5 && jc_winner(five, lost).candidate.number == 5, "a score that isn't a number loses");

    const journaled j = searched();
    jc_best_record won = none;
    for (size_t i = 0; i < 5; i++) {
        jc_line line = jc_read_line(j.bytes, j.len, j.ends[i]).line;
        won = jc_winner(won, best_of(1, line.number, line.score));
    }
    claim(won.candidate.number == jc_result(j.run).candidate.number, "over all lines it is the run's winner");
}

/* Each limit is accepted, and one more is refused. */
static void limits(void) {
    static double list[JC_MOST_LIST], numbers[JC_ROW_NUMBERS * (JC_MOST_ROWS + 1)];
    static uint8_t flags[JC_MOST_ROWS + 1];
    claim(jc_untilt_points(K, LEVEL, numbers, 2 * JC_MOST_POINTS, list, JC_MOST_LIST) == 0, "JC_MOST_POINTS");
    claim(jc_untilt_points(K, LEVEL, numbers, 2 * JC_MOST_POINTS + 2, list, JC_MOST_LIST) == JC_BAD_POINTS, "JC_MOST_POINTS + 1");

    double tilts[JC_MOST_TILTS + 1], seeds[JC_SEED_NUMBERS * (JC_MOST_SEEDS + 1)];
    for (int i = 0; i <= JC_MOST_TILTS; i++) tilts[i] = 0.01 * i;
    for (int i = 0; i <= JC_MOST_SEEDS; i++) {
        double seed[JC_SEED_NUMBERS] = {1000.0 + i, 900, 640, 480, 0, 0};
        memcpy(seeds + JC_SEED_NUMBERS * i, seed, sizeof seed);
    }
    jc_options most = {JC_MOST_ROUNDS, 0.01, 0.3, 0, 0}, more = {JC_MOST_ROUNDS + 1, 0.01, 0.3, 0, 0};
    jc_pt2 center = {640, 480};
    const size_t of_seeds = JC_SEED_NUMBERS * JC_MOST_SEEDS;
    claim(JC_LIST_LEN(JC_MOST_SEEDS, JC_MOST_TILTS, JC_MOST_TILTS) == JC_MOST_LIST, "JC_MOST_LIST");
    jc_start_flat s = jc_start(3, most, tilts, JC_MOST_TILTS, tilts, JC_MOST_TILTS, seeds, of_seeds, K, center, list, JC_MOST_LIST);
    claim(s.number == 0 && s.run.place.len == JC_MOST_LIST / JC_SEED_NUMBERS - 1, "all limits at once; a seed is the grid's too");
    claim(jc_start(3, more, tilts, 1, tilts, 1, seeds, 0, K, center, list, JC_MOST_LIST).number == JC_TOO_MANY, "JC_MOST_ROUNDS + 1");
    claim(jc_start(3, most, tilts, JC_MOST_TILTS + 1, tilts, 1, seeds, 0, K, center, list, JC_MOST_LIST).number == JC_TOO_MANY,
          "JC_MOST_TILTS + 1");
    claim(jc_start(3, most, tilts, 1, tilts, 1, seeds, of_seeds + 6, K, center, list, JC_MOST_LIST).number == JC_TOO_MANY,
          "JC_MOST_SEEDS + 1");

    jc_run_record run = jc_next(s.run, list, JC_MOST_LIST).run;
    jc_pinhole_camera solved = {K, {0, 0, 0, 0, 0}};
    claim(jc_answer(run, 1, solved, numbers, JC_ROW_NUMBERS * JC_MOST_ROWS, flags, JC_MOST_ROWS, list, JC_MOST_LIST).number == 0,
          "JC_MOST_ROWS");
    claim(jc_answer(run, 1, solved, numbers, JC_ROW_NUMBERS * (JC_MOST_ROWS + 1), flags, JC_MOST_ROWS + 1, list, JC_MOST_LIST).number ==
              JC_BAD_ROWS,
          "JC_MOST_ROWS + 1");
    claim(JC_MOST_ANSWERS == JC_MOST_LIST / JC_SEED_NUMBERS + 9 * JC_MOST_ROUNDS, "JC_MOST_ANSWERS");
}

int main(void) {
    claim(jc_is_compatible() && jc_version() == JC_VERSION, "the archive is the header's");
    geometry();
    scores();
    search();
    one_axis();
    progress();
    counted();
    counts();
    replay();
    changed_camera();
    resume();
    power_loss();
    winners();
    stop();
    limits();
    if (!failed) printf("the header's words hold\n");
    return failed;
}
