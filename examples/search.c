/* A whole search from C: a plate is seen by a camera with a known tilt, and the host knows all but the tilt.
 *
 *     cc -std=c11 search.c $(pkg-config --cflags --libs jinnychair)
 */
#include "jinnychair.h"
#include <stdio.h>

#define DOTS 35
static const double X_TILTS[] = {-0.16, -0.12, -0.08, -0.04, 0.0, 0.04, 0.08, 0.12, 0.16};
static const double Y_TILTS[] = {-0.04, -0.02, 0.0, 0.02, 0.04};
/* A host keeps its journal in a file, and writes each line there before it asks for the next seed. */
static uint8_t journal[JC_MOST_ANSWERS * JC_LINE_LEN];
enum { X_COUNT = sizeof X_TILTS / sizeof *X_TILTS, Y_COUNT = sizeof Y_TILTS / sizeof *Y_TILTS };

/* For tilts up to 0.5 radians. For others the number is 27 and the value 0. */
static jc_trig trig_of(double tilt_x, double tilt_y) {
    jc_trig trig = {jc_sine(tilt_x).value, jc_cosine(tilt_x).value, jc_sine(tilt_y).value, jc_cosine(tilt_y).value};
    return trig;
}

/* The rows of a plate as the tilted camera sees it: the ideal point, then the pixel. */
static void see(jc_intrinsics k, jc_trig planted, double *rows, uint8_t *flags) {
    jc_matrix tilt = jc_tilt_projection_matrix(planted);
    for (int i = 0; i < DOTS; i++) {
        jc_pt2 ideal = {0.05 * (i % 7 - 3), 0.05 * (i / 7 - 2)};
        jc_pt2 seen = jc_sensor_to_pixel(k, jc_apply_homography(tilt, ideal));
        double row[JC_ROW_NUMBERS] = {ideal.x, ideal.y, seen.x, seen.y};
        for (int j = 0; j < JC_ROW_NUMBERS; j++) rows[JC_ROW_NUMBERS * i + j] = row[j];
        flags[i] = 1;
    }
}

int main(void) {
    if (!jc_is_compatible()) {
        fprintf(stderr, "the archive is version %#x, the header %#x\n", (unsigned)jc_version(), (unsigned)JC_VERSION);
        return 1;
    }
    jc_intrinsics k = {1400.0, 1400.0, 640.0, 480.0};
    double rows[JC_ROW_NUMBERS * DOTS];
    uint8_t flags[DOTS];
    see(k, trig_of(-0.021, 0.007), rows, flags);

    /* 8 rounds from a step of 0.02 on, within 0.3 radians, on both axes, scored where at least 90 per cent of the rows are counted; no
     * decomposition, so any array with the length 0. */
    jc_options options = {8, 0.02, 0.3, 0, 90};
    jc_pt2 center = {k.cx, k.cy};
    double list[JC_LIST_LEN(0, X_COUNT, Y_COUNT)];
    size_t list_len = sizeof list / sizeof *list;
    jc_start_flat started = jc_start(3, options, X_TILTS, X_COUNT, Y_TILTS, Y_COUNT, X_TILTS, 0, k, center, list, list_len);
    if (started.number != 0) return printf("not started: %d\n", started.number), 1;
    jc_run_record run = started.run;
    size_t journal_len = 0;

    for (;;) {
        jc_next_flat next = jc_next(run, list, list_len);
        if (next.number != 0) return printf("no seed: %d\n", next.number), 1;
        if (next.over) break;
        run = next.run;

        double seed[JC_SEED_NUMBERS]; /* fx, fy, cx, cy, tilt x, tilt y */
        jc_seed(run, list, list_len, seed, JC_SEED_NUMBERS);
        /* A host solves for a camera with these tilts here, and works out the rows. This one knows the camera. */
        jc_pinhole_camera solved = {{seed[0], seed[1], seed[2], seed[3]}, {0.0, 0.0, 0.0, 0.0, 0.0}};
        jc_answer_flat answer = jc_answer(run, 1, solved, rows, JC_ROW_NUMBERS * DOTS, flags, DOTS, list, list_len);
        if (answer.number != 0) return printf("not taken: %d\n", answer.number), 1;
        run = answer.run;
        journal_len += jc_write_line(jc_last_line(run).line, journal + journal_len, JC_LINE_LEN).len;
    }
    jc_result_flat result = jc_result(run);
    if (result.number != 0) return printf("no result: %d\n", result.number), 1;
    jc_candidate winner = result.candidate;
    printf("no. %zu of %zu won: %+.4f %+.4f, %.3f px\n", winner.number, jc_progress(run).answered_in_run, winner.sensor.tilt_x,
           winner.sensor.tilt_y, winner.mean_reproj_error);

    /* The report: how many were scored, how many were skipped for each reason, and the total. */
    uint8_t report[JC_REPORT_LEN];
    jc_write_flat written = jc_write_report(jc_counts(run), report, JC_REPORT_LEN);
    fwrite(report, 1, written.len, stdout);

    /* Support has the journal and the inputs of Start, and no host. */
    jc_replay_flat again = jc_replay(3, options, X_TILTS, X_COUNT, Y_TILTS, Y_COUNT, X_TILTS, 0, k, center, journal, journal_len, list, list_len);
    if (again.number != 0 || !again.is_over) return printf("line %zu: %d\n", again.line_number, again.number), 1;
    printf("no. %zu won, by the %zu bytes of the journal\n", again.candidate, journal_len);
    return 0;
}
