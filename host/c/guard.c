/* The calls of libcapi.a with every slice in memory of its own, exactly as long as it says: `guarded` puts this file in front of an archive, whose
 * own functions are then named unguarded_jc_start and so on. By turns a slice ends where a page begins that can't be read, and begins where one ends:
 * a read or write beyond it, on either side, ends the program with the call's name. What a call may only read must come back unchanged.
 *
 * JINNYCHAIR_GUARD=heap takes the memory from malloc instead, for tools that watch that; =short lends one number less than it says, to try the guards;
 * =heap,short tries such a tool.
 */
#define _GNU_SOURCE
#include "jinnychair.h"
#include <signal.h>
#include <stdatomic.h>
#include <stdio.h>
#include <stdlib.h>
#include <string.h>
#include <sys/mman.h>
#include <unistd.h>

enum { MOST_SLICES = 5, PAGE = 4096, ROOM = 256 * PAGE };

/* What is copied for a call, and goes back to the caller where `to` isn't NULL. */
typedef struct {
    const void *of;
    void *to;
    unsigned char *copy;
    size_t size;
} lent_slice;

static _Thread_local unsigned char *rooms; /* for each slice of a call ROOM bytes, with a guard page on either side */
static _Thread_local lent_slice lent[MOST_SLICES];
static _Thread_local int lent_count;
static _Thread_local unsigned turn;
static _Thread_local const char *in_call;
static atomic_ulong calls, slices;
static int on_heap, is_short;

static _Noreturn void fail(const char *what) {
    fprintf(stderr, "guard: %s %s\n", in_call ? in_call : "a program", what);
    _exit(9);
}

static void on_fault(int signal_number) {
    (void)signal_number;
    fail("reaches beyond what it was lent");
}

static void say_counts(void) { fprintf(stderr, "guard: %lu calls, %lu slices\n", calls, slices); }

__attribute__((constructor)) static void set_up(void) {
    const char *asked = getenv("JINNYCHAIR_GUARD");
    on_heap = asked && strstr(asked, "heap");
    is_short = asked && strstr(asked, "short");
    signal(SIGSEGV, on_fault);
    atexit(say_counts);
}

/* Where a slice is put: between two guard pages, at the end or at the front. */
static unsigned char *guarded(int place, size_t size) {
    const size_t each = ROOM + PAGE;
    if (!rooms) {
        rooms = mmap(NULL, MOST_SLICES * each + PAGE, PROT_NONE, MAP_PRIVATE | MAP_ANONYMOUS, -1, 0);
        if (rooms == MAP_FAILED) fail("gets no memory");
        for (int i = 0; i < MOST_SLICES; i++) mprotect(rooms + i * each + PAGE, ROOM, PROT_READ | PROT_WRITE);
    }
    unsigned char *front = rooms + place * each + PAGE;
    return turn % 2 ? front : front + ROOM - size;
}

/* `number` is the size of one number. Where the guards are tried, the last one lies in the guard page, or the first. */
static void *lend(const void *of, void *to, size_t size, size_t number) {
    size_t missing = is_short && size ? number : 0, front = turn % 2 ? missing : 0;
    size -= missing;
    if (size > ROOM) fail("is lent more than the guards have room for");
    unsigned char *copy = on_heap ? malloc(size) : guarded(lent_count, size);
    memcpy(copy, (const char *)of + front, size);
    lent[lent_count++] = (lent_slice){(const char *)of + front, to ? (char *)to + front : NULL, copy, size};
    return copy - front;
}

static void give_back(void) {
    for (int i = 0; i < lent_count; i++) {
        lent_slice slice = lent[i];
        if (slice.to) memcpy(slice.to, slice.copy, slice.size);
        /* Numbers that the caller never set may be lent, and a tool that watches the heap reports a comparison of them as a fault. */
        if (!slice.to && !on_heap && memcmp(slice.of, slice.copy, slice.size)) fail("writes to what it may only read");
        if (on_heap) free(slice.copy);
    }
    atomic_fetch_add(&calls, 1);
    atomic_fetch_add(&slices, lent_count);
    lent_count = 0;
    in_call = NULL;
    turn++;
}

/* A slice's length has the slice's name, with _len behind it. */
#define READ(slice) slice = lend(slice, NULL, slice##_len * sizeof *slice, sizeof *slice)
#define WRITE(slice) slice = lend(slice, slice, slice##_len * sizeof *slice, sizeof *slice)
#define CALL(name, ...)                               \
    extern __typeof__(name) unguarded_##name;         \
    in_call = #name;                                  \
    __auto_type reply = unguarded_##name(__VA_ARGS__); \
    give_back();                                      \
    return reply

uint8_t jc_untilt_points(jc_intrinsics k, jc_trig trig, const double *points, size_t points_len, double *to, size_t to_len) {
    READ(points);
    WRITE(to);
    CALL(jc_untilt_points, k, trig, points, points_len, to, to_len);
}

uint8_t jc_ideal_points(jc_pinhole_camera camera, uint32_t iters, jc_trig trig, const double *points, size_t points_len,
                        double *to, size_t to_len) {
    READ(points);
    WRITE(to);
    CALL(jc_ideal_points, camera, iters, trig, points, points_len, to, to_len);
}

jc_normalize_reply jc_normalize_points_2d(const double *points, size_t points_len, double *to, size_t to_len) {
    READ(points);
    WRITE(to);
    CALL(jc_normalize_points_2d, points, points_len, to, to_len);
}

jc_line_reply jc_points_are_collinear(const double *points, size_t points_len) {
    READ(points);
    CALL(jc_points_are_collinear, points, points_len);
}

uint8_t jc_design_rows(const double *source, size_t source_len, const double *destination, size_t destination_len,
                       double *to, size_t to_len) {
    READ(source);
    READ(destination);
    WRITE(to);
    CALL(jc_design_rows, source, source_len, destination, destination_len, to, to_len);
}

jc_center_reply jc_observed_pixel_center(const double *pixels, size_t pixels_len) {
    READ(pixels);
    CALL(jc_observed_pixel_center, pixels, pixels_len);
}

double jc_mean_reproj_error(jc_pinhole_camera camera, jc_trig trig, const double *rows, size_t rows_len, const uint8_t *flags,
                            size_t flags_len) {
    READ(rows);
    READ(flags);
    CALL(jc_mean_reproj_error, camera, trig, rows, rows_len, flags, flags_len);
}

jc_error_count_reply jc_count_errors(jc_pinhole_camera solved, jc_scheimpflug_params sensor, const double *rows, size_t rows_len,
                                     const uint8_t *flags, size_t flags_len) {
    READ(rows);
    READ(flags);
    CALL(jc_count_errors, solved, sensor, rows, rows_len, flags, flags_len);
}

jc_start_flat jc_start(size_t views, jc_options options, const double *tilt_x_seeds, size_t tilt_x_seeds_len,
                       const double *tilt_y_seeds, size_t tilt_y_seeds_len, const double *decomposition, size_t decomposition_len,
                       jc_intrinsics base, jc_pt2 center, double *list, size_t list_len) {
    READ(tilt_x_seeds);
    READ(tilt_y_seeds);
    READ(decomposition);
    WRITE(list);
    CALL(jc_start, views, options, tilt_x_seeds, tilt_x_seeds_len, tilt_y_seeds, tilt_y_seeds_len, decomposition, decomposition_len,
         base, center, list, list_len);
}

jc_next_flat jc_next(jc_run_record run, const double *list, size_t list_len) {
    READ(list);
    CALL(jc_next, run, list, list_len);
}

size_t jc_seed(jc_run_record run, const double *list, size_t list_len, double *to, size_t to_len) {
    READ(list);
    WRITE(to);
    CALL(jc_seed, run, list, list_len, to, to_len);
}

jc_answer_flat jc_answer(jc_run_record run, uint8_t is_solved, jc_pinhole_camera solved, const double *rows, size_t rows_len,
                         const uint8_t *flags, size_t flags_len, double *list, size_t list_len) {
    READ(rows);
    READ(flags);
    WRITE(list);
    CALL(jc_answer, run, is_solved, solved, rows, rows_len, flags, flags_len, list, list_len);
}

jc_stop_flat jc_stop(jc_run_record run, const double *list, size_t list_len) {
    READ(list);
    CALL(jc_stop, run, list, list_len);
}

jc_write_flat jc_write_line(jc_line line, uint8_t *to, size_t to_len) {
    WRITE(to);
    CALL(jc_write_line, line, to, to_len);
}

jc_write_flat jc_write_report(jc_count_record counts, uint8_t *to, size_t to_len) {
    WRITE(to);
    CALL(jc_write_report, counts, to, to_len);
}

jc_read_flat jc_read_line(const uint8_t *bytes, size_t bytes_len, size_t at) {
    READ(bytes);
    CALL(jc_read_line, bytes, bytes_len, at);
}

#define OF_JOURNAL(reply_type, name)                                                                                                \
    reply_type name(size_t views, jc_options options, const double *tilt_x_seeds, size_t tilt_x_seeds_len,                          \
                    const double *tilt_y_seeds, size_t tilt_y_seeds_len, const double *decomposition, size_t decomposition_len,     \
                    jc_intrinsics base, jc_pt2 center, const uint8_t *bytes, size_t bytes_len, double *list, size_t list_len) {     \
        READ(tilt_x_seeds);                                                                                                         \
        READ(tilt_y_seeds);                                                                                                         \
        READ(decomposition);                                                                                                        \
        READ(bytes);                                                                                                                \
        WRITE(list);                                                                                                                \
        CALL(name, views, options, tilt_x_seeds, tilt_x_seeds_len, tilt_y_seeds, tilt_y_seeds_len, decomposition, decomposition_len, \
             base, center, bytes, bytes_len, list, list_len);                                                                       \
    }

OF_JOURNAL(jc_replay_flat, jc_replay)
OF_JOURNAL(jc_resume_flat, jc_resume)
