/* The leaf operations of docs/SPECIFICATION.md, chapters 2 to 5, in plain C with the machine's root. The soak and the benchmark compare the library with
 * them. Points are x then y, matrices nine numbers row by row. Compiled by build.rs with gcc -O3. */
#include <math.h>
#include <stddef.h>
#include <stdint.h>

typedef struct { double x, y; } point;
typedef struct { int number; double value; } sum;
typedef struct { point at; double xx, xy, yx, yy; } distorted;
typedef struct { double k1, k2, k3, p1, p2; } distortion;

/* The correctly rounded root. */
double leaf_root(double x) { return sqrt(x); }

/* Eight terms from the last coefficient on; 27 beyond 0.5. Inlined, so that the table is made when this is compiled. */
static inline sum series(int first, double x) {
    if (isnan(x) || fabs(x) > 0.5) return (sum){27, 0};
    double table[16], factorial = 1.0;
    for (int n = 0; n < 16; n++) {
        if (n > 1) factorial *= n;
        table[n] = n % 4 < 2 ? 1.0 / factorial : -1.0 / factorial;
    }
    double value = table[first + 14];
    for (int n = first + 12; n >= first; n -= 2) value = value * (x * x) + table[n];
    return (sum){0, first == 1 ? value * x : value};
}

sum leaf_sine(double x) { return series(1, x); }

sum leaf_cosine(double x) { return series(0, x); }

point leaf_pixel_to_sensor(const double *k, point p) { return (point){(p.x - k[2]) / k[0], (p.y - k[3]) / k[1]}; }

point leaf_sensor_to_pixel(const double *k, point p) { return (point){k[0] * p.x + k[2], k[1] * p.y + k[3]}; }

/* One row of a product. A loop over the rows would be vectorised by way of the stack. */
static inline void row_of(const double *a, const double *b, double *to) {
    to[0] = a[0] * b[0] + a[1] * b[3] + a[2] * b[6];
    to[1] = a[0] * b[1] + a[1] * b[4] + a[2] * b[7];
    to[2] = a[0] * b[2] + a[1] * b[5] + a[2] * b[8];
}

static inline void product(const double *a, const double *b, double *to) {
    row_of(a, b, to);
    row_of(a + 3, b, to + 3);
    row_of(a + 6, b, to + 6);
}

/* P times R, R being the rotation about y times that about x. */
void leaf_tilt_matrix(const double *t, double *to) {
    double rot_x[9] = {1, 0, 0, 0, t[1], t[0], 0, -t[0], t[1]}, rot_y[9] = {t[3], 0, -t[2], 0, 1, 0, t[2], 0, t[3]}, r[9];
    product(rot_y, rot_x, r);
    double p[9] = {r[8], 0, -r[2], 0, r[8], -r[5], 0, 0, 1};
    product(p, r, to);
}

/* The main diagonal's product minus the other one, without row i and column j. */
static double minor(const double *m, int i, int j) {
    int a = i == 0, b = i == 2 ? 1 : 2, c = j == 0, d = j == 2 ? 1 : 2;
    return m[3 * a + c] * m[3 * b + d] - m[3 * a + d] * m[3 * b + c];
}

double leaf_determinant(const double *m) { return m[0] * minor(m, 0, 0) - m[1] * minor(m, 0, 1) + m[2] * minor(m, 0, 2); }

/* The transposed cofactors by the determinant; 15 where it is 0. */
int leaf_inverse(const double *m, double *to) {
    double determinant = leaf_determinant(m);
    if (determinant == 0.0) return 15;
    for (int i = 0; i < 3; i++)
        for (int j = 0; j < 3; j++) {
            double entry = minor(m, j, i);
            to[3 * i + j] = ((i + j) % 2 ? -entry : entry) / determinant;
        }
    return 0;
}

static point divided(const double *m, point p, int forward) {
    double x = m[0] * p.x + m[1] * p.y + m[2] * 1.0, y = m[3] * p.x + m[4] * p.y + m[5] * 1.0, z = m[6] * p.x + m[7] * p.y + m[8] * 1.0;
    double size = forward ? z : fabs(z);
    double by = size > 1e-12 ? z : 1e-12;
    return (point){x / by, y / by};
}

point leaf_apply_homography(const double *m, point p) { return divided(m, p, 1); }

point leaf_apply_homography_inverse(const double *m, point p) { return divided(m, p, 0); }

point leaf_distort(const double *d, point p) {
    double x = p.x, y = p.y, k1 = d[0], k2 = d[1], k3 = d[2], p1 = d[3], p2 = d[4];
    double r2 = x * x + y * y, r4 = r2 * r2, r6 = r4 * r2;
    double radial = 1 + k1 * r2 + k2 * r4 + k3 * r6;
    return (point){x * radial + (2 * p1 * x * y + p2 * (r2 + 2 * x * x)), y * radial + (p1 * (r2 + 2 * y * y) + 2 * p2 * x * y)};
}

/* The distorted point with its derivatives. */
distorted leaf_distort_with_jacobian(const double *d, point p) {
    double x = p.x, y = p.y, k1 = d[0], k2 = d[1], k3 = d[2], p1 = d[3], p2 = d[4];
    double r2 = x * x + y * y, r4 = r2 * r2;
    double radial = 1 + k1 * r2 + k2 * r4 + k3 * r4 * r2, by_r2 = k1 + 2 * k2 * r2 + 3 * k3 * r4;
    double cross = 2 * x * y * by_r2 + 2 * p1 * x + 2 * p2 * y;
    double xx = radial + 2 * x * x * by_r2 + 2 * p1 * y + 6 * p2 * x, yy = radial + 2 * y * y * by_r2 + 6 * p1 * y + 2 * p2 * x;
    return (distorted){leaf_distort(d, p), xx, cross, cross, yy};
}

/* A point, its distortion, how far that is from the target, and the square of it. */
typedef struct { point at; distorted image; point error; double residual; } estimate;

static estimate at(const double *d, point target, point p) {
    distorted image = leaf_distort_with_jacobian(d, p);
    point error = {image.at.x - target.x, image.at.y - target.y};
    return (estimate){p, image, error, error.x * error.x + error.y * error.y};
}

/* Newton's step, unless the determinant is 0 or not finite. */
static int step_of(const estimate *e, point *to) {
    double xx = e->image.xx, xy = e->image.xy, yx = e->image.yx, yy = e->image.yy, determinant = xx * yy - xy * yx;
    if (determinant == 0.0 || !isfinite(determinant)) return 0;
    *to = (point){(yy * e->error.x - xy * e->error.y) / determinant, (xx * e->error.y - yx * e->error.x) / determinant};
    return 1;
}

point leaf_undistort(const double *d, uint32_t iters, point target) {
    estimate e = at(d, target, target);
    point step;
    for (uint32_t turn = 0; turn < (iters == 0 ? 20 : iters); turn++) {
        if (e.residual == 0.0 || !step_of(&e, &step)) break;
        int accepted = 0;
        for (int trial = 0; trial < 30 && !accepted; trial++) {
            estimate next = at(d, target, (point){e.at.x - step.x, e.at.y - step.y});
            accepted = isfinite(next.residual) && next.residual < e.residual;
            if (accepted) e = next;
            else step = (point){step.x * 0.5, step.y * 0.5};
        }
        if (!accepted || step.x * step.x + step.y * step.y <= 0x1p-100 * (1 + e.at.x * e.at.x + e.at.y * e.at.y)) break;
    }
    return step_of(&e, &step) ? (point){e.at.x - step.x, e.at.y - step.y} : e.at;
}

/* Each pixel back through the tilt and, where d isn't null, the lens; 17, 15. */
int leaf_map_points(const double *k, const double *d, uint32_t iters, const double *trig, const point *points, size_t count, point *to) {
    double tilt[9], inverse[9];
    if (count > 400) return 17;
    leaf_tilt_matrix(trig, tilt);
    if (leaf_inverse(tilt, inverse)) return 15;
    for (size_t i = 0; i < count; i++) {
        point p = leaf_apply_homography_inverse(inverse, leaf_pixel_to_sensor(k, points[i]));
        to[i] = leaf_sensor_to_pixel(k, d ? leaf_undistort(d, iters, p) : p);
    }
    return 0;
}

static double distance(point p, point q) {
    double dx = p.x - q.x, dy = p.y - q.y;
    return sqrt(dx * dx + dy * dy);
}

/* The moved points, and the scale and the two offsets; 17, 19. */
int leaf_normalize(const point *points, size_t count, point *to, double *three) {
    if (count > 400) return 17;
    if (count == 0) return 19;
    point c = {0, 0};
    for (size_t i = 0; i < count; i++) c = (point){c.x + points[i].x, c.y + points[i].y};
    c = (point){c.x / (double)count, c.y / (double)count};
    double all = 0;
    for (size_t i = 0; i < count; i++) all += distance(points[i], c);
    double mean = all / (double)count;
    if (mean <= 0x1p-52) return 19;
    double scale = sqrt(2.0) / mean;
    for (size_t i = 0; i < count; i++) to[i] = (point){(points[i].x - c.x) * scale, (points[i].y - c.y) * scale};
    three[0] = scale;
    three[1] = -scale * c.x;
    three[2] = -scale * c.y;
    return 0;
}

int leaf_collinear(const point *points, size_t count) {
    if (count < 3) return 0;
    point p0 = points[0], p1;
    size_t i = 1;
    while (i < count && !(distance(points[i], p0) > 1e-9)) i++;
    if (i == count) return 1;
    p1 = points[i];
    for (i = 0; i < count; i++) {
        point p = points[i];
        double cross = (p1.x - p0.x) * (p.y - p0.y) - (p1.y - p0.y) * (p.x - p0.x);
        if (!(distance(p, p0) <= 1e-9) && fabs(cross) > 1e-6) return 0;
    }
    return 1;
}

static int all_finite(const point *points, size_t count) {
    for (size_t i = 0; i < count; i++)
        if (!isfinite(points[i].x) || !isfinite(points[i].y)) return 0;
    return 1;
}

/* Eighteen numbers a point; 17, 20 to 25. */
int leaf_design_rows(const point *from, size_t count, const point *onto, size_t others, double *to) {
    point a[400], b[400];
    double unused[3];
    if (count > 400 || others > 400) return 17;
    if (!all_finite(from, count)) return 20;
    if (!all_finite(onto, others)) return 21;
    if (count < 4) return 22;
    if (count != others) return 23;
    if (leaf_collinear(from, count)) return 24;
    if (leaf_collinear(onto, others)) return 25;
    /* These can't fail after the line tests. */
    if (leaf_normalize(from, count, a, unused) || leaf_normalize(onto, others, b, unused)) return 26;
    for (size_t i = 0; i < count; i++) {
        double x = a[i].x, y = a[i].y, u = b[i].x, v = b[i].y, *first = to + 18 * i, *second = first + 9;
        first[0] = second[3] = -x;
        first[1] = second[4] = -y;
        first[2] = second[5] = -1;
        first[3] = first[4] = first[5] = second[0] = second[1] = second[2] = 0;
        first[6] = u * x, first[7] = u * y, first[8] = u;
        second[6] = v * x, second[7] = v * y, second[8] = v;
    }
    return 0;
}

/* b11, b12, b22, b13, b23, b33 to fx, fy, cx, cy; 16. */
int leaf_conic_to_camera(const double *b, double *to) {
    double b11 = b[0], b12 = b[1], b22 = b[2], b13 = b[3], b23 = b[4], b33 = b[5];
    double denom = b11 * b22 - b12 * b12, norm = b11 * b11 + b22 * b22;
    if (!(norm > 0 && denom / norm > 1e-6)) return 16;
    if (fabs(b11) <= 1e-12) return 16;
    double v0 = (b12 * b13 - b11 * b23) / denom;
    double lambda = b33 - (b13 * b13 + v0 * (b12 * b13 - b11 * b23)) / b11;
    if (!(lambda / b11 > 0)) return 16;
    double alpha = sqrt(lambda / b11), beta = sqrt(lambda * b11 / denom);
    double gamma = -b12 * alpha * alpha * beta / lambda;
    to[0] = alpha;
    to[1] = beta;
    to[2] = gamma * v0 / beta - b13 * alpha * alpha / lambda;
    to[3] = v0;
    return 0;
}

point leaf_centre(const point *points, size_t count) {
    double least[2] = {INFINITY, INFINITY}, most[2] = {-INFINITY, -INFINITY};
    int any = 0;
    for (size_t i = 0; i < count; i++) {
        double c[2] = {points[i].x, points[i].y};
        if (!isfinite(c[0]) || !isfinite(c[1])) continue;
        any = 1;
        for (int j = 0; j < 2; j++) {
            if (c[j] < least[j]) least[j] = c[j];
            if (c[j] > most[j]) most[j] = c[j];
        }
    }
    if (!any) return (point){0, 0};
    if (least[0] >= 0 && least[1] >= 0) return (point){0.5 * most[0], 0.5 * most[1]};
    return (point){0.5 * (least[0] + most[0]), 0.5 * (least[1] + most[1])};
}

static double clamped(double p) { return p < -0.05 ? -0.05 : p > 0.05 ? 0.05 : p; }

distortion leaf_damp(const double *d) { return (distortion){0, 0, 0, clamped(d[3]), clamped(d[4])}; }

double leaf_distortion_penalty(const double *d) {
    double radial = d[0] * d[0] + d[1] * d[1] + 0.25 * d[2] * d[2];
    return 0.25 * (radial + (d[3] * d[3] + d[4] * d[4]));
}

double leaf_tilt_penalty(double x, double y) { return 0.25 * (x * x + y * y); }

double leaf_centre_penalty(const double *k, point centre) {
    double dx = (k[2] - centre.x) / (k[0] > 1.0 ? k[0] : 1.0), dy = (k[3] - centre.y) / (k[1] > 1.0 ? k[1] : 1.0);
    return 0.0 * (dx * dx + dy * dy);
}

/* Whether one power of two makes whole numbers in the ranges of all four (docs/SPECIFICATION.md, 3.16). */
int leaf_has_plate(const double *k) {
    for (int power = 1; power <= 256; power *= 2) {
        int met = 1;
        for (int i = 0; i < 4; i++) {
            int found = 0;
            for (int n = i < 2 ? 1 : -256; n <= 256; n++) found |= k[i] == (double)n * power;
            met &= found;
        }
        if (met) return 1;
    }
    return 0;
}

/* The same with structs by value, as the library's interface has them. The benchmark compares small operations with these, so that
 * all sides make the copy that a call needs. */
typedef struct { double m[9]; } matrix;
typedef struct { double k[4]; } intrinsics;
typedef struct { double t[4]; } trig;
typedef struct { double d[5]; } lens;
typedef struct { double b[6]; } conic;
typedef struct { int number; matrix inverse; } inverse_reply;
typedef struct { int number; intrinsics camera; } camera_reply;

matrix value_tilt_matrix(trig t) {
    matrix to;
    leaf_tilt_matrix(t.t, to.m);
    return to;
}

inverse_reply value_inverse(matrix m) {
    inverse_reply to;
    to.number = leaf_inverse(m.m, to.inverse.m);
    return to;
}

double value_determinant(matrix m) { return leaf_determinant(m.m); }

point value_pixel_to_sensor(intrinsics k, point p) { return leaf_pixel_to_sensor(k.k, p); }

point value_sensor_to_pixel(intrinsics k, point p) { return leaf_sensor_to_pixel(k.k, p); }

distorted value_distort_with_jacobian(lens d, point p) { return leaf_distort_with_jacobian(d.d, p); }

camera_reply value_conic_to_camera(conic b) {
    camera_reply to;
    to.number = leaf_conic_to_camera(b.b, to.camera.k);
    return to;
}

distortion value_damp(lens d) { return leaf_damp(d.d); }

double value_distortion_penalty(lens d) { return leaf_distortion_penalty(d.d); }

double value_centre_penalty(intrinsics k, point centre) { return leaf_centre_penalty(k.k, centre); }
