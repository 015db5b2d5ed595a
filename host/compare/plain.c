/* The mean error of the rows by the formulas of the library's definitions, in plain C with the machine's root. The benchmark
 * compares the library with it. Compiled by build.rs with gcc -O3. */
#include <math.h>
#include <stddef.h>
#include <stdint.h>

typedef struct { double x, y; } point;
typedef struct { double m[3][3]; } matrix;
typedef struct { double fx, fy, cx, cy, k1, k2, k3, p1, p2; } camera;
typedef struct { double sin_x, cos_x, sin_y, cos_y; } trig;

static matrix product(matrix a, matrix b) {
    matrix r;
    for (int i = 0; i < 3; i++)
        for (int j = 0; j < 3; j++)
            r.m[i][j] = a.m[i][0] * b.m[0][j] + a.m[i][1] * b.m[1][j] + a.m[i][2] * b.m[2][j];
    return r;
}

static matrix tilt_projection(trig t) {
    matrix rot_x = {{{1.0, 0.0, 0.0}, {0.0, t.cos_x, t.sin_x}, {0.0, -t.sin_x, t.cos_x}}};
    matrix rot_y = {{{t.cos_y, 0.0, -t.sin_y}, {0.0, 1.0, 0.0}, {t.sin_y, 0.0, t.cos_y}}};
    matrix r = product(rot_y, rot_x);
    double z = r.m[2][2];
    matrix proj_z = {{{z, 0.0, -r.m[0][2]}, {0.0, z, -r.m[1][2]}, {0.0, 0.0, 1.0}}};
    return product(proj_z, r);
}

static point distort(camera c, point p) {
    double r2 = p.x * p.x + p.y * p.y;
    double r4 = r2 * r2;
    double r6 = r4 * r2;
    double radial = 1.0 + c.k1 * r2 + c.k2 * r4 + c.k3 * r6;
    double x_tan = 2.0 * c.p1 * p.x * p.y + c.p2 * (r2 + 2.0 * p.x * p.x);
    double y_tan = c.p1 * (r2 + 2.0 * p.y * p.y) + 2.0 * c.p2 * p.x * p.y;
    return (point){p.x * radial + x_tan, p.y * radial + y_tan};
}

static double homogeneous(matrix h, point p, int i) {
    return h.m[i][0] * p.x + h.m[i][1] * p.y + h.m[i][2] * 1.0;
}

static point project(camera c, matrix h, point ideal) {
    point d = distort(c, ideal);
    double z = homogeneous(h, d, 2);
    double depth = z > 1e-12 ? z : 1e-12;
    return (point){c.fx * (homogeneous(h, d, 0) / depth) + c.cx, c.fy * (homogeneous(h, d, 1) / depth) + c.cy};
}

double plain_mean_error(const camera *c, const trig *t, const double *rows, const uint8_t *flags, size_t count) {
    matrix h = tilt_projection(*t);
    double sum = 0.0;
    uint64_t counted = 0;
    for (size_t i = 0; i < count; i++) {
        if (flags[i] != 1) continue;
        point p = project(*c, h, (point){rows[4 * i], rows[4 * i + 1]});
        double dx = p.x - rows[4 * i + 2], dy = p.y - rows[4 * i + 3];
        double err = sqrt(dx * dx + dy * dy);
        if (isfinite(err)) {
            sum += err;
            counted++;
        }
    }
    return counted == 0 ? INFINITY : sum / (double)counted;
}
