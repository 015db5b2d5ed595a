"""Geometry: plain operations on points, cameras, matrices and lists of points.

Intrinsics are a tuple (fx, fy, cx, cy), a distortion is (k1, k2, k3, p1, p2), a point is (x, y), a matrix is
three tuples of three. A destination is a Python list that is written in place.

Specification: chapter 3
"""

from . import binary64 as b
from .binary64 import divide, finite, root
from .values import Refused

TINY = 1e-12
MOST_POINTS = 400


def call_root(x):
    """`jc_sqrt`. Specification: #root"""
    return root(x)


def call_sine(x):
    """`jc_sine`: 27 where x is NaN or above 0.5 in size. Specification: #series"""
    return Refused(27) if b.too_far(x) else b.sine(x)


def call_cosine(x):
    """`jc_cosine`: 27 where x is NaN or above 0.5 in size. Specification: #series"""
    return Refused(27) if b.too_far(x) else b.cosine(x)


def pixel_to_sensor(intrinsics, u, v):
    """Specification: #pixel-sensor"""
    fx, fy, cx, cy = intrinsics
    return (divide(u - cx, fx), divide(v - cy, fy))


def sensor_to_pixel(intrinsics, x, y):
    """Specification: #pixel-sensor"""
    fx, fy, cx, cy = intrinsics
    return (fx * x + cx, fy * y + cy)


def distort(distortion, x, y):
    """Specification: #distortion"""
    k1, k2, k3, p1, p2 = distortion
    r2 = x * x + y * y
    r4 = r2 * r2
    r6 = r4 * r2
    radial = 1.0 + k1 * r2 + k2 * r4 + k3 * r6
    xt = 2.0 * p1 * x * y + p2 * (r2 + 2.0 * x * x)
    yt = p1 * (r2 + 2.0 * y * y) + 2.0 * p2 * x * y
    return (x * radial + xt, y * radial + yt)


def distort_with_derivatives(distortion, x, y):
    """The distorted point, and the derivatives (xx, xy, yx, yy). Specification: #distortion-jacobian"""
    k1, k2, k3, p1, p2 = distortion
    r2 = x * x + y * y
    r4 = r2 * r2
    r = 1.0 + k1 * r2 + k2 * r4 + k3 * r4 * r2
    d = k1 + 2.0 * k2 * r2 + 3.0 * k3 * r4
    xx = r + 2.0 * x * x * d + 2.0 * p1 * y + 6.0 * p2 * x
    xy = 2.0 * x * y * d + 2.0 * p1 * x + 2.0 * p2 * y
    yy = r + 2.0 * y * y * d + 6.0 * p1 * y + 2.0 * p2 * x
    return distort(distortion, x, y), (xx, xy, xy, yy)


class Estimate:
    """A point with its error, squared residual and derivatives. Specification: #undistort"""

    def __init__(self, distortion, target, point):
        self.point = point
        image, (xx, xy, yx, yy) = distort_with_derivatives(distortion, point[0], point[1])
        self.error = (image[0] - target[0], image[1] - target[1])
        self.residual = self.error[0] * self.error[0] + self.error[1] * self.error[1]
        self.derivatives = (xx, xy, yx, yy)
        self.determinant = xx * yy - xy * yx

    def singular(self):
        """Specification: #undistort"""
        return self.determinant == 0.0 or not finite(self.determinant)

    def newton_step(self):
        """Specification: #undistort"""
        xx, xy, yx, yy = self.derivatives
        ex, ey = self.error
        return (divide(yy * ex - xy * ey, self.determinant), divide(xx * ey - yx * ex, self.determinant))


def first_trial_taken(distortion, target, present):
    """The first of up to 30 trials that is taken, with its displacement, or None. Specification: #undistort"""
    shift = present.newton_step()
    for _ in range(30):
        point = (present.point[0] - shift[0], present.point[1] - shift[1])
        trial = Estimate(distortion, target, point)
        if finite(trial.residual) and trial.residual < present.residual:
            return trial, shift
        shift = (shift[0] * 0.5, shift[1] * 0.5)
    return None


def small_displacement(shift, point):
    """Whether a turn's displacement ends the turns. Specification: #undistort"""
    size = shift[0] * shift[0] + shift[1] * shift[1]
    return size <= b.from_bits(0x39B0000000000000) * (1.0 + point[0] * point[0] + point[1] * point[1])


def undistort(distortion, iters, target):
    """The point that `distort` maps to the target, by Newton's method. Specification: #undistort"""
    present = Estimate(distortion, target, target)
    for _ in range(iters if iters != 0 else 20):
        if present.residual == 0.0 or present.singular():
            break
        taken = first_trial_taken(distortion, target, present)
        if taken is None:
            break
        present, shift = taken
        if small_displacement(shift, present.point):
            break
    if present.singular():
        return present.point
    step = present.newton_step()
    return (present.point[0] - step[0], present.point[1] - step[1])


def product(m, n):
    """Specification: #matrices"""
    def entry(i, j):
        """Summed from the lowest index."""
        return m[i][0] * n[0][j] + m[i][1] * n[1][j] + m[i][2] * n[2][j]
    return tuple(tuple(entry(i, j) for j in range(3)) for i in range(3))


def minor(m, i, j):
    """Specification: #matrices"""
    r, s = [row for row in range(3) if row != i]
    c, d = [column for column in range(3) if column != j]
    return m[r][c] * m[s][d] - m[r][d] * m[s][c]


def cofactor(m, i, j):
    """Specification: #matrices"""
    return minor(m, i, j) if (i + j) % 2 == 0 else -minor(m, i, j)


def determinant(m):
    """Specification: #matrices"""
    return m[0][0] * minor(m, 0, 0) - m[0][1] * minor(m, 0, 1) + m[0][2] * minor(m, 0, 2)


def inverse(m):
    """15 where the determinant equals 0. Specification: #matrices, #tilt-inverse"""
    det = determinant(m)
    if det == 0.0:
        return Refused(15)
    return tuple(tuple(divide(cofactor(m, j, i), det) for j in range(3)) for i in range(3))


def tilt_projection_matrix(sin_x, cos_x, sin_y, cos_y):
    """Specification: #tilt-matrix"""
    rot_x = ((1.0, 0.0, 0.0), (0.0, cos_x, sin_x), (0.0, -sin_x, cos_x))
    rot_y = ((cos_y, 0.0, -sin_y), (0.0, 1.0, 0.0), (sin_y, 0.0, cos_y))
    r = product(rot_y, rot_x)
    p = ((r[2][2], 0.0, -r[0][2]), (0.0, r[2][2], -r[1][2]), (0.0, 0.0, 1.0))
    return product(p, r)


def homogeneous(h, x, y):
    """The three sums X, Y, Z. Specification: #homography"""
    return tuple(h[i][0] * x + h[i][1] * y + h[i][2] * 1.0 for i in range(3))


def apply_homography(h, x, y):
    """The forward form. Specification: #homography"""
    top, left, z = homogeneous(h, x, y)
    depth = z if z > TINY else TINY
    return (divide(top, depth), divide(left, depth))


def apply_homography_inverse(h, x, y):
    """The inverse form. Specification: #homography"""
    top, left, z = homogeneous(h, x, y)
    depth = z if abs(z) > TINY else TINY
    return (divide(top, depth), divide(left, depth))


def points_of(numbers):
    """The points of a list of even length."""
    return [(numbers[i], numbers[i + 1]) for i in range(0, len(numbers) - 1, 2)]


def bad_list(numbers):
    """Whether 17 refuses a list. Specification: #point-lists"""
    return len(numbers) % 2 == 1 or len(numbers) > 2 * MOST_POINTS


def map_points(pixels, trig, destination, one):
    """What both maps have in common; `one` maps a pixel, given the inverse. Specification: #point-maps"""
    if bad_list(pixels):
        return Refused(17)
    if len(destination) < len(pixels):
        return Refused(18)
    back = inverse(tilt_projection_matrix(*trig))
    if isinstance(back, Refused):
        return back
    for i, (u, v) in enumerate(points_of(list(pixels))):
        destination[2 * i], destination[2 * i + 1] = one(back, u, v)
    return None


def untilt_points(intrinsics, trig, pixels, destination):
    """Writes the untilted pixels to the destination's front; None where it is accepted. Specification: #point-maps"""
    def one(back, u, v):
        """One pixel, mapped with the inverse."""
        x, y = pixel_to_sensor(intrinsics, u, v)
        x, y = apply_homography_inverse(back, x, y)
        return sensor_to_pixel(intrinsics, x, y)
    return map_points(pixels, trig, destination, one)


def ideal_points(intrinsics, distortion, iters, trig, pixels, destination):
    """Writes the ideal pixels to the destination's front; None where it is accepted. Specification: #point-maps"""
    def one(back, u, v):
        """One pixel, mapped with the inverse."""
        x, y = pixel_to_sensor(intrinsics, u, v)
        x, y = apply_homography_inverse(back, x, y)
        x, y = undistort(distortion, iters, (x, y))
        return sensor_to_pixel(intrinsics, x, y)
    return map_points(pixels, trig, destination, one)


def observed_centre(pixels):
    """Specification: #centre"""
    if len(pixels) % 2 == 1:
        return Refused(17)
    min_x = min_y = b.INFINITY
    max_x = max_y = -b.INFINITY
    for x, y in points_of(pixels):
        if finite(x) and finite(y):
            min_x, min_y = b.minimum(min_x, x), b.minimum(min_y, y)
            max_x, max_y = b.maximum(max_x, x), b.maximum(max_y, y)
    if not all(finite(m) for m in (min_x, min_y, max_x, max_y)):
        return (0.0, 0.0)
    if 0.0 <= min_x and 0.0 <= min_y:
        return (0.5 * max_x, 0.5 * max_y)
    return (0.5 * (min_x + max_x), 0.5 * (min_y + max_y))


def distance(p, q):
    """Specification: #normalise"""
    dx = p[0] - q[0]
    dy = p[1] - q[1]
    return root(dx * dx + dy * dy)


def centroid(points):
    """Specification: #normalise"""
    sum_x = sum_y = 0.0
    for x, y in points:
        sum_x, sum_y = sum_x + x, sum_y + y
    n = float(len(points))
    return (divide(sum_x, n), divide(sum_y, n))


def mean_distance(points, centre):
    """Specification: #normalise"""
    total = 0.0
    for p in points:
        total = total + distance(p, centre)
    return divide(total, float(len(points)))


def moved_points(points):
    """The centre, the scale and the moved points of at least one point, or None where 19 refuses.

    Specification: #normalise
    """
    centre = centroid(points)
    mean = mean_distance(points, centre)
    if mean <= 2.0**-52:
        return None
    scale = divide(root(2.0), mean)
    return centre, scale, [((x - centre[0]) * scale, (y - centre[1]) * scale) for x, y in points]


def normalise(numbers, destination):
    """(t00, t02, t12), the moved points written to the destination's front. Specification: #normalise"""
    if bad_list(numbers):
        return Refused(17)
    if len(destination) < len(numbers):
        return Refused(18)
    points = points_of(list(numbers))
    if not points:
        return Refused(19)
    moved = moved_points(points)
    if moved is None:
        return Refused(19)
    centre, scale, images = moved
    for i, (x, y) in enumerate(images):
        destination[2 * i], destination[2 * i + 1] = x, y
    return (scale, -scale * centre[0], -scale * centre[1])


def on_a_line(points):
    """Specification: #line-test"""
    if len(points) < 3:
        return False
    p0 = points[0]
    p1 = next((p for p in points[1:] if distance(p, p0) > 1e-9), None)
    if p1 is None:
        return True
    for p in points:
        far = not distance(p, p0) <= 1e-9
        area = (p1[0] - p0[0]) * (p[1] - p0[1]) - (p1[1] - p0[1]) * (p[0] - p0[0])
        if far and abs(area) > 1e-6:
            return False
    return True


def points_are_collinear(numbers):
    """Specification: #line-test"""
    if len(numbers) % 2 == 1:
        return Refused(17)
    return on_a_line(points_of(numbers))


def design_rows_refusal(source, target, rows):
    """The first refusal that applies, or None. Specification: #design-rows"""
    if bad_list(source) or bad_list(target):
        return Refused(17)
    if len(rows) < 18 * (len(source) // 2):
        return Refused(18)
    if not all(finite(x) for x in source):
        return Refused(20)
    if not all(finite(x) for x in target):
        return Refused(21)
    if len(source) < 8:
        return Refused(22)
    if len(source) != len(target):
        return Refused(23)
    if on_a_line(points_of(source)):
        return Refused(24)
    if on_a_line(points_of(target)):
        return Refused(25)
    return None


def design_rows(source, target, rows):
    """Eighteen numbers a pair, written to the front of `rows`; None where accepted. Specification: #design-rows"""
    refusal = design_rows_refusal(source, target, rows)
    if refusal is not None:
        return refusal
    from_points = moved_points(points_of(list(source)))[2]
    to_points = moved_points(points_of(list(target)))[2]
    for i, ((x, y), (u, v)) in enumerate(zip(from_points, to_points)):
        rows[18 * i:18 * i + 9] = [-x, -y, -1.0, 0.0, 0.0, 0.0, u * x, u * y, u]
        rows[18 * i + 9:18 * i + 18] = [0.0, 0.0, 0.0, -x, -y, -1.0, v * x, v * y, v]
    return None


def conic_to_camera(conic):
    """(fx, fy, cx, cy) of b11, b12, b22, b13, b23, b33. Specification: #conic"""
    b11, b12, b22, b13, b23, b33 = conic
    cross = b12 * b13 - b11 * b23
    denom = b11 * b22 - b12 * b12
    norm = b11 * b11 + b22 * b22
    v0 = divide(cross, denom)
    lam = b33 - divide(b13 * b13 + v0 * cross, b11)
    ratio = divide(lam, b11)
    if not (norm > 0.0 and divide(denom, norm) > 1e-6 and not abs(b11) <= 1e-12 and ratio > 0.0):
        return Refused(16)
    alpha = root(ratio)
    beta = root(divide(lam * b11, denom))
    gamma = divide(-b12 * alpha * alpha * beta, lam)
    u0 = divide(gamma * v0, beta) - divide(b13 * alpha * alpha, lam)
    return (alpha, beta, u0, v0)


def units_of(x, unit):
    """How many whole units x is, or None. Specification: #known-plate"""
    if not finite(x):
        return None
    numerator, denominator = x.as_integer_ratio()
    if denominator != 1 or numerator % unit != 0:
        return None
    return numerator // unit


def unit_of_plate(fx, fy, cx, cy):
    """The lowest unit that will do, or None. Specification: #known-plate"""
    for unit in (1, 2, 4, 8, 16, 32, 64, 128, 256):
        f, g, c, d = (units_of(x, unit) for x in (fx, fy, cx, cy))
        if None in (f, g, c, d):
            continue
        if 1 <= f <= 256 and 1 <= g <= 256 and abs(c) <= 256 and abs(d) <= 256:
            return unit
    return None


def known_plate(fx, fy, cx, cy):
    """(b11, b12, b22, b13, b23, b33). Specification: #known-plate"""
    unit = unit_of_plate(fx, fy, cx, cy)
    if unit is None:
        return Refused(34)
    p = divide(fx, float(unit))
    q = divide(fy, float(unit))
    b13 = -(cx * (q * q))
    b23 = -(cy * (p * p))
    b33 = cx * cx * (q * q) + cy * cy * (p * p) + fx * fx * (q * q)
    return (q * q, 0.0, p * p, b13, b23, b33)
