"""Each exported operation that keeps nothing, on the same inputs as the model's.

A function here compares one operation once. Specification: chapters 2, 3, 5 and 14
"""

import math

from model import geometry, scoring
from model.binary64 import NAN
from model.values import Best, Refused

from .bench import flat, flat_reply
from .draws import CAMERA, HOSTILE, SMALLEST
from .interface import STRUCTS, numbers_in, octets, reals, struct_of


def by_value(bench, name, groups):
    """The library's reply to structs and numbers, as its numbers; `groups` has a list for each parameter."""
    function = getattr(bench.library, name)
    arguments = [struct_of(kind.__name__, group) if kind in STRUCTS.values() else group
                 for kind, group in zip(function.argtypes, groups)]
    reply = function(*arguments)
    return numbers_in(reply) if type(reply) in STRUCTS.values() else [reply]


def compare(bench, name, groups, by_model):
    bench.same(name, groups, flat(by_model), by_value(bench, name, groups))


def rows_of(numbers):
    return tuple(tuple(numbers[3 * i:3 * i + 3]) for i in range(3))


# ---- numbers


def sqrt(bench, draws):
    """Any number; or one beside the square of the middle between two roots."""
    x = draws.real() if draws.chance(0.4) else abs(draws.any_bits())
    if draws.chance(0.4):
        middle = 2 * draws.rng.randrange(2**52, 2**53) + 1
        x = draws.near(math.ldexp(float(middle * middle), 2 * draws.rng.randint(-560, 450)))
    compare(bench, "jc_sqrt", [x], geometry.call_root(x))


def sine_and_cosine(bench, draws):
    x = draws.choice([draws.uniform(-0.5, 0.5), draws.near(draws.choice([0.5, -0.5])), draws.real(0.5),
                      draws.uniform(-0.5, 0.5) * 2.0 ** draws.rng.randint(-1070, 0)])
    compare(bench, "jc_sine", [x], flat_reply(geometry.call_sine(x), 1))
    compare(bench, "jc_cosine", [x], flat_reply(geometry.call_cosine(x), 1))


# ---- points and cameras


def pixels(bench, draws):
    k, p = draws.intrinsics(), draws.several(2, 900.0)
    compare(bench, "jc_pixel_to_sensor", [k, p], geometry.pixel_to_sensor(k, *p))
    compare(bench, "jc_sensor_to_pixel", [k, p], geometry.sensor_to_pixel(k, *p))


def distort(bench, draws):
    b, p = draws.distortion(), draws.several(2, 1.0)
    compare(bench, "jc_distort_numbers", [*b, *p], geometry.distort(b, *p))
    compare(bench, "jc_distort_with_jacobian", [b, p], geometry.distort_with_derivatives(b, *p))


def undistort(bench, draws):
    """A lens with any number of turns; other numbers with few, since they may need all."""
    b, p, iters = draws.distortion(0.0), draws.several(2, 0.7, 0.0), draws.choice([0, 1, 2, 3, 20, 2**32 - 1])
    if draws.chance(0.5):
        b, p, iters = draws.distortion(), draws.several(2, 2.0), draws.choice([0, 1, 2, 7, 40])
    compare(bench, "jc_undistort", [b, iters, p], geometry.undistort(b, iters, tuple(p)))


def tilt_matrix(bench, draws):
    trig = draws.trig()
    compare(bench, "jc_tilt_projection_matrix", [trig], geometry.tilt_projection_matrix(*trig))


def matrix(bench, draws):
    """Any nine numbers, a tilt's matrix, one of rank two."""
    m = draws.several(9, 2.0)
    if draws.chance(0.3):
        m = flat(geometry.tilt_projection_matrix(*draws.trig()))
    if draws.chance(0.2):
        m[6:9] = m[0:3] if draws.chance(0.5) else [0.0, -0.0, 0.0]
    compare(bench, "jc_determinant", [m], geometry.determinant(rows_of(m)))
    compare(bench, "jc_inverse", [m], flat_reply(geometry.inverse(rows_of(m)), 9))


def homography(bench, draws):
    """Depths of every size, many beside 1e-12."""
    h, p = draws.several(9, 2.0), draws.several(2, 2.0)
    if draws.chance(0.3):
        h[6:9] = [0.0, 0.0, draws.near(draws.choice([1e-12, -1e-12]))]
    compare(bench, "jc_apply_homography", [h, p], geometry.apply_homography(rows_of(h), *p))
    compare(bench, "jc_apply_homography_inverse", [h, p], geometry.apply_homography_inverse(rows_of(h), *p))


def conic(bench, draws):
    """A camera's conic times a factor, one beside a limit, any six numbers."""
    fx, fy, cx, cy = (draws.uniform(0.5, 4.0) for _ in range(4))
    b11, b22 = 1.0 / (fx * fx), 1.0 / (fy * fy)
    b = [b11, draws.choice([0.0, 0.01]), b22, -cx * b11, -cy * b22, cx * cx * b11 + cy * cy * b22 + 1.0]
    kind = draws.rng.randrange(6)
    if kind == 0:
        b = draws.several(6)
    elif kind == 1:
        b = [1.0, 0.0, draws.near(1e-6), draws.uniform(-1.0, 1.0), 0.0, 2.0]
    elif kind == 2:
        b[0] = draws.near(draws.choice([1e-12, -1e-12]))
    elif kind == 3:
        factor = draws.choice([-1.0, 1e-3, 2.0**-300, -(2.0**300)])
        b = [factor * it for it in b]
    compare(bench, "jc_conic_to_camera", [b], flat_reply(geometry.conic_to_camera(tuple(b)), 4))


def known_plate(bench, draws):
    """Whole numbers of a unit, those beside the limits, and others."""
    unit = float(2 ** draws.rng.randrange(10))
    k = [unit * draws.rng.randint(low, 257) for low in (0, 1, -257, -256)]
    if draws.chance(0.4):
        k[draws.rng.randrange(4)] = draws.choice([-0.0, draws.real(), 65536.0, 65537.0, 0.5, unit * 256.0, -256.0 * unit])
    if draws.chance(0.1):
        k = [draws.near(it) for it in k]
    compare(bench, "jc_known_plate", [k], flat_reply(geometry.known_plate(*k), 6))


# ---- lists of points


def written(bench, name, inputs, by_model, destination, by_library, lent):
    """A reply, and the destination behind it."""
    bench.same(name, inputs, by_model, by_library)
    bench.same("destinations", (name, inputs), destination, lent.now())


def number_of(reply):
    return reply.number if isinstance(reply, Refused) else 0


def point_maps(bench, draws):
    k, b, trig, points = draws.intrinsics(), draws.distortion(), draws.trig(), draws.points()
    to, iters = draws.destination(len(points)), draws.choice([0, 1, 5])
    lent, source, after = reals(to), reals(points), list(to)
    reply = number_of(geometry.untilt_points(tuple(k), tuple(trig), points, after))
    said = bench.library.jc_untilt_points(struct_of("jc_intrinsics", k), struct_of("jc_trig", trig), *source.arguments(),
                                          *lent.arguments())
    written(bench, "jc_untilt_points", (k, trig, points, to), reply, after, said, lent)
    lent, after = reals(to), list(to)
    reply = number_of(geometry.ideal_points(tuple(k), tuple(b), iters, tuple(trig), points, after))
    said = bench.library.jc_ideal_points(struct_of("jc_pinhole_camera", k + b), iters, struct_of("jc_trig", trig),
                                         *source.arguments(), *lent.arguments())
    written(bench, "jc_ideal_points", (k, b, iters, trig, points, to), reply, after, said, lent)


def normalise(bench, draws):
    points = draws.points()
    to = draws.destination(len(points))
    lent, after = reals(to), list(to)
    reply = flat_reply(geometry.normalise(points, after), 3)
    said = numbers_in(bench.library.jc_normalize_points_2d(*reals(points).arguments(), *lent.arguments()))
    written(bench, "jc_normalize_points_2d", (points, to), reply, after, said, lent)


def line_and_centre(bench, draws):
    points = draws.points()
    reply = geometry.points_are_collinear(points)
    reply = [reply.number, 0] if isinstance(reply, Refused) else [0, int(reply)]
    said = numbers_in(bench.library.jc_points_are_collinear(*reals(points).arguments()))
    bench.same("jc_points_are_collinear", points, reply, said)
    reply = flat_reply(geometry.observed_centre(points), 2)
    said = numbers_in(bench.library.jc_observed_pixel_center(*reals(points).arguments()))
    bench.same("jc_observed_pixel_center", points, reply, said)


def design_rows(bench, draws):
    """Two lists that mostly belong together; at times the second lies on a line."""
    source = draws.points()
    target = [draws.near(it + draws.uniform(-1.0, 1.0)) for it in source]
    if draws.chance(0.3):
        target = draws.choice([draws.points(), draws.line(len(source) // 2), source[:-1]])
    to = draws.destination(9 * len(source))
    lent, after = reals(to), list(to)
    reply = number_of(geometry.design_rows(source, target, after))
    said = bench.library.jc_design_rows(*reals(source).arguments(), *reals(target).arguments(), *lent.arguments())
    written(bench, "jc_design_rows", (source, target, to), reply, after, said, lent)


# ---- scoring


def penalties(bench, draws):
    b, tilts, k, centre = draws.distortion(), [draws.tilt(), draws.tilt()], draws.intrinsics(), draws.several(2, 500.0)
    compare(bench, "jc_damp_seed_distortion", [b], scoring.damp_distortion(b))
    compare(bench, "jc_distortion_complexity", [b], scoring.distortion_penalty(b))
    compare(bench, "jc_tilt_complexity", [tilts], scoring.tilt_penalty(*tilts))
    compare(bench, "jc_principal_point_complexity", [k, centre], scoring.centre_penalty(k, centre))


def mean_error(bench, draws):
    camera, trig = draws.camera(), draws.trig()
    rows, flags = draws.many_rows() if draws.chance(0.01) else draws.rows()
    said = bench.library.jc_mean_reproj_error(struct_of("jc_pinhole_camera", camera), struct_of("jc_trig", trig),
                                              *reals(rows).arguments(), *octets(flags).arguments())
    reply = scoring.mean_reproj_error(tuple(camera), tuple(trig), rows, flags)
    bench.same("jc_mean_reproj_error", (camera, trig, rows, flags), reply, said)


def count_errors(bench, draws):
    camera, tilts = draws.camera(), [draws.tilt(0.1), draws.tilt(0.1)]
    rows, flags = draws.many_rows() if draws.chance(0.01) else draws.rows()
    said = numbers_in(bench.library.jc_count_errors(struct_of("jc_pinhole_camera", camera),
                                                    struct_of("jc_scheimpflug_params", tilts), *reals(rows).arguments(),
                                                    *octets(flags).arguments()))
    reply = scoring.count_errors(tuple(camera), *tilts, rows, flags)
    reply = [reply.number, 0.0, 0] if isinstance(reply, Refused) else [0, *reply]
    bench.same("jc_count_errors", (camera, tilts, rows, flags), reply, said)


def drawn_best(draws):
    """A record of a best, and its numbers as a struct has them: its flag may be any byte."""
    scores = [0.0, -0.0, 1.0, NAN, SMALLEST, draws.uniform(0.0, 2.0), draws.choice(HOSTILE)]
    flag = draws.flag()
    best = Best(flag != 0, draws.whole(), CAMERA + tuple(draws.several(5)), draws.tilt(), draws.tilt(), draws.real(),
                draws.choice(scores))
    return best, [flag] + numbers_of_best(best)[1:]


def numbers_of_best(best):
    return flat([int(best.flag), best.number, best.camera, best.tilt_x, best.tilt_y, best.mean, best.score])


def winner(bench, draws):
    """Of two, flags of every kind and equal scores among them."""
    (first, one), (second, two) = drawn_best(draws), drawn_best(draws)
    reply = numbers_of_best(scoring.winner(first, second))
    bench.same("jc_winner", (one, two), reply, by_value(bench, "jc_winner", [one, two]))


LEAVES = [sqrt, sine_and_cosine, pixels, distort, undistort, tilt_matrix, matrix, homography, conic, known_plate, point_maps,
          normalise, line_and_centre, design_rows, penalties, mean_error, count_errors, winner]
