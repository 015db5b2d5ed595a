"""Self-checks: the worked cases of chapter 13, laws that the text states, and random runs.

Run from the directory above with `python3 -m unittest model.tests`.
"""

import math
import random
import unittest
from dataclasses import replace
from fractions import Fraction

from . import binary64 as b
from . import geometry as g
from . import journal as j
from . import record as rec
from . import reference as ref
from . import scoring as sc
from . import seeds as sd
from .binary64 import bits, from_bits, same
from .values import (Best, Entry, Failed, Inputs, NO_BEST, Options, Over, Progress, Refused, Scored, Skipped, Solved,
                     Stop, same_values)

HUNDRED = (100.0, 100.0, 50.0, 50.0)
NO_DISTORTION = (0.0,) * 5
CAMERA = HUNDRED + NO_DISTORTION
HOSTILE = [0.0, -0.0, 1.0, -1.0, 0.5, -0.5, 0.05, -0.05, 5e-324, -5e-324, 2.2250738585072014e-308, 1e-12, 1e-300,
           1.7976931348623157e308, -1.7976931348623157e308, 2.0**600, -2.0**600, float("inf"), float("-inf"),
           float("nan"), from_bits(0xFFF0000000000001), 1e-9, 100.0, 50.0, 3.0, 256.0]


def hexes(values):
    return ["%016x" % bits(x) for x in values]


def plain_inputs(typed_x, bound=0.25, rounds=0, step=0.125, typed_y=(0.0,), one_axis=False, share=0, views=3,
                 decomposition=(), centre=(50.0, 50.0)):
    options = Options(rounds, step, bound, one_axis, share)
    return Inputs(views, options, tuple(typed_x), tuple(typed_y), tuple(decomposition), HUNDRED, centre)


def dot(u, flag=1):
    return [0.0, 0.0, u, 50.0], [flag]


class Run:
    """Calls the record and the model side by side, and checks that the replies are the same."""

    def __init__(self, case, inputs, lent=None):
        self.case = case
        self.lent = [7.0] * 60 if lent is None else lent
        refusal, self.record = rec.start(inputs, self.lent)
        case.assertIsNone(refusal)
        self.book = ref.start(inputs, len(self.lent))
        self.text = b""

    def agree(self, one, other):
        self.case.assertTrue(same_values(one, other), (one, other))
        return one

    def part(self, n):
        return self.lent if n is None else self.lent[:n]

    def next(self, n=None):
        part = self.part(n)
        reply, self.record = rec.next_seed(self.record, part)
        return self.agree(reply, self.book.next(len(part)))

    def seed(self, n=None):
        part = self.part(n)
        return self.agree(rec.seed(self.record, part), self.book.seed(len(part)))

    def answer(self, finding, rows=(), flags=(), n=None):
        part = self.part(n)
        reply, self.record = rec.answer(self.record, part, finding, list(rows), list(flags))
        self.lent[:len(part)] = part
        self.agree(reply, self.book.answer(len(part), finding, list(rows), list(flags)))
        if not isinstance(reply, Refused):
            self.log()
        return reply

    def log(self):
        buffer = bytearray(256)
        length = j.write_line(rec.last_line(self.record), buffer)
        self.text += bytes(buffer[:length])

    def stop(self, n=None):
        part = self.part(n)
        return self.agree(rec.stop(self.record, part), self.book.stop(len(part)))

    def result(self):
        return self.agree(rec.result(self.record), self.book.result())

    def progress(self):
        return self.agree(rec.progress(self.record), self.book.progress())

    def quiet_calls(self):
        self.progress()
        self.agree(rec.last_line(self.record), self.book.last_line())
        self.agree(rec.counts(self.record), self.book.counts())
        self.stop()
        self.result()
        self.seed()

    def dot(self, u):
        return self.answer(Solved(CAMERA), *dot(u))


class Numbers(unittest.TestCase):
    def test_coefficients(self):
        table = ("3ff0000000000000 3ff0000000000000 bfe0000000000000 bfc5555555555555 3fa5555555555555 "
                 "3f81111111111111 bf56c16c16c16c17 bf2a01a01a01a01a 3efa01a01a01a01a 3ec71de3a556c734 "
                 "be927e4fb7789f5c be5ae64567f544e4 3e21eed8eff8d898 3de6124613a86d09 bda93974a8c07c9d "
                 "bd6ae7f3e733b81f")
        self.assertEqual(hexes(b.COEFFICIENTS), table.split())

    def test_constants(self):
        pairs = {1e-6: "3eb0c6f7a0b5ed8d", 1e-9: "3e112e0be826d695", 1e-11: "3da5fd7fe1796495",
                 1e-12: "3d719799812dea11", 0.05: "3fa999999999999a", 2.0**-52: "3cb0000000000000",
                 2.0**-100: "39b0000000000000"}
        for value, text in pairs.items():
            self.assertEqual(hexes([value]), [text])

    def test_root(self):
        self.assertEqual(b.root(4.0), 2.0)
        self.assertEqual(hexes([b.root(2.0)]), ["3ff6a09e667f3bcd"])
        self.assertEqual(hexes([b.root(-0.0), b.root(0.0)]), ["8000000000000000", "0000000000000000"])
        rng = random.Random(1)
        for _ in range(5000):
            x = abs(from_bits(rng.getrandbits(64)))
            if b.finite(x):
                self.assertEqual(b.root(x), math.sqrt(x))

    def test_series_cases(self):
        self.assertEqual(hexes([b.sine(0.1), b.cosine(0.1)]), ["3fb98eaecb8bcb2c", "3fefd712f9a817c0"])
        self.assertEqual(hexes([b.sine(0.5), b.cosine(0.5)]), ["3fdeaee8744b05f0", "3fec1528065b7d50"])
        self.assertTrue(same(b.sine(-0.0), -0.0))
        self.assertEqual(g.call_sine(math.nextafter(0.5, 1.0)), Refused(27))
        self.assertEqual(g.call_cosine(b.NAN), Refused(27))

    def test_series_bound(self):
        rng = random.Random(2)
        for _ in range(300):
            x = rng.uniform(-0.5, 0.5)
            for first, value in ((0, b.cosine(x)), (1, b.sine(x))):
                exact = sum(Fraction(x)**n * (-1)**(n // 2) / math.factorial(n) for n in range(first, 16, 2))
                self.assertLessEqual(abs(Fraction(value) - exact), Fraction(1, 2**50))

    def test_divide(self):
        inf = b.INFINITY
        self.assertEqual([b.divide(1.0, 0.0), b.divide(1.0, -0.0), b.divide(-inf, 0.0)], [inf, -inf, -inf])
        self.assertTrue(same(b.divide(0.0, -0.0), b.NAN) and same(b.divide(b.NAN, 0.0), b.NAN))


class Geometry(unittest.TestCase):
    def test_conic_cases(self):
        self.assertEqual(g.conic_to_camera((1.0, 0.0, 1.0, -3.0, -1.0, 14.0)), (2.0, 2.0, 3.0, 1.0))
        self.assertEqual(g.conic_to_camera((-1.0, -0.0, -1.0, 3.0, 1.0, -14.0)), (2.0, 2.0, 3.0, 1.0))
        for conic in ((0.0,) * 6, (1.0, 0.0, 1.0, 0.0, 0.0, 0.0), (1.0, 0.0, 1e-6, 0.0, 0.0, 0.0)):
            self.assertEqual(g.conic_to_camera(conic), Refused(16))

    def test_known_plates(self):
        rng = random.Random(3)
        for _ in range(500):
            unit = float(2 ** rng.randrange(9))
            camera = tuple(unit * rng.randint(low, 256) for low in (1, 1, -256, -256))
            self.assertEqual(g.conic_to_camera(g.known_plate(*camera)), camera)
        for bad in ((0.5, 1.0, 0.0, 0.0), (0.0, 1.0, 0.0, 0.0), (257.0, 1.0, 0.0, 0.0),
                    (1.0, 1.0, b.NAN, 0.0), (1.0, 1.0, 0.0, b.INFINITY), (65537.0, 256.0, 0.0, 0.0)):
            self.assertEqual(g.known_plate(*bad), Refused(34))

    def test_homography_cases(self):
        h = ((1.0, 0.0, 0.0), (0.0, 1.0, 0.0), (0.0, 0.0, -2.0))
        self.assertEqual(g.apply_homography_inverse(h, 2.0, 3.0), (-1.0, -1.5))
        self.assertEqual(hexes(g.apply_homography(h, 2.0, 3.0)), ["427d1a94a2000000", "4285d3ef79800000"])

    def test_tilt_inverse(self):
        self.assertEqual(g.inverse(g.tilt_projection_matrix(1.0, 0.0, 0.0, 1.0)), Refused(15))
        identity = ((1.0, 0.0, 0.0), (0.0, 1.0, 0.0), (0.0, 0.0, 1.0))
        inverse = g.inverse(identity)
        for i in range(3):
            for k in range(3):
                self.assertEqual(b.negative(inverse[i][k]), (i + k) % 2 == 1)

    def test_determinant_of_allowed_tilts(self):
        rng = random.Random(4)
        for _ in range(500):
            trig = b.trig_numbers(rng.uniform(-0.5, 0.5), rng.uniform(-0.5, 0.5))
            self.assertGreater(g.determinant(g.tilt_projection_matrix(*trig)), 0.5)

    def test_distort_cases(self):
        point = g.distort((0.0, 0.0, 0.0, 0.2, 0.0), 0.1, 0.6)
        self.assertEqual(hexes(point), ["3fbfbe76c8b43959", "3fea2d0e56041893"])
        point = g.undistort((0.0, 0.0, 0.0, 0.1, 0.0), 0, (0.1, 0.7))
        self.assertEqual(hexes(point), ["3fb6e234da663081", "3fe2fe1f735c2613"])
        self.assertTrue(all(x != x for x in g.distort(NO_DISTORTION, 2.0**600, 1.0)))

    def test_centre_cases(self):
        self.assertEqual(g.observed_centre([2.0, 4.0, 10.0, 6.0]), (5.0, 3.0))
        self.assertEqual(g.observed_centre([-2.0, 4.0, 10.0, 6.0]), (4.0, 5.0))
        self.assertEqual(g.observed_centre([1.0]), Refused(17))
        self.assertEqual(g.observed_centre([]), (0.0, 0.0))

    def test_line_case(self):
        third = [from_bits(0x3DE9B37A42B913F5), from_bits(0x3E10E076EF6F80E8)]
        self.assertTrue(g.points_are_collinear([0.0, 0.0, 10000.0, 0.0] + third))
        self.assertEqual(g.distance(tuple(third), (0.0, 0.0)), 1e-9)

    def test_destinations(self):
        square = [0.0, 0.0, 1.0, 0.0, 1.0, 1.0, 0.0, 1.0]
        rows = [9.0] * 80
        self.assertIsNone(g.design_rows(square, square, rows))
        self.assertEqual(rows[72:], [9.0] * 8)
        self.assertEqual(g.design_rows(square, square, rows[:71]), Refused(18))
        self.assertEqual(g.design_rows(square, square[:6], rows), Refused(23))
        out = [9.0] * 9
        self.assertEqual(g.normalise(square, out[:7]), Refused(18))
        t00, t02, t12 = g.normalise(square, out)
        self.assertEqual(out[8], 9.0)
        self.assertEqual((t00, t02, t12), (2.0, -1.0, -1.0))
        self.assertEqual(g.normalise([1.0, 1.0], out), Refused(19))
        self.assertEqual(g.normalise([0.0] * 802, out), Refused(17))

    def test_point_maps(self):
        trig = b.trig_numbers(0.0, 0.0)
        out = [9.0] * 6
        self.assertIsNone(g.untilt_points(HUNDRED, trig, [150.0, 50.0], out))
        self.assertEqual(out, [150.0, 50.0, 9.0, 9.0, 9.0, 9.0])
        self.assertIsNone(g.ideal_points(HUNDRED, NO_DISTORTION, 0, trig, [150.0, 50.0], out))
        self.assertEqual(g.untilt_points(HUNDRED, (1.0, 0.0, 0.0, 1.0), [], []), Refused(15))

    def test_hostile_numbers(self):
        rng = random.Random(5)

        def some(count):
            return tuple(rng.choice(HOSTILE) for _ in range(count))

        for _ in range(3000):
            g.pixel_to_sensor(some(4), *some(2))
            g.distort_with_derivatives(some(5), *some(2))
            g.undistort(some(5), rng.choice([0, 1, 2, 50]), some(2))
            matrix = (some(3), some(3), some(3))
            g.apply_homography(matrix, *some(2))
            g.apply_homography_inverse(matrix, *some(2))
            g.inverse(matrix)
            points = list(some(rng.randrange(14)))
            g.observed_centre(points)
            g.points_are_collinear(points)
            g.normalise(points, [0.0] * rng.randrange(14))
            g.design_rows(points, list(some(len(points))), [0.0] * 126)
            g.untilt_points(some(4), some(4), points, [0.0] * 14)
            g.ideal_points(some(4), some(5), 3, some(4), points, [0.0] * 14)
            g.conic_to_camera(some(6))
            g.known_plate(*some(4))
            sc.count_errors(some(9), rng.choice([0.1, 0.0]), 0.1, list(some(8)), [1, 1])
            sc.mean_reproj_error(some(9), some(4), list(some(rng.randrange(9))), [1, 1, 2])
            sc.score_of(rng.choice(HOSTILE), some(9), *some(2), some(2))


class Lists(unittest.TestCase):
    def test_round0_cases(self):
        base = HUNDRED
        self.assertEqual(sd.round0_list((0.25, 0.5), (0.0,), 0.25, base, []), [base + (0.25, 0.0)])
        kept = sd.round0_list((0.0, -0.0), (0.0,), 0.25, base, [])
        self.assertTrue(same_values(kept, [base + (0.0, 0.0)]))

    def test_later_cases(self):
        pairs = [s[4:] for s in sd.later_list(HUNDRED, 0.25, 0.0, 0.125, 0.25, False)]
        self.assertEqual(pairs, [(x, y) for x in (0.125, 0.25) for y in (-0.125, 0.0, 0.125)])
        seeds = sd.later_list(HUNDRED, 0.0, -0.0, 2.0**-42, 0.25, True)
        self.assertTrue(same_values(seeds, [HUNDRED + (-2.0**-42, 0.0)]))
        self.assertEqual(len(sd.later_list(HUNDRED, 0.28, 0.0, 0.02, 0.3, True)), 2)

    def test_merging_names_the_newest(self):
        kept = [(0.1, 0.0), (0.1 + 1.5e-12, 0.0)]
        self.assertEqual(sd.merge(kept, sd.near_by_tilt), kept)
        self.assertEqual(sd.newest_near(kept, (0.1 + 0.8e-12, 0.0), sd.near_by_tilt), 1)

    def test_later_length(self):
        rng = random.Random(6)
        for _ in range(2000):
            bound, step = rng.uniform(0.0, 0.5), 10.0 ** rng.uniform(-11.0, 0.0)
            tilts = (rng.uniform(-bound, bound), rng.uniform(-bound, bound))
            if not 1e-11 <= step <= 1.0:
                continue
            counts = [sum(b.within(bound, t + o) for o in (-step, 0.0, step)) for t in tilts]
            seeds = sd.later_list(HUNDRED, tilts[0], tilts[1], step, bound, False)
            self.assertEqual(len(seeds), counts[0] * counts[1])

    def test_no_side_is_favoured(self):
        rng = random.Random(7)
        near_tilts = [0.1, 0.1 + 0.8e-12, 0.1 + 1.5e-12, -0.1, 0.0, -0.0, 0.3]
        for _ in range(300):
            xs, ys = ([rng.choice(near_tilts) for _ in range(4)] for _ in range(2))
            dec = [HUNDRED + (rng.choice(near_tilts), rng.choice(near_tilts)) for _ in range(2)]
            there = sd.round0_list(xs, ys, 0.25, HUNDRED, dec)
            turned = sd.round0_list([-x for x in xs], [-y for y in ys], 0.25, HUNDRED,
                                    [s[:4] + (-s[4], -s[5]) for s in dec])
            self.assertTrue(same_values(turned, [s[:4] + (-s[4], -s[5]) for s in there]))

    def test_tilt_penalty(self):
        self.assertEqual(sc.tilt_penalty(0.5, 0.0), 0.0625)


class WorkedRuns(unittest.TestCase):
    """Specification: #cases-runs"""

    def test_1_empty_round0(self):
        run = Run(self, plain_inputs([0.5], rounds=2))
        self.assertEqual(run.next(53), Refused(10))
        self.assertEqual(run.next(), Refused(11))
        self.assertEqual(run.seed(), ())
        self.assertEqual(run.answer(Failed()), Refused(12))
        self.assertEqual(run.result(), Refused(11))

    def test_2_nothing_scored(self):
        run = Run(self, plain_inputs([0.0, -0.25], rounds=2))
        for number in (0, 1):
            self.assertEqual(run.next(), number)
            self.assertEqual(run.answer(Failed()), Skipped(1))
        self.assertEqual(run.next(), Refused(11))
        self.assertEqual(run.result(), Refused(11))

    def test_3_nan_score(self):
        run = Run(self, plain_inputs([0.0, 0.25, -0.25]))
        run.next()
        far = (100.0, 100.0, 2.0**600, 50.0) + NO_DISTORTION
        self.assertEqual(run.answer(Solved(far), [0.0, 0.0, 2.0**600, 50.0], [1]), Skipped(4))
        run.next()
        self.assertEqual(hexes([run.dot(51.0).score]), ["3ff0400000000000"])
        run.next()
        self.assertEqual(run.dot(52.0).score, 2.015625)
        self.assertEqual(run.next(), Over())
        best = run.result()
        self.assertEqual((best.number, best.mean, best.score), (1, 1.0, 1.015625))

    def test_4_share(self):
        rows = dot(51.0)[0] + dot(51.0)[0] + dot(b.INFINITY)[0]
        for share, outcome in ((33, 1.0), (34, None)):
            run = Run(self, plain_inputs([0.0, 0.25, -0.25], share=share))
            run.next()
            reply = run.answer(Solved(CAMERA), rows, [1, 0, 1])
            if outcome is None:
                self.assertEqual(reply, Skipped(3))
            else:
                self.assertEqual(reply.score, outcome)
            run.next()
            self.assertEqual(run.answer(Solved(CAMERA)), Skipped(3))

    def test_5_one_axis(self):
        run = Run(self, plain_inputs([0.25], rounds=2, typed_y=(-0.0,), one_axis=True))
        seen = []
        for _ in range(4):
            run.next()
            pair = run.seed()[4:]
            seen.append((pair, "%016x" % bits(run.dot(51.0).score)))
        wanted = [((0.25, -0.0), "3ff0400000000000"), ((0.125, 0.0), "3ff0100000000000"),
                  ((0.25, 0.0), "3ff0400000000000"), ((0.0625, 0.0), "3ff0040000000000")]
        self.assertTrue(same_values(seen, wanted))
        for _ in range(2):
            run.next()
            run.answer(Failed())
        self.assertEqual(run.next(), Over())
        self.assertEqual(run.result().number, 3)

    def test_6_stop_on_the_way(self):
        run = Run(self, plain_inputs([0.0, 0.25], rounds=1))
        self.assertEqual(run.stop(53), Refused(10))
        self.assertEqual(run.stop(), Stop(None, 0.0, False))
        run.next()
        self.assertEqual(run.dot(50.015625).score, 0.015625)
        stop = run.stop()
        self.assertEqual((stop.best.number, stop.floor, stop.gains_nothing), (0, 0.015625, True))
        run.next()
        run.answer(Failed())
        self.assertEqual(run.progress(), Progress(1, 1, 0, 9, 2))
        for _ in range(5):
            run.next()
            run.answer(Failed())
        self.assertEqual(run.stop().floor, 0.00390625)
        for _ in range(4):
            run.next()
            run.answer(Failed())
        self.assertIsNone(run.stop().floor)
        self.assertEqual(run.result().number, 0)


def random_inputs(rng):
    bound = rng.choice([0.1, 0.25, 0.5, 0.3])
    tilts = [0.0, -0.0, 0.1, -0.1, 0.1 + 0.8e-12, 0.25, 0.3, -0.5, 0.02]
    one_axis = rng.random() < 0.3
    typed_y = (rng.choice([0.0, -0.0]),) if one_axis else tuple(rng.choice(tilts) for _ in range(rng.randint(1, 3)))
    seeds = []
    for _ in range(rng.randrange(3)):
        tilt_y = 0.0 if one_axis else rng.choice([0.0, 0.1, -0.05])
        seeds += [rng.choice([100.0, 120.0]), 100.0, 50.0, 50.0, rng.choice([0.1, -0.1, 0.0]), tilt_y]
    centre = (50.0, 50.0) if rng.random() < 0.9 else (b.NAN, 50.0)
    return plain_inputs([rng.choice(tilts) for _ in range(rng.randint(1, 4))], bound, rng.randrange(5),
                        rng.choice([0.125, 0.02, 1e-12, 3.0, 0.5]), typed_y, one_axis, rng.choice([0, 0, 50, 100]),
                        3, seeds, centre)


def random_answer(rng):
    if rng.random() < 0.2:
        return Failed(), [], []
    camera = [100.0 + rng.random(), 100.0, 50.0, 50.0] + [rng.uniform(-0.1, 0.1) for _ in range(5)]
    if rng.random() < 0.1:
        camera[rng.randrange(9)] = rng.choice(HOSTILE)
    rows, flags = [], []
    for _ in range(rng.randrange(4)):
        rows += [rng.uniform(-0.2, 0.2), rng.uniform(-0.2, 0.2), rng.choice([50.0, 60.0]), rng.uniform(40.0, 60.0)]
        flags.append(rng.choice([1, 1, 1, 0]))
    if rng.random() < 0.05:
        flags.append(1)
    if rows and rng.random() < 0.1:
        rows[rng.randrange(4)] = rng.choice(HOSTILE)
    if rows and rng.random() < 0.03:
        flags[0] = 2
    return Solved(tuple(camera)), rows, flags


def random_call(run, rng):
    kind = rng.randrange(10)
    n = 5 if rng.random() < 0.05 else None
    if kind < 4:
        run.next(n)
    elif kind < 8:
        run.answer(*random_answer(rng), n=n)
    else:
        run.quiet_calls()


def finish(run, rng):
    while not run.record.over:
        run.next()
        run.answer(*random_answer(rng))
    run.quiet_calls()


def started(case, rng):
    while True:
        inputs = random_inputs(rng)
        lent = [rng.random() for _ in range(ref.inputs_demand(inputs) + rng.randrange(3))]
        if not isinstance(ref.start(inputs, len(lent)), Refused):
            return inputs, Run(case, inputs, lent)


class RandomRuns(unittest.TestCase):
    def test_record_is_the_model(self):
        rng = random.Random(8)
        for _ in range(150):
            _, run = started(self, rng)
            for _ in range(60):
                random_call(run, rng)

    def test_replay_and_resume(self):
        rng = random.Random(9)
        for _ in range(60):
            inputs, run = started(self, rng)
            finish(run, rng)
            lent = [9.0] * len(run.lent)
            reply = j.replay(inputs, lent, run.text)
            best = run.result()
            if isinstance(best, Best):
                self.assertTrue(same_values(reply, j.Winner(best.number, best.score)))
            else:
                self.assertEqual(reply, Refused(11))
            lines, end = j.read_journal(run.text)
            self.assertEqual(end, j.End())
            self.assertTrue(same_values(lines, [ref.line_of(e) for e in run.book.entries()]))

    def test_cuts(self):
        rng = random.Random(10)
        for _ in range(8):
            inputs, run = started(self, rng)
            lent_before = list(run.lent)
            answers = []
            while not run.record.over:
                run.next()
                answers.append(random_answer(rng))
                if isinstance(run.answer(*answers[-1]), Refused):
                    answers.pop()
                    continue_with = (Failed(), [], [])
                    answers.append(continue_with)
                    run.answer(*continue_with)
            for cut in range(0, len(run.text) + 1, 7):
                self.check_cut(inputs, run, answers, list(lent_before), run.text[:cut])

    def check_cut(self, inputs, run, answers, lent, text):
        refusal, record, report = j.resume(inputs, lent, text)
        self.assertIsNone(refusal)
        kept = text.count(b"\n")
        self.assertEqual((report.kept_lines, report.kept_bytes), (kept, text.rfind(b"\n") + 1))
        self.assertEqual(report.kept_bytes + report.dropped_bytes, len(text))
        self.assertEqual(report.ended, 1 if report.dropped_bytes else 0)
        for finding, rows, flags in answers[kept:]:
            _, record = rec.next_seed(record, lent)
            _, record = rec.answer(record, lent, finding, rows, flags)
        self.assertTrue(same_values(record, run.record))
        self.assertTrue(same_values(lent, run.lent))

    def test_stretches(self):
        rng = random.Random(11)
        for _ in range(60):
            _, run = started(self, rng)
            finish(run, rng)
            entries = run.book.entries()
            cuts = sorted(rng.randint(0, len(entries)) for _ in range(4))
            parts = [entries[i:k] for i, k in zip([0] + cuts, cuts + [len(entries)])]
            bests = [sc.best_of(part) or NO_BEST for part in parts]
            left = NO_BEST
            for best in bests:
                left = sc.winner(left, best)
            right = NO_BEST
            for best in reversed(bests):
                right = sc.winner(best, right)
            self.assertTrue(same_values(left, right))
            self.assertTrue(same_values(left, run.book.run_best() or NO_BEST))

    def test_changed_lists(self):
        rng = random.Random(12)
        for _ in range(150):
            _, run = started(self, rng)
            record, lent, answers = run.record, run.lent, 0
            while not record.over and answers < 700:
                if rng.random() < 0.5:
                    lent[rng.randrange(len(lent))] = rng.choice(HOSTILE)
                rec.stop(record, lent)
                rec.seed(record, lent)
                _, record = rec.next_seed(record, lent)
                finding, rows, flags = random_answer(rng)
                reply, record = rec.answer(record, lent, finding, rows, flags)
                if isinstance(reply, Refused):
                    _, record = rec.answer(record, lent, Failed(), [], [])
                answers += 1
                self.assertTrue(rec.sound(record))
            self.assertTrue(record.over and record.number <= 656)

    def test_last_line_of_a_made_up_skip(self):
        """The record keeps what stands behind a skip; the call doesn't give it. Specification: #record-unsound"""
        _, run = started(self, random.Random(30))
        skip = j.Line(0, 0, (1.0,) * 6, 2, 7.0, 7.0, (7.0,) * 6)
        record = replace(run.record, number=1, counts=(0, 0, 1, 0, 0), last_flag=True, last=skip)
        self.assertEqual(rec.last_line(record), j.Line(0, 0, (1.0,) * 6, 2))
        self.assertEqual(record.last, skip)
        self.assertIsNone(rec.last_line(replace(record, last=replace(skip, skipped=5))))

    def test_hostile_inputs(self):
        """Start, replay and resume end on every input, and agree on what is refused."""
        rng = random.Random(23)
        accepted = 0
        for _ in range(4000):
            tame = [0.0, -0.0, 0.1, 0.25, 1e-12, 5e-324]
            pool = tame + HOSTILE if rng.random() < 0.3 else tame
            options = Options(rng.randrange(3), rng.choice([0.125, 1e-11, rng.choice(HOSTILE)]),
                              rng.choice([0.25, 0.5, 5e-324, rng.choice(HOSTILE)]), rng.random() < 0.2,
                              rng.choice([0, 50, 100, 101]))
            typed = [tuple(rng.choice(pool) for _ in range(rng.randrange(4))) for _ in range(2)]
            seeds = tuple(rng.choice(tame + [100.0]) for _ in range(rng.choice([0, 0, 6, 7])))
            hostile = tuple(rng.choice(HOSTILE) for _ in range(6))
            inputs = Inputs(rng.choice([2, 3, 3, 3, 9]), options, typed[0], typed[1], seeds, hostile[:4], hostile[4:])
            lent = [9.0] * rng.choice([53, 54, 100])
            before = list(lent)
            refusal, record = rec.start(inputs, lent)
            self.assertEqual(refusal, ref.start_refusal(inputs, len(lent)))
            if refusal is not None:
                self.assertEqual((lent, record), (before, rec.ZERO_RECORD))
                self.assertEqual(j.replay(inputs, lent, b""), refusal)
                self.assertEqual(j.resume(inputs, lent, b"x")[0], refusal)
                continue
            accepted += 1
            self.assertEqual(j.resume(inputs, lent, b"x\n")[2], j.ResumeReport(0, 0, 2, 29))
            run = Run(self, inputs, lent)
            for _ in range(25):
                random_call(run, rng)
        self.assertGreater(accepted, 100)

    def test_made_up_records(self):
        rng = random.Random(13)
        for _ in range(3000):
            _, run = started(self, rng)
            lent = run.lent
            changes = {rng.choice(["demand", "round", "len", "at", "number"]): rng.randrange(700),
                       "over": rng.random() < 0.3, "waiting": rng.random() < 0.4,
                       "step": rng.choice(HOSTILE),
                       "waiting_seed": tuple(rng.choice(HOSTILE) for _ in range(6))}
            best = Best(rng.random() < 0.5, 3, CAMERA, rng.choice(HOSTILE), rng.choice(HOSTILE), 1.0,
                        rng.choice(HOSTILE))
            record = replace(run.record, run_best=best, **changes)
            if not rec.sound(record):
                self.assertEqual(rec.next_seed(record, lent), (Refused(11), record))
                self.assertEqual(rec.result(record), Refused(11))
                self.assertEqual(rec.progress(record), Progress(0, 0, 0, 0, 0))
            for _ in range(4):
                _, record = rec.next_seed(record, lent)
                _, record = rec.answer(record, lent, *random_answer(rng))
                rec.stop(record, lent)
                rec.result(record)
                rec.last_line(record)


class Laws(unittest.TestCase):
    """What the text says follows from its rules."""

    def test_winner_of_a_run(self):
        """Specification: #model-run"""
        rng = random.Random(16)
        for _ in range(100):
            inputs, run = started(self, rng)
            finish(run, rng)
            best, entries = run.result(), run.book.entries()
            scores = [(e.outcome.score, e.number) for e in entries if isinstance(e.outcome, Scored)]
            if isinstance(best, Refused):
                self.assertEqual(scores, [])
                continue
            self.assertEqual((best.score, best.number), min(scores))
            self.assertTrue(sd.pair_within(inputs.options.max_abs_tilt, best.tilt_x, best.tilt_y))
            self.assertTrue(same_values(best.camera[4:7], (0.0, 0.0, 0.0)))
            self.assertTrue(b.finite(best.mean) and best.mean >= 0.0 and not b.negative(best.mean))
            if inputs.options.one_axis:
                self.assertEqual(best.tilt_y, 0.0)

    def test_winner_without_a_flag(self):
        """Where the first's flag isn't set, the second comes back with all its numbers. Specification: #stretches"""
        first, second = replace(NO_BEST, number=1, score=1.0), replace(NO_BEST, number=2, score=2.0)
        self.assertEqual(sc.winner(first, second), second)
        self.assertEqual(sc.winner(replace(first, flag=True), second), replace(first, flag=True))

    def test_best_by_its_definition(self):
        """The first whose score is a number and that no other beats. Specification: #score-best"""
        rng = random.Random(21)
        for _ in range(2000):
            scores = [rng.choice([b.NAN, b.INFINITY, 1.0, 2.0, 0.0, -0.0]) for _ in range(rng.randrange(6))]
            entries = [Entry(i, 0, HUNDRED + (0.0, 0.0), Scored(CAMERA, 0.0, s)) for i, s in enumerate(scores)]
            first = [i for i, s in enumerate(scores) if s == s and not any(sc.beats(o, s) for o in scores)]
            best = sc.best_of(entries)
            self.assertEqual(None if best is None else best.number, first[0] if first else None)

    def test_longest_run(self):
        """656 answers, their journal, replay and resume. Specification: #run-end, #limits"""
        dec = []
        for i in range(256):
            dec += [200.0 + i, 100.0, 50.0, 50.0, 0.0, 0.0]
        tilts = tuple(i / 64.0 - 0.125 for i in range(16))
        inputs = plain_inputs(tilts, 0.5, 16, 0.125, tilts, decomposition=dec)
        self.assertEqual(ref.start_refusal(inputs, 3071), Refused(8))
        run = Run(self, inputs, [0.0] * 3072)
        rng, answers = random.Random(22), 0
        while not run.record.over:
            left = run.record.len - run.record.at + 9 * (16 - run.record.round)
            self.assertLessEqual(answers + left, 656)
            run.next()
            run.answer(Solved(CAMERA), *dot(50.0 + rng.random()))
            answers += 1
        self.assertEqual(answers, 656)
        best = run.result()
        self.assertTrue(same_values(j.replay(inputs, [0.0] * 3072, run.text), j.Winner(best.number, best.score)))
        behind = run.text + run.text[-200:]
        self.assertEqual(j.replay(inputs, [0.0] * 3072, run.text + run.text[:200]), Refused(29, 657))
        self.assertEqual(j.resume(inputs, [0.0] * 3072, behind)[2].ended, 29)
        self.assertEqual(j.resume(inputs, [0.0] * 3072, run.text + b"x")[2].ended, 1)
        one_more = run.text.split(b"\n")[0] + b"\n"
        self.assertEqual(j.replay(inputs, [0.0] * 3072, run.text + one_more), Refused(30, 657))
        buffer = bytearray(24)
        length = j.write_report(rec.counts(run.record), buffer)
        self.assertEqual(bytes(buffer[:length]), b"656,0,0,0,0,656\n")

    def test_refusals_of_a_finding(self):
        """13 and 27, in order. Specification: #score-finding"""
        many = [1] * 1025
        self.assertEqual(sc.count_errors(CAMERA, b.NAN, 0.0, [0.0] * 4100, many), Refused(13))
        self.assertEqual(sc.count_errors(CAMERA, 0.0, 0.0, [0.0] * 5, [1]), Refused(13))
        self.assertEqual(sc.count_errors(CAMERA, 0.0, 0.0, [0.0] * 4, [2]), Refused(13))
        self.assertEqual(sc.count_errors(CAMERA, 0.0, 0.6, [0.0] * 4, [1]), Refused(27))
        self.assertEqual(sc.count_errors(CAMERA, 0.0, 0.0, [], []), (0.0, 0))
        self.assertEqual(sc.count_errors(CAMERA, 0.0, 0.5, [0.0, 0.0, 51.0, 50.0], [1]), (1.0, 1))

    def test_floor(self):
        """Specification: #floor-promises"""
        rng = random.Random(17)
        for _ in range(100):
            _, run = started(self, rng)
            floor, stop, turn = -1.0, None, -1
            while not run.record.over:
                stop = run.stop()
                if run.record.round != turn:
                    turn, floor = run.record.round, stop.floor
                run.next()
                reply = run.answer(*random_answer(rng))
                if isinstance(reply, Scored):
                    self.assertGreaterEqual(reply.score, floor)
                    if stop.gains_nothing:
                        self.assertEqual(sc.best_of(run.book.entries()), stop.best)

    def test_typed_tilts_are_tried(self):
        """Specification: #seeds-tried"""
        rng = random.Random(18)
        for _ in range(300):
            inputs, run = started(self, rng)
            bound = inputs.options.max_abs_tilt
            for x in inputs.typed_x:
                for y in inputs.typed_y:
                    if sd.pair_within(bound, x, y):
                        self.assertTrue(any(abs(s[4] - x) < 2e-12 and abs(s[5] - y) < 2e-12 for s in run.book.list))

    def test_lent_list_before(self):
        """Record and report don't depend on what the lent list held before. Specification: #resume-promises"""
        rng = random.Random(19)
        for _ in range(60):
            inputs, run = started(self, rng)
            finish(run, rng)
            cut = run.text[:rng.randint(0, len(run.text))]
            one = j.resume(inputs, [b.NAN] * len(run.lent), cut)
            other = j.resume(inputs, [1.0] * len(run.lent), cut)
            self.assertTrue(same_values(one, other))

    def test_damping(self):
        """Specification: #score-damping"""
        damped = sc.damp_distortion((b.NAN, b.INFINITY, 1.0, -b.INFINITY, b.NAN))
        self.assertTrue(same_values(damped, (0.0, 0.0, 0.0, -0.05, b.NAN)))

    def test_points_that_pass_the_line_test(self):
        """26 can't occur. Specification: #design-rows"""
        rng = random.Random(20)
        for _ in range(1500):
            size = 10.0 ** rng.choice([-9, -6, -4, -3, 0, 8, 16, 100, 300, 308])
            source = [rng.choice([0.0, 1.0, -1.0, 0.5, rng.random()]) * size for _ in range(2 * rng.randint(4, 6))]
            target = [x + rng.choice([0.0, 0.25]) for x in source]
            g.design_rows(source, target, [0.0] * 108)


class Journals(unittest.TestCase):
    def test_changed_bytes(self):
        rng = random.Random(14)
        inputs, run = None, None
        while run is None or len(run.text) < 1200:
            inputs, run = started(self, rng)
            finish(run, rng)
        for _ in range(3000):
            data = bytearray(run.text)
            for _ in range(rng.randint(1, 2)):
                data[rng.randrange(len(data))] = rng.choice(b"0123456789abcdefSHCEN,-\n\r AF")
            data = bytes(data)
            lines, _ = j.read_journal(data)
            again = b"".join(j.line_bytes(line) for line in lines)
            self.assertEqual(again, data[:len(again)])
            lent = [0.0] * len(run.lent)
            _, record, report = j.resume(inputs, lent, data)
            fresh = [0.0] * len(run.lent)
            whole = j.replay(inputs, fresh, data[:report.kept_bytes])
            self.assertFalse(isinstance(whole, Refused) and whole.number in (29, 30))
            self.assertTrue(same_values(fresh, lent))
            self.assertEqual(record.number, report.kept_lines)

    def test_writer(self):
        rng = random.Random(15)
        _, run = started(self, rng)
        finish(run, rng)
        line = ref.line_of(run.book.entries()[0])
        self.assertEqual(j.write_line(line, bytearray(255)), Refused(28))
        self.assertEqual(j.write_line(replace(line, number=656), bytearray(256)), Refused(28))
        self.assertEqual(j.write_line(replace(line, round=17), bytearray(256)), Refused(28))
        self.assertEqual(j.write_line(replace(line, skipped=5), bytearray(256)), Refused(28))
        self.assertEqual(j.write_line(replace(line, skipped=0, score=b.NAN), bytearray(256)), Refused(28))
        longest = replace(line, number=655, round=16, skipped=0, score=0.0)
        shortest = replace(line, number=0, round=0, skipped=1)
        self.assertEqual([len(j.line_bytes(shortest)), len(j.line_bytes(longest))], [124, 247])

    def test_report(self):
        buffer = bytearray(b"x" * 30)
        self.assertEqual(j.write_report((1, 2, 0, 0, 0), buffer), 12)
        self.assertEqual(bytes(buffer), b"1,2,0,0,0,3\n" + b"x" * 18)
        self.assertEqual(j.write_report((656, 1, 0, 0, 0), buffer), Refused(28))
        self.assertEqual(j.write_report((2**64 - 1, 1, 0, 0, 0), buffer), Refused(28))
        self.assertEqual(j.write_report((1, 0, 0, 0, 0), bytearray(23)), Refused(28))


class Starts(unittest.TestCase):
    def refused(self, n=60, **changes):
        typed = changes.pop("typed_x", [0.0])
        return ref.start_refusal(plain_inputs(typed, **changes), n)

    def test_each_refusal(self):
        six = (100.0, 100.0, 50.0, 50.0, 0.0, 0.1)
        cases = [(1, dict(views=2)), (2, dict(typed_x=[])), (2, dict(typed_y=())), (3, dict(bound=0.0)),
                 (3, dict(bound=b.NAN)), (4, dict(rounds=1, step=-1.0)), (5, dict(typed_x=[0.0] * 17)),
                 (5, dict(rounds=17)), (5, dict(decomposition=six[:5])), (6, dict(decomposition=(0.0,) + six[1:])),
                 (6, dict(decomposition=six, bound=0.05)), (7, dict(typed_x=[b.NAN])), (8, dict(n=53)),
                 (27, dict(bound=0.75)), (31, dict(one_axis=True, typed_y=(0.1,))),
                 (32, dict(one_axis=True, decomposition=six)), (33, dict(share=101))]
        for number, changes in cases:
            self.assertEqual(self.refused(**changes), Refused(number), changes)
        self.assertIsNone(self.refused(step=b.NAN))


if __name__ == "__main__":
    unittest.main()
