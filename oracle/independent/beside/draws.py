"""Random and hostile numbers, cameras, lists and inputs of a run.

A draw is made of the generator alone, so that a seed gives the same inputs again.
"""

import math
from dataclasses import replace

from model.binary64 import INFINITY, NAN, from_bits
from model.values import Failed, Inputs, Options, Solved

SMALLEST, LEAST_NORMAL, GREATEST = 5e-324, 2.2250738585072014e-308, 1.7976931348623157e308
HOSTILE = [0.0, -0.0, 1.0, -1.0, SMALLEST, -SMALLEST, LEAST_NORMAL, -LEAST_NORMAL, GREATEST, -GREATEST, INFINITY,
           -INFINITY, NAN, from_bits(0xFFF0000000000001), from_bits(0x7FFFFFFFFFFFFFFF), 2.0**512, -2.0**600, 2.0**-540,
           1e-12, -1e-12, 1e-9, 1e-6, 0.05, -0.05, 0.5, -0.5, 2.0**-52, 1e-11, 256.0, 257.0]
LIMITS = [0, 1, 2, 3, 6, 16, 17, 53, 54, 255, 256, 257, 400, 512, 513, 655, 656, 657, 1024, 3072, 3073, 2**31, 2**32,
          2**53 + 1, 2**63, 2**64 - 1]
CAMERA = (100.0, 100.0, 50.0, 50.0)


class Draws:
    """Draws by one generator."""

    def __init__(self, rng):
        self.rng = rng
        self.choice, self.uniform, self.random = rng.choice, rng.uniform, rng.random

    def chance(self, share):
        return self.rng.random() < share

    def near(self, x):
        """One of the numbers within three steps of x."""
        for _ in range(self.rng.randrange(4)):
            x = math.nextafter(x, self.choice([INFINITY, -INFINITY]))
        return x

    def any_bits(self):
        return from_bits(self.rng.getrandbits(64))

    def real(self, tame=3.0):
        """Mostly a number of everyday size, and often a hostile one."""
        kind = self.rng.randrange(10)
        if kind < 5:
            return self.uniform(-tame, tame)
        if kind < 6:
            return float(self.rng.randint(-4, 4))
        if kind < 7:
            return self.uniform(-1.0, 1.0) * 2.0 ** self.rng.randint(-300, 300)
        if kind < 9:
            return self.near(self.choice(HOSTILE))
        return self.any_bits()

    def several(self, count, tame=3.0, hostile=0.5):
        """Numbers of which none is hostile, or any may be."""
        if self.chance(hostile):
            return [self.real(tame) for _ in range(count)]
        return [self.uniform(-tame, tame) for _ in range(count)]

    def whole(self):
        return self.choice(LIMITS) if self.chance(0.7) else self.rng.getrandbits(self.rng.randrange(1, 65))

    def flag(self):
        """A byte that is read as set or not."""
        return self.choice([0, 0, 1, 1, 1, 2, 128, 255])

    # ---- cameras, tilts and rows
    def intrinsics(self, hostile=0.3):
        if self.chance(hostile):
            return [self.real(200.0) for _ in range(4)]
        return [self.uniform(50.0, 2000.0), self.uniform(50.0, 2000.0), self.uniform(-9.0, 900.0), self.uniform(0.0, 900.0)]

    def distortion(self, hostile=0.3):
        if self.chance(hostile):
            return [self.near(self.choice([0.05, -0.05])) if self.chance(0.2) else self.real(0.5) for _ in range(5)]
        return [self.uniform(-0.3, 0.3) for _ in range(3)] + [self.uniform(-0.06, 0.06) for _ in range(2)]

    def camera(self, hostile=0.15):
        return self.intrinsics(hostile) + self.distortion(hostile)

    def tilt(self, hostile=0.3):
        return self.real(0.5) if self.chance(hostile) else self.uniform(-0.5, 0.5)

    def trig(self):
        """Sine and cosine of a tilt in each of two places; at times of none, or those of a right angle."""
        kind = self.rng.randrange(10)
        if kind < 7:
            x, y = self.uniform(-0.6, 0.6), self.uniform(-0.6, 0.6)
            return [math.sin(x), math.cos(x), math.sin(y), math.cos(y)]
        if kind < 8:
            return self.choice([[1.0, 0.0, 0.0, 1.0], [0.0, 1.0, -1.0, -0.0], [1.0, 0.0, 1.0, 0.0]])
        return self.several(4, 1.0, 1.0)

    def rows(self, count=None, hostile=0.1):
        """Numbers and flags; at times lists that don't fit together."""
        count = self.choice([0, 1, 2, 3, 5, 8, 17]) if count is None else count
        numbers, flags = [], []
        for _ in range(count):
            numbers += [self.uniform(-0.6, 0.6), self.uniform(-0.6, 0.6), self.uniform(0.0, 900.0), self.uniform(0.0, 900.0)]
            flags.append(self.choice([1, 1, 1, 1, 0]))
        if numbers and self.chance(hostile):
            numbers[self.rng.randrange(len(numbers))] = self.real()
        if flags and self.chance(hostile / 2):
            flags[self.rng.randrange(len(flags))] = self.choice([2, 3, 255])
        if self.chance(hostile / 2):
            flags.append(1)
        if self.chance(hostile / 2):
            numbers += [0.0] * self.rng.randint(1, 5)
        return numbers, flags

    def many_rows(self):
        """As many rows as are taken, and one more."""
        return self.rows(self.choice([1023, 1024, 1025]), 0.02)

    # ---- lists of points
    def points(self):
        """A list of numbers: a few points, a cluster, a line, as many as are taken, an odd length."""
        kind = self.rng.randrange(12)
        count = 2 * self.choice([0, 1, 2, 3, 4, 5, 8, 20])
        if kind < 5:
            numbers = self.several(count, 500.0, 0.3)
        elif kind < 6:
            numbers = [self.near(0.25) for _ in range(count)]
        elif kind < 8:
            numbers = self.line(count // 2)
        elif kind < 9:
            numbers = self.several(self.choice([798, 800, 802]), 500.0, 0.1)
        elif kind < 10:
            numbers = self.several(count + 1, 500.0, 0.3)
        else:
            scale = 2.0 ** self.rng.randint(-600, 600)
            numbers = [self.uniform(-1.0, 1.0) * scale for _ in range(count)]
        return numbers

    def line(self, count):
        """Points on a line, or beside it by about what the line test takes."""
        x, y, dx, dy = (self.uniform(-5.0, 5.0) for _ in range(4))
        numbers = []
        for _ in range(count):
            at = self.choice([0.0, 1e-9, 1e-10, 1.0, self.uniform(-3.0, 3.0)])
            off = self.choice([0.0, 0.0, 1e-6, 2e-7, 1e-9])
            numbers += [x + at * dx - off * dy, y + at * dy + off * dx]
        return numbers

    def destination(self, needed):
        """Numbers to write to: just enough, more, or too few."""
        length = max(0, needed + self.choice([0, 0, 0, 1, 5, 40, -1, -2, -needed]))
        return [self.uniform(-9.0, 9.0) for _ in range(length)]

    # ---- what Start takes, and what a host answers
    def typed(self, pool):
        return tuple(self.choice(pool) for _ in range(self.choice([1, 1, 2, 2, 3, 4, 16])))

    def inputs(self):
        """Inputs of which Start refuses few."""
        bound = self.choice([0.1, 0.25, 0.5, 0.3, 0.05])
        pool = [0.0, -0.0, 0.1, -0.1, 0.1 + 0.8e-12, 0.1 + 1.5e-12, 0.25, 0.3, -0.5, 0.02, -0.02, self.uniform(-0.5, 0.5)]
        one_axis = self.chance(0.3)
        seeds = []
        for _ in range(self.choice([0, 0, 0, 1, 2, 5])):
            seeds += [self.choice([100.0, 100.0 + 4e-10, 120.0]), 100.0, 50.0, 50.0, self.choice([0.05, -0.05, 0.0, 0.1]) * bound,
                      self.choice([0.0, -0.0]) if one_axis else self.choice([0.0, 0.5, -0.5]) * bound]
        options = Options(self.choice([0, 1, 2, 3, 5]), self.choice([0.125, 0.02, 1e-12, 1e-13, 3.0, 0.5]), bound, one_axis,
                          self.choice([0, 0, 50, 100, 33]))
        typed_y = (self.choice([0.0, -0.0]),) if one_axis else self.typed(pool)
        centre = (50.0, 50.0) if self.chance(0.95) else (self.choice(HOSTILE), 50.0)
        return Inputs(3, options, self.typed(pool), typed_y, tuple(seeds), CAMERA, centre)

    def hostile_inputs(self):
        """Inputs with up to three things in them that Start may refuse."""
        inputs = self.inputs()
        for _ in range(self.rng.randrange(4)):
            inputs = self.with_another(inputs)
        return inputs

    def with_another(self, inputs):
        """One thing of the inputs changed, often beside a limit."""
        pool = [0.0, -0.0, 0.1, 0.25, -0.3, self.real(0.5)]
        name = self.choice(["views", "typed_x", "typed_y", "decomposition", "base", "centre", "options", "options"])
        if name == "options":
            option = self.choice(["refine_rounds", "refine_step", "max_abs_tilt", "one_axis", "min_counted"])
            other = {"refine_rounds": self.choice([0, 16, 17, self.whole()]), "refine_step": self.choice([1e-11, self.real()]),
                     "max_abs_tilt": self.choice([SMALLEST, self.near(0.5), self.real()]), "one_axis": self.chance(0.7),
                     "min_counted": self.choice([99, 100, 101, self.whole()])}
            return replace(inputs, options=replace(inputs.options, **{option: other[option]}))
        seeds = list(inputs.decomposition) + [100.0] * self.choice([0, 0, 1, 5])
        if seeds and self.chance(0.7):
            seeds[self.rng.randrange(len(seeds))] = self.real(0.5)
        if len(seeds) > 5 and self.chance(0.5):
            seeds[5] = self.choice([0.02, -0.02, SMALLEST])
        if self.chance(0.2):
            seeds = [100.0, 100.0, 50.0, 50.0, 0.0, 0.0] * self.choice([255, 256, 257]) + [1.0] * self.choice([0, 0, 5])
        other = {"views": self.choice([0, 2, 3, self.whole()]), "decomposition": tuple(seeds), "base": tuple(self.several(4)),
                 "centre": tuple(self.several(2)), "typed_x": self.typed_hostile(pool), "typed_y": self.typed_hostile(pool)}
        return replace(inputs, **{name: other[name]})

    def typed_hostile(self, pool):
        return tuple(self.choice(pool) for _ in range(self.choice([0, 1, 2, 16, 17])))

    def answer(self):
        """A finding with its rows and flags: mostly a camera that scores."""
        if self.chance(0.15):
            return Failed(), *self.rows()
        camera = list(CAMERA) + [self.uniform(-0.1, 0.1) for _ in range(5)]
        if self.chance(0.15):
            camera[self.rng.randrange(9)] = self.real()
        if self.chance(0.3):
            u = self.choice([50.0, 51.0, 50.015625, 50.5])
            return Solved(tuple(CAMERA) + (0.0,) * 5), [0.0, 0.0, u, 50.0], [1]
        rows, flags = self.many_rows() if self.chance(0.003) else self.rows(self.choice([0, 1, 1, 2, 3, 4]))
        return Solved(tuple(camera)), rows, flags
