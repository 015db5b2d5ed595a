"""The search as a reference model, from its rules alone: plain lists, no lent memory, and every best looked up among the entries.

It is slow and easy to check. Floats are Python's, which are binary64; sums and products run in the stated order.
"""

import math

FACTORIALS = [math.factorial(n) for n in range(16)]


class Refusal(Exception):
    def __init__(self, number):
        self.number = number


# ---- scoring ----


def series(first, x):
    """Eight terms of a power series, from the last coefficient on: times x·x plus the one before."""

    def coefficient(n):
        return (1.0 if n % 4 < 2 else -1.0) / FACTORIALS[n]

    total = coefficient(first + 14)
    for n in range(12, -2, -2):
        total = total * (x * x) + coefficient(first + n)
    return total


def product(a, b):
    return [[a[i][0] * b[0][j] + a[i][1] * b[1][j] + a[i][2] * b[2][j] for j in range(3)] for i in range(3)]


def tilt_matrix(tilts):
    (sx, cx), (sy, cy) = ((series(1, t) * t, series(0, t)) for t in tilts)
    r = product([[cy, 0.0, -sy], [0.0, 1.0, 0.0], [sy, 0.0, cy]], [[1.0, 0.0, 0.0], [0.0, cx, sx], [0.0, -sx, cx]])
    return product([[r[2][2], 0.0, -r[0][2]], [0.0, r[2][2], -r[1][2]], [0.0, 0.0, 1.0]], r)


def tilt_penalty(tilts):
    return 0.25 * (tilts[0] * tilts[0] + tilts[1] * tilts[1])


def damped(camera):
    """k1, k2, k3 are 0, p1 and p2 within 0.05; a NaN stays."""
    limited = [0.05 if p > 0.05 else -0.05 if p < -0.05 else p for p in camera[7:]]
    return [*camera[:4], 0.0, 0.0, 0.0, *limited]


def distance(camera, tilt, row):
    """Between the projected and the seen pixel of a row."""
    fx, fy, cx, cy, k1, k2, k3, p1, p2 = camera
    x, y, u, v = row
    r2 = x * x + y * y
    r4 = r2 * r2
    r6 = r4 * r2
    radial = 1.0 + k1 * r2 + k2 * r4 + k3 * r6
    dx = x * radial + (2.0 * p1 * x * y + p2 * (r2 + 2.0 * x * x))
    dy = y * radial + (p1 * (r2 + 2.0 * y * y) + 2.0 * p2 * x * y)
    qx, qy, qz = (line[0] * dx + line[1] * dy + line[2] * 1.0 for line in tilt)
    z = qz if qz > 1e-12 else 1e-12
    du, dv = fx * (qx / z) + cx - u, fy * (qy / z) + cy - v
    square = du * du + dv * dv
    return math.sqrt(square) if square >= 0.0 else math.nan


def outcome(seed, solution, inputs):
    """``("skipped", reason)``, or ``("scored", score, mean, camera)``. A solution is a camera, rows and flags, or None."""
    if solution is None:
        return ("skipped", 1)
    camera, rows, flags = solution
    camera, tilts = damped(camera), seed[4:]
    if not all(map(math.isfinite, camera)) or camera[0] <= 0.0 or camera[1] <= 0.0:
        return ("skipped", 2)
    tilt = tilt_matrix(tilts)
    errors = [distance(camera, tilt, row) for row, flag in zip(rows, flags) if flag]
    counted = [error for error in errors if math.isfinite(error)]
    total = 0.0
    for error in counted:
        total += error
    mean = total / len(counted) if counted else math.inf
    if len(counted) * 100 < inputs["min_counted"] * len(rows) or not math.isfinite(mean):
        return ("skipped", 3)
    score = score_of(camera, mean, tilts, inputs["center"])
    return ("skipped", 4) if math.isnan(score) else ("scored", score, mean, camera)


def score_of(camera, mean, tilts, center):
    """Mean, then the penalties for distortion, tilt and centre; the last has the weight 0."""
    p1, p2 = camera[7:]
    distortion = 0.25 * (0.0 + (p1 * p1 + p2 * p2))
    away = [(camera[2 + i] - center[i]) / max(camera[i], 1.0) for i in range(2)]
    return mean + distortion + tilt_penalty(tilts) + 0.0 * (away[0] * away[0] + away[1] * away[1])


# ---- seeds ----


def near_tilts(a, b):
    return abs(a[0] - b[0]) < 1e-12 and abs(a[1] - b[1]) < 1e-12


def near(a, b):
    return near_tilts(a[4:], b[4:]) and all(abs(p - q) < 1e-9 for p, q in zip(a[:4], b[:4]))


def merged(offered, is_near):
    kept = []
    for new in offered:
        if not any(is_near(old, new) for old in kept):
            kept.append(new)
    return kept


def refusal(inputs):
    """The number with which a start refuses its inputs, or 0."""

    def positive(x):
        return math.isfinite(x) and x > 0.0

    xs, ys, seeds = inputs["xs"], inputs["ys"], inputs["decomposition"]
    bound = inputs["bound"]
    bad = [s for s in seeds if not all(map(math.isfinite, s)) or s[0] <= 0 or s[1] <= 0 or any(abs(t) > bound for t in s[4:])]
    checks = [
        (1, inputs["views"] < 3),
        (2, not xs or not ys),
        (3, not positive(bound)),
        (4, inputs["rounds"] > 0 and not positive(inputs["step"])),
        (5, len(xs) > 16 or len(ys) > 16 or len(seeds) > 256 or inputs["rounds"] > 16),
        (6, bool(bad)),
        (7, not all(map(math.isfinite, xs + ys))),
        (27, bound > 0.5),
        (31, inputs["one_axis"] and ys != [0.0]),
        (32, inputs["one_axis"] and any(s[5] != 0.0 for s in seeds)),
        (33, inputs["min_counted"] > 100),
    ]
    return next((number for number, holds in checks if holds), 0)


def first_list(inputs):
    """The decomposition seeds, then the grid with the base camera, which is merged by its tilts alone before."""
    grid = [(x, y) for x in inputs["xs"] for y in inputs["ys"] if max(abs(x), abs(y)) <= inputs["bound"]]
    from_grid = [[*inputs["base"], *tilts] for tilts in merged(grid, near_tilts)]
    return merged([*inputs["decomposition"], *from_grid], near)


def next_list(inputs, round_, k, tilts):
    """The neighbours of a best one, with its camera; the step halves from list to list."""
    step = inputs["step"]
    for _ in range(round_ - 1):
        step *= 0.5
    both = [-step, 0.0, step]
    offered = [[*k, tilts[0] + dx, tilts[1] + dy] for dx in both for dy in ([0.0] if inputs["one_axis"] else both)]
    return merged([seed for seed in offered if max(abs(seed[4]), abs(seed[5])) <= inputs["bound"]], near)


# ---- the run ----


def best(entries):
    """The earliest of the lowest scores, or None."""
    found = None
    for entry in entries:
        if entry["outcome"][0] == "scored" and (found is None or entry["outcome"][1] < found["outcome"][1]):
            found = entry
    return found


class Model:
    """A run. Each call gives what the library's replies, or raises its refusal's number."""

    def __init__(self, inputs):
        if number := refusal(inputs):
            raise Refusal(number)
        self.inputs, self.round, self.list = inputs, 0, first_list(inputs)
        self.entries, self.is_waiting, self.over = [], False, not self.list

    def position(self):
        return sum(entry["round"] == self.round for entry in self.entries)

    def next(self):
        """The candidate's number and its seed; None once the run is over."""
        if self.is_waiting:
            raise Refusal(9)
        if self.over:
            if best(self.entries) is None:
                raise Refusal(11)
            return None
        self.is_waiting = True
        return len(self.entries), self.list[self.position()]

    def waiting(self):
        return self.list[self.position()] if self.is_waiting else None

    def answer(self, solution):
        if not self.is_waiting:
            raise Refusal(12)
        if solution is not None and (len(solution[1]) > 1024 or any(flag > 1 for flag in solution[2])):
            raise Refusal(13)
        seed = self.waiting()
        found = outcome(seed, solution, self.inputs)
        self.entries.append({"number": len(self.entries), "round": self.round, "seed": seed, "outcome": found})
        self.is_waiting = False
        while not self.over and self.position() == len(self.list):
            self.end_round()
        return found

    def end_round(self):
        around = best(entry for entry in self.entries if entry["round"] == self.round) or best(self.entries)
        if around is None or self.round == self.inputs["rounds"]:
            self.over = True
            return
        self.round += 1
        self.list = next_list(self.inputs, self.round, around["outcome"][3][:4], around["seed"][4:])

    def result(self):
        if not self.over:
            raise Refusal(14)
        found = best(self.entries)
        if found is None:
            raise Refusal(11)
        return found

    def progress(self):
        return self.round, self.inputs["rounds"], self.position(), len(self.list), len(self.entries)

    def counts(self):
        reasons = [entry["outcome"][1] if entry["outcome"][0] == "skipped" else 0 for entry in self.entries]
        return tuple(reasons.count(reason) for reason in range(5))

    def stop(self):
        """The best, the lowest penalty that is left in the round, and whether the round can gain nothing."""
        found, left = best(self.entries), self.list[self.position() :]
        floor = min((tilt_penalty(seed[4:]) for seed in left), default=None)
        return found, floor, found is not None and floor is not None and floor >= found["outcome"][1]
