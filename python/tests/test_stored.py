"""Every stored answer of oracle/stored is the package's, bit by bit; oracle/PROTOCOL.md describes words, operations and files."""

import unittest

import numpy as np

from jinnychair import _declarations as c
from jinnychair import geometry
from jinnychair._library import library
from jinnychair._line import Line, read_line, write_line
from jinnychair._search import Inputs, Options, Search, Solution
from jinnychair._values import Counts, FxFyCxCy, Seed, ScheimpflugParams, doubles, seed_of
from jinnychair.errors import Refused
from jinnychair.journal import write_report

from .words import STORED, UNTOUCHED, Reader, cases, float_words, same


def refusable(call, words):
    """0 and the words of a reply; or the refusal's number."""
    try:
        return [0, *words(call())]
    except Refused as refused:
        return [int(refused.number)]


# ---- operations of one step ----


def series(function):
    return lambda r: refusable(lambda: function(r.float()), lambda value: float_words([value]))


def sqrt_from(r):
    root = float_words([geometry.sqrt(r.float())])
    r.number()
    return root


def inverse(r):
    m = r.floats(9).reshape(3, 3)
    return refusable(lambda: geometry.inverse(m), lambda found: float_words([geometry.determinant(m), *found.ravel()]))


def jacobian(r):
    point, derivatives = geometry.distort_with_jacobian(r.floats(5), r.floats(2))
    return float_words([*point, *derivatives.ravel()])


def undistort(r):
    dist, iters = r.floats(5), r.number()
    return float_words(geometry.undistort(dist, r.floats(2), iters))


def collinear(r):
    listed = r.list()
    reply = library().jc_points_are_collinear(listed, listed.size)
    if listed.size % 2 == 0:
        assert geometry.points_are_collinear(listed.reshape(-1, 2)) == bool(reply.collinear)
    return [reply.number or reply.collinear]


def centre(r):
    listed = r.list()
    reply = library().jc_observed_pixel_center(listed, listed.size)
    if listed.size % 2 == 0:
        assert same(float_words(geometry.observed_pixel_center(listed.reshape(-1, 2))), float_words(doubles(reply.center)))
    return [reply.number] if reply.number else float_words(doubles(reply.center))


def known_plate(r):
    k = r.floats(4)
    return refusable(lambda: geometry.conic_to_camera(geometry.known_plate(k)), lambda back: float_words(np.array(back) + 0.0))


def mean_reproj_error(r):
    camera, trig = r.floats(9), r.floats(4)
    return float_words([geometry.mean_reproj_error(camera, trig, *rows(r))])


def rows(r):
    read = [(r.floats(4), r.number()) for _ in range(r.number())]
    return np.array([row for row, _ in read]).reshape(-1, 4), np.array([flag for _, flag in read], np.uint8)


# ---- operations that write a list ----


def untilt(r):
    k, trig = r.floats(4), r.floats(4)
    listed = r.list()
    raw = (c.jc_intrinsics(*k), c.jc_trig(*trig), listed, listed.size)
    return "jc_untilt_points", raw, listed.size, listed, lambda: geometry.untilt_points(k, trig, listed.reshape(-1, 2)).ravel()


def ideal(r):
    camera, iters, trig = r.floats(9), r.number(), r.floats(4)
    listed = r.list()
    raw = (c.jc_pinhole_camera(tuple(camera[:4]), tuple(camera[4:])), iters, c.jc_trig(*trig), listed, listed.size)
    public = lambda: geometry.ideal_points(camera, trig, listed.reshape(-1, 2), iters).ravel()
    return "jc_ideal_points", raw, listed.size, listed, public


def normalize(r):
    listed = r.list()

    def public():
        found = geometry.normalize_points_2d(listed.reshape(-1, 2))
        return [*found.points.ravel(), found.transform[0, 0], found.transform[0, 2], found.transform[1, 2]]

    return "jc_normalize_points_2d", (listed, listed.size), listed.size, listed, public


def design(r):
    a, b = r.list(), r.list()
    public = lambda: geometry.design_rows(a.reshape(-1, 2), b.reshape(-1, 2)).ravel()
    odd = a if a.size % 2 else b
    return "jc_design_rows", (a, a.size, b, b.size), a.size // 2 * 18, odd, public


def written(name, raw, to):
    """What a raw call replies: the number, and what stands behind the list in an answer."""
    reply = getattr(library(), name)(*raw, to, to.size)
    return (reply, []) if isinstance(reply, int) else (reply.number, [reply.t00, reply.t02, reply.t12])


def into(read):
    """A lent destination, then the inputs: the number, and the destination as it was left."""

    def words(r):
        to = r.list()
        name, raw, *_ = read(r)
        number, _ = written(name, raw, to)
        return [number, *float_words(to)]

    return words


def plain(read):
    """The inputs: 0 and the list, or the number; the package's own function must say the same where there are whole points."""

    def words(r):
        name, raw, length, odd, public = read(r)
        roomy = np.full(length + 5, UNTOUCHED)
        number, behind = written(name, raw, roomy)
        kept = 0 if number else length
        assert same(float_words(roomy[kept:]), float_words(np.full(length + 5 - kept, UNTOUCHED)))
        reply = [number] if number else [0, *float_words([*roomy[:length], *behind])]
        if odd.size % 2 == 0:
            assert same(refusable(public, float_words), reply)
        return reply

    return words


# ---- the search ----


def start_inputs(r, one_axis=False):
    views, xs, ys = r.number(), r.list(), r.list()
    rounds, step, bound = r.number(), r.float(), r.float()
    decomposition, base, center = r.list(), r.floats(4), r.floats(2)
    options = Options(xs, ys, rounds, step, bound, one_axis)
    whole = decomposition.size // 6 * 6
    return Inputs(views, base, center, options, decomposition[:whole].reshape(-1, 6)), decomposition


def raw_start(inputs, decomposition, listed):
    """A start by the library's own function: a list that isn't in sixes can't be named as seeds."""
    arguments, _ = inputs._lent()
    arguments = (*arguments[:6], decomposition, decomposition.size, *arguments[8:])
    return library().jc_start(*arguments, listed, listed.size), listed


def seed_lists(r):
    inputs, _ = start_inputs(r)
    search = Search(inputs)
    total = search.progress().total
    return [total, *float_words(search._list[: 6 * total])]


def local_seed_grid(r):
    numbers, step, bound = r.floats(6), r.float(), r.float()
    run = c.jc_run_record()
    run.options = c.jc_options(1, step, bound, 0, 0)
    run.place = c.jc_place_record(54, 0, 0.0, 1, 0, 1, 0)
    run.waiting.is_waiting, run.waiting.seed = 1, c.jc_candidate_seed(tuple(numbers[:4]), tuple(numbers[4:]))
    candidate = c.jc_candidate(0, (tuple(numbers[:4]), (0.0,) * 5), tuple(numbers[4:]), 0.0, 0.0)
    run.round_best = run.run_best = c.jc_best_record(1, candidate)
    run.counts.scored = 1
    search = Search._of_parts(run, np.full(54, UNTOUCHED))
    search.answer(None)
    total = search._run.place.len
    return [total, *float_words(search._list[: 6 * total])]


def solution(r):
    if not r.number():
        return None
    camera = r.floats(9)
    return Solution(camera, *rows(r))


def outcome_words(outcome):
    return [int(outcome.skipped)] if outcome.skipped else [0, *float_words([outcome.score])]


def result_words(search):
    def words(winner):
        camera = [*winner.camera.k, *winner.camera.dist]
        return [winner.number, *float_words([*camera, *winner.sensor, winner.mean_reproj_error, winner.score])]

    return refusable(search.result, words)


def search_run(r):
    inputs, decomposition = start_inputs(r)
    answers = r.number()
    if decomposition.size % 6:
        reply, _ = raw_start(inputs, decomposition, np.zeros(3072))
        return [reply.number]
    try:
        search = Search(inputs)
    except Refused as refused:
        return [int(refused.number)]
    words = [0, answers]
    for number in range(answers):
        handed = search.next()
        assert handed is not None and handed.number == number
        words += float_words([*handed.seed.reference_k, *handed.seed.sensor])
        words += outcome_words(search.answer(solution(r)))
    end = refusable(search.next, lambda over: [] if over is None else [99])
    assert end in ([0], [11]), end
    return words + result_words(search)


class Called:
    """A run between two calls, and the host's list, of which each call is lent a part: by the library's own functions."""

    def __init__(self, run, listed):
        self.run, self.list = run, listed

    def call(self, r):
        kind = r.number()
        if kind == 4:
            return self.result()
        if kind == 5:
            place = r.number()
            self.list[place] = r.float()
            return []
        return {1: self.next, 2: self.seed, 3: self.answer}[kind](r)

    def next(self, r):
        front = self.list[: r.number()]
        reply = library().jc_next(self.run, front, front.size)
        changed = numbers_of(reply.run) != numbers_of(self.run)
        self.run = c.jc_run_record.from_buffer_copy(reply.run)
        if reply.number:
            return [reply.number, changed]
        return [1, changed] if reply.over else [0, reply.candidate, changed]

    def seed(self, r):
        front, to = self.list[: r.number()], np.full(6, UNTOUCHED)
        count = library().jc_seed(self.run, front, front.size, to, to.size)
        assert same(float_words(to[count:]), float_words(np.full(6 - count, UNTOUCHED)))
        return [count, *float_words(to[:count])]

    def answer(self, r):
        front, lent, is_solved = self.list[: r.number()], r.number(), r.number()
        camera, listed, flags = np.full(9, UNTOUCHED), np.empty(0), np.empty(0, np.uint8)
        if is_solved:
            camera = r.floats(9)
            listed, flags = rows(r)
        numbers = np.full(lent, UNTOUCHED)
        shared = min(lent, listed.size)
        numbers[:shared] = listed.ravel()[:shared]
        before = float_words(self.list)
        pinhole = c.jc_pinhole_camera(tuple(camera[:4]), tuple(camera[4:]))
        reply = library().jc_answer(self.run, is_solved, pinhole, numbers, numbers.size, flags, flags.size, front, front.size)
        changed = numbers_of(reply.run) != numbers_of(self.run) or float_words(self.list) != before
        self.run = c.jc_run_record.from_buffer_copy(reply.run)
        scored = [0, *float_words([reply.score])] if not reply.number and not reply.skipped else [reply.number or reply.skipped]
        return [*scored, changed]

    def result(self):
        return result_words(Search._of_parts(self.run, self.list))


def numbers_of(struct):
    """Every number of a struct, as text: what stands between the fields says nothing."""
    return [numbers_of(getattr(struct, name)) if hasattr(kind, "_fields_") else repr(getattr(struct, name)) for name, kind in struct._fields_]


def calls(one_axis):
    def words(r):
        listed = r.list()
        inputs, decomposition = start_inputs(r, one_axis)
        reply, listed = raw_start(inputs, decomposition, listed)
        words = [reply.number, *float_words(listed)]
        if reply.number:
            return words
        called = Called(c.jc_run_record.from_buffer_copy(reply.run), listed)
        while not r.is_empty():
            words += called.call(r)
        return words

    return words


# ---- the journal ----


def line_numbers(r):
    number, round_ = r.number(), r.number()
    seed, skipped = r.floats(6), r.number()
    return number, round_, seed, skipped, r.floats(8)


def line_struct(number, round_, seed, skipped, behind):
    seed = c.jc_candidate_seed(tuple(seed[:4]), tuple(seed[4:]))
    return c.jc_line(number, round_, seed, skipped, *behind[:2], tuple(behind[2:6]), *behind[6:])


def as_line(number, round_, seed, skipped, behind):
    """The line that a program has, where the numbers are those of one."""
    if skipped > 4:
        return None
    seed = Seed(FxFyCxCy(*seed[:4].tolist()), ScheimpflugParams(*seed[4:].tolist()))
    if skipped:
        return Line(number, round_, seed, c.SkipReason(skipped))
    score, mean, *k, p1, p2 = behind.tolist()
    return Line(number, round_, seed, None, score, mean, FxFyCxCy(*k), p1, p2)


def store_line(r):
    numbers = line_numbers(r)
    room = r.number()
    to = np.full(room, ord("#"), np.uint8)
    reply = library().jc_write_line(line_struct(*numbers), to, room)
    assert (to[0 if reply.number else reply.len :] == ord("#")).all()
    words = [reply.number] if reply.number else [0, reply.len, *to[: reply.len].tolist()]
    if room >= 256 and (line := as_line(*numbers)) is not None:
        assert refusable(lambda: write_line(line), lambda text: [len(text), *text]) == words
    return words


def line_words(line):
    seed = float_words([*line.seed.reference_k, *line.seed.sensor])
    words = [line.number, line.round, *seed, int(line.skipped or 0)]
    scored = [0.0] * 8 if line.skipped else [line.score, line.mean, *line.k, line.p1, line.p2]
    return words + float_words(scored)


def load_line(r):
    place, length = r.number(), r.number()
    text = bytes(r.number() for _ in range(length))
    try:
        found = read_line(text, place)
    except Refused as refused:
        return [int(refused.number), refused.line]
    return [1] if found is None else [0, *line_words(found[0]), found[1]]


def damaged(text, place, how, byte):
    instead = {0: bytes([byte]), 1: b"", 2: text[place : place + 1] * 2}.get(how, bytes([byte]) + text[place : place + 1])
    return text[:place] + instead + text[place + 1 :]


def is_read(journal, start, before):
    try:
        found = read_line(journal, start)
    except Refused as refused:
        assert (refused.number, refused.line) == (29, before + 1)
        return 0
    assert found is not None and write_line(found[0]) == journal[start : found[1]]
    return 1


def damaged_line(r):
    line, before, how, byte = as_line(*line_numbers(r)), r.number(), r.number(), r.number()
    text = write_line(line)
    words = [0] * 8
    for place in range(len(text)):
        read = is_read(text * before + damaged(text, place, how, byte), len(text) * before, before)
        words[place // 32] |= read << place % 32
    return words


def store_report(r):
    counts, room = [r.number() for _ in range(5)], r.number()
    to = np.full(room, ord("#"), np.uint8)
    reply = library().jc_write_report(c.jc_count_record(*counts), to, room)
    assert (to[0 if reply.number else reply.len :] == ord("#")).all()
    words = [reply.number] if reply.number else [0, reply.len, *to[: reply.len].tolist()]
    if room >= 24:
        assert refusable(lambda: write_report(Counts(*counts)), lambda text: [len(text), *text]) == words
    return words


OPERATIONS = {
    "sqrt": lambda r: float_words([geometry.sqrt(r.float())]),
    "sqrt_from": sqrt_from,
    "sine": series(geometry.sine),
    "cosine": series(geometry.cosine),
    "pixel_to_sensor": lambda r: float_words(geometry.pixel_to_sensor(r.floats(4), r.floats(2))),
    "sensor_to_pixel": lambda r: float_words(geometry.sensor_to_pixel(r.floats(4), r.floats(2))),
    "tilt_projection_matrix": lambda r: float_words(geometry.tilt_projection_matrix(r.floats(4))),
    "inverse": inverse,
    "apply_homography": lambda r: float_words(geometry.apply_homography(r.floats(9).reshape(3, 3), r.floats(2))),
    "apply_homography_inverse": lambda r: float_words(geometry.apply_homography_inverse(r.floats(9).reshape(3, 3), r.floats(2))),
    "distort": lambda r: float_words(geometry.distort(r.floats(5), r.floats(2))),
    "distort_with_jacobian": jacobian,
    "undistort": undistort,
    "points_are_collinear": collinear,
    "observed_pixel_center": centre,
    "conic_to_camera": lambda r: refusable(lambda: geometry.conic_to_camera(r.floats(6)), float_words),
    "known_plate": known_plate,
    "damp_seed_distortion": lambda r: float_words(geometry.damp_seed_distortion(r.floats(5))),
    "distortion_complexity": lambda r: float_words([geometry.distortion_complexity(r.floats(5))]),
    "tilt_complexity": lambda r: float_words([geometry.tilt_complexity(r.floats(2))]),
    "principal_point_complexity": lambda r: float_words([geometry.principal_point_complexity(r.floats(4), r.floats(2))]),
    "mean_reproj_error": mean_reproj_error,
    "untilt_points": plain(untilt),
    "untilt_points_into": into(untilt),
    "ideal_points": plain(ideal),
    "ideal_points_into": into(ideal),
    "normalize_points_2d": plain(normalize),
    "normalize_points_2d_into": into(normalize),
    "design_rows": plain(design),
    "design_rows_into": into(design),
    "seed_lists": seed_lists,
    "local_seed_grid": local_seed_grid,
    "search": search_run,
    "calls": calls(False),
    "calls_one_axis": calls(True),
    "write_line": store_line,
    "read_line": load_line,
    "damaged_line": damaged_line,
    "write_report": store_report,
}


class StoredAnswers(unittest.TestCase):
    """One test for each file."""

    compared = 0

    def compare(self, path):
        operation, found = cases(path)
        answer = OPERATIONS[operation]
        for number, (given, stored) in enumerate(found, 1):
            reader = Reader(given)
            words = answer(reader)
            self.assertTrue(reader.is_empty(), f"{path.name}, case {number}: not all of it is read")
            if not same(words, stored):
                self.fail(f"{path.name}, case {number}: {[f'{w:016x}' for w in words]} and not {[f'{w:016x}' for w in stored]}")
        type(self).compared += len(found)

    def test_every_operation_has_a_file_and_every_file_an_operation(self):
        named = {path.read_text("ascii").splitlines()[1].removeprefix("# operation ") for path in STORED.glob("*.txt")}
        self.assertEqual(named, set(OPERATIONS))

    def test_a_wrong_digit_differs(self):
        self.assertFalse(same([0x3FF0000000000000], [0x3FF0000000000001]))
        self.assertFalse(same([0x7FF8000000000000], [0x3FF0000000000001]))
        self.assertFalse(same([1], [1, 2]))
        self.assertTrue(same([0x7FF8000000000000, 5], [0xFFF800000000DEAD, 5]))


for file in sorted(STORED.glob("*.txt")):
    setattr(StoredAnswers, f"test_{file.stem}_is_the_stored_one", lambda self, path=file: self.compare(path))


if __name__ == "__main__":
    unittest.main()
