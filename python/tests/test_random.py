"""10^5 random calls, in right and wrong orders, compared with the reference model, and the journals of these runs run again."""

import math
import random
import struct
import unittest

import jinnychair as jc
from jinnychair import journal

from . import model

CALLS = 100_000


def bits(numbers):
    """The bits of numbers; any NaN equals any other."""
    return [struct.pack(">d", math.nan if math.isnan(x) else x) for x in numbers]


def draw_inputs(rng):
    bound = rng.choice([0.05, 0.2, 0.25, 0.5])

    def tilts():
        steps = [rng.randint(-5, 5) * 0.25 * bound for _ in range(rng.randint(1, 5))]
        return [tilt + rng.choice([0.0, 0.0, 0.0, 5e-13, -0.0]) for tilt in steps]

    base = [x + rng.uniform(-5, 5) for x in (800.0, 790.0, 320.5, 239.25)]
    decomposition = []
    for _ in range(rng.choice([0, 0, 0, 1, 2, 4])):
        apart = rng.choice([0.0, 1e-10, 1e-8, 3.0])
        decomposition.append([*(x + apart for x in base), rng.uniform(-bound, bound), rng.uniform(-bound, bound)])
    if rng.random() < 0.1:
        base[rng.randrange(4)] = rng.choice([math.nan, math.inf, -0.0])
    inputs = {
        "views": rng.randint(3, 6), "xs": tilts(), "ys": tilts(), "rounds": rng.randint(0, 3),
        "step": rng.choice([0.1, 0.03, 0.01, 1e-11, 1e-12, 1e-13]), "bound": bound, "one_axis": rng.random() < 0.3,
        "min_counted": rng.choice([0, 0, rng.randint(0, 100)]), "decomposition": decomposition, "base": base,
        "center": [320.0 + rng.uniform(-9, 9), rng.choice([240.0, 240.0, math.inf, 1e200])],
    }  # fmt: skip
    if inputs["one_axis"]:
        inputs["ys"] = [rng.choice([0.0, -0.0])]
        for seed in decomposition:
            seed[5] = rng.choice([0.0, -0.0])
    return spoiled(inputs, rng) if rng.random() < 0.15 else inputs


def spoiled(inputs, rng):
    """Inputs that a start may refuse."""
    odd = rng.choice([math.nan, math.inf, 0.0, -1.0, 1e308, 1e-310])
    changes = [
        ("views", rng.randint(0, 3)), ("xs", []), ("ys", [0.125] * rng.choice([0, 16, 17])), ("bound", odd), ("step", odd),
        ("rounds", rng.choice([16, 17, 2**64 - 1])), ("one_axis", True), ("min_counted", rng.choice([100, 101, 2**64 - 1])),
        ("xs", [0.0, odd]), ("decomposition", [[800.0, 790.0, 320.0, 240.0, 0.01, odd]]),
        ("decomposition", [[700.0 + i, 790.0, 320.0, 240.0, 0.0, 0.0] for i in range(rng.choice([255, 257]))]),
    ]  # fmt: skip
    return inputs | dict([rng.choice(changes)])


def for_package(inputs):
    options = jc.Options(
        inputs["xs"], inputs["ys"], inputs["rounds"], inputs["step"], inputs["bound"], inputs["one_axis"], inputs["min_counted"]
    )
    return jc.Inputs(inputs["views"], inputs["base"], inputs["center"], options, inputs["decomposition"])


def draw_solution(seed, rng):
    """A camera, rows and flags; mostly a good answer, with few rows, sometimes one that ties, is no camera, or is refused."""
    if rng.random() < 0.1:
        return None
    if rng.random() < 0.2:
        return [512.0, 512.0, 256.0, 192.0, 0.0, 0.0, 0.0, 0.0, 0.0], [[0.0, 0.0, 259.0, 188.0]], [1]
    camera = [*(x + rng.uniform(-2, 2) for x in seed[:4]), 0.1, -0.2, 0.3]
    camera += [rng.choice([0.0, -0.0, 0.01, 0.07, -0.3]), rng.choice([0.0, -0.002, 0.3])]
    odd = [math.nan, math.inf, -math.inf, 0.0, -800.0, 1e200, 1e-310]
    if rng.random() < 0.1:
        camera[rng.randrange(9)] = rng.choice(odd)
    rows = []
    for _ in range(rng.choice([0, 1, 1, 2, 3, 4, 5])):
        x, y = rng.uniform(-0.5, 0.5), rng.uniform(-0.4, 0.4)
        rows.append([x, y, camera[0] * x + camera[2] + rng.uniform(-3, 3), camera[1] * y + camera[3] + rng.uniform(-3, 3)])
        if rng.random() < 0.07:
            rows[-1][rng.randrange(4)] = rng.choice(odd)
    flags = [int(rng.random() < 0.8) for _ in rows]
    if rng.random() < 0.02 and flags:
        flags[0] = rng.choice([2, 255])
    if rng.random() < 0.004:
        count = rng.choice([1024, 1025])
        rows, flags = [[0.5] * 4] * count, [1] * count
    return camera, rows, flags


def reply(call, *arguments):
    """What a call gives, or its refusal's number."""
    try:
        return call(*arguments)
    except model.Refusal as refusal:
        return ("refused", refusal.number)
    except jc.Refused as refused:
        return ("refused", int(refused.number))


def is_refusal(value):
    return isinstance(value, tuple) and value[:1] == ("refused",)


def seed_bits(seed):
    return None if seed is None else bits([*seed.reference_k, *seed.sensor])


def winner_bits(winner):
    numbers = [*winner.camera.k, *winner.camera.dist, *winner.sensor, winner.mean_reproj_error, winner.score]
    return winner.number, bits(numbers)


def entry_bits(entry):
    _, score, mean, camera = entry["outcome"]
    return entry["number"], bits([*camera, *entry["seed"][4:], mean, score])


def line_text(entry):
    """The journal's line of an entry, by its form."""

    def word(x):
        return "7ff8000000000000" if math.isnan(x) else struct.pack(">d", x).hex()

    kind, *rest = entry["outcome"]
    fields = [str(entry["number"]), str(entry["round"]), *map(word, entry["seed"])]
    if kind == "skipped":
        return ",".join([*fields, "HCEN"[rest[0] - 1], *"--------"]) + "\n"
    score, mean, camera = rest
    return ",".join([*fields, "S", *map(word, [score, mean, *camera[:4], *camera[7:]])]) + "\n"


class Pair:
    """A run on both sides."""

    def __init__(self, inputs, rng):
        self.model, self.search, self.rng = model.Model(inputs), jc.Search(for_package(inputs)), rng
        self.journal = b""

    def call(self):
        """One call on both sides, and the name of what it gave."""
        rng = self.rng
        # Mostly the call whose turn it is.
        turn = "answer" if self.model.is_waiting else "next"
        name = rng.choices([turn, *"next answer waiting result progress counts stop last_line".split()], [20, 1, 1, 1, 1, 1, 1, 2, 1])[0]
        return getattr(self, f"on_{name}")(), name

    def both(self, name, mine, its):
        """The replies of both sides, where neither is refused; else the refusal's number."""
        if is_refusal(mine) or is_refusal(its):
            assert mine == its, f"{name}: {mine} and {its}"
            return f"refused {mine[1]}"
        return None

    def on_next(self):
        mine, its = reply(self.model.next), reply(self.search.next)
        if (refused := self.both("next", mine, its)) is None and mine is not None:
            assert (mine[0], bits(mine[1])) == (its.number, seed_bits(its.seed)), (mine, its)
        else:
            assert refused or its is None
        return refused

    def on_answer(self):
        sent = draw_solution(self.model.waiting() or [800.0, 790.0, 320.0, 240.0, 0.0, 0.0], self.rng)
        mine = reply(self.model.answer, sent)
        its = reply(self.search.answer, None if sent is None else jc.Solution(*sent))
        if refused := self.both("answer", mine, its):
            return refused
        if mine[0] == "skipped":
            assert its == (None, mine[1]), (mine, its)
        else:
            assert its.skipped is None and bits([its.score]) == bits([mine[1]]), (mine, its)
        text = line_text(self.model.entries[-1]).encode()
        assert journal.write_line(self.search.last_line()) == text
        self.journal += text
        return " ".join(map(str, mine[: 2 if mine[0] == "skipped" else 1]))

    def on_waiting(self):
        mine = self.model.waiting()
        assert (None if mine is None else bits(mine)) == seed_bits(self.search.waiting())

    def on_result(self):
        mine, its = reply(self.model.result), reply(self.search.result)
        if refused := self.both("result", mine, its):
            return refused
        assert entry_bits(mine) == winner_bits(its)

    def on_progress(self):
        assert self.model.progress() == tuple(self.search.progress())

    def on_counts(self):
        assert self.model.counts() == tuple(self.search.counts())

    def on_stop(self):
        found, floor, no_gain = self.model.stop()
        its = self.search.stop()
        assert (None if found is None else entry_bits(found)) == (None if its.best is None else winner_bits(its.best))
        assert (floor, no_gain) == (its.floor, its.no_gain)

    def on_last_line(self):
        line = self.search.last_line()
        assert (line is None) == (not self.model.entries)

    def again(self, inputs):
        """The journal is run again, and cut anywhere it goes on to where its lines lead."""
        its = reply(journal.replay, for_package(inputs), self.journal)
        found = model.best(self.model.entries)
        if not self.model.over:
            assert seed_bits(its.next) == bits(self.model.list[self.model.position()])
        elif found is None:
            assert its == ("refused", 11)
        else:
            assert (its.candidate, bits([its.score])) == (found["number"], bits([found["outcome"][1]]))
        cut = self.rng.randint(0, len(self.journal))
        kept = self.journal[:cut].rfind(b"\n") + 1
        resumed = journal.resume(for_package(inputs), self.journal[:cut])
        assert (resumed.kept, resumed.dropped) == (kept, cut - kept)
        assert resumed.lines == self.journal[:kept].count(b"\n") == sum(resumed.search.counts())
        assert resumed.ended_by == (journal.EndedBy.NOTHING if cut == kept else journal.EndedBy.MISSING_NEWLINE)


class RandomCalls(unittest.TestCase):
    def test_every_reply_is_the_models(self):
        rng = random.Random("random calls of the Python package")
        calls, seen = 0, {}
        while calls < CALLS:
            inputs = draw_inputs(rng)
            calls += 1
            try:
                pair = Pair(inputs, rng)
            except model.Refusal as refusal:
                with self.assertRaises(jc.Refused) as raised:
                    jc.Search(for_package(inputs))
                self.assertEqual(raised.exception.number, refusal.number, inputs)
                seen[f"refused {refusal.number}"] = seen.get(f"refused {refusal.number}", 0) + 1
                continue
            past_end = 0
            for _ in range(rng.choice([30, 400])):
                said, _ = pair.call()
                calls += 1
                seen[said] = seen.get(said, 0) + 1
                past_end += pair.model.over
                if past_end > 8:
                    break
            pair.again(inputs)
            calls += 2
        refusals = [*range(1, 8), 9, 11, 12, 13, 14, 27, 31, 33]
        missing = [name for name in [*(f"refused {n}" for n in refusals), "scored", *(f"skipped {n}" for n in range(1, 5))] if name not in seen]
        self.assertEqual(missing, [], seen)
        self.assertGreaterEqual(calls, CALLS)


if __name__ == "__main__":
    unittest.main()
