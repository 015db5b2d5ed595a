"""The reference model: a run kept from Start's inputs, the order of the calls, and what the host sends.

It never looks at the numbers of the lent list; of it a call is given n alone, how many numbers it has.

Specification: chapter 7, and #call-start
"""

from .binary64 import finite
from .scoring import best_of, finding_refusal, floor_of, outcome_of
from .seeds import demand_of, later_list, pair_within, round0_list, seeds_of, step_of_round
from .values import Entry, Line, Over, Progress, Refused, Scored, Skipped, Stop, ZERO_SEED


def positive(x):
    """Finite and above 0."""
    return finite(x) and x > 0.0


def bad_seed(seed, bound):
    """Whether 6 refuses a decomposition seed. Specification: #call-start"""
    numbers_bad = not all(finite(x) for x in seed)
    focal_bad = not (seed[0] > 0.0 and seed[1] > 0.0)
    return numbers_bad or focal_bad or not pair_within(bound, seed[4], seed[5])


def too_many(inputs):
    """Whether 5 refuses. Specification: #call-start"""
    count = len(inputs.decomposition)
    return (len(inputs.typed_x) > 16 or len(inputs.typed_y) > 16 or count // 6 > 256
            or inputs.options.refine_rounds > 16 or count % 6 != 0)


def inputs_demand(inputs):
    """Specification: #seeds-layout"""
    return demand_of(len(inputs.decomposition), len(inputs.typed_x), len(inputs.typed_y))


def start_refusal(inputs, n):
    """The first refusal of Start that applies, or None. Specification: #call-start"""
    options = inputs.options
    bound = options.max_abs_tilt
    seeds = seeds_of(inputs.decomposition)
    one_axis = options.one_axis
    conditions = (
        (1, lambda: inputs.views < 3),
        (2, lambda: not inputs.typed_x or not inputs.typed_y),
        (3, lambda: not positive(bound)),
        (4, lambda: options.refine_rounds > 0 and not positive(options.refine_step)),
        (5, lambda: too_many(inputs)),
        (6, lambda: any(bad_seed(seed, bound) for seed in seeds)),
        (7, lambda: not all(finite(t) for t in tuple(inputs.typed_x) + tuple(inputs.typed_y))),
        (8, lambda: n < inputs_demand(inputs)),
        (27, lambda: bound > 0.5),
        (31, lambda: one_axis and not (len(inputs.typed_y) == 1 and inputs.typed_y[0] == 0.0)),
        (32, lambda: one_axis and any(not seed[5] == 0.0 for seed in seeds)),
        (33, lambda: options.min_counted > 100),
    )
    for number, holds in conditions:
        if holds():
            return Refused(number)
    return None


def opening_list(inputs):
    """Round 0's list of inputs that Start accepts. Specification: #seeds-round0"""
    return round0_list(inputs.typed_x, inputs.typed_y, inputs.options.max_abs_tilt, inputs.base,
                       seeds_of(inputs.decomposition))


def line_of(entry):
    """The line of an entry. Specification: #journal-line"""
    out = entry.outcome
    if isinstance(out, Skipped):
        return Line(entry.number, entry.round, entry.seed, out.reason)
    camera = out.camera[:4] + out.camera[7:]
    return Line(entry.number, entry.round, entry.seed, 0, out.score, out.mean, camera)


def start(inputs, n):
    """A Book, or Refused. Specification: #model-open, #call-start"""
    refusal = start_refusal(inputs, n)
    return Book(inputs) if refusal is None else refusal


class Book:
    """The model of an accepted Start's run. Specification: #model-state"""

    def __init__(self, inputs):
        self.inputs = inputs
        self.round = 0
        self.list = opening_list(inputs)
        self.earlier = []
        self.present = []
        self.waiting = False
        self.over = not self.list
        self.demand = inputs_demand(inputs)

    def next_number(self):
        """Specification: #model-state"""
        return len(self.earlier) + len(self.present)

    def entries(self):
        """All entries, in order. Specification: #model-state"""
        return self.earlier + self.present

    def current_seed(self):
        """Specification: #model-state"""
        place = len(self.present)
        return self.list[place] if place < len(self.list) else ZERO_SEED

    def run_best(self):
        """A Best or None. Specification: #model-state"""
        return best_of(self.entries())

    def enter(self, outcome):
        """Specification: #model-round"""
        self.present.append(Entry(self.next_number(), self.round, self.current_seed(), outcome))
        self.waiting = False
        while not self.over and len(self.present) >= len(self.list):
            self.end_round()

    def end_round(self):
        """Steps 1 to 3 of a round's end; an empty list brings the caller back here. Specification: #model-round"""
        options = self.inputs.options
        centre = best_of(self.present) or self.run_best()
        if self.round == options.refine_rounds or centre is None:
            self.over = True
            return
        self.round += 1
        self.earlier, self.present = self.entries(), []
        self.list = later_list(centre.camera[:4], centre.tilt_x, centre.tilt_y,
                               step_of_round(self.round, options.refine_step), options.max_abs_tilt,
                               options.one_axis)

    def next(self, n):
        """A whole number, Over or Refused. Specification: #model-calls, #call-next"""
        if self.waiting:
            return Refused(9)
        if n < self.demand:
            return Refused(10)
        if self.over:
            return Refused(11) if self.run_best() is None else Over()
        self.waiting = True
        return self.next_number()

    def seed(self, n):
        """Six numbers or an empty tuple. Specification: #model-calls, #call-seed"""
        return self.current_seed() if self.waiting and n >= self.demand else ()

    def answer(self, n, finding, rows, flags):
        """Scored, Skipped or Refused. Specification: #model-calls, #call-answer"""
        if not self.waiting:
            return Refused(12)
        if n < self.demand:
            return Refused(10)
        tilt_x, tilt_y = self.current_seed()[4:]
        refusal = finding_refusal(finding, tilt_x, tilt_y, rows, flags)
        if refusal is not None:
            return refusal
        outcome = outcome_of(finding, tilt_x, tilt_y, rows, flags, self.inputs.centre,
                             self.inputs.options.min_counted)
        self.enter(outcome)
        return outcome

    def result(self):
        """A Best or Refused. Specification: #model-calls, #call-result"""
        if not self.over:
            return Refused(14)
        return self.run_best() or Refused(11)

    def progress(self):
        """Specification: #model-calls, #call-progress"""
        return Progress(self.round, self.inputs.options.refine_rounds, len(self.present), len(self.list),
                        self.next_number())

    def stop(self, n):
        """A Stop or Refused. Specification: #model-calls, #call-stop, #floor"""
        if n < self.demand:
            return Refused(10)
        best = self.run_best()
        left = [seed[4:] for seed in self.list[len(self.present):]]
        if not left:
            return Stop(best, None, False)
        floor = floor_of(left)
        return Stop(best, floor, best is not None and not floor < best.score)

    def last_line(self):
        """A Line or None. Specification: #call-last-line"""
        entries = self.entries()
        return line_of(entries[-1]) if entries else None

    def counts(self):
        """Scored, then Skipped for reasons 1 to 4. Specification: #call-counts"""
        counts = [0] * 5
        for entry in self.entries():
            counts[0 if isinstance(entry.outcome, Scored) else entry.outcome.reason] += 1
        return tuple(counts)
