"""Random lists of calls: in any order, with short and changed lists, and with records that the host made up.

Specification: chapters 6, 7, 9 and 14
"""

from model.record import sound
from model.reference import inputs_demand
from model.values import Failed, Inputs, Options, Over, Refused

from . import flat
from .draws import CAMERA, HOSTILE
from .interface import NUMBERS, STRUCTS
from .pair import Pair


def started(bench, draws):
    """A run that Start accepted, over a list that mostly has more numbers than the run demands."""
    while True:
        inputs = draws.inputs()
        run = Pair(bench, inputs, [draws.real() for _ in range(inputs_demand(inputs) + draws.rng.randrange(4))])
        if not run.refused:
            return run


def short(run, draws):
    """How many numbers are lent: mostly all, at times fewer than the demand, or just as many."""
    if draws.chance(0.94):
        return None
    demand = min(run.record.demand, len(run.numbers))
    return draws.choice([0, 1, 53, max(demand - 1, 0), demand])


def quiet_call(run, draws):
    """One of the calls that leave the run."""
    n = short(run, draws)
    n = None if n is None or n > len(run.numbers) else n
    draws.choice([run.result, run.progress, run.last_line, run.counts, lambda: run.stop(n),
                  lambda: run.seed(n, draws.choice([6, 6, 7, 5, 0]))])()


def any_call(run, draws):
    """Next and Answer mostly in their order, and every other call in any."""
    kind = draws.rng.randrange(12)
    n = short(run, draws)
    n = None if n is None or n > len(run.numbers) else n
    if kind < 2 or (kind < 6 and not run.record.waiting):
        run.next(n)
    elif kind < 9:
        run.answer(*draws.answer(), n=n)
    else:
        quiet_call(run, draws)


def answer_next(run, draws):
    """Next, and an Answer that is accepted."""
    if not run.record.waiting:
        run.next()
    if isinstance(run.answer(*draws.answer()), Refused):
        run.answer(Failed())


def finish(run, draws):
    while not run.record.over:
        answer_next(run, draws)
        if draws.chance(0.2):
            quiet_call(run, draws)


def lists_of_calls(bench, draws):
    """One list of calls; every fourth goes on to the run's end."""
    run = started(bench, draws)
    for _ in range(draws.rng.randrange(40)):
        any_call(run, draws)
    if draws.chance(0.25):
        finish(run, draws)
    for call in (run.next, run.result, run.progress, run.last_line, run.counts, run.stop, run.seed):
        call()


def starts(bench, draws):
    """Inputs for every refusal, over lists long enough and not; what was refused is then called like any run."""
    inputs = draws.hostile_inputs()
    demand = inputs_demand(inputs)
    length = max(0, draws.choice([demand, demand, demand, demand + 3, demand - 1, 53, 0]))
    run = Pair(bench, inputs, [draws.uniform(-9.0, 9.0) for _ in range(length)])
    for _ in range(6):
        any_call(run, draws)


def changed_lists(bench, draws):
    """The host writes to the lent list between the calls."""
    run = started(bench, draws)
    for _ in range(draws.rng.randrange(60)):
        if draws.chance(0.5):
            run.change(draws.rng.randrange(len(run.numbers)), draws.choice([draws.real(), draws.tilt(), draws.choice(HOSTILE)]))
        any_call(run, draws)


def longest_runs(bench, draws):
    """As many seeds, rounds and answers as there can be."""
    tilts = tuple(0.03 * i - 0.2 for i in range(16))
    seeds = tuple(number for i in range(256) for number in (200.0 + i, 100.0, 50.0, 50.0, 0.001 * i, -0.01))
    options = Options(16, draws.choice([0.01, 0.02]), 0.5)
    run = Pair(bench, Inputs(3, options, tilts, tilts, seeds, CAMERA, (50.0, 50.0)), [draws.real() for _ in range(3072)])
    finish(run, draws)
    bench.same("longest runs", run.inputs, [656, Over()], [run.record.number, run.next()])


# ---- records that the host made up



def kinds_of(struct):
    """The type of each number of a struct, in their order, with its name."""
    found = []
    for name, part in struct._fields_:
        inner = kinds_of(part) if hasattr(part, "_fields_") else [("", part)]
        found += [((name + "." + behind).strip("."), kind) for behind, kind in inner]
    return found


KINDS = kinds_of(STRUCTS["jc_run_record"])
PLACE = {name: i for i, (name, _) in enumerate(KINDS)}


def changed_number(draws, kind, present):
    """Another number of the same type, at times the neighbour of the present one."""
    if kind is NUMBERS["double"]:
        return draws.choice([draws.real(), draws.tilt(), draws.choice(HOSTILE)])
    if kind is NUMBERS["uint8_t"]:
        return draws.choice([0, 1, 2, 3, 4, 5, 128, 255])
    return draws.choice([draws.whole(), draws.choice([0, 1, 3, 9]), present + 1, max(present - 1, 0)]) % 2**64


def changed_record(draws, numbers):
    """Some numbers of a record changed; half of the time what has to add up still does."""
    numbers = list(numbers)
    for _ in range(draws.choice([1, 1, 2, 3, 6])):
        place = draws.rng.randrange(len(numbers))
        numbers[place] = changed_number(draws, KINDS[place][1], numbers[place])
    if draws.chance(0.5):
        number = draws.choice([0, 1, 8, 654, 655, 656, 657])
        numbers[PLACE["place.number"]] = number
        for name in ("host_failed", "bad_camera", "no_mean", "no_number"):
            numbers[PLACE["counts." + name]] = 0
        numbers[PLACE["counts.scored"]] = number
    return numbers


def made_up_records(bench, draws):
    """A record of a run, changed by the host, and then calls on it."""
    run = started(bench, draws)
    for _ in range(draws.rng.randrange(12)):
        any_call(run, draws)
    for _ in range(3):
        run.make_up(changed_record(draws, flat.record_numbers(run.record)))
        bench.counted["sound records made up" if sound(run.record) else "unsound records made up"] += 1
        for call in (run.result, run.progress, run.last_line, run.counts, run.stop, run.seed):
            call()
        for _ in range(3):
            any_call(run, draws)
