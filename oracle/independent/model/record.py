"""The library's calls on a record and a lent list, also where the host changed the list or made the record up.

Every call takes a record and, where it needs one, the lent list: a Python list that is written in place. A
shorter list is a shorter loan. A call that may change the record gives (reply, record); a record is never
changed in place. A refused call gives the very record that it was handed.

Specification: chapter 6
"""

from dataclasses import dataclass, replace
from typing import Tuple

from .reference import inputs_demand, line_of, opening_list, start_refusal
from .scoring import beats, best_of_entry, finding_refusal, floor_of, outcome_of
from .seeds import later_list, next_step
from .values import (Best, Entry, Line, NO_BEST, NO_LINE, Options, Over, Progress, Refused, Scored, Stop,
                     ZERO_SEED)


@dataclass(frozen=True)
class Record:
    """Specification: #record"""

    options: Options
    centre: Tuple[float, float]
    demand: int
    round: int
    step: float
    len: int
    at: int
    number: int
    over: bool
    waiting: bool
    waiting_seed: Tuple[float, ...]
    round_best: Best
    run_best: Best
    last_flag: bool
    last: Line
    counts: Tuple[int, ...]


ZERO_RECORD = Record(Options(0, 0.0, 0.0, False, 0), (0.0, 0.0), 0, 0, 0.0, 0, 0, 0, False, False, ZERO_SEED,
                     NO_BEST, NO_BEST, False, NO_LINE, (0,) * 5)


def sound(r):
    """Whether a record isn't one that no call made. Specification: #record-unsound"""
    return (r.len <= 512 and r.options.min_counted <= 100 and r.options.refine_rounds <= 16
            and r.round <= r.options.refine_rounds and r.number <= 656 and sum(r.counts) == r.number
            and 6 * r.len <= r.demand and 54 <= r.demand <= 3072
            and (not r.waiting if r.over else r.at < r.len))


def list_seed(lent, place):
    """The six numbers of a seed as they stand in the lent list."""
    return tuple(lent[6 * place:6 * place + 6])


def write_list(lent, seeds):
    """Writes a round's list to the front; the tail stays. Specification: #seeds-layout"""
    for place, seed in enumerate(seeds):
        lent[6 * place:6 * place + 6] = list(seed)


def start(inputs, lent):
    """(None, record), or (Refused, a record of zeros). Specification: #call-start"""
    refusal = start_refusal(inputs, len(lent))
    if refusal is not None:
        return refusal, ZERO_RECORD
    seeds = opening_list(inputs)
    write_list(lent, seeds)
    return None, replace(ZERO_RECORD, options=inputs.options, centre=tuple(inputs.centre),
                         demand=inputs_demand(inputs), len=len(seeds), over=not seeds)


def next_seed(r, lent):
    """(number, Over or Refused; record). Specification: #call-next, #record, #changed-list"""
    if not sound(r):
        return Refused(11), r
    if r.waiting:
        return Refused(9), r
    if len(lent) < r.demand:
        return Refused(10), r
    if r.over:
        return (Over() if r.run_best.flag else Refused(11)), r
    return r.number, replace(r, waiting=True, waiting_seed=list_seed(lent, r.at))


def seed(r, lent):
    """The waiting seed's six numbers as they stand in the lent list now, or (). Specification: #call-seed"""
    if not sound(r) or not r.waiting or len(lent) < r.demand:
        return ()
    return list_seed(lent, r.at)


def flat_seed(r, lent, destination):
    """The exported form: 6, with the numbers copied, or 0 with nothing written. Specification: #exported"""
    part = seed(r, lent)
    if not part or len(destination) < 6:
        return 0
    destination[0:6] = list(part)
    return 6


def better(best, entry):
    """The best after a Scored entry. Specification: #record, #score-best"""
    if not best.flag or beats(entry.outcome.score, best.score):
        return best_of_entry(entry)
    return best


def end_rounds(r, lent):
    """The end of a round, and of each empty one behind it. Specification: #model-round, #record"""
    while True:
        centre = r.round_best if r.round_best.flag else r.run_best
        if r.round == r.options.refine_rounds or not centre.flag:
            return replace(r, over=True)
        step = next_step(r.round, r.step, r.options.refine_step)
        seeds = later_list(centre.camera[:4], centre.tilt_x, centre.tilt_y, step, r.options.max_abs_tilt,
                           r.options.one_axis)
        write_list(lent, seeds)
        r = replace(r, round=r.round + 1, step=step, len=len(seeds), at=0, round_best=NO_BEST)
        if seeds:
            return r


def enter(r, lent, outcome):
    """The record with an outcome entered for the waiting seed. Specification: #record, #model-round"""
    entry = Entry(r.number, r.round, r.waiting_seed, outcome)
    line = line_of(entry)
    counts = list(r.counts)
    counts[line.skipped] += 1
    scored = isinstance(outcome, Scored)
    r = replace(r, waiting=False, waiting_seed=ZERO_SEED, at=r.at + 1, number=r.number + 1,
                counts=tuple(counts), last_flag=True, last=line,
                round_best=better(r.round_best, entry) if scored else r.round_best,
                run_best=better(r.run_best, entry) if scored else r.run_best)
    return r if r.at < r.len else end_rounds(r, lent)


def answer(r, lent, finding, rows, flags):
    """(Scored, Skipped or Refused; record). Specification: #call-answer"""
    if not sound(r) or not r.waiting:
        return Refused(12), r
    if len(lent) < r.demand:
        return Refused(10), r
    tilt_x, tilt_y = r.waiting_seed[4:]
    refusal = finding_refusal(finding, tilt_x, tilt_y, rows, flags)
    if refusal is not None:
        return refusal, r
    outcome = outcome_of(finding, tilt_x, tilt_y, rows, flags, r.centre, r.options.min_counted)
    return outcome, enter(r, lent, outcome)


def result(r):
    """A Best or Refused. Specification: #call-result"""
    if not sound(r):
        return Refused(11)
    if not r.over:
        return Refused(14)
    return r.run_best if r.run_best.flag else Refused(11)


def progress(r):
    """Specification: #call-progress"""
    if not sound(r):
        return Progress(0, 0, 0, 0, 0)
    return Progress(r.round, r.options.refine_rounds, r.at, r.len, r.number)


def pairs_left(r, lent):
    """The tilts of the seeds that aren't answered: the waiting one as kept, the others as they stand.

    Specification: #floor, #changed-list
    """
    seeds = [list_seed(lent, place) for place in range(r.at, r.len)]
    if r.waiting:
        seeds[0] = r.waiting_seed
    return [s[4:] for s in seeds]


def stop(r, lent):
    """A Stop or Refused. Specification: #call-stop, #floor"""
    if not sound(r):
        return Stop(None, None, False)
    if len(lent) < r.demand:
        return Refused(10)
    best = r.run_best if r.run_best.flag else None
    left = pairs_left(r, lent)
    if not left:
        return Stop(best, None, False)
    floor = floor_of(left)
    return Stop(best, floor, best is not None and not floor < best.score)


def last_line(r):
    """A Line or None; of a skip the eight reals are +0. Specification: #call-last-line, #record-unsound"""
    if not sound(r) or not r.last_flag or r.last.skipped > 4:
        return None
    return r.last if r.last.skipped == 0 else Line(r.last.number, r.last.round, r.last.seed, r.last.skipped)


def counts(r):
    """Specification: #call-counts"""
    return tuple(r.counts) if sound(r) else (0,) * 5
