"""Deliberate faults in the model: each has to be noticed by the comparison, or it compares too little.

A fault replaces one function of the model, made from the right one, and names the part that is to notice it.
"""

import random
from dataclasses import replace

from model import binary64, geometry, journal, record, reference, scoring, seeds
from model.values import Refused, Scored, Skipped

from . import journals, leaves, runs
from .bench import Bench, Difference

TRIES = 400


def truncated_root(right):
    """One below where the nearest root lies above the exact one."""
    def wrong(x):
        root = right(x)
        if not binary64.finite(x) or x <= 0.0 or binary64.whole_units(root)**2 <= binary64.whole_units(x) << 1074:
            return root
        return binary64.from_bits(binary64.bits(root) - 1)
    return wrong


def one_coefficient_off(right):
    return right[:3] + (binary64.from_bits(binary64.bits(right[3]) + 1),) + right[4:]


def tangential_grouped_otherwise(right):
    def wrong(distortion, x, y):
        k1, k2, k3, p1, p2 = distortion
        radial, r2 = right((k1, k2, k3, 0.0, 0.0), x, y), x * x + y * y
        xt = 2.0 * p1 * (x * y) + p2 * (r2 + 2.0 * (x * x))
        yt = p1 * (r2 + 2.0 * (y * y)) + 2.0 * p2 * (x * y)
        return (radial[0] + xt, radial[1] + yt)
    return wrong


def depth_by_size(right):
    return geometry.apply_homography_inverse


def tail_cleared(right):
    def wrong(points, destination):
        reply = right(points, destination)
        if not isinstance(reply, Refused):
            destination[len(points):] = [0.0] * (len(destination) - len(points))
        return reply
    return wrong


def centre_from_the_range(right):
    def wrong(pixels):
        if not pixels or len(pixels) % 2 == 1 or not all(binary64.finite(it) for it in pixels):
            return right(pixels)
        xs, ys = pixels[0::2], pixels[1::2]
        return (0.5 * (min(xs) + max(xs)), 0.5 * (min(ys) + max(ys)))
    return wrong


def small_negative_tilts_dropped(right):
    return lambda bound, tilt_x, tilt_y: right(bound, tilt_x, tilt_y) and not -0.06 < tilt_x < 0.0


def near_one_replaces(right):
    def wrong(items, nearness):
        kept = []
        for item in items:
            place = seeds.newest_near(kept, item, nearness)
            kept[len(kept) if place is None else place:] = [item] if place is None else [item] + kept[place + 1:]
        return kept
    return wrong


def step_not_halved(right):
    return lambda round_before, step_before, refine_step: refine_step


def refined_around_the_runs_best(right):
    return lambda r, lent: right(replace(r, round_best=r.run_best), lent)


def equal_score_wins(right):
    return lambda score, other: right(score, other) or score == other


def damped_to_a_half(right):
    return lambda x, low, high: right(x, 10.0 * low, 10.0 * high)


def strictly_more(right):
    return lambda share, rows, counted: share == 0 or share * rows < counted * 100


def mean_over_all_rows(right):
    return lambda camera, trig, rows, flags: (right(camera, trig, rows, flags)[0], len(flags))


def nan_scored(right):
    def wrong(finding, tilt_x, tilt_y, rows, flags, centre, min_counted):
        outcome = right(finding, tilt_x, tilt_y, rows, flags, centre, min_counted)
        return Scored(scoring.damp(finding.camera), 1.0, binary64.NAN) if outcome == Skipped(4) else outcome
    return wrong


def waiting_seed_left_out(right):
    return lambda r, lent: right(r, lent)[1 if r.waiting else 0:]


def refused_answer_forgets_the_seed(right):
    def wrong(r, lent, finding, rows, flags):
        reply, after = right(r, lent, finding, rows, flags)
        return reply, replace(after, waiting=False) if reply == Refused(13) else after
    return wrong


def every_record_sound(right):
    return lambda r: r.len <= 512 and r.demand <= 3072 and (r.over or r.at < r.len)


def upper_case_taken(right):
    return lambda field: right(field.lower())


def zeros_alike(right):
    return lambda a, b: right([it + 0.0 for it in a], [it + 0.0 for it in b])


def newline_looked_for_last(right):
    def wrong(inputs, lent, data):
        refusal, r, report = right(inputs, lent, data)
        return refusal, r, replace(report, ended=29) if report is not None and report.ended == 1 else report
    return wrong


def first_of_two_without_a_flag(right):
    return lambda first, second: first if not second.flag else right(first, second)


def numbers_behind_a_skip_given(right):
    return lambda r: r.last if right(r) is not None else None


def share_refused_first(right):
    return lambda inputs, n: Refused(33) if inputs.options.min_counted > 100 else right(inputs, n)


# The fault, the part that notices it, and where the function is used.
FAULTS = [
    (truncated_root, leaves.sqrt, [(geometry, "root")]),
    (one_coefficient_off, leaves.sine_and_cosine, [(binary64, "COEFFICIENTS")]),
    (tangential_grouped_otherwise, leaves.distort, [(geometry, "distort")]),
    (tangential_grouped_otherwise, runs.lists_of_calls, [(scoring, "distort")]),
    (depth_by_size, leaves.homography, [(geometry, "apply_homography")]),
    (tail_cleared, leaves.normalise, [(geometry, "normalise")]),
    (centre_from_the_range, leaves.line_and_centre, [(geometry, "observed_centre")]),
    (small_negative_tilts_dropped, runs.lists_of_calls, [(seeds, "pair_within")]),
    (near_one_replaces, runs.lists_of_calls, [(seeds, "merge")]),
    (step_not_halved, runs.lists_of_calls, [(record, "next_step"), (seeds, "next_step")]),
    (refined_around_the_runs_best, runs.lists_of_calls, [(record, "end_rounds")]),
    (equal_score_wins, runs.lists_of_calls, [(record, "beats"), (scoring, "beats")]),
    (equal_score_wins, leaves.winner, [(scoring, "beats")]),
    (damped_to_a_half, leaves.penalties, [(scoring, "clamp")]),
    (strictly_more, runs.lists_of_calls, [(scoring, "share_met")]),
    (mean_over_all_rows, leaves.mean_error, [(scoring, "sum_errors")]),
    (nan_scored, runs.lists_of_calls, [(record, "outcome_of"), (reference, "outcome_of")]),
    (waiting_seed_left_out, runs.changed_lists, [(record, "pairs_left")]),
    (refused_answer_forgets_the_seed, runs.lists_of_calls, [(record, "answer")]),
    (every_record_sound, runs.made_up_records, [(record, "sound")]),
    (numbers_behind_a_skip_given, runs.made_up_records, [(record, "last_line")]),
    (share_refused_first, runs.starts, [(record, "start_refusal"), (reference, "start_refusal")]),
    (upper_case_taken, journals.journals, [(journal, "parse_real")]),
    (zeros_alike, journals.journals, [(journal, "same_values")]),
    (newline_looked_for_last, journals.journals, [(journal, "resume")]),
    (first_of_two_without_a_flag, leaves.winner, [(scoring, "winner")]),
]


def noticed_after(library, fault, part, places, seed):
    """After how many turns of the part the fault was noticed, or None."""
    right = [getattr(module, name) for module, name in places]
    bench = Bench(library, random.Random(f"{seed} {part.__name__}"))
    for (module, name), function in zip(places, right):
        setattr(module, name, fault(function))
    try:
        for turn in range(1, TRIES + 1):
            part(bench, bench.draws)
    except Difference:
        return turn
    finally:
        for (module, name), function in zip(places, right):
            setattr(module, name, function)
    return None


def main(library, seed):
    unnoticed = 0
    for fault, part, places in FAULTS:
        turn = noticed_after(library, fault, part, places, seed)
        unnoticed += turn is None
        said = "not noticed" if turn is None else f"noticed in turn {turn}"
        print(f"{fault.__name__:34} {part.__name__:18} {said}")
    print(f"{len(FAULTS)} faults, {unnoticed} not noticed")
    return 1 if unnoticed else 0
