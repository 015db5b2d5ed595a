"""Seeds: nearness, merging, the grid, and the lists of rounds.

A seed is a tuple (fx, fy, cx, cy, tilt_x, tilt_y), a pair of tilts is (tilt_x, tilt_y).

Specification: chapter 4
"""

from .binary64 import within


def demand_of(decomposition_numbers, typed_x, typed_y):
    """How many numbers the lent list must have; takes the three lengths. Specification: #seeds-layout"""
    return max(54, 6 * (decomposition_numbers // 6 + typed_x * typed_y))


def seeds_of(numbers):
    """The seeds that stand in a flat list from its front. Specification: #seeds-layout"""
    return [tuple(numbers[i:i + 6]) for i in range(0, len(numbers) - 5, 6)]


def pair_within(bound, tilt_x, tilt_y):
    """Specification: #seeds-bound"""
    return within(bound, tilt_x) and within(bound, tilt_y)


def near_by_tilt(a, b):
    """Of two pairs. Specification: #seeds-nearness"""
    return abs(a[0] - b[0]) < 1e-12 and abs(a[1] - b[1]) < 1e-12


def near(a, b):
    """Of two seeds. Specification: #seeds-nearness"""
    return near_by_tilt(a[4:], b[4:]) and all(abs(a[i] - b[i]) < 1e-9 for i in range(4))


def newest_near(kept, item, nearness):
    """The place of the newest kept item that is near, or None. Specification: #seeds-merging"""
    for place in range(len(kept) - 1, -1, -1):
        if nearness(item, kept[place]):
            return place
    return None


def merge(items, nearness):
    """Specification: #seeds-merging"""
    kept = []
    for item in items:
        if newest_near(kept, item, nearness) is None:
            kept.append(item)
    return kept


def round0_list(typed_x, typed_y, bound, base, decomposition):
    """`decomposition` is a list of seeds. Specification: #seeds-round0"""
    grid = [(x, y) for x in typed_x for y in typed_y]
    pairs = merge([p for p in grid if pair_within(bound, p[0], p[1])], near_by_tilt)
    grid_seeds = [tuple(base) + pair for pair in pairs]
    return merge(list(decomposition) + grid_seeds, near)


def later_list(intrinsics, tilt_x, tilt_y, step, bound, one_axis):
    """Around a centre's solved intrinsics and tilts. Specification: #seeds-later, #seeds-one-axis"""
    offsets = (-step, 0.0, step)
    offsets_y = (0.0,) if one_axis else offsets
    pairs = [(tilt_x + dx, tilt_y + dy) for dx in offsets for dy in offsets_y]
    seeds = [tuple(intrinsics) + p for p in pairs if pair_within(bound, p[0], p[1])]
    return merge(seeds, near)


def next_step(round_before, step_before, refine_step):
    """The step of the round after `round_before`. Specification: #seeds-step"""
    return refine_step if round_before == 0 else step_before * 0.5


def step_of_round(number, refine_step):
    """Specification: #seeds-step"""
    step = 0.0
    for before in range(number):
        step = next_step(before, step, refine_step)
    return step
