"""What a comparison needs: the library, the draws, and what was counted. A difference ends it."""

import ctypes
import math
from collections import Counter

from model.values import Refused, same_values

from .draws import Draws


def places(a, b):
    """Where two lists differ."""
    if type(a) is not list or type(b) is not list or len(a) != len(b):
        return ""
    return f", at {[i for i, pair in enumerate(zip(a, b)) if not same_values(*pair)]}"


class Difference(Exception):
    """The model and the library reply differently; has the inputs that show it."""

    def __init__(self, what, inputs, by_model, by_library):
        sides = f"model    {shown(by_model)}\n  library  {shown(by_library)}"
        super().__init__(f"{what}{places(by_model, by_library)}\n  inputs   {shown(inputs)}\n  {sides}")


def shown(value):
    """A value as text that keeps each bit."""
    if isinstance(value, float):
        return f"{value!r} ({value.hex()})" if value == value else "nan"
    if isinstance(value, (list, tuple)):
        return "[" + ", ".join(shown(it) for it in value) + "]"
    if hasattr(value, "__dataclass_fields__"):
        return type(value).__name__ + shown([getattr(value, name) for name in value.__dataclass_fields__])
    return repr(value)


def same_number(x, y):
    """Equal with equal signs, or both NaN."""
    if x == y:
        return type(x) is type(y) and (x != 0 or math.copysign(1.0, x) == math.copysign(1.0, y))
    return x != x and y != y


def same_all(a, b):
    """The model's own rule for any two values, quickly told of two lists of numbers. Specification: #binary64-nan"""
    if type(a) is list and type(b) is list and a and type(a[0]) in (int, float):
        return len(a) == len(b) and all(map(same_number, a, b))
    return same_values(a, b)


class Bench:
    """The library beside the model."""

    def __init__(self, library, rng):
        self.library = library
        self.draws = Draws(rng)
        self.counted = Counter()
        self.refused = Counter()

    def same(self, what, inputs, by_model, by_library):
        """Counts a comparison, and ends everything where the two aren't the same number for number."""
        self.counted[what] += 1
        if not same_all(by_model, by_library):
            raise Difference(what, inputs, by_model, by_library)
        self.note(what, by_model)

    def note(self, what, reply):
        """Counts a refusal by its number."""
        kind = getattr(self.library, what).restype if hasattr(self.library, what) else None
        number = reply if kind is ctypes.c_uint8 else reply[0] if hasattr(kind, "number") else 0
        if number:
            self.refused[number] += 1


def flat(reply):
    """The numbers of a model's value, in their order."""
    if isinstance(reply, (tuple, list)):
        return [number for it in reply for number in flat(it)]
    return [reply]


def flat_reply(reply, width):
    """0 and the numbers of an accepted reply, or a refusal's number and as many zeros. Specification: #c-replies"""
    if isinstance(reply, Refused):
        return [reply.number] + [0.0] * width
    return [0] + flat(reply)
