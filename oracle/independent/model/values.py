"""Small values that the operations take and give.

Specification: #terms-search, #terms-host, #forms
"""

from dataclasses import dataclass
from typing import Optional, Tuple

from .binary64 import same

ZERO_SEED = (0.0,) * 6
ZERO_CAMERA = (0.0,) * 9


@dataclass(frozen=True)
class Refused:
    """A refused call's reply. `line` is the line's number where 29 or 30 has one. Specification: #numbers"""

    number: int
    line: int = 0


@dataclass(frozen=True)
class Options:
    """The options of Start. Specification: #call-start"""

    refine_rounds: int
    refine_step: float
    max_abs_tilt: float
    one_axis: bool = False
    min_counted: int = 0


@dataclass(frozen=True)
class Inputs:
    """What Start takes, the lent list apart. `decomposition` is a flat sequence of numbers.

    Specification: #call-start
    """

    views: int
    options: Options
    typed_x: Tuple[float, ...]
    typed_y: Tuple[float, ...]
    decomposition: Tuple[float, ...]
    base: Tuple[float, float, float, float]
    centre: Tuple[float, float]


@dataclass(frozen=True)
class Failed:
    """The host found no camera. Specification: #terms-search"""


@dataclass(frozen=True)
class Solved:
    """The host found a camera of nine numbers. Specification: #terms-search"""

    camera: Tuple[float, ...]


@dataclass(frozen=True)
class Scored:
    """An outcome with the damped camera. Specification: #score-outcome"""

    camera: Tuple[float, ...]
    mean: float
    score: float


@dataclass(frozen=True)
class Skipped:
    """An outcome without a score; reason is 1 to 4. Specification: #score-outcome, #reasons"""

    reason: int


@dataclass(frozen=True)
class Entry:
    """An answered candidate. Specification: #terms-search"""

    number: int
    round: int
    seed: Tuple[float, ...]
    outcome: object


@dataclass(frozen=True)
class Best:
    """A record of a best; one whose flag isn't set is none. Specification: #call-result, #record, #stretches"""

    flag: bool
    number: int
    camera: Tuple[float, ...]
    tilt_x: float
    tilt_y: float
    mean: float
    score: float


NO_BEST = Best(False, 0, ZERO_CAMERA, 0.0, 0.0, 0.0, 0.0)


@dataclass(frozen=True)
class Line:
    """A journal's line as a value; `skipped` is 0 for Scored, else the reason.

    `camera` is fx, fy, cx, cy, p1, p2. A skip has +0 in score, mean and camera.
    Specification: #journal-line, #journal-writer, #record
    """

    number: int
    round: int
    seed: Tuple[float, ...]
    skipped: int
    score: float = 0.0
    mean: float = 0.0
    camera: Tuple[float, ...] = ZERO_SEED


NO_LINE = Line(0, 0, ZERO_SEED, 0)


@dataclass(frozen=True)
class Over:
    """Next's reply where the run is over and has a winner. Specification: #call-next"""


@dataclass(frozen=True)
class Progress:
    """Progress's reply. Specification: #call-progress"""

    round: int
    refine_rounds: int
    answered: int
    length: int
    entries: int


@dataclass(frozen=True)
class Stop:
    """Stop's reply: `best` or None; `floor` or None where nothing is left.

    Specification: #call-stop, #floor
    """

    best: Optional[Best]
    floor: Optional[float]
    gains_nothing: bool


def same_values(a, b):
    """Whether two values are the same, number for number: -0 isn't +0, and NaN is NaN.

    Specification: #binary64-nan
    """
    if isinstance(a, float) or isinstance(b, float):
        return isinstance(a, float) and isinstance(b, float) and same(a, b)
    if isinstance(a, (tuple, list)) and isinstance(b, (tuple, list)):
        return len(a) == len(b) and all(same_values(x, y) for x, y in zip(a, b))
    if hasattr(a, "__dataclass_fields__") and type(a) is type(b):
        return all(same_values(getattr(a, f), getattr(b, f)) for f in a.__dataclass_fields__)
    return type(a) is type(b) and a == b
