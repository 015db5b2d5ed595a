"""The values that the search and its geometry take and give; their names are those of the Rust crate.

Each is a named tuple. A call takes any sequence of as many numbers in its place.
"""

from __future__ import annotations

from ctypes import Structure, sizeof
from typing import Any, NamedTuple, TypeVar

import numpy as np
from numpy.typing import ArrayLike, NDArray

Floats = NDArray[np.float64]
S = TypeVar("S", bound=Structure)


class Pt2(NamedTuple):
    """A point: pixels, or coordinates on the sensor in focal lengths; x to the right, y downwards."""

    x: float
    y: float


class FxFyCxCy(NamedTuple):
    """Focal lengths and centre of a camera, in pixels."""

    fx: float
    fy: float
    cx: float
    cy: float

    def matrix(self) -> Floats:
        """The camera matrix, of shape (3, 3), in pixels."""
        return np.array([[self.fx, 0.0, self.cx], [0.0, self.fy, self.cy], [0.0, 0.0, 1.0]])


class BrownConrady5(NamedTuple):
    """Radial (k) and tangential (p) distortion, without unit."""

    k1: float = 0.0
    k2: float = 0.0
    k3: float = 0.0
    p1: float = 0.0
    p2: float = 0.0


class ScheimpflugParams(NamedTuple):
    """The tilts of a sensor about x and about y, in radians: OpenCV's tauX and tauY."""

    tilt_x: float
    tilt_y: float

    def degrees(self) -> tuple[float, float]:
        """The same in degrees."""
        return float(np.degrees(self.tilt_x)), float(np.degrees(self.tilt_y))


class TiltTrig(NamedTuple):
    """Sine and cosine of the tilt about x, then of that about y."""

    sin_x: float
    cos_x: float
    sin_y: float
    cos_y: float


class PinholeCamera(NamedTuple):
    """A camera with distortion."""

    k: FxFyCxCy
    dist: BrownConrady5 = BrownConrady5()


class Seed(NamedTuple):
    """A camera and tilts for the host to start its solution from."""

    reference_k: FxFyCxCy
    sensor: ScheimpflugParams


class Winner(NamedTuple):
    """A scored candidate: its number (from 0 over the run), its camera with damped distortion, its tilts, the mean error of
    its counted rows in pixels, and its score; lower is better."""

    number: int
    camera: PinholeCamera
    sensor: ScheimpflugParams
    mean_reproj_error: float
    score: float


class Counts(NamedTuple):
    """How many candidates were scored, and how many skipped for each reason, in their order."""

    scored: int = 0
    host_failed: int = 0
    bad_camera: int = 0
    no_mean: int = 0
    no_number: int = 0

    @property
    def total(self) -> int:
        """All answered candidates."""
        return sum(self)


class Progress(NamedTuple):
    """How far a run has come: the round, how many rounds follow round 0, how many seeds of this round's list are answered, how
    many it has, and how many seeds of the whole run are answered."""

    round: int
    rounds: int
    answered: int
    total: int
    answered_in_run: int


def flat(value: Any) -> Any:
    """The numbers of nested tuples in their order; anything else as it is."""
    if isinstance(value, tuple) and any(isinstance(part, (tuple, list, np.ndarray)) for part in value):
        return np.concatenate([np.ravel(numbers(flat(part), None, "a value")) for part in value])
    return value


def numbers(value: ArrayLike, shape: tuple[int | None, ...] | None, what: str) -> Floats:
    """A copy as an array of float64.

    Parameters
    ----------
    value : array_like
        Real numbers; neither text, nor objects, nor truth values.
    shape : tuple or None
        The lengths that it must have, with None for any; None where any shape is right.
    what : str
        What it is, for the error.

    Raises
    ------
    TypeError
        It isn't made of real numbers.
    ValueError
        It has another shape.
    """
    try:
        array = np.asarray(value)
    except ValueError as error:
        raise ValueError(f"{what}: not an array of numbers: {error}") from error
    if array.dtype.kind not in "fiu" and array.size:
        raise TypeError(f"{what}: real numbers are needed, not {array.dtype}")
    if shape is not None:
        fits = array.ndim == len(shape) and all(n is None or n == m for n, m in zip(shape, array.shape))
        if not fits:
            wanted = "(" + ", ".join("n" if n is None else str(n) for n in shape) + ("," if len(shape) == 1 else "") + ")"
            raise ValueError(f"{what}: an array of shape {wanted} is needed, not {array.shape}")
    return np.array(array, dtype=np.float64, order="C")


def points(value: ArrayLike, what: str = "points") -> Floats:
    """Points as an array of shape (n, 2). An empty list is no points."""
    array = np.asarray(value)
    return np.empty((0, 2)) if array.size == 0 and array.ndim == 1 else numbers(value, (None, 2), what)


def flags(value: ArrayLike, count: int) -> NDArray[np.uint8]:
    """Truth values, or whole numbers from 0 to 255, as bytes."""
    array = np.asarray(value)
    if array.dtype.kind not in "biu" and array.size:
        raise TypeError(f"in_front: truth values are needed, not {array.dtype}")
    if array.shape != (count,):
        raise ValueError(f"in_front: an array of shape ({count},) is needed, as there are {count} rows, not {array.shape}")
    if array.size and (array.min() < 0 or array.max() > 255):
        raise ValueError("in_front: truth values are needed")
    return np.array(array, dtype=np.uint8, order="C")


def rows_and_flags(rows: ArrayLike, in_front: ArrayLike | None) -> tuple[Floats, NDArray[np.uint8]]:
    """The rows of an answer, flat, and a flag for each; all points are in front where no flags are given."""
    array = np.asarray(rows)
    array = np.empty((0, 4)) if array.size == 0 and array.ndim == 1 else numbers(rows, (None, 4), "rows")
    front = np.ones(len(array), np.uint8) if in_front is None else flags(in_front, len(array))
    return array.reshape(-1), front


def struct(kind: type[S], value: Any, what: str) -> S:
    """A struct of the library that has nothing but doubles."""
    return kind.from_buffer_copy(numbers(flat(value), (sizeof(kind) // 8,), what).tobytes())


def doubles(value: Structure) -> list[float]:
    """The numbers of a struct that has nothing but doubles."""
    return [float(number) for number in np.frombuffer(bytes(value), np.float64)]


def count(value: Any, what: str, most: int = 2**64 - 1) -> int:
    """A whole number that isn't below 0."""
    if isinstance(value, (bool, np.bool_)) or not isinstance(value, (int, np.integer)):
        raise TypeError(f"{what}: a whole number is needed, not {value!r}")
    if not 0 <= value <= most:
        raise ValueError(f"{what}: {value} isn't from 0 to {most}")
    return int(value)


def real(value: Any, what: str) -> float:
    """A real number."""
    return float(numbers(value, (), what))


def camera_of(value: Structure) -> PinholeCamera:
    """The camera of a struct."""
    all_numbers = doubles(value)
    return PinholeCamera(FxFyCxCy(*all_numbers[:4]), BrownConrady5(*all_numbers[4:]))


def seed_of(value: Any) -> Seed:
    """The seed of six numbers or of a struct."""
    all_numbers = doubles(value) if isinstance(value, Structure) else list(value)
    return Seed(FxFyCxCy(*all_numbers[:4]), ScheimpflugParams(*all_numbers[4:]))


def winner_of(value: Any) -> Winner:
    """The candidate of a struct."""
    sensor = ScheimpflugParams(*doubles(value.sensor))
    return Winner(value.number, camera_of(value.camera), sensor, value.mean_reproj_error, value.score)
