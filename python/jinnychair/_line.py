"""A line of a journal: an answered candidate, every number bit by bit."""

from __future__ import annotations

from collections.abc import Iterator
from typing import Any, NamedTuple

import numpy as np

from . import _declarations as c
from ._library import library
from ._values import FxFyCxCy, Seed, count, doubles, flat, numbers, real, seed_of, struct
from .errors import check

SkipReason = c.SkipReason


class Line(NamedTuple):
    """An answered candidate's line.

    Attributes
    ----------
    number : int
        The candidate's number, counted from 0 over the run.
    round : int
        The round that it was handed out in.
    seed : Seed
        What was handed out.
    skipped : SkipReason or None
        Why it isn't scored. Where it isn't, the fields behind this one are None.
    score, mean : float or None
        Its score, and the mean error in px.
    k : FxFyCxCy or None
        Focal lengths and centre of its camera, in px.
    p1, p2 : float or None
        The tangential distortion.
    """

    number: int
    round: int
    seed: Seed
    skipped: SkipReason | None = None
    score: float | None = None
    mean: float | None = None
    k: FxFyCxCy | None = None
    p1: float | None = None
    p2: float | None = None


def line_of(flat_line: Any) -> Line:
    """The line of a struct."""
    place = (flat_line.number, flat_line.round, seed_of(flat_line.seed))
    if flat_line.skipped:
        return Line(*place, SkipReason(flat_line.skipped))
    k = FxFyCxCy(*doubles(flat_line.k))
    return Line(*place, None, flat_line.score, flat_line.mean, k, flat_line.p1, flat_line.p2)


def _struct_of(line: Line) -> c.jc_line:
    """The struct of a line."""
    line = Line(*line)
    number, round_ = count(line.number, "number"), count(line.round, "round")
    seed = struct(c.jc_candidate_seed, numbers(flat(tuple(line.seed)), (c.SEED_NUMBERS,), "seed"), "seed")
    if line.skipped is not None:
        return c.jc_line(number, round_, seed, SkipReason(line.skipped))
    scored = [real(value, name) for value, name in zip((line.score, line.mean), ("score", "mean"))]
    k = struct(c.jc_intrinsics, line.k, "k")
    return c.jc_line(number, round_, seed, 0, *scored, k, real(line.p1, "p1"), real(line.p2, "p2"))


def octets(journal: bytes | bytearray | memoryview) -> np.ndarray[Any, np.dtype[np.uint8]]:
    """The bytes of a journal, as they are lent."""
    return np.frombuffer(bytes(journal), np.uint8)


def write_line(line: Line) -> bytes:
    """The bytes of a line, with its newline.

    Raises
    ------
    Refused
        28 where the number is above 655, the round above 16, or a score is NaN.
    """
    to = np.zeros(c.LINE_LEN, np.uint8)
    reply = library().jc_write_line(_struct_of(line), to, to.size)
    check(reply.number)
    return to[: reply.len].tobytes()


def read_line(journal: bytes, at: int = 0) -> tuple[Line, int] | None:
    """The line at a position of a journal.

    Parameters
    ----------
    journal : bytes
        The whole journal.
    at : int, optional
        Where the line begins.

    Returns
    -------
    tuple of Line and int, or None
        The line and the position behind it; None at the end.

    Raises
    ------
    Refused
        29, with the line's number, where the bytes aren't those of a line.
    """
    return _read(octets(journal), count(at, "at"))


def _read(lent: Any, at: int) -> tuple[Line, int] | None:
    reply = library().jc_read_line(lent, lent.size, at)
    check(reply.number, reply.line_number)
    return None if reply.end else (line_of(reply.line), reply.next)


def read_lines(journal: bytes) -> Iterator[Line]:
    """The lines of a journal, one after another.

    Raises
    ------
    Refused
        29, with the line's number, at the first that isn't one.
    """
    lent, at = octets(journal), 0
    while (found := _read(lent, at)) is not None:
        line, at = found
        yield line
