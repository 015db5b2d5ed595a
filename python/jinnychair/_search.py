"""A search that keeps its record and its list to itself."""

from __future__ import annotations

import threading
from collections.abc import Callable, Iterator, Sequence
from contextlib import contextmanager
from dataclasses import dataclass, field
from typing import Any, NamedTuple

import numpy as np
from numpy.typing import ArrayLike

from . import _declarations as c
from ._library import library
from ._values import (
    Counts,
    Floats,
    FxFyCxCy,
    PinholeCamera,
    Progress,
    Pt2,
    ScheimpflugParams,
    Seed,
    Winner,
    count,
    flat,
    numbers,
    real,
    rows_and_flags,
    seed_of,
    struct,
    winner_of,
)
from .errors import ClosedError, InUseError, Refused, check
from ._line import Line, line_of

SkipReason = c.SkipReason


@dataclass(frozen=True)
class Options:
    """Which tilts are tried. The defaults are those of calibration-rs.

    Attributes
    ----------
    tilt_x_seeds, tilt_y_seeds : sequence of float
        The tilts of round 0's grid about x and y, in radians; 1 to 16 each.
    refine_rounds : int
        How many rounds follow round 0, each around the best candidate of the round before; at most 16.
    refine_step : float
        The first of these rounds' step, in radians; it halves from round to round.
    max_abs_tilt : float
        The bound on either tilt, in radians; at most 0.5, which is 28.6 degrees.
    one_axis : bool
        Whether the sensor leans about x alone; then `tilt_y_seeds` is 0 alone.
    min_counted : int
        How many per cent of its rows must be counted for a candidate to be scored, 0 to 100.
    """

    tilt_x_seeds: Sequence[float] = (-0.16, -0.12, -0.08, -0.04, 0.0, 0.04, 0.08, 0.12, 0.16)
    tilt_y_seeds: Sequence[float] = (-0.04, -0.02, 0.0, 0.02, 0.04)
    refine_rounds: int = 2
    refine_step: float = 0.02
    max_abs_tilt: float = 0.3
    one_axis: bool = False
    min_counted: int = 0


@dataclass(frozen=True)
class Inputs:
    """What a search starts from.

    Attributes
    ----------
    views : int
        How many views of the plate there are; at least 3.
    base : array_like, shape (4,)
        The camera of the grid's seeds: fx, fy, cx, cy in px.
    center : array_like, shape (2,)
        The observed centre, in px.
    options : Options
        Which tilts are tried.
    decomposition : sequence of Seed or array_like, shape (n, 6)
        Seeds that the host found by decomposition, tried before the grid; at most 256.
    """

    views: int
    base: ArrayLike
    center: ArrayLike
    options: Options = field(default_factory=Options)
    decomposition: Any = ()

    def _lent(self) -> tuple[tuple[Any, ...], Floats]:
        """The arguments of a start, and a list of the length that it needs."""
        options = self.options
        record = c.jc_options(
            count(options.refine_rounds, "refine_rounds"),
            real(options.refine_step, "refine_step"),
            real(options.max_abs_tilt, "max_abs_tilt"),
            bool(options.one_axis),
            count(options.min_counted, "min_counted"),
        )
        xs, ys = numbers(options.tilt_x_seeds, (None,), "tilt_x_seeds"), numbers(options.tilt_y_seeds, (None,), "tilt_y_seeds")
        seeds = [numbers(flat(tuple(seed)), (c.SEED_NUMBERS,), "a decomposition seed") for seed in self.decomposition]
        decomposition = np.concatenate(seeds) if seeds else np.empty(0)
        base, center = struct(c.jc_intrinsics, self.base, "base"), struct(c.jc_pt2, self.center, "center")
        # Lists that are too long for a grid are refused, however long the lent list is.
        room = max(54, 6 * (len(seeds) + min(xs.size * ys.size, 256)))
        views = count(self.views, "views")
        lists = (xs, xs.size, ys, ys.size, decomposition, decomposition.size)
        return (views, record, *lists, base, center), np.zeros(room)


class Solution(NamedTuple):
    """A host's solution for a seed.

    Attributes
    ----------
    camera : PinholeCamera or array_like, shape (9,)
        fx, fy, cx, cy in px, then k1, k2, k3, p1, p2.
    rows : array_like, shape (n, 4)
        The ideal point x, y in focal lengths, then the seen pixel u, v in px; at most 1,024.
    in_front : array_like of bool, shape (n,), optional
        Whether a point is in front of the camera; all are if not given.
    """

    camera: Any
    rows: ArrayLike
    in_front: ArrayLike | None = None


class Handed(NamedTuple):
    """A candidate: its number, counted from 0 over the run, and the seed to solve for."""

    number: int
    seed: Seed


class Outcome(NamedTuple):
    """What became of a candidate: its score, or why it isn't scored."""

    score: float | None
    skipped: SkipReason | None


class Stopped(NamedTuple):
    """How a search stands when it is stopped between two answers.

    Attributes
    ----------
    best : Winner or None
        The best candidate so far.
    floor : float or None
        No candidate from the seeds that the round has left can score below this, whichever camera the host finds. Later rounds
        can. None where no seed is left.
    no_gain : bool
        Whether there is a best, and the floor isn't below its score: then the round can gain nothing.
    """

    best: Winner | None
    floor: float | None
    no_gain: bool


class Tried(NamedTuple):
    """A tried seed, as `run` shows it; `progress` is the one before its answer."""

    number: int
    round: int
    seed: Seed
    solution: Solution | None
    outcome: Outcome
    progress: Progress
    line: Line


Host = Callable[[Seed], "Solution | None"]


class Search:
    """A search that is under way.

    It owns its record and its list, and only its own calls change them. So each call gets both as the calls before left
    them, which is the condition of the theorem about whole runs: every seed that the rules name is handed out, every typed
    tilt within the bound is tried, and the winner has the lowest score, the earliest of equal ones.

    Calls of several threads come one after another. While one thread is in `run`, others may look (`progress`, `counts`,
    `stop`, ...), and are refused where they would change the run.

    Parameters
    ----------
    inputs : Inputs
        What it starts from.

    Raises
    ------
    Refused
        1 to 8, 27, 31, 32 or 33: the inputs are refused.

    Examples
    --------
    >>> search = Search(Inputs(views=14, base=(1420, 1420, 655, 470), center=(655, 470)))
    >>> search.progress().total
    45
    """

    def __init__(self, inputs: Inputs) -> None:
        arguments, self._list = inputs._lent()
        reply = library().jc_start(*arguments, self._list, self._list.size)
        check(reply.number)
        self._take(reply.run)

    @classmethod
    def _of_parts(cls, run: c.jc_run_record, lent: Floats) -> Search:
        """The search of a record and the list that belongs to it."""
        search = cls.__new__(cls)
        search._list = lent
        search._take(run)
        return search

    def _take(self, run: c.jc_run_record) -> None:
        self._run: c.jc_run_record | None = c.jc_run_record.from_buffer_copy(run)
        self._lock = threading.RLock()
        self._runner: int | None = None

    @contextmanager
    def _held(self, changes: bool) -> Iterator[c.jc_run_record]:
        """The record, held for this thread."""
        with self._lock:
            if self._run is None:
                raise ClosedError("the search is closed")
            if changes and self._runner not in (None, threading.get_ident()):
                raise InUseError("another thread runs this search")
            yield self._run

    def _read(self, name: str, *arguments: Any) -> Any:
        """A call that leaves the run as it is."""
        with self._held(changes=False) as run:
            return getattr(library(), name)(run, *arguments)

    def _step(self, name: str, *arguments: Any) -> Any:
        """A call that goes on with the run, or is refused and leaves it."""
        with self._held(changes=True) as run:
            reply = getattr(library(), name)(run, *arguments)
            check(reply.number)
            self._run = c.jc_run_record.from_buffer_copy(reply.run)
            return reply

    def copy(self) -> Search:
        """A search of its own that stands where this one does, with the same seed waiting."""
        with self._held(changes=False) as run:
            return Search._of_parts(run, self._list.copy())

    __copy__ = copy

    def __deepcopy__(self, _: object) -> Search:
        return self.copy()

    def close(self) -> None:
        """Ends the search: every later call raises `ClosedError`."""
        with self._lock:
            self._run = None

    def __enter__(self) -> Search:
        return self

    def __exit__(self, *_: object) -> None:
        self.close()

    def next(self) -> Handed | None:
        """Hands out the next seed.

        Returns
        -------
        Handed or None
            None where the run is over and has a result.

        Raises
        ------
        Refused
            9 where a seed is waiting, 11 where the run ended with nothing scored.
        """
        with self._held(changes=True):
            reply = self._step("jc_next", self._list, self._list.size)
            if reply.over:
                return None
            seed = self.waiting()
            assert seed is not None, "a seed that is handed out waits"
            return Handed(reply.candidate, seed)

    def waiting(self) -> Seed | None:
        """The seed that waits for its answer."""
        to = np.zeros(c.SEED_NUMBERS)
        written = self._read("jc_seed", self._list, self._list.size, to, to.size)
        return seed_of(to.tolist()) if written else None

    def answer(self, solution: Solution | None) -> Outcome:
        """Takes the host's solution for the waiting seed; None where it found no camera.

        Raises
        ------
        Refused
            12 where no seed waits, 13 for too many rows or a flag above 1. The seed goes on waiting.
        """
        if solution is None:
            camera, rows, front = c.jc_pinhole_camera(), np.empty(0), np.empty(0, np.uint8)
        else:
            solution = Solution(*solution)
            camera = struct(c.jc_pinhole_camera, solution.camera, "camera")
            rows, front = rows_and_flags(solution.rows, solution.in_front)
        lent = (rows, rows.size, front, front.size, self._list, self._list.size)
        reply = self._step("jc_answer", solution is not None, camera, *lent)
        return Outcome(None, SkipReason(reply.skipped)) if reply.skipped else Outcome(reply.score, None)

    def result(self) -> Winner:
        """The best candidate, once the run is over.

        Raises
        ------
        Refused
            14 where the run isn't over, 11 where nothing was scored.
        """
        reply = self._read("jc_result")
        check(reply.number)
        return winner_of(reply.candidate)

    def progress(self) -> Progress:
        """How far the search has come."""
        reply = self._read("jc_progress")
        return Progress(reply.round, reply.rounds, reply.answered, reply.total, reply.answered_in_run)

    def counts(self) -> Counts:
        """How many candidates are scored, and how many skipped for each reason."""
        reply = self._read("jc_counts")
        return Counts(reply.scored, reply.host_failed, reply.bad_camera, reply.no_mean, reply.no_number)

    def stop(self) -> Stopped:
        """How the search stands, between two answers or while a seed waits. Nothing changes, and the search can go on."""
        reply = self._read("jc_stop", self._list, self._list.size)
        check(reply.number)
        best = winner_of(reply.best) if reply.has_best else None
        return Stopped(best, reply.floor if reply.has_floor else None, bool(reply.no_gain))

    def last_line(self) -> Line | None:
        """The journal's line of the last answered candidate; None before the first answer."""
        reply = self._read("jc_last_line")
        return line_of(reply.line) if reply.found else None

    @contextmanager
    def _running(self) -> Iterator[None]:
        """The search is this thread's until the run ends."""
        with self._held(changes=True):
            outer, self._runner = self._runner, threading.get_ident()
        try:
            yield
        finally:
            self._runner = outer

    def run(self, solve: Host, watch: Callable[[Tried], object] | None = None) -> Winner:
        """Runs the search to its end.

        Parameters
        ----------
        solve : callable
            Gives a `Solution` for each `Seed`, or None where it finds no camera. What it raises is passed on; its seed
            then goes on waiting, and another `run` begins with it.
        watch : callable, optional
            Gets each `Tried` seed.

        Raises
        ------
        Refused
            11 where nothing was scored; 13 where a solution is refused; its seed goes on waiting.
        """

        def goes_on(tried: Tried) -> bool:
            if watch is not None:
                watch(tried)
            return True

        ended = self.run_until(solve, goes_on)
        assert isinstance(ended, Winner), "nothing stops it"
        return ended

    def run_until(self, solve: Host, goes_on: Callable[[Tried], bool]) -> Winner | Stopped:
        """As `run`; where `goes_on` returns false for a tried seed, the search stops after it. Another `run` goes on.

        Returns
        -------
        Winner or Stopped
            A stop after the last answer stops nothing.
        """
        with self._running():
            while (tried := self._try(solve)) is not None:
                if goes_on(tried):
                    continue
                stopped = self.stop()
                if stopped.floor is not None:
                    return stopped
            return self.result()

    def _try(self, solve: Host) -> Tried | None:
        """Takes a new seed, or the waiting one, to its outcome; None where the run is over."""
        waiting = self.waiting()
        handed = self.next() if waiting is None else Handed(self.progress().answered_in_run, waiting)
        if handed is None:
            return None
        progress = self.progress()
        solution = solve(handed.seed)
        outcome = self.answer(solution)
        line = self.last_line()
        assert line is not None, "an answered candidate has a line"
        return Tried(handed.number, progress.round, handed.seed, solution, outcome, progress, line)


__all__ = [
    "Counts",
    "FxFyCxCy",
    "Handed",
    "Inputs",
    "Options",
    "Outcome",
    "PinholeCamera",
    "Progress",
    "Pt2",
    "Refused",
    "ScheimpflugParams",
    "Search",
    "Seed",
    "SkipReason",
    "Solution",
    "Stopped",
    "Tried",
    "Winner",
]
