"""The journal of a run: its lines, running it again, going on from it, its counts and the winners of its stretches.

A journal has a line for each answered candidate, every number bit by bit. `JournalWriter` has each on the disk before the
next seed is handed out, so that a search that is switched off goes on to the same end:

    with JournalWriter.create("night.journal") as journal:
        winner = search.run(solve, lambda tried: journal.write(tried.line))

    with JournalWriter.resume("night.journal", inputs) as journal:      # after a power loss
        winner = journal.resumed.search.run(solve, lambda tried: journal.write(tried.line))
"""

from __future__ import annotations

import fcntl
import os
from pathlib import Path
from typing import NamedTuple

import numpy as np

from . import _declarations as c
from ._library import library
from ._line import Line, octets, read_line, read_lines, write_line
from ._search import Inputs, Search
from ._values import Counts, Seed, Winner, count, flat, numbers, real, seed_of, struct, winner_of
from .errors import JinnychairError, Number, check

__all__ = [
    "EndedBy",
    "JournalWriter",
    "Line",
    "Replayed",
    "Resumed",
    "read_line",
    "read_lines",
    "replay",
    "resume",
    "winner",
    "write_line",
    "write_report",
]

EndedBy = c.EndedBy


class Replayed(NamedTuple):
    """The result of running a journal again.

    Attributes
    ----------
    candidate, score : int and float, or None
        The winner's number and score, where the run is over.
    next : Seed or None
        The seed that comes next, where it isn't.
    """

    candidate: int | None
    score: float | None
    next: Seed | None


class Resumed(NamedTuple):
    """A search that goes on from a journal.

    Attributes
    ----------
    search : Search
        As the kept lines leave it.
    lines, kept, dropped : int
        How many lines and bytes are kept, and how many bytes aren't.
    ended_by : EndedBy or Number
        What ended the kept lines: nothing, a missing newline, or `Number.NOT_A_LINE` or `Number.NOT_THE_RUN`.
    """

    search: Search
    lines: int
    kept: int
    dropped: int
    ended_by: EndedBy | Number


def replay(inputs: Inputs, journal: bytes) -> Replayed:
    """Runs a journal again from what its search started from, without a host.

    Raises
    ------
    Refused
        The inputs are refused; 29 or 30, with the line's number, where a line isn't one or isn't the run's; 11 where the
        run ended with nothing scored.
    """
    arguments, lent = inputs._lent()
    text = octets(journal)
    reply = library().jc_replay(*arguments, text, text.size, lent, lent.size)
    is_of_a_line = reply.number in (Number.NOT_A_LINE, Number.NOT_THE_RUN)
    check(reply.number, reply.line_number if is_of_a_line else None)
    if reply.is_over:
        return Replayed(reply.candidate, reply.score, None)
    return Replayed(None, None, seed_of(reply.next))


def resume(inputs: Inputs, journal: bytes) -> Resumed:
    """Goes on from a journal that stops anywhere, as a power loss leaves it. Cut the file to the kept bytes before adding to it.

    Raises
    ------
    Refused
        The inputs are refused.
    """
    arguments, lent = inputs._lent()
    text = octets(journal)
    reply = library().jc_resume(*arguments, text, text.size, lent, lent.size)
    check(reply.number)
    by = reply.ended_by
    ended_by: EndedBy | Number = EndedBy(by) if by in tuple(EndedBy) else Number(by)
    return Resumed(Search._of_parts(reply.run, lent), reply.lines, reply.kept, reply.dropped, ended_by)


def write_report(counts: Counts) -> bytes:
    """The line of a report: scored, skipped for each reason in their order, and the total, separated by commas.

    Raises
    ------
    Refused
        28 where the total is above 656.
    """
    record = c.jc_count_record(*(count(value, "a count") for value in Counts(*counts)))
    to = np.zeros(c.REPORT_LEN, np.uint8)
    reply = library().jc_write_report(record, to, to.size)
    check(reply.number)
    return to[: reply.len].tobytes()


def _best(candidate: Winner | None) -> c.jc_best_record:
    if candidate is None:
        return c.jc_best_record()
    number, camera, sensor, mean, score = Winner(*candidate)
    camera_struct = struct(c.jc_pinhole_camera, camera, "camera")
    sensor_struct = struct(c.jc_scheimpflug_params, numbers(flat(sensor), (2,), "sensor"), "sensor")
    scores = real(mean, "mean_reproj_error"), real(score, "score")
    return c.jc_best_record(1, c.jc_candidate(count(number, "number"), camera_struct, sensor_struct, *scores))


def winner(first: Winner | None, second: Winner | None) -> Winner | None:
    """The winner of two stretches of a run, the earlier first: the one with the lower score, of equal scores the first.

    However a run is cut into stretches, and however these are grouped, the winner of their winners is the run's. None is
    the winner of a stretch in which nothing was scored.
    """
    reply = library().jc_winner(_best(first), _best(second))
    return winner_of(reply.candidate) if reply.found else None


class JournalWriter:
    """A journal that lines are added to. While it is open, no other writer opens the file; readers may.

    Attributes
    ----------
    path : Path
        The file.
    resumed : Resumed or None
        The search that goes on in it, and what was kept.
    """

    def __init__(self, path: Path, descriptor: int, resumed: Resumed | None = None) -> None:
        self.path = path
        self.resumed = resumed
        self._descriptor: int | None = descriptor

    @classmethod
    def create(cls, path: str | os.PathLike[str]) -> JournalWriter:
        """Begins a journal. None is written over: FileExistsError is raised where there is a file of this name."""
        journal = Path(path)
        descriptor = os.open(journal, os.O_CREAT | os.O_EXCL | os.O_RDWR | os.O_APPEND, 0o666)
        return cls._locked(journal, descriptor)

    @classmethod
    def resume(cls, path: str | os.PathLike[str], inputs: Inputs) -> JournalWriter:
        """Opens the journal of a search that was switched off, goes on with the search, and cuts the file to what is kept.

        Raises
        ------
        Refused
            The inputs are refused; then nothing is cut.
        JinnychairError
            Another process writes to it, or none of its lines is the run's; then nothing is cut.
        """
        journal = Path(path)
        writer = cls._locked(journal, os.open(journal, os.O_RDWR | os.O_APPEND))
        try:
            writer.resumed = resume(inputs, journal.read_bytes())
            if writer.resumed.dropped and not writer.resumed.lines:
                raise JinnychairError(f"{journal}: nothing in it is of a run from these inputs; it isn't touched")
            writer._cut(writer.resumed.kept)
        except BaseException:
            writer.close()
            raise
        return writer

    @classmethod
    def _locked(cls, path: Path, descriptor: int) -> JournalWriter:
        try:
            fcntl.flock(descriptor, fcntl.LOCK_EX | fcntl.LOCK_NB)
        except OSError as error:
            os.close(descriptor)
            raise JinnychairError(f"{path}: another process writes to it") from error
        return cls(path, descriptor)

    def _cut(self, length: int) -> None:
        assert self._descriptor is not None
        os.ftruncate(self._descriptor, length)
        os.fsync(self._descriptor)

    def write(self, line: Line) -> None:
        """Adds a line, and returns when it is on the disk. Where it can't be written, the lines before stay as they are."""
        if self._descriptor is None:
            raise ValueError(f"{self.path}: the journal is closed")
        text = write_line(line)
        before = os.fstat(self._descriptor).st_size
        try:
            written = os.write(self._descriptor, text)
            if written != len(text):
                raise OSError(f"{self.path}: {written} of {len(text)} bytes were written")
            os.fsync(self._descriptor)
        except OSError:
            os.ftruncate(self._descriptor, before)
            raise

    def close(self) -> None:
        """Closes the file."""
        if self._descriptor is not None:
            os.close(self._descriptor)
            self._descriptor = None

    def __enter__(self) -> JournalWriter:
        return self

    def __exit__(self, *_: object) -> None:
        self.close()
