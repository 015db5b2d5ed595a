"""The journal: writing and reading lines, the report, replay, resume.

A journal's bytes are `bytes`; a lent buffer is a `bytearray` that is written in place.

Specification: chapter 8
"""

from dataclasses import dataclass
from typing import Tuple

from . import record
from .binary64 import bits, finite, from_bits, same, within
from .scoring import score_of, valid
from .values import Line, Refused, Scored, Skipped, same_values

LETTERS = "SHCEN"
MOST_NUMBER = 655
MOST_ROUND = 16
MOST_ANSWERS = 656


@dataclass(frozen=True)
class End:
    """Nothing is left to read. Specification: #journal-reader"""


@dataclass(frozen=True)
class Read:
    """A line that was read. Specification: #journal-reader"""

    line: Line


@dataclass(frozen=True)
class Winner:
    """Replay's reply where the run is over and has a winner. Specification: #replay"""

    number: int
    score: float


@dataclass(frozen=True)
class Unfinished:
    """Replay's reply where the run isn't over. Specification: #replay"""

    seed: Tuple[float, ...]


@dataclass(frozen=True)
class ResumeReport:
    """What resume says of the bytes; `ended` is 0, 1, 29 or 30. Specification: #resume"""

    kept_lines: int
    kept_bytes: int
    dropped_bytes: int
    ended: int


def real_text(x):
    """Sixteen hexadecimal digits. Specification: #journal-line"""
    return "%016x" % bits(x)


def line_bytes(line):
    """The bytes of a line that can be written. Specification: #journal-line"""
    fields = [str(line.number), str(line.round)] + [real_text(x) for x in line.seed]
    fields.append(LETTERS[line.skipped])
    if line.skipped == 0:
        fields += [real_text(x) for x in (line.score, line.mean) + tuple(line.camera)]
    else:
        fields += ["-"] * 8
    return (",".join(fields) + "\n").encode("ascii")


def write_line(line, buffer):
    """How many bytes were written, or Refused(28). Specification: #journal-writer"""
    if (len(buffer) < 256 or line.number > MOST_NUMBER or line.round > MOST_ROUND or line.skipped > 4
            or (line.skipped == 0 and line.score != line.score)):
        return Refused(28)
    text = line_bytes(line)
    buffer[0:len(text)] = text
    return len(text)


def parse_decimal(field, most):
    """The whole number of a field, or None. Specification: #journal-line"""
    digits = field != b"" and all(48 <= byte <= 57 for byte in field)
    if not digits or len(field) > 3 or (len(field) > 1 and field[0] == 48) or int(field) > most:
        return None
    return int(field)


def parse_real(field):
    """The real of a field, or None. Specification: #journal-line"""
    if len(field) != 16 or not all(byte in b"0123456789abcdef" for byte in field):
        return None
    value = from_bits(int(field, 16))
    return None if bits(value) != int(field, 16) else value


def parse_outcome(fields):
    """(skipped, eight reals) of the last nine fields, or None. Specification: #journal-line"""
    letter, numbers = fields[0], fields[1:]
    if len(letter) != 1 or letter not in (b"S", b"H", b"C", b"E", b"N"):
        return None
    skipped = LETTERS.index(letter.decode("ascii"))
    if skipped > 0:
        return (skipped, (0.0,) * 8) if all(field == b"-" for field in numbers) else None
    reals = tuple(parse_real(field) for field in numbers)
    if None in reals or reals[0] != reals[0]:
        return None
    return (0, reals)


def parse_line(text):
    """The line that these bytes are, without their newline, or None. Specification: #journal-line"""
    fields = text.split(b",")
    if len(fields) != 17:
        return None
    number, turn = parse_decimal(fields[0], MOST_NUMBER), parse_decimal(fields[1], MOST_ROUND)
    seed = tuple(parse_real(field) for field in fields[2:8])
    outcome = parse_outcome(fields[8:])
    if number is None or turn is None or None in seed or outcome is None:
        return None
    skipped, reals = outcome
    return Line(number, turn, seed, skipped, reals[0], reals[1], reals[2:])


def read_line(data, position):
    """(End, Read or Refused(29, line number); position afterwards). Specification: #journal-reader"""
    if position >= len(data):
        return End(), position
    newline = data.find(b"\n", position)
    line = parse_line(data[position:newline]) if newline >= 0 else None
    if line is None:
        return Refused(29, data.count(b"\n", 0, position) + 1), position
    return Read(line), newline + 1


def read_journal(data):
    """(lines, End or Refused(29, line number)). Specification: #journal-reader"""
    lines, position = [], 0
    while True:
        reading, position = read_line(data, position)
        if not isinstance(reading, Read):
            return lines, reading
        lines.append(reading.line)


def write_report(counts, buffer):
    """How many bytes were written, or Refused(28). Specification: #report"""
    total = sum(counts)
    if len(buffer) < 24 or total > MOST_ANSWERS:
        return Refused(28)
    text = (",".join(str(c) for c in tuple(counts) + (total,)) + "\n").encode("ascii")
    buffer[0:len(text)] = text
    return len(text)


def line_camera(line):
    """The camera fx, fy, cx, cy, +0, +0, +0, p1, p2 of a line. Specification: #replay-lines"""
    return tuple(line.camera[:4]) + (0.0, 0.0, 0.0) + tuple(line.camera[4:])


def scored_line_fits(line, centre):
    """What is asked of a line under S. Specification: #replay-lines"""
    camera = line_camera(line)
    if not valid(camera) or not within(0.05, camera[7]) or not within(0.05, camera[8]):
        return False
    if not finite(line.mean) or line.mean < 0.0:
        return False
    return same(line.score, score_of(line.mean, camera, line.seed[4], line.seed[5], centre))


def is_next_answer(r, lent, line):
    """Whether a line is the run's next answer. Specification: #replay-lines"""
    if r.over or line.number != r.number or line.round != r.round:
        return False
    if not same_values(tuple(line.seed), record.list_seed(lent, r.at)):
        return False
    return line.skipped > 0 or scored_line_fits(line, r.centre)


def take_line(r, lent, line):
    """Hands out the next seed and enters the line's outcome. Specification: #replay"""
    _, r = record.next_seed(r, lent)
    outcome = Skipped(line.skipped) if line.skipped else Scored(line_camera(line), line.mean, line.score)
    return record.enter(r, lent, outcome)


def walk(r, lent, data):
    """(record, lines taken, position behind them, End or Refused(29 or 30)). Specification: #replay"""
    taken, position = 0, 0
    while True:
        reading, behind = read_line(data, position)
        if not isinstance(reading, Read):
            return r, taken, position, reading
        if not is_next_answer(r, lent, reading.line):
            return r, taken, position, Refused(30, taken + 1)
        r = take_line(r, lent, reading.line)
        taken, position = taken + 1, behind


def replay(inputs, lent, data):
    """Winner, Unfinished or Refused. Specification: #replay"""
    refusal, r = record.start(inputs, lent)
    if refusal is not None:
        return refusal
    r, _, _, stopped = walk(r, lent, data)
    if isinstance(stopped, Refused):
        return stopped
    if not r.over:
        return Unfinished(record.list_seed(lent, r.at))
    return Winner(r.run_best.number, r.run_best.score) if r.run_best.flag else Refused(11)


def resume(inputs, lent, data):
    """(Refused, a record of zeros, None), or (None, record, ResumeReport). Specification: #resume"""
    refusal, r = record.start(inputs, lent)
    if refusal is not None:
        return refusal, r, None
    r, taken, position, stopped = walk(r, lent, data)
    rest = data[position:]
    if rest and b"\n" not in rest:
        ended = 1
    else:
        ended = stopped.number if isinstance(stopped, Refused) else 0
    return None, r, ResumeReport(taken, position, len(rest), ended)
