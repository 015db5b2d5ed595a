"""Journals: lines and reports written and read, runs replayed and gone on from, whole, cut and damaged; winners of stretches.

Specification: chapters 8 and 10, and #c-replies
"""

from model import journal, scoring
from model.reference import inputs_demand, line_of
from model.scoring import score_of
from model.values import Failed, Line, NO_BEST, Refused

from . import flat
from .interface import numbers_in, octets, reals, struct_of
from .pair import Pair, start_arguments
from .runs import any_call, finish, started


# ---- lines and reports


def drawn_line(draws):
    """A line that can mostly be written, beside each of the writer's limits."""
    number = draws.choice([0, 9, 10, 99, 100, 655, 655, 656, draws.whole()])
    turn = draws.choice([0, 1, 9, 10, 16, 16, 17, draws.whole()])
    skipped = draws.choice([0, 0, 0, 1, 2, 3, 4, 4, 5, 255])
    return Line(number, turn, tuple(draws.several(6)), skipped, draws.real(), draws.real(), tuple(draws.several(6)))


def write_line(bench, draws):
    line, to = drawn_line(draws), draws.choice([256, 256, 256, 257, 300, 255, 124, 0])
    after, lent = bytearray(b"." * to), octets(b"." * to)
    reply = journal.write_line(line, after)
    said = bench.library.jc_write_line(struct_of("jc_line", flat.line_numbers(line)), *lent.arguments())
    bench.same("jc_write_line", (line, to), flat.written_numbers(reply) + list(after), numbers_in(said) + lent.now())
    if not isinstance(reply, Refused):
        read_at(bench, bytes(after[:reply]), 0)
        read_at(bench, changed_byte(draws, bytes(after[:reply])), 0)


def write_report(bench, draws):
    """Counts up to the greatest whole number, and totals beside 656."""
    counts = [draws.choice([0, 1, 9, 10, 99, 100, 131, 132]) for _ in range(5)]
    if draws.chance(0.3):
        counts[draws.rng.randrange(5)] = draws.whole()
    if draws.chance(0.3):
        counts[4] = max(0, 656 + draws.choice([0, 1, -1]) - sum(counts[:4]))
    to = draws.choice([24, 24, 25, 40, 23, 0])
    after, lent = bytearray(b"." * to), octets(b"." * to)
    reply = journal.write_report(tuple(counts), after)
    said = bench.library.jc_write_report(struct_of("jc_count_record", counts), *lent.arguments())
    bench.same("jc_write_report", (counts, to), flat.written_numbers(reply) + list(after), numbers_in(said) + lent.now())


def read_at(bench, text, position):
    reading, behind = journal.read_line(text, position)
    said = bench.library.jc_read_line(*octets(text).arguments(), position)
    bench.same("jc_read_line", (text, position), flat.read_numbers(reading, behind), numbers_in(said))
    return reading, behind


def read_all(bench, draws, text):
    """The journal from its beginning to End or 29, and at places where no reader would begin."""
    position = 0
    while True:
        reading, behind = read_at(bench, text, position)
        if not isinstance(reading, journal.Read):
            break
        position = behind
    for _ in range(3):
        read_at(bench, text, draws.choice([draws.rng.randrange(len(text) + 3), len(text), draws.whole()]))


# ---- damage


def changed_byte(draws, text):
    """One byte changed, left out or put in."""
    place = draws.rng.randrange(len(text) + 1)
    new = draws.choice([b"0", b"7", b"f", b"F", b"-", b",", b"\n", b"\r", b" ", b"S", b"H", b"N", bytes([draws.rng.randrange(256)])])
    return draws.choice([text[:place] + new + text[place + 1:], text[:place] + new + text[place:], text[:place] + text[place + 1:]])


def moved_lines(draws, text):
    """A line left out, written twice, or behind another."""
    lines = text.splitlines(keepends=True)
    if not lines:
        return b"\n"
    place = draws.rng.randrange(len(lines))
    kind = draws.rng.randrange(3)
    if kind == 0:
        del lines[place]
    elif kind == 1:
        lines.insert(place, lines[place])
    else:
        lines.insert(draws.rng.randrange(len(lines)), lines.pop(place))
    return b"".join(lines)


def other_line(draws, run, line):
    """The line with something else in it; at times the score that then belongs to it."""
    seed, mean, camera = list(line.seed), line.mean, list(line.camera)
    kind = draws.rng.randrange(8)
    if kind == 0:
        seed = draws.choice([[-it if it == 0 else it for it in seed], [draws.real()] + seed[1:], seed[:5] + [draws.tilt()]])
    elif kind == 1:
        mean = draws.choice([0.0, -0.0, -1.0, draws.uniform(0.0, 9.0), draws.real()])
    elif kind < 4:
        camera[draws.rng.randrange(6)] = draws.choice([draws.near(0.05), draws.near(-0.05), -0.0, draws.real()])
    skipped = draws.rng.randrange(5) if kind == 4 else line.skipped
    score = draws.near(line.score) if kind == 5 else line.score
    if draws.chance(0.7):
        whole = tuple(camera[:4]) + (0.0, 0.0, 0.0) + tuple(camera[4:])
        score = score_of(mean, whole, seed[4], seed[5], run.inputs.centre)
    number, turn = line.number + (kind == 6), line.round + (kind == 7)
    return Line(number, turn, tuple(seed), skipped, score, mean, tuple(camera))


def changed_line(draws, run, text):
    lines = text.splitlines(keepends=True)
    read, _ = journal.read_journal(text)
    if not lines or len(read) < len(lines):
        return text
    place, buffer = draws.rng.randrange(len(lines)), bytearray(256)
    length = journal.write_line(other_line(draws, run, read[place]), buffer)
    if not isinstance(length, Refused):
        lines[place] = bytes(buffer[:length])
    return b"".join(lines)


def damaged(draws, run, text):
    """The journal whole, cut anywhere, or damaged in one of many ways."""
    kind = draws.rng.randrange(9)
    if kind < 2:
        return text
    if kind < 4:
        return text[:draws.rng.randrange(len(text) + 1)]
    if kind == 4:
        return changed_byte(draws, text)
    if kind == 5:
        return moved_lines(draws, text)
    if kind == 6:
        return text + draws.choice([b"\n", b"x", b"x\n", text[-130:], b"\x00", text[:200]])
    return changed_line(draws, run, text)


# ---- replay and resume


def replay(bench, inputs, before, text):
    after, lent = list(before), reals(before)
    reply = journal.replay(inputs, after, text)
    said = bench.library.jc_replay(*start_arguments(inputs), *octets(text).arguments(), *lent.arguments())
    bench.same("jc_replay", (inputs, before, text), flat.replay_numbers(reply), numbers_in(said))
    bench.same("lent lists", (inputs, before, text), after, lent.now())
    return reply


def resume(bench, inputs, before, text):
    """The run given back on both sides, or None."""
    after, lent = list(before), reals(before)
    refusal, r, report = journal.resume(inputs, after, text)
    said = bench.library.jc_resume(*start_arguments(inputs), *octets(text).arguments(), *lent.arguments())
    bench.same("jc_resume", (inputs, before, text), flat.resume_numbers(refusal, r, report), numbers_in(said))
    bench.same("lent lists", (inputs, before, text), after, lent.now())
    if refusal is not None:
        return None
    run = Pair(bench, inputs, before)
    run.record, run.run, run.book = r, said.run, None
    run.numbers, run.list, run.text = after, lent, text[:report.kept_bytes]
    run.calls.append(("resumed from", text))
    return run


def stretches(bench, draws, entries):
    """The winners of stretches, grouped from the left and from the right: the run's best on both sides."""
    cuts = sorted(draws.rng.randint(0, len(entries)) for _ in range(draws.rng.randrange(6)))
    parts = [entries[i:k] for i, k in zip([0] + cuts, cuts + [len(entries)])]
    bests = [scoring.best_of(part) or NO_BEST for part in parts]
    whole = flat.best_numbers(scoring.best_of(entries) or NO_BEST)
    structs = [struct_of("jc_best_record", flat.best_numbers(best)) for best in bests]
    left, right = structs[0], structs[-1]
    for one in structs[1:]:
        left = bench.library.jc_winner(left, one)
    for one in reversed(structs[:-1]):
        right = bench.library.jc_winner(one, right)
    bench.same("winners of stretches", (entries, cuts), whole, numbers_in(left))
    bench.same("winners of stretches", (entries, cuts), whole, numbers_in(right))


def journals(bench, draws):
    """A run with its journal, and what comes of it in other hands."""
    run = started(bench, draws)
    for _ in range(draws.rng.randrange(25)):
        any_call(run, draws)
    if draws.chance(0.3):
        finish(run, draws)
    stretches(bench, draws, run.book.entries())
    read, end = journal.read_journal(run.text)
    bench.same("journals of runs", run.calls, [line_of(entry) for entry in run.book.entries()] + [journal.End()], read + [end])
    for _ in range(3):
        text = damaged(draws, run, run.text)
        read_all(bench, draws, text)
        before = [draws.real() for _ in range(len(run.numbers) if draws.chance(0.95) else inputs_demand(run.inputs) - 1)]
        replay(bench, run.inputs, before, text)
        again = resume(bench, run.inputs, before, text)
        for _ in range(draws.rng.randrange(8) if again else 0):
            any_call(again, draws)


def gone_on(bench, draws):
    """A run cut after any byte and gone on from, with the same answers: its end is the uncut one's."""
    whole, answers = started(bench, draws), []
    while not whole.record.over:
        whole.next()
        answers.append(draws.answer())
        if isinstance(whole.answer(*answers[-1]), Refused):
            answers[-1] = (Failed(), [], [])
            whole.answer(Failed())
    cut = whole.text[:draws.rng.randrange(len(whole.text) + 1)]
    run = resume(bench, whole.inputs, whole.before, cut)
    for answer in answers[run.record.number:]:
        run.next()
        run.answer(*answer)
    bench.same("runs gone on from a cut", (whole.calls, cut), [flat.record_numbers(whole.record), whole.numbers, whole.text],
               [numbers_in(run.run), run.list.now(), run.text])

