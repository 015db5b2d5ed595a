"""The model's values as the numbers of the C structs, in their order. Specification: #c-structs, #c-replies, #record"""

from model.record import Record
from model.values import Best, Line, NO_BEST, NO_LINE, Options, Over, Refused, Scored, Skipped

from .bench import flat


def seed_numbers(seed):
    return list(seed) if seed else [0.0] * 6


def candidate_numbers(best):
    return flat([best.number, best.camera, best.tilt_x, best.tilt_y, best.mean, best.score])


def best_numbers(best):
    return [int(best.flag)] + candidate_numbers(best)


def line_numbers(line):
    return flat([line.number, line.round, line.seed, line.skipped, line.score, line.mean, line.camera])


def options_numbers(options):
    return [options.refine_rounds, options.refine_step, options.max_abs_tilt, int(options.one_axis), options.min_counted]


def record_numbers(r):
    place = [r.demand, r.round, r.step, r.len, r.at, r.number, int(r.over)]
    return flat([options_numbers(r.options), r.centre, place, int(r.waiting), r.waiting_seed, best_numbers(r.round_best),
                 best_numbers(r.run_best), int(r.last_flag), line_numbers(r.last), r.counts])


def take(numbers, count):
    return tuple(next(numbers) for _ in range(count))


def best_from(numbers):
    return Best(next(numbers) != 0, next(numbers), take(numbers, 9), *take(numbers, 4))


def line_from(numbers):
    number, turn = take(numbers, 2)
    seed, skipped = take(numbers, 6), next(numbers)
    return Line(number, turn, seed, skipped, *take(numbers, 2), take(numbers, 6))


def record_from(numbers):
    """The record that these numbers are, any flag but 0 being set."""
    numbers = iter(numbers)
    rounds, step, bound, one_axis, share = take(numbers, 5)
    centre, place, waiting = take(numbers, 2), take(numbers, 7), next(numbers) != 0
    return Record(Options(rounds, step, bound, one_axis != 0, share), centre, *place[:6], place[6] != 0, waiting,
                  take(numbers, 6), best_from(numbers), best_from(numbers), next(numbers) != 0, line_from(numbers),
                  take(numbers, 5))


# ---- replies, without the record behind them


def number_or_0(reply):
    return reply.number if isinstance(reply, Refused) else 0


def next_numbers(reply):
    handed = isinstance(reply, int)
    return [number_or_0(reply), int(isinstance(reply, Over)), reply if handed else 0]


def answer_numbers(reply):
    skipped = reply.reason if isinstance(reply, Skipped) else 0
    return [number_or_0(reply), skipped, reply.score if isinstance(reply, Scored) else 0.0]


def result_numbers(reply):
    return [number_or_0(reply)] + candidate_numbers(NO_BEST if isinstance(reply, Refused) else reply)


def stop_numbers(reply):
    if isinstance(reply, Refused):
        return [reply.number, 0, 0, 0] + candidate_numbers(NO_BEST) + [0.0]
    flags = [int(reply.best is not None), int(reply.floor is not None), int(reply.gains_nothing)]
    return [0] + flags + candidate_numbers(reply.best or NO_BEST) + [0.0 if reply.floor is None else reply.floor]


def last_line_numbers(line):
    return [int(line is not None)] + line_numbers(line or NO_LINE)


def progress_numbers(reply):
    return [reply.round, reply.refine_rounds, reply.answered, reply.length, reply.entries]


def written_numbers(reply):
    """Of the writers."""
    return [number_or_0(reply), 0 if isinstance(reply, Refused) else reply]


def read_numbers(reading, position):
    """Of the reader, with the position afterwards."""
    if isinstance(reading, Refused):
        return [reading.number, 0, reading.line] + line_numbers(NO_LINE) + [position]
    is_end = not hasattr(reading, "line")
    return [0, int(is_end), 0] + line_numbers(NO_LINE if is_end else reading.line) + [position]


def replay_numbers(reply):
    if isinstance(reply, Refused):
        return [reply.number, 0, reply.line, 0, 0.0] + seed_numbers(None)
    if hasattr(reply, "score"):
        return [0, 1, 0, reply.number, reply.score] + seed_numbers(None)
    return [0, 0, 0, 0, 0.0] + seed_numbers(reply.seed)


def resume_numbers(refusal, r, report):
    said = [0] * 4 if report is None else [report.ended, report.kept_lines, report.kept_bytes, report.dropped_bytes]
    return [number_or_0(refusal)] + said + record_numbers(r)
