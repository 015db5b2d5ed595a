"""One run by the library and by the model, call by call: replies, records and lent lists have to be the same.

Specification: chapters 6 and 7
"""

from model import journal, record, reference
from model.values import Failed, Refused

from . import flat
from .interface import numbers_in, octets, reals, struct_of


def start_arguments(inputs, flag=None):
    """What Start, replay and resume take, the lent list and the bytes apart; the slices have to outlive the call."""
    options = flat.options_numbers(inputs.options)
    if flag is not None and inputs.options.one_axis:
        options[3] = flag
    arguments = [inputs.views, struct_of("jc_options", options)]
    for numbers in (inputs.typed_x, inputs.typed_y, inputs.decomposition):
        arguments += reals(numbers).arguments()
    return arguments + [struct_of("jc_intrinsics", inputs.base), struct_of("jc_pt2", inputs.centre)]


class Pair:
    """The run's record and lent list on both sides; beside them the reference model, as long as the list isn't changed."""

    def __init__(self, bench, inputs, lent):
        self.bench, self.inputs, self.calls, self.text = bench, inputs, [], b""
        self.before, self.list, self.numbers = list(lent), reals(lent), list(lent)
        refusal, self.record = record.start(inputs, self.numbers)
        reply = bench.library.jc_start(*start_arguments(inputs, bench.draws.choice([1, 2, 255])), *self.list.arguments())
        self.run = reply.run
        self.refused = refusal is not None
        self.same("jc_start", [flat.number_or_0(refusal)] + flat.record_numbers(self.record), reply)
        self.book = None if self.refused else reference.start(inputs, len(self.numbers))

    def same(self, name, by_model, by_library):
        """The reply's numbers, and the whole lent list."""
        by_library = numbers_in(by_library) if hasattr(by_library, "_fields_") else by_library
        shown = (self.inputs, self.before, self.calls)
        self.bench.same(name, shown, by_model, by_library)
        self.bench.same("lent lists", shown, self.numbers, self.list.now())

    def as_book(self, name, reply, by_book):
        """The reference model's reply, where it still follows."""
        if self.book is not None:
            self.bench.same("replies of the reference model", (self.inputs, self.before, self.calls), reply, by_book())

    def lent(self, n):
        return len(self.numbers) if n is None else n

    def next(self, n=None):
        n = self.lent(n)
        self.calls.append(("next", n))
        reply, self.record = record.next_seed(self.record, self.numbers[:n])
        said = self.bench.library.jc_next(self.run, self.list.array, n)
        self.run = said.run
        self.same("jc_next", flat.next_numbers(reply) + flat.record_numbers(self.record), said)
        self.as_book("next", reply, lambda: self.book.next(n))
        return reply

    def seed(self, n=None, room=6):
        n, to, after = self.lent(n), reals([7.0] * room), [7.0] * room
        self.calls.append(("seed", n, room))
        reply = record.flat_seed(self.record, self.numbers[:n], after)
        said = self.bench.library.jc_seed(self.run, self.list.array, n, *to.arguments())
        self.same("jc_seed", [reply] + after, [said] + to.now())
        self.as_book("seed", record.seed(self.record, self.numbers[:n]), lambda: self.book.seed(n))

    def answer(self, finding, rows=(), flags=(), n=None):
        n, part = self.lent(n), self.numbers[:self.lent(n)]
        self.calls.append(("answer", n, finding, list(rows), list(flags)))
        is_solved = 0 if isinstance(finding, Failed) else self.bench.draws.choice([1, 1, 2, 255])
        camera = [7.0] * 9 if isinstance(finding, Failed) else finding.camera
        reply, self.record = record.answer(self.record, part, finding, list(rows), list(flags))
        self.numbers[:n] = part
        said = self.bench.library.jc_answer(self.run, is_solved, struct_of("jc_pinhole_camera", camera),
                                            *reals(rows).arguments(), *octets(flags).arguments(), self.list.array, n)
        self.run = said.run
        self.same("jc_answer", flat.answer_numbers(reply) + flat.record_numbers(self.record), said)
        self.as_book("answer", reply, lambda: self.book.answer(n, finding, list(rows), list(flags)))
        if not isinstance(reply, Refused):
            self.write()
        return reply

    def write(self):
        """The last line is written on both sides, and becomes part of the journal."""
        line = record.last_line(self.record)
        if line is None:
            return
        after, to = bytearray(256), octets([0] * 256)
        length = journal.write_line(line, after)
        said = self.bench.library.jc_write_line(self.bench.library.jc_last_line(self.run).line, *to.arguments())
        self.same("lines", flat.written_numbers(length) + list(after), numbers_in(said) + to.now())
        if not isinstance(length, Refused):
            self.text += bytes(after[:length])

    def result(self):
        reply = record.result(self.record)
        self.same("jc_result", flat.result_numbers(reply), self.bench.library.jc_result(self.run))
        self.as_book("result", reply, lambda: self.book.result())
        return reply

    def progress(self):
        reply = record.progress(self.record)
        self.same("jc_progress", flat.progress_numbers(reply), self.bench.library.jc_progress(self.run))
        self.as_book("progress", reply, lambda: self.book.progress())

    def stop(self, n=None):
        n = self.lent(n)
        reply = record.stop(self.record, self.numbers[:n])
        self.same("jc_stop", flat.stop_numbers(reply), self.bench.library.jc_stop(self.run, self.list.array, n))
        self.as_book("stop", reply, lambda: self.book.stop(n))

    def last_line(self):
        reply = record.last_line(self.record)
        self.same("jc_last_line", flat.last_line_numbers(reply), self.bench.library.jc_last_line(self.run))
        self.as_book("last line", reply, lambda: self.book.last_line())

    def counts(self):
        reply = record.counts(self.record)
        self.same("jc_counts", list(reply), self.bench.library.jc_counts(self.run))
        self.as_book("counts", reply, lambda: self.book.counts())
        after, to = bytearray(24), octets([0] * 24)
        length = journal.write_report(reply, after)
        said = self.bench.library.jc_write_report(self.bench.library.jc_counts(self.run), *to.arguments())
        self.same("reports", flat.written_numbers(length) + list(after), numbers_in(said) + to.now())

    def change(self, place, value):
        """The host writes to the lent list."""
        self.calls.append(("the host writes", place, value))
        self.numbers[place] = self.list.array[place] = value
        self.book = None

    def make_up(self, numbers):
        """The host hands in a record of its own."""
        self.calls.append(("the host hands in", list(numbers)))
        self.record, self.run, self.book = flat.record_from(numbers), struct_of("jc_run_record", numbers), None
