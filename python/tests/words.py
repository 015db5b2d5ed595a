"""Words of the stored answers: 16 hexadecimal digits, the bits of a float64 or a whole number."""

from pathlib import Path

import numpy as np

STORED = Path(__file__).resolve().parents[2] / "oracle" / "stored"

#: The bits that a destination holds beforehand; no operation writes them.
UNTOUCHED = float(np.array([0x1234_5678_9ABC_DEF0], np.uint64).view(np.float64)[0])


class Reader:
    """Input words that are read from the front."""

    def __init__(self, words):
        self.words = np.asarray(words, np.uint64)
        self.at = 0

    def is_empty(self):
        return self.at == len(self.words)

    def number(self):
        self.at += 1
        return int(self.words[self.at - 1])

    def floats(self, count):
        self.at += count
        return self.words[self.at - count : self.at].view(np.float64).copy()

    def float(self):
        return float(self.floats(1)[0])

    def list(self):
        return self.floats(self.number())


def float_words(values):
    """The words of numbers."""
    return np.ascontiguousarray(np.asarray(values, np.float64)).ravel().view(np.uint64).tolist()


def same(a, b):
    """Whether two lists of words are the same; any two NaNs are."""
    a, b = np.array(a, np.uint64), np.array(b, np.uint64)
    if a.shape != b.shape:
        return False
    differ = a != b
    return not differ.any() or bool(np.isnan(a[differ].view(np.float64)).all() and np.isnan(b[differ].view(np.float64)).all())


def cases(path):
    """The operation of a stored file, and its cases: input and output words."""
    head, _, body = path.read_text("ascii").partition("# made by")
    lines = head.splitlines()
    assert lines[0] == "# jinnychair vectors 1", lines[0]
    operation, count = lines[1].removeprefix("# operation "), int(lines[2].removeprefix("# cases "))
    found = [line.split(" = ") for line in body.splitlines()[1:] if not line.startswith("# ")]
    assert len(found) == count, f"{path}: {len(found)} cases, and not {count}"
    return operation, [tuple(np.array([int(word, 16) for word in side.split()], np.uint64) for side in case) for case in found]
