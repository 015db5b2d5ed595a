"""The layout of the structs: sizes, and each struct as it came back from its echo. Specification: #c-structs, #c-version"""

import ctypes

from .interface import SIZES, STRUCTS, fill, numbers_in, text_version


def drawn(kind, draws):
    """Numbers for each field of a struct, hostile ones among them."""
    numbers = []
    for _, part in kind._fields_:
        if issubclass(part, ctypes.Structure):
            numbers += drawn(part, draws)
        elif part is ctypes.c_double:
            numbers.append(draws.real())
        else:
            numbers.append(draws.rng.getrandbits(8 * ctypes.sizeof(part)))
    return numbers


def structs_come_back(bench, _):
    """Each struct has the size that the text says, and comes back from its echo number for number."""
    for name, kind in STRUCTS.items():
        bench.same("sizes of structs", name, SIZES[name], ctypes.sizeof(kind))
        numbers = drawn(kind, bench.draws)
        back = getattr(bench.library, name.replace("jc_", "jc_echo_", 1))(fill(kind, iter(numbers)))
        bench.same("echoes", (name, numbers), numbers, numbers_in(back))


def version(bench, _):
    """The version that the text names. Specification: #c-version"""
    major, minor, patch = text_version()
    bench.same("jc_version", [], 65536 * major + 256 * minor + patch, bench.library.jc_version())
