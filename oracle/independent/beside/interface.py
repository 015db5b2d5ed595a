"""The library by the text: structs and functions are read from the specification's chapter on the C interface.

Specification: chapter 14
"""

import ctypes
import re
from array import array
from pathlib import Path

ROOT = Path(__file__).resolve().parents[3]
TEXT = ROOT / "docs" / "SPECIFICATION.md"

NUMBERS = {"double": ctypes.c_double, "uint8_t": ctypes.c_uint8, "uint32_t": ctypes.c_uint32,
           "size_t": ctypes.c_size_t}


def section_of(anchor):
    return TEXT.read_text(encoding="utf-8").split(f'<a id="{anchor}"></a>', 1)[1].split("\n### ", 1)[0]


def text_version():
    """Major, minor and patch number. Specification: #c-version"""
    numbers = re.search(r"the\s+version\s+(\d+)\.(\d+)\.(\d+)\.", section_of("c-version"))
    return tuple(int(it) for it in numbers.groups())


def blocks_of(anchor):
    """The code blocks of a section, each as its lines, a continued line joined to the one that it continues."""
    blocks = re.findall(r"^```\n(.*?)^```$", section_of(anchor), re.MULTILINE | re.DOTALL)
    return [re.sub(r"\n +", " ", block).splitlines() for block in blocks]


def read_structs():
    """The structs by name, and the sizes that the text gives them. Specification: #c-structs"""
    types, sizes = dict(NUMBERS), {}
    for line in blocks_of("c-structs")[0]:
        name, size, fields = line.split(None, 2)
        members = []
        for group in fields.split(";"):
            kind, names = group.split(None, 1)
            members += [(field.strip(), types[kind]) for field in names.split(",")]
        types[name] = type(name, (ctypes.Structure,), {"_fields_": members})
        sizes[name] = int(size)
    return {name: types[name] for name in sizes}, sizes


STRUCTS, SIZES = read_structs()


def type_of(words):
    """The type of a parameter or a reply."""
    kind = words.replace("const ", "").strip()
    if kind.endswith("*"):
        return ctypes.POINTER(NUMBERS[kind[:-1].strip()])
    return NUMBERS.get(kind) or STRUCTS[kind]


def read_functions():
    """Name to (reply's type, parameters' types), the echoes among them. Specification: #c-functions, #c-version"""
    functions = {}
    for line in blocks_of("c-functions")[0]:
        head, parameters = line.rstrip(")").split("(", 1)
        reply, name = head.rsplit(" ", 1)
        kinds = [re.sub(r"\w+$", "", parameter) for parameter in parameters.split(", ") if parameter != "void"]
        functions[name] = (type_of(reply), [type_of(kind) for kind in kinds])
    for name, struct in STRUCTS.items():
        functions[name.replace("jc_", "jc_echo_", 1)] = (struct, [struct])
    return functions


class Library:
    """The shared library: each function is an attribute, with the types that the text gives it."""

    def __init__(self, path):
        linked = ctypes.CDLL(str(path))
        for name, (reply, parameters) in read_functions().items():
            function = getattr(linked, name)
            function.restype, function.argtypes = reply, parameters
            setattr(self, name, function)


class Slice:
    """Numbers lent to a call, with more of them behind the lent ones, which no call may touch."""

    BEHIND = 4

    def __init__(self, kind, code, values):
        self.length = len(values)
        numbers = array(code, values)
        numbers.extend(self.behind(kind))
        self.array = (kind * len(numbers)).from_buffer(numbers)

    def behind(self, kind):
        return [-12345.678 if kind is ctypes.c_double else 0xA5] * self.BEHIND

    def arguments(self):
        return self.array, self.length

    def now(self):
        """The numbers as they stand now; what stands behind them has to be as it was."""
        kind = self.array._type_
        if list(self.array[-self.BEHIND:]) != self.behind(kind):
            raise AssertionError("written behind the end of what was lent")
        return list(self.array[:-self.BEHIND])


def reals(values):
    return Slice(ctypes.c_double, "d", values)


def octets(values):
    return Slice(ctypes.c_uint8, "B", values)


def numbers_in(struct):
    """All numbers of a struct, in their order."""
    found = []
    for name, kind in struct._fields_:
        value = getattr(struct, name)
        found += numbers_in(value) if isinstance(value, ctypes.Structure) else [value]
    return found


def struct_of(name, numbers):
    """A struct with these numbers, in their order."""
    return fill(STRUCTS[name], iter(numbers))


def fill(kind, numbers):
    values = [fill(part, numbers) if issubclass(part, ctypes.Structure) else next(numbers)
              for _, part in kind._fields_]
    return kind(*values)
