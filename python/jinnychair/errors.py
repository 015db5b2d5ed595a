"""What the package raises."""

from __future__ import annotations

from ._declarations import REFUSALS, Number

__all__ = [
    "ClosedError",
    "FormatError",
    "InUseError",
    "JinnychairError",
    "LibraryError",
    "MissingPackageError",
    "Number",
    "ProgramError",
    "Refused",
]


class JinnychairError(Exception):
    """The base of all that this package raises of its own."""


class Refused(JinnychairError, ValueError):
    """The library refuses a call. Nothing that was lent to it is changed, except after a replay's 29, 30 and 11.

    Attributes
    ----------
    number : Number
        The refusal's number; docs/NUMBERS.md has its cause and what to do.
    name : str
        The number's name, as ``"TOO_FEW_VIEWS"``.
    line : int or None
        The line of a journal that is refused, from 1.
    """

    def __init__(self, number: int, line: int | None = None) -> None:
        self.number = Number(number)
        self.line = line
        where = "" if line is None else f"line {line}: "
        super().__init__(f"{where}{REFUSALS[number]} ({number}, {self.name})")

    @property
    def name(self) -> str:
        """The number's name."""
        return self.number.name


class LibraryError(JinnychairError):
    """The shared library isn't found, or isn't the one that this package is made for."""


class ClosedError(JinnychairError, ValueError):
    """The search is closed."""


class InUseError(JinnychairError, RuntimeError):
    """Another thread runs this search."""


class FormatError(JinnychairError, ValueError):
    """A file isn't of the form that is read.

    Attributes
    ----------
    source : str
        The file's name, or what else was read.
    line : int or None
        The line, from 1, where one is at fault.
    """

    def __init__(self, fault: str, source: object = "", line: int | None = None) -> None:
        self.source = str(source)
        self.line = line
        where = [self.source] if self.source else []
        where += [] if line is None else [f"line {line}"]
        super().__init__(": ".join([*where, fault]))


class MissingPackageError(JinnychairError, ImportError):
    """A package that this call needs isn't installed."""


class ProgramError(JinnychairError):
    """The program ``jinnychair`` isn't found, or it failed."""


def check(number: int, line: int | None = None) -> None:
    """Raises the refusal of a number, and nothing for 0."""
    if number:
        raise Refused(number, line)
