"""The views of a plate: which dot of the plate is seen at which pixel.

`Views` come from photographs, from other programs' files or from arrays, and are written for other programs. Places on the plate have any
unit of length, the same in all views; pixels are counted from the middle of the first one or from its corner, as the centre is.
"""

from __future__ import annotations

import os
from collections.abc import Iterable, Iterator, Sequence
from dataclasses import dataclass, field, replace
from pathlib import Path
from typing import Any, overload

import numpy as np
from numpy.typing import ArrayLike

from ._values import Floats, numbers
from .errors import FormatError

__all__ = ["View", "Views"]

#: How a file of views in the program's form begins.
HEAD = "# Views of a plate, for jinnychair."

_EXPLAINED = """\
# centre X Y: the optical centre in pixels. view: begins a view; its name may follow.
# Then a line for each dot: its place on the plate, and the pixel where it is seen.
"""

PathLike = "str | os.PathLike[str]"


@dataclass(frozen=True, eq=False)
class View:
    """The dots that one view shows.

    Attributes
    ----------
    board : ndarray, shape (n, 2)
        Their places on the plate.
    pixels : ndarray, shape (n, 2)
        Where they are seen, in px.
    name : str
        Its name, as that of its file; empty where it has none.
    photograph : Path or None
        The photograph that it was found in.
    """

    board: Floats
    pixels: Floats
    name: str = ""
    photograph: Path | None = field(default=None, compare=False)

    def __post_init__(self) -> None:
        board, pixels = _points(self.board, "board"), _points(self.pixels, "pixels")
        if len(board) != len(pixels):
            raise ValueError(f"{len(board)} places and {len(pixels)} pixels: each dot needs both")
        for what, array in (("board", board), ("pixels", pixels)):
            if not np.isfinite(array).all():
                raise ValueError(f"{what}: a number isn't finite")
        object.__setattr__(self, "board", board)
        object.__setattr__(self, "pixels", pixels)
        object.__setattr__(self, "name", _printable(self.name))

    def __len__(self) -> int:
        return len(self.board)

    def __eq__(self, other: object) -> bool:
        if not isinstance(other, View):
            return NotImplemented
        same = np.array_equal(self.board, other.board) and np.array_equal(self.pixels, other.pixels)
        return same and self.name == other.name


def _points(value: ArrayLike, what: str) -> Floats:
    """Points of a plane as an array of shape (n, 2): also OpenCV's (n, 1, 2), and (n, 3) with one z for all."""
    array = np.asarray(value)
    if array.ndim == 3 and array.shape[1] == 1:
        array = array[:, 0]
    if array.ndim == 2 and array.shape[1] == 3:
        array = numbers(array, (None, 3), what)
        if array.size and np.ptp(array[:, 2]) != 0.0:
            raise ValueError(f"{what}: the dots don't lie in one plane: z goes from {array[:, 2].min()} to {array[:, 2].max()}")
        array = array[:, :2]
    if array.size == 0:
        return np.empty((0, 2))
    return numbers(array, (None, 2), what)


def _printable(name: str) -> str:
    """A name as it can stand on a line: without the sign of a comment and control characters."""
    return " ".join("".join("_" if sign == "#" or not sign.isprintable() else sign for sign in name).split())


class Views(Sequence[View]):
    """Views of a plate.

    Parameters
    ----------
    views : iterable of View
        The views.
    centre : array_like, shape (2,), optional
        The optical centre in px, where it is known.
    left_out : iterable of str, optional
        What isn't among the views, and why, as a photograph in which no grid was found.

    Attributes
    ----------
    centre : tuple of float or None
        The optical centre.
    left_out : tuple of str
        What isn't among the views, and why.
    """

    def __init__(self, views: Iterable[View], centre: ArrayLike | None = None, left_out: Iterable[str] = ()) -> None:
        self._views = tuple(views)
        self.centre = None if centre is None else tuple(numbers(centre, (2,), "centre").tolist())
        if self.centre is not None and not np.isfinite(self.centre).all():
            raise ValueError("centre: a number isn't finite")
        self.left_out = tuple(left_out)

    @overload
    def __getitem__(self, index: int) -> View: ...
    @overload
    def __getitem__(self, index: slice) -> Views: ...
    def __getitem__(self, index: int | slice) -> View | Views:
        if isinstance(index, slice):
            return Views(self._views[index], self.centre, self.left_out)
        return self._views[index]

    def __len__(self) -> int:
        return len(self._views)

    def __iter__(self) -> Iterator[View]:
        return iter(self._views)

    def __eq__(self, other: object) -> bool:
        return isinstance(other, Views) and self._views == other._views and self.centre == other.centre

    __hash__ = None  # type: ignore[assignment]

    def __repr__(self) -> str:
        centre = "" if self.centre is None else f", centre {self.centre[0]:g} {self.centre[1]:g}"
        return f"<Views: {len(self)} views, {self.dots} dots{centre}>"

    @property
    def dots(self) -> int:
        """How many dots all views show."""
        return sum(len(view) for view in self)

    def with_centre(self, centre: ArrayLike | None) -> Views:
        """The same views with another optical centre, in px."""
        return Views(self._views, centre, self.left_out)

    def named(self, names: Iterable[str]) -> Views:
        """The same views under other names."""
        pairs = zip(self._views, names, strict=True)
        return Views([replace(view, name=name) for view, name in pairs], self.centre, self.left_out)

    # ---- from arrays, and the program's form ----

    @classmethod
    def from_arrays(
        cls, board: Any, pixels: Sequence[ArrayLike], names: Iterable[str] | None = None, centre: ArrayLike | None = None
    ) -> Views:
        """Views from arrays.

        Parameters
        ----------
        board : array_like, shape (n, 2) or (n, 3), or a sequence of these
            The dots' places on the plate: one array for all views, or one for each. With z, all have the same one.
        pixels : sequence of array_like, shape (n, 2) or (n, 1, 2)
            The pixels of each view.
        names : iterable of str, optional
            The views' names.
        centre : array_like, shape (2,), optional
            The optical centre in px.
        """
        seen = list(pixels)
        boards = [board] * len(seen) if _is_one_board(board) else list(board)
        if len(boards) != len(seen):
            raise ValueError(f"{len(boards)} boards for {len(seen)} views: give one for all, or one for each")
        called = [""] * len(seen) if names is None else list(names)
        if len(called) != len(seen):
            raise ValueError(f"{len(called)} names for {len(seen)} views")
        return cls([View(_points(a, "board"), _points(b, "pixels"), name) for a, b, name in zip(boards, seen, called)], centre)

    @classmethod
    def from_text(cls, text: str, source: object = "") -> Views:
        """Views from a text in the program's form.

        Raises
        ------
        FormatError
            The text isn't of this form; the line is named.
        """
        centre: list[float] | None = None
        views: list[tuple[str, list[list[float]]]] = []
        for number, line in enumerate(text.removeprefix("\ufeff").splitlines(), 1):
            line = line.split("#")[0].strip()
            word, _, rest = line.partition(" ")
            if not line:
                continue
            if word == "view":
                views.append((rest.strip(), []))
            elif word in ("centre", "center"):
                if centre is not None:
                    raise FormatError("the centre is stated twice", source, number)
                centre = _line_of(rest, 2, source, number)
            elif views:
                views[-1][1].append(_line_of(line, 4, source, number))
            else:
                raise FormatError(f"a dot, or another word, before the first `view`: {line[:60]!r}", source, number)
        read = [(name, np.array(dots).reshape(-1, 4)) for name, dots in views]
        return cls([View(dots[:, :2], dots[:, 2:], name) for name, dots in read], centre)

    @classmethod
    def read(cls, path: str | os.PathLike[str]) -> Views:
        """Views from a file in the program's form; see `from_text`."""
        try:
            text = Path(path).read_text(encoding="utf-8")
        except UnicodeDecodeError as error:
            raise FormatError("not a text in UTF-8", path) from error
        return cls.from_text(text, path)

    def text(self) -> str:
        """The views in the program's form."""
        lines = [HEAD, _EXPLAINED.rstrip("\n")]
        if self.centre is not None:
            lines.append("centre " + " ".join(map(repr, self.centre)))
        for view in self:
            lines.append(f"view {view.name}".rstrip())
            dots = np.hstack([view.board, view.pixels]).tolist()
            lines += [" ".join(map(repr, dot)) for dot in dots]
        return "\n".join([*lines, ""])

    def write(self, path: str | os.PathLike[str]) -> None:
        """Writes the program's form. No file is written over: FileExistsError."""
        write_new(path, self.text())

    # ---- other programs' forms ----

    @classmethod
    def from_photographs(cls, paths: Iterable[str | os.PathLike[str]], grid: tuple[int, int], pitch: float, **how: Any) -> Views:
        """Views from photographs of a plate, found by OpenCV; see `jinnychair.photographs.find`."""
        from . import photographs

        return photographs.find(paths, grid, pitch, **how)

    @classmethod
    def from_opencv(cls, path: str | os.PathLike[str]) -> Views:
        """Views from OpenCV's FileStorage; see `jinnychair.formats.read_opencv`."""
        from . import formats

        return formats.read_opencv(path)

    @classmethod
    def from_calibration_rs(cls, path: str | os.PathLike[str]) -> Views:
        """Views from the JSON of calibration-rs; see `jinnychair.formats.read_calibration_rs`."""
        from . import formats

        return formats.read_calibration_rs(path)

    @classmethod
    def from_csv(cls, paths: Any, centre: ArrayLike | None = None) -> Views:
        """Views from tables; see `jinnychair.formats.read_csv`."""
        from . import formats

        return formats.read_csv(paths).with_centre(centre)

    def write_opencv(self, path: str | os.PathLike[str]) -> None:
        """Writes OpenCV's FileStorage: .yml, .xml or .json. No file is written over: FileExistsError."""
        from . import formats

        formats.write_opencv(self, path)

    def write_calibration_rs(self, path: str | os.PathLike[str]) -> None:
        """Writes the JSON of calibration-rs. No file is written over: FileExistsError."""
        from . import formats

        formats.write_calibration_rs(self, path)

    def write_csv(self, path: str | os.PathLike[str]) -> None:
        """Writes a table with the columns view, x, y, u, v. No file is written over: FileExistsError."""
        from . import formats

        formats.write_csv(self, path)


def _is_one_board(board: Any) -> bool:
    """Whether it is one list of places, not one for each view."""
    return np.ndim(board[0]) == 1 if len(board) else True


def _line_of(text: str, count: int, source: object, number: int) -> list[float]:
    """So many finite numbers of a line."""
    words = text.split()
    try:
        found = [float(word) for word in words]
    except ValueError:
        found = []
    if len(words) != count or len(found) != count or not np.isfinite(found).all() or "_" in text:
        wanted = "`centre X Y`, in pixels" if count == 2 else "a dot's place and pixel, as `0 20 412.3 305.8`"
        raise FormatError(f"read {text[:60]!r}; expected {count} finite numbers parted by spaces: {wanted}", source, number)
    return found


def write_new(path: str | os.PathLike[str], text: str) -> None:
    """Writes a file that isn't there yet."""
    with open(path, "x", encoding="utf-8", newline="\n") as file:
        file.write(text)
