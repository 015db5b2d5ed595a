"""Views in other programs' forms: OpenCV's FileStorage, the JSON of calibration-rs, and tables."""

from __future__ import annotations

import csv
import json
import os
from collections.abc import Iterable
from pathlib import Path
from typing import Any

import numpy as np
from numpy.typing import ArrayLike

from ._opencv import cv2_module
from ._values import Floats, PinholeCamera, ScheimpflugParams, numbers
from .errors import FormatError
from .views import View, Views, write_new

__all__ = [
    "opencv_distortion",
    "read_any",
    "read_calibration_rs",
    "read_csv",
    "read_opencv",
    "write_calibration_rs",
    "write_csv",
    "write_opencv",
    "write_opencv_camera",
]

PathLike = "str | os.PathLike[str]"


def _text_of(path: str | os.PathLike[str]) -> str:
    try:
        return Path(path).read_text(encoding="utf-8-sig")
    except UnicodeDecodeError as error:
        raise FormatError("not a text in UTF-8", path) from error


def _view(board: Any, pixels: Any, name: str, source: object) -> View:
    """A view, with the file named where it isn't one."""
    try:
        return View(board, pixels, name)
    except (TypeError, ValueError) as error:
        raise FormatError(f"view {name!r}: {error}" if name else str(error), source) from error


# ---- calibration-rs ----


def read_calibration_rs(path: str | os.PathLike[str]) -> Views:
    """Views from JSON as calibration-rs (and its users' programs) writes it with serde.

    It reads a `PlanarDataset` (``{"views": [...]}``), a list of `View` (``{"obs": ..., "meta": ...}``) or of
    `CorrespondenceView` (``{"points_3d": [[x, y, z], ...], "points_2d": [[u, v], ...]}``). A view's name is taken from
    ``meta``, where that is a text or has a ``name``. ``cov_px`` weights dots, which this search doesn't do, so views that
    have it are refused.

    Raises
    ------
    FormatError
        The file isn't of this form.
    """
    try:
        whole = json.loads(_text_of(path))
    except json.JSONDecodeError as error:
        raise FormatError(f"not JSON: {error.msg}", path, error.lineno) from error
    views = whole.get("views") if isinstance(whole, dict) else whole
    if not isinstance(views, list):
        raise FormatError("neither a list of views nor an object with `views`", path)
    centre = whole.get("centre") if isinstance(whole, dict) else None
    return Views([_calibration_rs_view(view, i, path) for i, view in enumerate(views, 1)], centre)


def _calibration_rs_view(view: Any, number: int, path: object) -> View:
    obs = view.get("obs", view) if isinstance(view, dict) else None
    if not isinstance(obs, dict) or "points_3d" not in obs or "points_2d" not in obs:
        raise FormatError(f"view {number} has no `points_3d` and `points_2d`", path)
    if obs.get("cov_px"):
        raise FormatError(f"view {number} weights its dots (`cov_px`), which this search doesn't do; leave it out", path)
    meta = view.get("meta")
    name = meta.get("name", "") if isinstance(meta, dict) else meta
    return _view(obs["points_3d"], obs["points_2d"], name if isinstance(name, str) else "", path)


def write_calibration_rs(views: Views, path: str | os.PathLike[str]) -> None:
    """Writes a `PlanarDataset` of calibration-rs; the plate's z is 0.

    A view's name stands as its ``meta``, which calibration-rs reads as ``View<Option<String>>``; without any names ``meta`` is
    null throughout, as ``View<NoMeta>`` has it. The centre isn't written: the form has no place for it.
    """
    dots = [(np.pad(view.board, ((0, 0), (0, 1))).tolist(), view.pixels.tolist(), view.name or None) for view in views]
    listed = [{"obs": {"points_3d": board, "points_2d": pixels}, "meta": name} for board, pixels, name in dots]
    write_new(path, json.dumps({"views": listed}, allow_nan=False) + "\n")


# ---- tables ----

_COLUMNS = {4: ("x", "y", "u", "v"), 5: ("x", "y", "z", "u", "v")}
_VIEW_COLUMNS = ("view", "image", "file", "name")


def read_csv(paths: Any) -> Views:
    """Views from tables separated by commas, semicolons, tabs or spaces.

    Parameters
    ----------
    paths : path or iterable of paths
        A file for each view, which is named after it; or files with a column ``view``.

    Notes
    -----
    Columns are x, y, u, v or x, y, z, u, v, with or without a heading. With one, columns may stand in any order, others are left
    out, and a column ``view`` (or ``image``, ``file``, ``name``) names the row's view.

    Raises
    ------
    FormatError
        A file isn't of this form; the line is named.
    """
    listed = [paths] if isinstance(paths, (str, os.PathLike)) else list(paths)
    return Views([view for path in listed for view in _table(path)])


def _table(path: str | os.PathLike[str]) -> list[View]:
    lines = [(number, line) for number, line in enumerate(_text_of(path).splitlines(), 1) if line.split("#")[0].strip()]
    if not lines:
        raise FormatError("no rows", path)
    delimiter = next((sign for sign in (";", "\t", ",") if sign in lines[0][1]), " ")
    rows = [(number, _cells(line, delimiter)) for number, line in lines]
    heading = None if all(_is_number(cell) for cell in rows[0][1]) else [cell.lower() for cell in rows[0][1]]
    if heading is None:
        names, wanted = None, list(range(len(rows[0][1])))
        if len(wanted) not in _COLUMNS:
            raise FormatError(f"{len(wanted)} columns: x, y, u, v or x, y, z, u, v are expected", path, rows[0][0])
    else:
        names, wanted = _columns(heading, path, rows[0][0])
        rows = rows[1:]
    return _grouped(rows, names, wanted, path)


def _cells(line: str, delimiter: str) -> list[str]:
    line = line.split("#")[0].strip() if delimiter == " " else line
    if delimiter == " ":
        return line.split()
    return [cell.strip() for cell in next(csv.reader([line], delimiter=delimiter))]


def _is_number(cell: str) -> bool:
    try:
        float(cell)
    except ValueError:
        return False
    return "_" not in cell


def _columns(heading: list[str], path: object, number: int) -> tuple[int | None, list[int]]:
    """Where the view's name stands, and where the numbers do."""
    wanted = _COLUMNS[5 if "z" in heading else 4]
    missing = [name for name in wanted if heading.count(name) != 1]
    if missing:
        raise FormatError(f"the heading has no column {missing[0]}, or it twice: {', '.join(heading)[:80]}", path, number)
    names = next((heading.index(name) for name in _VIEW_COLUMNS if name in heading), None)
    return names, [heading.index(name) for name in wanted]


def _grouped(rows: Iterable[tuple[int, list[str]]], names: int | None, wanted: list[int], path: str | os.PathLike[str]) -> list[View]:
    groups: dict[str, list[list[float]]] = {}
    for number, cells in rows:
        last = max([*wanted, -1 if names is None else names])
        if len(cells) <= last or not all(_is_number(cells[place]) for place in wanted):
            raise FormatError(f"read {' '.join(cells)[:60]!r}; expected {len(wanted)} numbers", path, number)
        name = Path(path).stem if names is None else cells[names]
        groups.setdefault(name, []).append([float(cells[place]) for place in wanted])
    return [_view(np.array(dots)[:, :-2], np.array(dots)[:, -2:], name, path) for name, dots in groups.items()]


def write_csv(views: Views, path: str | os.PathLike[str]) -> None:
    """Writes a table with the columns view, x, y, u, v; a view without a name has its number, from 1. The centre isn't written."""
    names = [view.name or str(number) for number, view in enumerate(views, 1)]
    if len(set(names)) != len(names):
        raise ValueError("two views have one name, which their rows couldn't be told apart by; `named` gives others")
    rows = [(name, *dot) for name, view in zip(names, views) for dot in np.hstack([view.board, view.pixels]).tolist()]
    with open(path, "x", encoding="utf-8", newline="") as file:
        csv.writer(file, lineterminator="\n").writerows([("view", "x", "y", "u", "v"), *rows])


# ---- OpenCV's FileStorage ----


def read_opencv(path: str | os.PathLike[str]) -> Views:
    """Views from a FileStorage: yml, xml or json, packed (.gz) or not.

    It reads what `write_opencv` writes; what OpenCV's sample program ``calibration`` writes (``image_points`` with
    ``grid_points``, or with ``board_width``, ``board_height`` and ``square_size``); and ``image_points`` with ``object_points``,
    each a matrix with two and three (or two) channels, or a list with one for each view.

    Raises
    ------
    FormatError
        The file isn't of this form.
    """
    cv2 = cv2_module()
    if not Path(path).is_file():
        raise FileNotFoundError(f"{path}: there is no such file")
    try:
        storage = cv2.FileStorage(os.fspath(path), cv2.FILE_STORAGE_READ)
    except (cv2.error, SystemError) as error:  # OpenCV 4.6 raises the latter over the former
        raise FormatError("not a FileStorage of OpenCV", path) from error
    if not storage.isOpened():
        raise FormatError("not a FileStorage of OpenCV", path)
    try:
        return _stored_views(storage, path)
    except (cv2.error, SystemError) as error:
        raise FormatError(f"OpenCV can't read it: {error}", path) from error
    finally:
        storage.release()


def _stored_views(storage: Any, path: object) -> Views:
    seen = _arrays(storage.getNode("image_points"), 2)
    if not seen:
        raise FormatError("it has no `image_points`", path)
    boards = _arrays(storage.getNode("object_points"), 3)
    if not boards:
        boards = [_grid_points(storage, path)] * len(seen)
    boards = boards * len(seen) if len(boards) == 1 else boards
    if len(boards) != len(seen):
        raise FormatError(f"{len(boards)} lists of `object_points` for {len(seen)} of `image_points`", path)
    names, centre = _strings(storage.getNode("view_names")), storage.getNode("centre").mat()
    names = names if len(names) == len(seen) else [""] * len(seen)
    return Views([_view(*view, path) for view in zip(boards, seen, names)], None if centre is None else centre.ravel())


def _grid_points(storage: Any, path: object) -> Floats:
    """The plate of OpenCV's sample program: as it is stored, or of its size."""
    grid = _points_of(storage.getNode("grid_points"), 3)
    if grid is not None:
        return grid
    width, height, size = (storage.getNode(name).real() for name in ("board_width", "board_height", "square_size"))
    if not (width >= 1 and height >= 1 and size > 0):
        raise FormatError("it has neither `object_points` nor `grid_points` nor a board's size", path)
    return np.array([[x * size, y * size] for y in range(int(height)) for x in range(int(width))])


def _arrays(node: Any, channels: int) -> list[Floats]:
    """The points of each view: of a matrix with a row for each, or of a list."""
    if node.isNone() or node.empty():
        return []
    matrix = _matrix(node)
    if matrix is not None:
        return [row.reshape(-1, matrix.shape[-1]) for row in matrix] if matrix.ndim == 3 else [matrix]
    if not node.isSeq():
        return []
    return [points for i in range(node.size()) if (points := _points_of(node.at(i), channels)) is not None]


def _matrix(node: Any) -> Floats | None:
    try:
        matrix = node.mat()
    except cv2_module().error:
        return None
    return None if matrix is None else np.asarray(matrix, np.float64)


def _points_of(node: Any, channels: int) -> Floats | None:
    """The points of one view: a matrix, or a list of numbers or of points."""
    if node.isNone() or node.empty():
        return None
    matrix = _matrix(node)
    if matrix is not None:
        return matrix.reshape(-1, matrix.shape[-1])
    values = np.array([value for i in range(node.size()) for value in _values(node.at(i))])
    return values.reshape(-1, channels) if values.size % channels == 0 else None


def _values(node: Any) -> list[float]:
    return [node.at(i).real() for i in range(node.size())] if node.isSeq() else [node.real()]


def _strings(node: Any) -> list[str]:
    return [node.at(i).string() for i in range(node.size())] if node.isSeq() else []


def _storage_text(path: str | os.PathLike[str], fill: Any) -> None:
    """Writes a FileStorage of the form that the name ends with, to a file that isn't there yet."""
    cv2 = cv2_module()
    suffix = Path(path).suffix.lower()
    if suffix not in (".yml", ".yaml", ".xml", ".json"):
        raise ValueError(f"{path}: OpenCV's FileStorage ends with .yml, .yaml, .xml or .json")
    storage = cv2.FileStorage(f"views{suffix}", cv2.FILE_STORAGE_WRITE | cv2.FILE_STORAGE_MEMORY)
    fill(storage)
    write_new(path, storage.releaseAndGetString())


def write_opencv(views: Views, path: str | os.PathLike[str]) -> None:
    """Writes ``image_points`` and ``object_points``, a matrix for each view, ``view_names``, and the ``centre`` if it is stated."""

    def fill(storage: Any) -> None:
        for name, arrays in (
            ("object_points", [np.pad(view.board, ((0, 0), (0, 1))) for view in views]),
            ("image_points", [view.pixels for view in views]),
        ):
            storage.startWriteStruct(name, cv2_module().FileNode_SEQ)
            for array in arrays:
                storage.write("", array.reshape(-1, 1, array.shape[1]))
            storage.endWriteStruct()
        storage.startWriteStruct("view_names", cv2_module().FileNode_SEQ)
        for view in views:
            storage.write("", view.name or " ")
        storage.endWriteStruct()
        if views.centre is not None:
            storage.write("centre", np.array(views.centre))

    _storage_text(path, fill)


def opencv_distortion(camera: PinholeCamera, sensor: ArrayLike) -> Floats:
    """OpenCV's fourteen coefficients: k1, k2, p1, p2, k3, k4 to k6, s1 to s4, tauX, tauY.

    Parameters
    ----------
    camera : PinholeCamera
        The camera.
    sensor : array_like, shape (2,)
        The tilts in radians.

    Returns
    -------
    ndarray, shape (14,)
        What ``cv2.projectPoints`` takes.
    """
    k1, k2, k3, p1, p2 = camera.dist
    return np.array([k1, k2, p1, p2, k3, *([0.0] * 7), *numbers(sensor, (2,), "sensor")])


def write_opencv_camera(
    path: str | os.PathLike[str], camera: PinholeCamera, sensor: ScheimpflugParams, mean_error: float | None = None
) -> None:
    """Writes a FileStorage with the camera as OpenCV has it: ``camera_matrix``, ``distortion_coefficients`` (fourteen, the last two are
    the tilts), and ``avg_reprojection_error`` in px if it is known."""

    def fill(storage: Any) -> None:
        storage.write("camera_matrix", camera.k.matrix())
        storage.write("distortion_coefficients", opencv_distortion(camera, sensor).reshape(-1, 1))
        if mean_error is not None:
            storage.write("avg_reprojection_error", float(mean_error))

    _storage_text(path, fill)


# ---- whichever it is ----


def read_any(path: str | os.PathLike[str]) -> Views:
    """Views from a file of whichever of these forms: by its name's end and what it begins with."""
    suffix, head = Path(path).suffix.lower(), Path(path).read_bytes()[:4096]
    if suffix in (".yml", ".yaml", ".xml", ".gz"):
        return read_opencv(path)
    if suffix == ".json":
        return read_opencv(path) if b"image_points" in head or b"opencv-matrix" in head else read_calibration_rs(path)
    if suffix in (".csv", ".tsv"):
        return read_csv(path)
    return Views.read(path)
