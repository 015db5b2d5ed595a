"""Finding a plate in photographs, by OpenCV."""

from __future__ import annotations

import os
from collections.abc import Callable, Iterable, Iterator
from pathlib import Path
from typing import Any, NamedTuple

import numpy as np
from numpy.typing import ArrayLike

from ._opencv import cv2_module
from ._values import Floats
from .errors import FormatError, MissingPackageError
from .views import View, Views

__all__ = ["KINDS", "board_of", "draw_found", "find", "read"]

#: What a plate may show.
KINDS = ("circles", "asymmetric", "chessboard", "charuco")

#: Areas that a dot may have, as shares of the photograph; the next reaches into the one before.
_AREAS = [(4.0**-n / 16, 4.0**-n) for n in (4, 5, 3, 6, 2, 7)]


def board_of(grid: tuple[int, int], pitch: float, kind: str = "circles") -> Floats:
    """The places of a plate's dots, as OpenCV orders them.

    Parameters
    ----------
    grid : tuple of int
        Dots in a row, and rows. Inner corners of a chessboard; squares of a ChArUco board; of an asymmetric grid the dots in
        one row, and all rows.
    pitch : float
        The distance between two dots or corners in a row; of an asymmetric grid half of that, which is the distance of two rows.
    kind : str
        One of `KINDS`.

    Returns
    -------
    ndarray, shape (n, 2)
        In the unit of `pitch`.
    """
    across, down = grid
    if kind == "charuco":
        across, down = across - 1, down - 1
    if kind == "asymmetric":
        return np.array([[(2 * i + j % 2) * pitch, j * pitch] for j in range(down) for i in range(across)], np.float64)
    return np.array([[i * pitch, j * pitch] for j in range(down) for i in range(across)], np.float64)


def find(
    paths: Iterable[str | os.PathLike[str]],
    grid: tuple[int, int],
    pitch: float,
    *,
    kind: str = "circles",
    centre: ArrayLike | None = None,
    drawn: str | os.PathLike[str] | None = None,
    marker: float | None = None,
    dictionary: str = "DICT_4X4_50",
) -> Views:
    """Finds the plate in each photograph.

    Parameters
    ----------
    paths : iterable of path
        Photographs of one plate by one camera, all of one size. A view has its file's name.
    grid : tuple of int
        As `board_of` has it.
    pitch : float
        As `board_of` has it.
    kind : {'circles', 'asymmetric', 'chessboard', 'charuco'}
        What the plate shows. Circles may be dark or bright; their size is found by trying.
    centre : array_like, shape (2,), optional
        The optical centre in px, from the middle of the first pixel.
    drawn : path, optional
        A folder, made if need be, for a picture of what was found in each photograph. None is written over.
    marker, dictionary : float and str, optional
        Of a ChArUco board: the side of a marker in the unit of `pitch`, and the name of OpenCV's dictionary.

    Returns
    -------
    Views
        A photograph without the plate is named in `Views.left_out`.

    Raises
    ------
    FormatError
        A file isn't a photograph, or has another size than the first.
    MissingPackageError
        OpenCV isn't installed, or has no ChArUco.

    Notes
    -----
    A circle's place is the centre of gravity of what is darker (or brighter) than the plate around it, which blur doesn't move.
    The centre of its image isn't the image of its centre where the plate is seen aslant; that difference is taken off, by the
    circle's size in the photograph and the plate's own map to pixels.
    """
    if kind not in KINDS:
        raise ValueError(f"kind: {kind!r} is none of {', '.join(KINDS)}")
    if min(grid) < 2 or not pitch > 0.0:
        raise ValueError("at least two dots in a row, two rows and a pitch above 0 are needed")
    folder = None if drawn is None else Path(drawn)
    finder = _finder(grid, pitch, kind, marker, dictionary)
    views, left_out, size = [], [], None
    for path in map(Path, paths):
        photograph = read(path)
        if size not in (None, photograph.shape):
            raise FormatError(f"{_size(photograph.shape)} px, and the first photograph has {_size(size)}", path)
        size = photograph.shape
        found = finder(photograph)
        if found is None:
            left_out.append(f"{path.name}: no grid of {grid[0]} x {grid[1]} was found")
            continue
        views.append(View(*found, path.name, path))
        if folder is not None:
            draw_found(views[-1], folder)
    return Views(views, centre, left_out)


def _size(shape: Any) -> str:
    return f"{shape[1]} x {shape[0]}"


def read(path: Path) -> Any:
    """A photograph's grey values, of eight bits or more, as its pixels are stored."""
    if not path.is_file():
        raise FileNotFoundError(f"{path}: there is no such file")
    cv2 = cv2_module()
    how = cv2.IMREAD_GRAYSCALE | cv2.IMREAD_ANYDEPTH | cv2.IMREAD_IGNORE_ORIENTATION
    photograph = cv2.imread(os.fspath(path), how)
    if photograph is None:
        raise FormatError("OpenCV can't read it as a photograph", path)
    return photograph


def _eight_bits(photograph: Any) -> Any:
    """The photograph as OpenCV's finders take it: brighter ones are scaled from black to their brightest."""
    if photograph.dtype == np.uint8:
        return photograph
    return np.rint(photograph * (255.0 / max(float(photograph.max()), 1.0))).astype(np.uint8)


Finder = Callable[[Any], "tuple[Floats, Floats] | None"]


def _finder(grid: tuple[int, int], pitch: float, kind: str, marker: float | None, dictionary: str) -> Finder:
    if kind == "charuco":
        return _charuco(grid, pitch, marker, dictionary)
    board = board_of(grid, pitch, kind)
    if kind == "chessboard":
        return lambda photograph: _oriented(board, grid, _corners(photograph, grid))
    asymmetric = kind == "asymmetric"
    areas = list(_AREAS)

    def circles(photograph: Any) -> tuple[Floats, Floats] | None:
        found = _blobs(_eight_bits(photograph), grid, asymmetric, areas)
        oriented = _oriented(board, grid, found) if not asymmetric else None if found is None else (board, found)
        return None if oriented is None else (board, _refined(photograph, board, oriented[1]))

    return circles


def _oriented(board: Floats, grid: tuple[int, int], pixels: Floats | None) -> tuple[Floats, Floats] | None:
    """The dots in the order of a plate that is seen from its front; a plate without a mark may come in the order of its back."""
    if pixels is None:
        return None
    if np.linalg.det(_homography(board, pixels)) < 0.0:
        pixels = pixels.reshape(grid[1], grid[0], 2)[::-1].reshape(-1, 2)
    return board, np.ascontiguousarray(pixels)


def _homography(board: Floats, pixels: Floats) -> Floats:
    """The map from plate to pixels, with 1 as its last number: then its determinant has the sign of the plate's orientation."""
    matrix, _ = cv2_module().findHomography(board, pixels, 0)
    if matrix is None:
        raise FormatError("the dots determine no map from plate to pixels")
    return np.asarray(matrix, np.float64)


def _corners(photograph: Any, grid: tuple[int, int]) -> Floats | None:
    cv2 = cv2_module()
    found, corners = cv2.findChessboardCornersSB(_eight_bits(photograph), grid, flags=cv2.CALIB_CB_EXHAUSTIVE | cv2.CALIB_CB_ACCURACY)
    return np.asarray(corners[:, 0], np.float64) if found else None


# ---- circles ----


def _blobs(photograph: Any, grid: tuple[int, int], asymmetric: bool, areas: list[tuple[float, float]]) -> Floats | None:
    """The grid of blobs, of the first size that gives one; sizes that gave one are tried first from then on."""
    cv2 = cv2_module()
    shape = cv2.CALIB_CB_ASYMMETRIC_GRID if asymmetric else cv2.CALIB_CB_SYMMETRIC_GRID
    # Noise takes a blob apart; blur holds it together.
    calm = cv2.GaussianBlur(photograph, (0, 0), 2.0)
    for shown, flags in ((photograph, shape), (calm, shape), (photograph, shape | cv2.CALIB_CB_CLUSTERING)):
        for area in list(areas):
            for detector in _detectors(photograph.size, area):
                found, centres = cv2.findCirclesGrid(shown, grid, flags=flags, blobDetector=detector)
                if found:
                    areas.remove(area)
                    areas.insert(0, area)
                    return np.asarray(centres[:, 0], np.float64)
    return None


def _detectors(pixels: int, area: tuple[float, float]) -> Iterator[Any]:
    """Detectors of dark and of bright blobs whose area is such a share of the photograph."""
    cv2 = cv2_module()
    for colour in (0, 255):
        parameters = cv2.SimpleBlobDetector_Params()
        parameters.blobColor = colour
        parameters.minArea, parameters.maxArea = max(8.0, area[0] * pixels), area[1] * pixels
        parameters.minDistBetweenBlobs = parameters.minArea**0.5
        parameters.minThreshold, parameters.maxThreshold, parameters.thresholdStep = 20, 240, 10
        yield cv2.SimpleBlobDetector_create(parameters)


def _refined(photograph: Any, board: Floats, pixels: Floats) -> Floats:
    """Each dot at its centre of gravity, and where the plate is seen aslant, the image of its centre."""
    to_pixels, gap = _homography(board, pixels), float(np.hypot(*(board[1:] - board[0]).T).min())
    spots = [spot for i in range(len(board)) if (spot := _spot(photograph, to_pixels, board, i, gap)) is not None]
    weighed = [(spot.number, *centre) for spot in spots if (centre := spot.weighed(0.5 * gap)) is not None]
    if not weighed:
        return pixels
    radius = float(np.median([radius for _, _, radius in weighed]))
    centres = pixels.copy()
    for spot in spots:
        # What lies farther out than the dot's blurred edge has nothing but noise.
        found = spot.weighed(min(max(1.3 * radius, radius + 4.0 / spot.scale), 0.5 * gap))
        if found is not None:
            centres[spot.number] = found[0]
    refined = centres
    for _ in range(2):
        refined = centres - _eccentricity(_homography(board, refined), board, radius)
    return refined


def _eccentricity(to_pixels: Floats, board: Floats, radius: float) -> Floats:
    """How far the centre of a circle's image lies from the image of its centre: the image's dual conic is H C* H^T."""
    shifts = []
    for x, y in board:
        dual = np.array([[x * x - radius**2, x * y, x], [x * y, y * y - radius**2, y], [x, y, 1.0]])
        image = to_pixels @ dual @ to_pixels.T
        u, v, w = to_pixels @ (x, y, 1.0)
        shifts.append((image[0, 2] / image[2, 2] - u / w, image[1, 2] / image[2, 2] - v / w))
    return np.array(shifts)


class _Spot(NamedTuple):
    """A dot and the plate around it.

    Attributes
    ----------
    number : int
        The dot's place in the board's list.
    around : ndarray, shape (n, 2)
        The pixels.
    distances : ndarray, shape (n,)
        How far each lies from the dot's place, in the plate's unit.
    depth : ndarray, shape (n,)
        By what share each is brighter than the plate, whose own grey is a plane.
    contrast : float
        That of the dot's middle; below 0 for a dark one.
    scale : float
        Pixels for one of the plate's unit.
    """

    number: int
    around: Floats
    distances: Floats
    depth: Floats
    contrast: float
    scale: float

    def weighed(self, reach: float) -> tuple[Floats, float] | None:
        """The centre of gravity within so much of the dot's place, in px, and the radius by the area, in the plate's unit."""
        near = self.distances < reach
        weights = self.depth[near] / self.contrast
        area = float(weights.sum())
        if area <= 4.0:
            return None
        centre = weights @ self.around[near] / area
        is_inside = bool(np.hypot(*(centre - self.around[near].mean(axis=0))) < 0.25 * reach * self.scale)
        return (centre, float(np.sqrt(area / np.pi)) / self.scale) if is_inside else None


def _spot(photograph: Any, to_pixels: Floats, board: Floats, number: int, gap: float) -> _Spot | None:
    """A dot that lies within the photograph and stands out from the plate."""
    place, around = board[number], _pixels_around(photograph, to_pixels, board[number], 0.8 * gap)
    places = _mapped(np.linalg.inv(to_pixels), around)
    neighbours = board[np.hypot(*(board - place).T) < 2.0 * gap]
    distances = np.hypot(*(places - place).T)
    # The plate's own grey is farthest from all dots: in the middle of four of them, and outside of the grid.
    nearest = np.sqrt(((places[:, None] - neighbours[None]) ** 2).sum(axis=2).min(axis=1))
    grey = photograph[around[:, 1].astype(int), around[:, 0].astype(int)].astype(np.float64)
    is_plate = nearest > 0.55 * gap
    if is_plate.sum() < 8 or not _is_inside(photograph, to_pixels, place, 0.5 * gap):
        return None
    away = around - around[is_plate].mean(axis=0)
    plane = np.column_stack([np.ones(len(around)), away / np.abs(away).max()])
    fit = np.linalg.solve(plane[is_plate].T @ plane[is_plate], plane[is_plate].T @ grey[is_plate])
    depth = grey / np.maximum(plane @ fit, 1.0) - 1.0
    contrast = float(np.median(depth[np.argsort(distances)[:9]]))
    if abs(contrast) < max(4.0 * float(np.std(depth[is_plate])), 0.05):
        return None
    return _Spot(number, around, distances, depth, contrast, float(np.sqrt(_area_scale(to_pixels, place))))


def _corners_around(to_pixels: Floats, place: Floats, reach: float) -> Floats:
    """The least and the greatest pixel coordinates of a square on the plate."""
    corners = _mapped(to_pixels, place + reach * np.array([[1, 1], [1, -1], [-1, 1], [-1, -1]]))
    return np.array([corners.min(axis=0), corners.max(axis=0)])


def _pixels_around(photograph: Any, to_pixels: Floats, place: Floats, reach: float) -> Floats:
    """The photograph's pixels around a square on the plate."""
    least, most = _corners_around(to_pixels, place, reach)
    left, top = np.maximum(np.floor(least).astype(int), 0)
    right, bottom = np.minimum(np.ceil(most).astype(int) + 1, photograph.shape[::-1])
    rows, columns = np.mgrid[top : max(bottom, top), left : max(right, left)]
    return np.asarray(np.stack([columns.ravel(), rows.ravel()], 1), np.float64)


def _is_inside(photograph: Any, to_pixels: Floats, place: Floats, reach: float) -> bool:
    """Whether a square on the plate lies within the photograph."""
    least, most = _corners_around(to_pixels, place, reach)
    return bool((least >= 0.0).all() and (most <= np.array(photograph.shape[::-1]) - 1.0).all())


def _mapped(matrix: Floats, points: Floats) -> Floats:
    mapped = np.column_stack([points, np.ones(len(points))]) @ matrix.T
    return mapped[:, :2] / mapped[:, 2:]


def _area_scale(matrix: Floats, place: Floats) -> float:
    """By how much a small area at a place of the plate grows on its way to pixels."""
    w = float(matrix[2] @ (*place, 1.0))
    return abs(float(np.linalg.det(matrix))) / abs(w) ** 3


# ---- ChArUco ----


def _charuco(grid: tuple[int, int], pitch: float, marker: float | None, name: str) -> Finder:
    cv2 = cv2_module()
    aruco: Any = getattr(cv2, "aruco", None)
    if aruco is None or not hasattr(aruco, "CharucoBoard_create"):
        raise MissingPackageError("ChArUco boards need cv2.aruco as Debian's OpenCV 4.6 has it")
    if not hasattr(aruco, name):
        raise ValueError(f"dictionary: OpenCV has no {name}")
    side = 0.75 * pitch if marker is None else marker
    dictionary = aruco.Dictionary_get(getattr(aruco, name))
    board, places = aruco.CharucoBoard_create(*grid, pitch, side, dictionary), board_of(grid, pitch, "charuco")
    parameters = aruco.DetectorParameters_create()

    def corners(grey: Any) -> tuple[Floats, Floats] | None:
        photograph = _eight_bits(grey)
        markers, ids, _ = aruco.detectMarkers(photograph, dictionary, parameters=parameters)
        if ids is None:
            return None
        count, pixels, which = aruco.interpolateCornersCharuco(markers, ids, photograph, board)
        if count < 4:
            return None
        # OpenCV 4.6 gives these corners half a pixel too far to the right and below: they are looked for again.
        dots = places[which[:, 0]]
        return dots, _sub_pixel(photograph, pixels, dots, pitch)[:, 0].astype(np.float64)

    return corners


def _sub_pixel(photograph: Any, pixels: Any, board: Floats, pitch: float) -> Any:
    """Corners where the edges around them meet, looked for within a sixth of a square."""
    cv2 = cv2_module()
    side = pitch * float(np.sqrt(_area_scale(_homography(board, pixels[:, 0].astype(np.float64)), board.mean(axis=0))))
    window = int(np.clip(side / 6.0, 2, 11))
    ends = (cv2.TERM_CRITERIA_EPS | cv2.TERM_CRITERIA_COUNT, 100, 1e-4)
    return cv2.cornerSubPix(photograph, np.ascontiguousarray(pixels, np.float32), (window, window), (-1, -1), ends)


# ---- pictures ----


def draw_found(view: View, folder: str | os.PathLike[str]) -> Path:
    """Draws what was found into a copy of the view's photograph.

    Parameters
    ----------
    view : View
        A view that was found in a photograph.
    folder : path
        Where the picture goes, under the photograph's name with ``-found.png`` behind it. None is written over.

    Returns
    -------
    Path
        The picture.
    """
    if view.photograph is None:
        raise ValueError("the view wasn't found in a photograph")
    cv2 = cv2_module()
    picture = cv2.cvtColor(_eight_bits(read(view.photograph)), cv2.COLOR_GRAY2BGR)
    shift = 4
    scaled = np.rint(view.pixels * 2**shift).astype(int)
    cv2.polylines(picture, [scaled.reshape(-1, 1, 2).astype(np.int32)], False, (0, 160, 255), 1, cv2.LINE_AA, shift)
    for number, (u, v) in enumerate(scaled.tolist()):
        colour = (0, 0, 255) if number == 0 else (0, 200, 0)
        cv2.drawMarker(picture, (u >> shift, v >> shift), colour, cv2.MARKER_CROSS, 9, 1)
    Path(folder).mkdir(parents=True, exist_ok=True)
    path = Path(folder) / f"{view.photograph.name}-found.png"
    done, encoded = cv2.imencode(".png", picture)
    if not done:
        raise OSError(f"{path}: the picture can't be encoded")
    with open(path, "xb") as file:
        file.write(encoded.tobytes())
    return path
