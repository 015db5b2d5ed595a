"""A host on OpenCV, and whole searches with it.

A host solves for a camera at each seed's tilts, which are held. This one leaves that to ``cv2.calibrateCamera`` with its tilted
model, the optical centre held as well: without distortion a tilted sensor is exactly an untilted one with another centre, so
that a free centre would take up every tilt.
"""

from __future__ import annotations

import os
from collections.abc import Callable
from dataclasses import dataclass, field
from typing import Any, NamedTuple

import numpy as np
from numpy.typing import ArrayLike

from . import _declarations as c
from . import formats, geometry
from ._opencv import cv2_module
from ._search import Host, Inputs, Options, Search, Solution, Tried
from ._values import Floats, FxFyCxCy, PinholeCamera, Pt2, ScheimpflugParams, Seed, Winner, numbers
from .errors import JinnychairError
from .views import Views

__all__ = ["Fit", "Found", "OpenCVHost", "search"]

#: A grid of about ±9° by ±2°, then ten rounds, the last with steps of 0.0022°; a tilt has to explain 90 % of the dots.
DEFAULT_OPTIONS = Options(refine_rounds=10, min_counted=90)

#: Focal lengths to start from, as shares of what is seen, where OpenCV's own start leads nowhere.
_STARTS = (2.0, 1.0, 4.0, 8.0, 16.0)


class Fit(NamedTuple):
    """What OpenCV finds for the views.

    Attributes
    ----------
    k : FxFyCxCy
        Focal lengths and centre, in px.
    sensor : ScheimpflugParams
        The tilts.
    rotations, translations : list of ndarray
        The plate's poses: rotation vectors of shape (3,), and translations of shape (3,) in the plate's unit.
    rms : float
        The root of the mean squared distance between projected and seen pixels, in px.
    deviations : ScheimpflugParams or None
        The standard deviations of free tilts, in radians; None where they were held, or where the views don't tell.
    """

    k: FxFyCxCy
    sensor: ScheimpflugParams
    rotations: list[Floats]
    translations: list[Floats]
    rms: float
    deviations: ScheimpflugParams | None = None


class OpenCVHost:
    """Solves for a camera without distortion at held tilts, by ``cv2.calibrateCamera``.

    Called with a `Seed`, it gives a `Solution`, or None where OpenCV finds no camera. It can be handed to `Search.run`.

    Parameters
    ----------
    views : Views
        At least 3 views of at least 4 dots each.
    centre : array_like, shape (2,), optional
        The optical centre in px, which is held; that of `views` if not given.

    Raises
    ------
    ValueError
        There are too few views or dots, or no centre is stated.
    """

    def __init__(self, views: Views, centre: ArrayLike | None = None) -> None:
        stated = views.centre if centre is None else centre
        if stated is None:
            raise ValueError("state the optical centre: without it a tilt can't be told from another centre")
        if len(views) < 3:
            raise ValueError(f"{len(views)} views: at least 3 are needed")
        few = [view.name or str(i) for i, view in enumerate(views, 1) if len(view) < 4]
        if few:
            raise ValueError(f"fewer than 4 dots in view {few[0]}")
        for i, view in enumerate(views, 1):
            if _lie_on_a_line(view.board) or _lie_on_a_line(view.pixels):
                raise ValueError(f"the dots of view {view.name or i} lie on a line, or in one place: leave the view out")
        self.views = views
        self.centre = Pt2(*numbers(stated, (2,), "centre").tolist())
        if not np.isfinite(self.centre).all():
            raise ValueError("centre: a number isn't finite")
        self._cv2 = cv2_module()
        pixels = np.concatenate([view.pixels for view in views])
        # OpenCV takes a held centre within the picture alone: pixels are moved until it lies in the middle.
        self._half = int(np.ceil(np.abs(pixels - self.centre).max())) + 2
        self._boards = [np.pad(view.board, ((0, 0), (0, 1))).astype(np.float32) for view in views]
        moved = [view.pixels - self.centre + self._half for view in views]
        self._pixels = [array.astype(np.float32)[:, None] for array in moved]
        # A search takes so many rows: evenly chosen where there are more dots.
        self._rows = np.unique(np.linspace(0, len(pixels) - 1, min(len(pixels), c.MOST_ROWS)).round().astype(int))

    def fit(self, sensor: ArrayLike, start: ArrayLike | None = None, free_tilts: bool = False) -> Fit | None:
        """The camera that fits the views best, or None where OpenCV finds none.

        Parameters
        ----------
        sensor : array_like, shape (2,)
            The tilts in radians: held, or started from.
        start : array_like, shape (2,), optional
            Focal lengths to start from, in px.
        free_tilts : bool, optional
            Whether the tilts are fitted too.
        """
        tilts = numbers(sensor, (2,), "sensor")
        starts = [numbers(start, (2,), "start")] if start is not None else self._starts()
        for focal in starts:
            found = self._calibrate(tilts, focal, free_tilts)
            if found is not None:
                return found
        return None

    def _starts(self) -> list[Floats]:
        size = (2 * self._half, 2 * self._half)
        try:
            own = np.diag(self._cv2.initCameraMatrix2D(self._boards, self._pixels, size))[:2]
        except self._cv2.error:
            own = np.full(2, np.nan)
        sizes = [np.full(2, share * self._half) for share in _STARTS]
        return [own, *sizes] if np.isfinite(own).all() and (own > 0.0).all() else sizes

    def _calibrate(self, tilts: Floats, focal: Floats, free_tilts: bool) -> Fit | None:
        cv2, half = self._cv2, float(self._half)
        matrix = np.array([[focal[0], 0.0, half], [0.0, focal[1], half], [0.0, 0.0, 1.0]])
        distortion = np.concatenate([np.zeros(12), tilts])
        flags = _held_flags(cv2) | (0 if free_tilts else cv2.CALIB_FIX_TAUX_TAUY)
        ends = (cv2.TERM_CRITERIA_EPS | cv2.TERM_CRITERIA_COUNT, 200 if free_tilts else 60, 1e-11)
        size = (2 * self._half, 2 * self._half)
        try:
            found = cv2.calibrateCamera(self._boards, self._pixels, size, matrix, distortion, flags=flags, criteria=ends)
        except cv2.error:
            return None
        rms, matrix, distortion, turns, moves = found
        k = FxFyCxCy(float(matrix[0, 0]), float(matrix[1, 1]), *self.centre)
        sensor = ScheimpflugParams(*distortion.ravel()[12:14].tolist())
        rotations, translations = [turn.ravel() for turn in turns], [move.ravel() for move in moves]
        if not np.isfinite([*k, *sensor, rms, *np.ravel(rotations), *np.ravel(translations)]).all() or min(k.fx, k.fy) <= 0.0:
            return None
        fit = Fit(k, sensor, rotations, translations, float(rms))
        return fit._replace(deviations=self._deviations(fit)) if free_tilts else fit

    def _deviations(self, fit: Fit) -> ScheimpflugParams | None:
        """The standard deviations of free tilts, by OpenCV's derivatives: the covariance of focal lengths and tilts, poses eliminated
        view by view. Those that OpenCV gives itself count a dot's two coordinates as one, and are 1.4 times as large."""
        distortion = formats.opencv_distortion(PinholeCamera(fit.k), fit.sensor)
        normal, squares, count = np.zeros((4, 4)), 0.0, 0
        for view, turn, move in zip(self.views, fit.rotations, fit.translations):
            board = np.pad(view.board, ((0, 0), (0, 1)))
            projected, derivatives = self._cv2.projectPoints(board, turn, move, fit.k.matrix(), distortion)
            pose, shared = derivatives[:, :6], derivatives[:, [6, 7, 22, 23]]
            # What a pose can take up of a change of the shared numbers tells nothing.
            rest = shared - pose @ np.linalg.lstsq(pose, shared, rcond=None)[0]
            normal += rest.T @ rest
            squares += float(((projected[:, 0] - view.pixels) ** 2).sum())
            count += 2 * len(board)
        freedom = count - 4 - 6 * len(self.views)
        if freedom <= 0 or np.linalg.matrix_rank(normal) < 4:
            return None
        variances = np.diag(np.linalg.inv(normal)) * squares / freedom
        return ScheimpflugParams(*np.sqrt(variances[2:]).tolist())

    def ideal(self, fit: Fit) -> tuple[Floats, Any]:
        """Where each dot of all views would be seen by a camera of focal length 1, of shape (n, 2), and whether it is in front."""
        cameras = []
        for board, turn, move in zip(self._boards, fit.rotations, fit.translations):
            rotation, _ = self._cv2.Rodrigues(turn)
            cameras.append(board.astype(np.float64) @ rotation.T + move)
        points = np.concatenate(cameras)
        with np.errstate(divide="ignore", invalid="ignore"):
            return points[:, :2] / points[:, 2:], points[:, 2] > 0.0

    def solution(self, fit: Fit) -> Solution:
        """The fit as a search takes it."""
        ideal, in_front = self.ideal(fit)
        pixels = np.concatenate([view.pixels for view in self.views])
        rows = np.hstack([ideal, pixels])[self._rows]
        return Solution(PinholeCamera(fit.k), rows, in_front[self._rows])

    def __call__(self, seed: Seed) -> Solution | None:
        fit = self.fit(seed.sensor, (seed.reference_k.fx, seed.reference_k.fy))
        return None if fit is None else self.solution(fit)

    def base(self) -> FxFyCxCy | None:
        """The camera of a sensor without tilt, which a grid's seeds start from."""
        fit = self.fit((0.0, 0.0))
        return None if fit is None else fit.k

    def decomposition(self, options: Options) -> list[Seed]:
        """What OpenCV makes of the views with free tilts, as a seed; none where it finds no camera, or one beyond the bound."""
        fit = None if options.one_axis else self.fit((0.0, 0.0), free_tilts=True)
        if fit is None or max(abs(tilt) for tilt in fit.sensor) > options.max_abs_tilt:
            return []
        return [Seed(fit.k, fit.sensor)]


def _lie_on_a_line(points: Floats) -> bool:
    """Whether points spread less than a millionth as far to one side as along the other."""
    along, aside = np.linalg.svd(points - points.mean(axis=0), compute_uv=False)
    return bool(aside <= 1e-6 * along)


def _held_flags(cv2: Any) -> int:
    """A tilted model whose centre is held, without distortion."""
    radial = (cv2.CALIB_FIX_K1, cv2.CALIB_FIX_K2, cv2.CALIB_FIX_K3, cv2.CALIB_FIX_K4, cv2.CALIB_FIX_K5, cv2.CALIB_FIX_K6)
    others = (cv2.CALIB_USE_INTRINSIC_GUESS, cv2.CALIB_FIX_PRINCIPAL_POINT, cv2.CALIB_ZERO_TANGENT_DIST, cv2.CALIB_FIX_S1_S2_S3_S4)
    return int(sum((*radial, *others))) | int(cv2.CALIB_TILTED_MODEL)


@dataclass(frozen=True, repr=False)
class Found:
    """What a search of views found.

    Attributes
    ----------
    winner : Winner
        The earliest of the lowest-scored candidates.
    solution : Solution
        The host's camera and rows at the winner's tilts.
    views : Views
        What was searched.
    centre : Pt2
        The optical centre that was held, in px.
    options : Options
        Which tilts were tried.
    tried : tuple of Tried
        Every tried tilt, without its host's solution.
    """

    winner: Winner
    solution: Solution
    views: Views
    centre: Pt2
    options: Options
    tried: tuple[Tried, ...] = field(default=())

    @property
    def tilts(self) -> ScheimpflugParams:
        """The winner's tilts, in radians."""
        return self.winner.sensor

    def __repr__(self) -> str:
        x, y = self.tilts.degrees()
        return f"<Found: tilt x {x:.4f}°, tilt y {y:.4f}°, mean error {self.winner.mean_reproj_error:.4f} px, {len(self.tried)} tried>"

    def errors(self) -> Floats:
        """How far each row is projected from where its dot is seen.

        Returns
        -------
        ndarray, shape (n, 2)
            In px, to the right and downwards; in the order of the solution's rows.
        """
        camera = self.winner.camera
        matrix = geometry.tilt_projection_matrix(geometry.trig(self.tilts))
        rows = np.asarray(self.solution.rows, np.float64)
        sensor = geometry.apply_homography(matrix, geometry.distort(camera.dist, rows[:, :2]))
        return geometry.sensor_to_pixel(camera.k, sensor) - rows[:, 2:]

    def errors_of(self, view: int) -> tuple[Floats, Floats]:
        """The seen pixels of a view's scored dots, and how far each is projected from there.

        Parameters
        ----------
        view : int
            The view, counted from 0.

        Returns
        -------
        pixels, errors : ndarray, shape (n, 2)
            In px.
        """
        seen = {tuple(pixel) for pixel in self.views[view].pixels.tolist()}
        pixels = np.asarray(self.solution.rows, np.float64)[:, 2:]
        chosen = np.array([tuple(pixel) in seen for pixel in pixels.tolist()], bool)
        return pixels[chosen], self.errors()[chosen]

    def lean(self) -> Fit:
        """The lean beside the winner: OpenCV's least squares fit with free tilts, from the winner on."""
        fit = OpenCVHost(self.views, self.centre).fit(self.tilts, self.winner.camera.k[:2], free_tilts=True)
        if fit is None:
            raise JinnychairError("OpenCV finds no camera with free tilts")
        return fit

    def uncertainty(self, centre_within: float = 0.0) -> ScheimpflugParams:
        """How far the tilts may be off, in radians: how far the winner lies off OpenCV's fit with free tilts, and two standard
        deviations of that.

        Parameters
        ----------
        centre_within : float, optional
            How far the stated centre may be off, in px, which is added: a pixel is 1/f radians.

        Notes
        -----
        It holds for a lens without distortion and for noise that is the same for all dots. The program's verdict tests both.
        """
        fit = self.lean()
        if fit.deviations is None:
            raise JinnychairError("the views don't tell how far the tilts may be off: take more")
        k = self.winner.camera.k
        parts = zip(self.tilts, fit.sensor, fit.deviations, (k.fy, k.fx))
        return ScheimpflugParams(*(abs(tilt - best) + 2.0 * sigma + centre_within / f for tilt, best, sigma, f in parts))

    def without_each_view(self) -> list[Fit | None]:
        """OpenCV's fit with free tilts without the first view, without the second, and so on; None where it finds no camera."""
        fits = []
        for left_out in range(len(self.views)):
            rest = Views([view for i, view in enumerate(self.views) if i != left_out], self.centre)
            host = OpenCVHost(rest) if len(rest) >= 3 else None
            fits.append(None if host is None else host.fit(self.tilts, self.winner.camera.k[:2], free_tilts=True))
        return fits

    def write_opencv(self, path: str | os.PathLike[str]) -> None:
        """Writes the camera as OpenCV's FileStorage, with fourteen coefficients; see `jinnychair.formats.write_opencv_camera`."""
        formats.write_opencv_camera(path, self.winner.camera, self.winner.sensor, self.winner.mean_reproj_error)


def search(
    views: Views,
    centre: ArrayLike | None = None,
    *,
    options: Options = DEFAULT_OPTIONS,
    host: Host | None = None,
    base: ArrayLike | None = None,
    watch: Callable[[Tried], object] | None = None,
) -> Found:
    """Searches for the tilt of the sensor that took these views.

    Parameters
    ----------
    views : Views
        At least 3 views of at least 4 dots each.
    centre : array_like, shape (2,), optional
        The optical centre in px; that of `views` if not given.
    options : Options, optional
        Which tilts are tried.
    host : callable, optional
        A host of one's own: is given a `Seed`, and gives a `Solution`, or None where it finds no camera. What it raises goes
        through. `OpenCVHost` if not given.
    base : array_like, shape (4,), optional
        fx, fy, cx, cy of the camera that the grid's seeds start from; OpenCV's without tilt if not given.
    watch : callable, optional
        Is shown each `Tried` tilt.

    Raises
    ------
    ValueError
        The views or the options aren't taken; `Refused` says which of the latter.
    JinnychairError
        No camera without tilt is found to start from.
    """
    own = OpenCVHost(views, centre) if host is None or base is None else None
    solve: Host | None = host if host is not None else own
    assert solve is not None
    start = base if base is not None else own.base() if own is not None else None
    if start is None:
        raise JinnychairError("OpenCV finds no camera without tilt to start from: check the views, and the plate's places")
    stated = views.centre if centre is None else centre
    if stated is None:
        raise ValueError("state the optical centre: without it a tilt can't be told from another centre")
    held = Pt2(*numbers(stated, (2,), "centre").tolist())
    seeds = own.decomposition(options) if host is None and own is not None else []
    observed = geometry.observed_pixel_center(np.concatenate([view.pixels for view in views]))
    run = Search(Inputs(len(views), start, observed, options, seeds))
    return _watched(run, solve, watch, views, held, options)


def _watched(
    run: Search, solve: Host, watch: Callable[[Tried], object] | None, views: Views, centre: Pt2, options: Options
) -> Found:
    """Runs a search, and keeps what was tried and the best solution."""
    tried: list[Tried] = []
    best: list[Solution] = []
    lowest = np.inf

    def keep(one: Tried) -> None:
        nonlocal lowest
        if one.outcome.score is not None and one.outcome.score < lowest and one.solution is not None:
            lowest, best[:] = one.outcome.score, [one.solution]
        tried.append(one._replace(solution=None))
        if watch is not None:
            watch(one)

    winner = run.run(solve, keep)
    return Found(winner, best[0], views, centre, options, tuple(tried))
