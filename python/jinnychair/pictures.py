"""Pictures of a search by Matplotlib, where it is installed: each function draws into axes, of a notebook too.

    found = jinnychair.search(views, centre)
    jinnychair.pictures.score_map(found)
    jinnychair.pictures.dots(found, 0).figure.savefig("first.png")
"""

from __future__ import annotations

from typing import Any

import numpy as np

from .errors import MissingPackageError
from .host import Found
from .photographs import read

__all__ = ["dots", "leave_one_out", "score_map"]


def _axes(ax: Any) -> Any:
    """The axes that are given, or those of a new figure."""
    if ax is not None:
        return ax
    try:
        from matplotlib import pyplot
    except ImportError as error:
        raise MissingPackageError(f"this needs Matplotlib, Debian's package python3-matplotlib: {error}") from error
    return pyplot.subplots(layout="constrained")[1]


def dots(found: Found, view: int, ax: Any = None, times: float | None = None) -> Any:
    """A view's dots over its photograph, where there is one, with an arrow from each to where the winner projects it.

    Parameters
    ----------
    found : Found
        What a search found.
    view : int
        The view, counted from 0.
    ax : matplotlib Axes, optional
        Where to draw; a new figure if not given.
    times : float, optional
        How many times as long as they are the arrows are drawn; so that the longest has 40 px if not given.

    Returns
    -------
    matplotlib Axes
    """
    pixels, errors = found.errors_of(view)
    ax, shown = _axes(ax), found.views[view]
    if shown.photograph is not None:
        ax.imshow(read(shown.photograph), cmap="gray")
    sizes = np.hypot(*errors.T)
    longest = float(sizes.max(initial=0.0))
    scale = times if times is not None else 40.0 / longest if longest > 0.0 else 1.0
    ax.scatter(*pixels.T, s=4, color="tab:green")
    ax.quiver(*pixels.T, *(scale * errors).T, angles="xy", scale_units="xy", scale=1.0, color="tab:red", width=0.003)
    if shown.photograph is None:
        ax.set_aspect("equal")
        ax.invert_yaxis()
    rms = float(np.sqrt((sizes**2).mean())) if len(sizes) else 0.0
    ax.set_title(f"{shown.name or view + 1}: RMS {rms:.4f} px, longest {longest:.4f} px, arrows {scale:.0f} times")
    ax.set_xlabel("px")
    ax.set_ylabel("px")
    return ax


def score_map(found: Found, ax: Any = None) -> Any:
    """Every tried tilt, coloured by its score, skipped ones as crosses, and the winner.

    Parameters
    ----------
    found : Found
        What a search found.
    ax : matplotlib Axes, optional
        Where to draw; a new figure if not given.

    Returns
    -------
    matplotlib Axes
    """
    ax = _axes(ax)
    scored = [(*tried.seed.sensor.degrees(), tried.outcome.score) for tried in found.tried if tried.outcome.score is not None]
    skipped = [tried.seed.sensor.degrees() for tried in found.tried if tried.outcome.score is None]
    x, y, score = np.array(scored).T
    points = ax.scatter(x, y, c=np.log10(np.maximum(score, 1e-300)), cmap="viridis", s=18)
    ax.figure.colorbar(points, ax=ax, label="log10 of the score")
    if skipped:
        ax.scatter(*np.array(skipped).T, marker="x", color="tab:gray", label="skipped")
    ax.scatter(*found.tilts.degrees(), marker="o", s=90, facecolors="none", edgecolors="tab:red", label="winner")
    ax.set_xlabel("tilt x in degrees")
    ax.set_ylabel("tilt y in degrees")
    ax.legend()
    return ax


def leave_one_out(found: Found, ax: Any = None) -> Any:
    """A table of the lean without each view in turn, and how far it moves from that with all.

    Parameters
    ----------
    found : Found
        What a search found.
    ax : matplotlib Axes, optional
        Where to draw; a new figure if not given.

    Returns
    -------
    matplotlib Axes
    """
    ax, all_views = _axes(ax), found.lean().sensor.degrees()
    rows = [("none", *(f"{tilt:+.4f}°" for tilt in all_views), "", "")]
    for number, (view, fit) in enumerate(zip(found.views, found.without_each_view()), 1):
        name = f"{number} {view.name}".strip()
        if fit is None:
            rows.append((name, "no camera", "", "", ""))
            continue
        tilts = fit.sensor.degrees()
        rows.append((name, *(f"{tilt:+.4f}°" for tilt in tilts), *(f"{a - b:+.4f}°" for a, b in zip(tilts, all_views))))
    ax.axis("off")
    ax.table(rows, colLabels=["without view", "tilt x", "tilt y", "moved x", "moved y"], loc="center", cellLoc="right")
    return ax
