"""Finds the tilt of a camera's sensor from views of a plate. The search tries every given tilt and keeps the best, which is proved.

    import jinnychair as jc

    views = jc.Views.from_photographs(paths, grid=(14, 5), pitch=20.0)
    found = jc.search(views, centre=(655.0, 470.0))
    print(found.tilts.degrees(), found.uncertainty().degrees())

`Search` is the search itself, for a host of your own. `geometry` has the proved geometry, and `journal` the journal of a
run. The library is loaded by the first call that needs it.
"""

from . import errors, formats, geometry, host, journal, photographs, pictures
from ._declarations import VERSION_TEXT
from ._library import version
from ._line import Line
from ._search import Handed, Inputs, Options, Outcome, Search, SkipReason, Solution, Stopped, Tried
from ._values import (
    BrownConrady5,
    Counts,
    FxFyCxCy,
    PinholeCamera,
    Progress,
    Pt2,
    ScheimpflugParams,
    Seed,
    TiltTrig,
    Winner,
)
from .errors import JinnychairError, Number, Refused
from .host import Found, OpenCVHost, search
from .views import View, Views

__version__ = VERSION_TEXT

__all__ = [
    "BrownConrady5",
    "Counts",
    "Found",
    "FxFyCxCy",
    "Handed",
    "Inputs",
    "JinnychairError",
    "Line",
    "Number",
    "OpenCVHost",
    "Options",
    "Outcome",
    "PinholeCamera",
    "Progress",
    "Pt2",
    "Refused",
    "ScheimpflugParams",
    "Search",
    "Seed",
    "SkipReason",
    "Solution",
    "Stopped",
    "TiltTrig",
    "Tried",
    "View",
    "Views",
    "Winner",
    "errors",
    "formats",
    "geometry",
    "host",
    "journal",
    "photographs",
    "pictures",
    "search",
    "version",
]
