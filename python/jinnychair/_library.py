"""The shared library: where it is, and whether it is the one that this package is made for.

Each function has the declaration that python/tools/declare made from the header. When the library loads, its version is
compared with the header's, and the size and offsets of each struct with those that the header asserts.
"""

from __future__ import annotations

import ctypes
import ctypes.util
import os
from functools import cache
from pathlib import Path
from typing import Any

from . import _declarations
from .errors import LibraryError

_PACKAGE = Path(__file__).resolve().parent

#: Folders in which the library is looked for: the package's own (a wheel), a release's, the repository's.
_FOLDERS = (_PACKAGE, _PACKAGE.parents[1] / "lib", _PACKAGE.parents[1] / "target" / "shared")


def _found() -> str:
    """The library's path: what JINNYCHAIR_LIBRARY says, else the first that is there."""
    if path := os.environ.get("JINNYCHAIR_LIBRARY"):
        return path
    for folder in _FOLDERS:
        if files := sorted(folder.glob("libjinnychair.so*")):
            return str(files[0])
    if name := ctypes.util.find_library("jinnychair"):
        return name
    looked = ", ".join(str(folder) for folder in _FOLDERS)
    raise LibraryError(
        f"libjinnychair.so isn't in {looked}, nor with the system's libraries. Install the release's wheel, or name the"
        " file in the environment variable JINNYCHAIR_LIBRARY"
    )


def _version_text(version: int) -> str:
    return f"{version >> 16}.{version >> 8 & 255}.{version & 255}"


def check_version(version: int) -> None:
    """Refuses a library of another version than the header's."""
    if version != _declarations.VERSION:
        found, wanted = _version_text(version), _version_text(_declarations.VERSION)
        raise LibraryError(f"the library has version {found}, and this package is for {wanted}: install both from one release")


def check_layout(layout: dict[type[ctypes.Structure], tuple[int, dict[str, int]]]) -> None:
    """Compares each struct with the size and the offsets that the header asserts."""
    for struct, (size, offsets) in layout.items():
        found = {field: getattr(struct, field).offset for field in offsets}
        if ctypes.sizeof(struct) != size or found != offsets:
            raise LibraryError(f"{struct.__name__} isn't laid out as the header says: {ctypes.sizeof(struct)} bytes, {found}")


@cache
def library() -> Any:
    """The loaded library, once it has been checked."""
    path = _found()
    try:
        loaded = ctypes.CDLL(path)
    except OSError as error:
        raise LibraryError(f"the library can't be loaded: {error}") from error
    for name, (reply, parameters) in _declarations.FUNCTIONS.items():
        try:
            function = getattr(loaded, name)
        except AttributeError as error:
            raise LibraryError(f"{path} has no {name}: it isn't this package's library") from error
        function.restype, function.argtypes = reply, parameters
    check_version(loaded.jc_version())
    check_layout(_declarations.LAYOUT)
    return loaded


def version() -> str:
    """The version of the library, as ``"0.12.0"``."""
    return _version_text(library().jc_version())
