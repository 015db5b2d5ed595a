"""The program ``jinnychair``: report, verdict, chart and page of a search."""

from __future__ import annotations

import os
import shutil
import subprocess
from collections.abc import Sequence
from pathlib import Path

from .errors import ProgramError

__all__ = ["find", "run"]

_PACKAGE = Path(__file__).resolve().parent


def find() -> str:
    """The program's path: what JINNYCHAIR_PROGRAM names, else that of the release around this package, else on the PATH.

    Raises
    ------
    ProgramError
        There is none.
    """
    if named := os.environ.get("JINNYCHAIR_PROGRAM"):
        if not os.access(named, os.X_OK):
            raise ProgramError(f"JINNYCHAIR_PROGRAM names {named}, which can't be run")
        return named
    of_release = _PACKAGE.parents[1] / "bin" / "jinnychair"
    found = str(of_release) if os.access(of_release, os.X_OK) else shutil.which("jinnychair")
    if found is None:
        raise ProgramError(
            "the program jinnychair isn't there, which makes report, chart and page: put the release's bin folder on the PATH, or name"
            " the program in the environment variable JINNYCHAIR_PROGRAM. Without it, jinnychair.search in Python finds the tilt alone"
        )
    return found


def run(words: Sequence[str | os.PathLike[str]]) -> int:
    """Runs the program with these words, on the same terminal.

    Returns
    -------
    int
        Its exit code: 0 good, 1 failed, 2 wrong words, 3 doubtful.
    """
    return subprocess.run([find(), *(os.fspath(word) for word in words)], check=False).returncode
