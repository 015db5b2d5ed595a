"""``python -m jinnychair``: from photographs to the program's report, chart and page, and views in other programs' forms."""

from __future__ import annotations

import argparse
import sys
from collections.abc import Callable
from pathlib import Path

from . import formats, program
from .errors import JinnychairError
from .photographs import KINDS, find
from .views import Views, write_new

_DESCRIPTION = "From photographs of a plate to the program's report, chart and page; and views in other programs' forms."

_PHOTOGRAPHS = """\
Finds the plate in each photograph, writes the views to NAME-views.txt, and has the program search them. Other
options, such as --tilts-x, --rounds or --centre-within, are passed to `jinnychair search`. Exit codes are the program's: 0
good, 1 failed, 2 wrong words, 3 doubtful.
"""

_CONVERT = """\
Reads views of any of these forms, and writes them in another one. The file's name gives the form: .csv a table;
.yml, .yaml and .xml OpenCV's FileStorage; .json calibration-rs, or OpenCV's where the file is one; any other the
program's. Several tables are views of one plate. No file is written over.
"""

_WRITERS: dict[str, Callable[[Views, Path], None]] = {
    "views": Views.write,
    "csv": formats.write_csv,
    "opencv": formats.write_opencv,
    "calibration-rs": formats.write_calibration_rs,
}
_READERS: dict[str, Callable[[Path], Views]] = {
    "views": Views.read,
    "csv": formats.read_csv,
    "opencv": formats.read_opencv,
    "calibration-rs": formats.read_calibration_rs,
}
_FORMS = {".csv": "csv", ".tsv": "csv", ".yml": "opencv", ".yaml": "opencv", ".xml": "opencv", ".json": "calibration-rs"}


def _grid(text: str) -> tuple[int, int]:
    across, _, down = text.lower().partition("x")
    try:
        return int(across), int(down)
    except ValueError:
        raise argparse.ArgumentTypeError(f"{text!r} isn't dots in a row times rows, as 14x5") from None


def _parser() -> argparse.ArgumentParser:
    parser = argparse.ArgumentParser("python -m jinnychair", description=_DESCRIPTION, allow_abbrev=False)
    commands = parser.add_subparsers(dest="command", required=True)
    form = argparse.RawDescriptionHelpFormatter
    search = commands.add_parser("photographs", help="search photographs", description=_PHOTOGRAPHS, formatter_class=form, allow_abbrev=False)
    search.add_argument("files", nargs="+", type=Path, metavar="FILE", help="photographs of one plate by one camera")
    search.add_argument("--grid", type=_grid, required=True, metavar="NxM", help="dots in a row, times rows; inner corners of a chessboard")
    search.add_argument("--pitch", type=float, required=True, help="the distance of two dots, in any unit")
    search.add_argument("--kind", choices=KINDS, default="circles", help="what the plate shows (circles)")
    search.add_argument("--marker", type=float, help="the side of a ChArUco board's marker (0.75 of the pitch)")
    search.add_argument("--dictionary", default="DICT_4X4_50", help="OpenCV's dictionary of a ChArUco board (DICT_4X4_50)")
    search.add_argument("--centre", type=float, nargs=2, metavar=("X", "Y"), help="the optical centre in px; the program needs one")
    search.add_argument("--found", type=Path, metavar="FOLDER", help="draws what was found into copies of the photographs")
    search.add_argument("--out", default="tilts", metavar="NAME", help="the name of views, table, chart and page (tilts)")
    search.add_argument("--page", action="store_true", help="keeps a journal too, NAME.journal, and makes the page NAME.html of it")
    search.add_argument("--views-only", action="store_true", help="writes the views, and searches nothing")
    convert = commands.add_parser("convert", help="views in another form", description=_CONVERT, formatter_class=form, allow_abbrev=False)
    convert.add_argument("files", nargs="+", type=Path, metavar="FILE", help="views to read, then the file to write")
    convert.add_argument("--from", dest="read", choices=_READERS, help="the form that is read")
    convert.add_argument("--to", dest="write", choices=_WRITERS, help="the form that is written")
    convert.add_argument("--centre", type=float, nargs=2, metavar=("X", "Y"), help="states the optical centre, in px")
    return parser


def _photographs(words: argparse.Namespace, others: list[str]) -> int:
    if not words.views_only:
        program.find()  # fails before the photographs are looked through
    how = {"kind": words.kind, "marker": words.marker, "dictionary": words.dictionary, "drawn": words.found}
    views = find(words.files, words.grid, words.pitch, centre=words.centre, **how)
    for line in views.left_out:
        print(f"left out: {line}", file=sys.stderr)
    path = Path(f"{words.out}-views.txt")
    _write_again(path, views.text())
    # With --json the program's result is all that stands on standard output.
    shown = sys.stderr if "--json" in others else sys.stdout
    print(f"written: {path}: {len(views)} views, {views.dots} dots, of {len(words.files)} photographs", file=shown, flush=True)
    if words.views_only:
        return 0
    journal = Path(f"{words.out}.journal")
    kept: list[str | Path] = ["--journal", journal] if words.page else []
    code = program.run(["search", path, "--out", words.out, *kept, *others])
    if not words.page or code not in (0, 3):
        return code
    return max(code, program.run(["report", journal, "--page", f"{words.out}.html", "--views", path]))


def _write_again(path: Path, text: str) -> None:
    """Writes a file that isn't there, or has the same text."""
    if path.is_file() and path.read_bytes() == text.encode():
        return
    write_new(path, text)


def _convert(words: argparse.Namespace) -> int:
    *sources, target = words.files
    if not sources:
        raise JinnychairError("name the file to write behind the files to read")
    reader = _READERS[words.read] if words.read else formats.read_any
    read = [reader(source) for source in sources]
    stated = words.centre or next((views.centre for views in read if views.centre is not None), None)
    views = Views([view for one in read for view in one], stated)
    form = words.write or _FORMS.get(target.suffix.lower(), "views")
    _WRITERS[form](views, target)
    print(f"written: {target}: {len(views)} views, {views.dots} dots")
    return 0


def main(arguments: list[str] | None = None) -> int:
    """Runs a command.

    Returns
    -------
    int
        0 good, 1 failed, 2 wrong words, 3 doubtful.
    """
    parser = _parser()
    words, others = parser.parse_known_args(arguments)
    try:
        if words.command == "photographs":
            return _photographs(words, others)
        if others:
            parser.error(f"unknown words: {' '.join(others)}")
        return _convert(words)
    except FileExistsError as error:
        print(f"jinnychair: {error.filename} is there already, and no file is written over. Choose another name", file=sys.stderr)
    except (JinnychairError, OSError, ValueError) as error:
        print(f"jinnychair: {error}", file=sys.stderr)
    return 1


if __name__ == "__main__":
    sys.exit(main())
