"""The command, the program beside the package, the wheel, and pictures."""

import contextlib
import importlib.util
import io
import json
import os
import subprocess
import sys
import tempfile
import unittest
from pathlib import Path
from unittest import mock

import numpy as np

import jinnychair as jc
from jinnychair import _library, photographs, pictures, program
from jinnychair.__main__ import main
from jinnychair.errors import MissingPackageError, ProgramError

from . import drawn, needs_cv2
from .test_opencv import TILTS, plate
from .test_views import InFolder, views

ROOT = Path(__file__).resolve().parents[2]


def has(name):
    return importlib.util.find_spec(name) is not None


def has_program():
    try:
        return bool(program.find())
    except ProgramError:
        return False


def told(result):
    """What the program's result for other programs says of either tilt: degrees, and its ±."""
    lean = json.loads(next(line for line in result.splitlines() if line.startswith("{")))["lean"]
    return [(lean[axis]["deg"], lean[axis]["plus_minus_deg"]) for axis in ("tilt_x", "tilt_y")]


def said(*words):
    """The exit code of a command, and what it says."""
    out, err = io.StringIO(), io.StringIO()
    with contextlib.redirect_stdout(out), contextlib.redirect_stderr(err):
        try:
            code = main([str(word) for word in words])
        except SystemExit as end:
            code = end.code
    return code, out.getvalue() + err.getvalue()


class Convert(InFolder):
    def test_between_the_forms(self):
        first = self.path("a.txt")
        views(["a", "b", "c", "d"]).write(first)
        for name, back in (("b.csv", ["--centre", 655, 470]), ("c.json", ["--centre", 655, 470])):
            self.assertEqual(said("convert", first, self.path(name)), (0, f"written: {self.path(name)}: 4 views, 80 dots\n"))
            self.assertEqual(said("convert", self.path(name), self.path(f"{name}.txt"), *back)[0], 0)
            self.assertEqual(self.path(f"{name}.txt").read_text(), first.read_text())

    @needs_cv2
    def test_to_opencv_and_back(self):
        first = self.path("a.txt")
        views().write(first)
        for name in ("b.yml", "b.xml"):
            self.assertEqual(said("convert", first, self.path(name))[0], 0)
            self.assertEqual(said("convert", self.path(name), self.path(f"{name}.txt"))[0], 0)
            self.assertEqual(self.path(f"{name}.txt").read_text(), first.read_text())
        self.assertEqual(said("convert", first, self.path("c.json"), "--to", "opencv")[0], 0)
        self.assertEqual(jc.formats.read_any(self.path("c.json")), views())

    def test_several_tables(self):
        paths = [self.path(f"{i}.csv", "0,0,1,1\n1,0,2,1\n1,1,2,2\n0,1,1,2\n") for i in range(3)]
        code, text = said("convert", *paths, self.path("all.txt"))
        self.assertEqual((code, text), (0, f"written: {self.path('all.txt')}: 3 views, 12 dots\n"))

    def test_what_goes_wrong_is_said(self):
        first = self.path("a.txt", "view\n1 2 3\n")
        for words, code, text in (
            ((first, self.path("b.txt")), 1, "a.txt: line 2: read '1 2 3'; expected 4 finite numbers"),
            ((self.path("absent.txt"), self.path("b.txt")), 1, "No such file"),
            ((first,), 1, "name the file to write"),
            ((first, self.path("b.txt"), "--unknown"), 2, "unknown words: --unknown"),
            ((), 2, "FILE"),
        ):
            found, shown = said("convert", *words)
            self.assertEqual(found, code, shown)
            self.assertIn(text, shown)
            self.assertFalse(self.path("b.txt").exists())
        views().write(self.path("good.txt"))
        found, shown = said("convert", self.path("good.txt"), self.path("good.txt"))
        self.assertEqual((found, "is there already" in shown), (1, True), shown)


@needs_cv2
class FromPhotographs(InFolder):
    def setUp(self):
        super().setUp()
        folder = os.getcwd()
        os.chdir(self.folder.name)
        self.addCleanup(os.chdir, folder)

    def photographs(self, count):
        board = photographs.board_of((10, 7), 20.0)
        half = {"camera": (710.0, 707.5, 327.0, 235.0), "size": (655, 470), "blur": 0.7}
        return drawn.photographs(Path("."), board, 5.0, TILTS, np.random.default_rng(5), drawn.HELD[:count], **half)[0]

    def test_the_views_alone(self):
        paths = self.photographs(3)
        words = ("photographs", *paths, "--grid", "10x7", "--pitch", 20, "--views-only", "--centre", 327, 235, "--found", "found")
        code, text = said(*words)
        self.assertEqual((code, text), (0, "written: tilts-views.txt: 3 views, 210 dots, of 3 photographs\n"))
        self.assertEqual(jc.Views.read("tilts-views.txt").centre, (327.0, 235.0))
        self.assertEqual(len(list(Path("found").iterdir())), 3)
        # The same views may be written again, others may not.
        self.assertEqual(said(*words[:-2])[0], 0)
        code, text = said(*words[:-4], 1, 2)
        self.assertEqual((code, "tilts-views.txt is there already" in text), (1, True), text)

    def test_without_the_program(self):
        with mock.patch.dict(os.environ, {"PATH": "/nowhere"}):
            os.environ.pop("JINNYCHAIR_PROGRAM", None)
            code, text = said("photographs", "absent.png", "--grid", "10x7", "--pitch", 20)
        self.assertEqual((code, "the program jinnychair isn't there" in text), (1, True), text)
        with mock.patch.dict(os.environ, {"JINNYCHAIR_PROGRAM": "/nowhere/jinnychair"}), self.assertRaisesRegex(ProgramError, "can't be run"):
            program.find()

    def test_wrong_words(self):
        for grid in ("10", "10x", "axb"):
            code, text = said("photographs", "a.png", "--grid", grid, "--pitch", 20)
            self.assertEqual((code, "isn't dots in a row times rows" in text), (2, True), text)

    @unittest.skipUnless(has_program(), "the program isn't there")
    def test_report_chart_and_page(self):
        paths = self.photographs(8)
        words = ["photographs", *map(str, paths), "--grid", "10x7", "--pitch", "20", "--centre", "327", "235", "--out", "night", "--page"]
        run = subprocess.run([sys.executable, "-m", "jinnychair", *words, "--rounds", "9", "--json"], capture_output=True, text=True, env=os.environ | {"PYTHONPATH": str(ROOT / "python")})
        # By chance one set in some is doubtful: its noise looks like a lens, or like a view that disagrees.
        self.assertIn(run.returncode, (0, 3), run.stdout + run.stderr)
        self.assertIn("(view-08.png)", Path("night.html").read_text())
        for name in ("night-views.txt", "night.csv", "night.svg", "night.journal", "night.html"):
            self.assertTrue(Path(name).stat().st_size, name)
        self.assertLess(abs(told(run.stdout)[0][0] + 1.2), 0.03)


@needs_cv2
class BesideTheProgram(InFolder):
    @unittest.skipUnless(has_program(), "the program isn't there")
    def test_both_hosts_have_one_result(self):
        for seed, count in ((1, 14), (2, 8)):
            seen = plate(0.05, seed, count)
            path = self.path(f"{seed}.txt")
            seen.write(path)
            run = subprocess.run([program.find(), "search", path, "--out", self.path(f"{seed}"), "--lens", "exact", "--json"], capture_output=True, text=True)
            self.assertEqual(run.returncode, 0, run.stdout)
            found = jc.search(seen, options=jc.Options(refine_rounds=6, min_counted=90))
            for (theirs, bound), tilt, mine in zip(told(run.stdout), found.tilts.degrees(), found.uncertainty().degrees()):
                self.assertLessEqual(abs(theirs - tilt), max(bound, mine), run.stdout)


class Wheel(unittest.TestCase):
    @unittest.skipUnless(has("pip") and has("wheel") and has("setuptools"), "no pip, wheel or setuptools")
    def test_it_installs_without_a_compiler_and_a_network(self):
        library = Path(_library._found()).resolve()
        if not library.name.endswith(jc.__version__):
            self.skipTest("the library has no versioned name")
        with tempfile.TemporaryDirectory() as folder:
            built = subprocess.run(["bash", ROOT / "python/tools/wheel", folder, library], capture_output=True, text=True, env=os.environ | {"PYTHON": sys.executable})
            self.assertEqual(built.returncode, 0, built.stderr)
            wheel, site = built.stdout.strip(), Path(folder, "site")
            # On a path with nothing but Python there is no compiler; --no-index asks no network.
            alone = Path(folder, "bin")
            alone.mkdir()
            Path(alone, "python3").symlink_to(sys.executable)
            environment = {"PATH": str(alone), "HOME": folder, "PIP_NO_INDEX": "1", "PIP_CONFIG_FILE": os.devnull}
            install = [sys.executable, "-m", "pip", "install", "--quiet", "--no-index", "--no-deps", "--target", site, wheel]
            installed = subprocess.run(install, capture_output=True, text=True, env=environment)
            self.assertEqual(installed.returncode, 0, installed.stderr)
            code = "import jinnychair; print(jinnychair.version(), jinnychair.geometry.sqrt(4.0), jinnychair.__file__)"
            run = subprocess.run([sys.executable, "-c", code], capture_output=True, text=True, env=environment | {"PYTHONPATH": str(site)}, cwd=folder)
            self.assertEqual(run.stdout.split(), [jc.__version__, "2.0", str(site / "jinnychair/__init__.py")], run.stderr)
            self.assertTrue((site / "jinnychair/py.typed").exists())
            self.assertEqual(len(list(site.glob("*.dist-info/NOTICE"))), 1)


@needs_cv2
class Pictures(InFolder):
    @unittest.skipUnless(has("matplotlib"), "Matplotlib isn't installed")
    def test_each_is_drawn(self):
        import matplotlib

        matplotlib.use("Agg")
        board = photographs.board_of((10, 7), 20.0)
        paths, _ = drawn.photographs(Path(self.folder.name), board, 5.0, TILTS, np.random.default_rng(5), drawn.HELD[:4])
        found = jc.search(jc.Views.from_photographs(paths, (10, 7), 20.0), drawn.CAMERA[2:], options=jc.Options(refine_rounds=1))
        for number, ax in enumerate([pictures.dots(found, 1), pictures.score_map(found), pictures.leave_one_out(found)]):
            ax.figure.savefig(self.path(f"{number}.png"))
            self.assertGreater(self.path(f"{number}.png").stat().st_size, 5000)
        pixels, errors = found.errors_of(2)
        self.assertEqual((pixels.shape, errors.shape), ((70, 2), (70, 2)))
        self.assertLess(np.abs(errors).max(), 1.0)

    def test_without_matplotlib(self):
        with mock.patch.dict(sys.modules, {"matplotlib": None}), self.assertRaises(MissingPackageError):
            pictures._axes(None)


if __name__ == "__main__":
    unittest.main()
