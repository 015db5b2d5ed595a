"""Views and their forms, with Python and NumPy alone: there and back, and what isn't of a form."""

import json
import math
import tempfile
import unittest
from pathlib import Path

import numpy as np

import jinnychair as jc
from jinnychair import formats
from jinnychair.errors import FormatError

from .drawn import seen

BOARD = np.array([[i % 5 * 20.0, i // 5 * 20.0] for i in range(20)])
PIXELS = seen(BOARD, (-0.0209, -0.00698), 0.05, np.random.default_rng(1))[:4]


def views(names=("one.png", "two words.png", "", "drei-ä.png"), centre=(655.0, 470.0)):
    return jc.Views.from_arrays(BOARD, PIXELS, names, centre)


class InFolder(unittest.TestCase):
    def setUp(self):
        self.folder = tempfile.TemporaryDirectory()
        self.addCleanup(self.folder.cleanup)

    def path(self, name, text=None):
        path = Path(self.folder.name, name)
        if text is not None:
            path.write_bytes(text if isinstance(text, bytes) else text.encode())
        return path


class Arrays(unittest.TestCase):
    def test_boards(self):
        one = jc.Views.from_arrays(BOARD, PIXELS)
        self.assertEqual((len(one), one.dots), (4, 80))
        self.assertEqual(one, jc.Views.from_arrays([BOARD] * 4, [p[:, None] for p in PIXELS]))
        self.assertEqual(one, jc.Views.from_arrays(np.pad(BOARD, ((0, 0), (0, 1))), PIXELS))
        self.assertEqual(one, jc.Views.from_arrays(BOARD.tolist(), [p.tolist() for p in PIXELS]))
        self.assertEqual(one, jc.Views.from_arrays(BOARD, np.array(PIXELS)))
        self.assertEqual(one[1:3], jc.Views.from_arrays(BOARD, PIXELS[1:3]))
        self.assertEqual(one.named("abcd")[2].name, "c")
        self.assertNotEqual(one, one.with_centre((1, 2)))

    def test_what_isnt_views(self):
        tilted = np.column_stack([BOARD, np.arange(20.0)])
        for board, pixels, error in (
            (BOARD[:5], PIXELS, "5 places and 20 pixels"),
            ([BOARD] * 3, PIXELS, "3 boards for 4 views"),
            (tilted, PIXELS, "don't lie in one plane"),
            (BOARD, [np.full((20, 2), math.nan)], "isn't finite"),
            (BOARD, [np.zeros((20, 4))], "shape"),
        ):
            with self.assertRaisesRegex(ValueError, error):
                jc.Views.from_arrays(board, pixels)
        with self.assertRaises(TypeError):
            jc.Views.from_arrays(BOARD, [PIXELS[0].astype(str)])
        with self.assertRaisesRegex(ValueError, "2 names for 4 views"):
            jc.Views.from_arrays(BOARD, PIXELS, ["a", "b"])
        with self.assertRaisesRegex(ValueError, "centre"):
            jc.Views.from_arrays(BOARD, PIXELS, centre=(1, math.inf))
        self.assertEqual(jc.Views.from_arrays([], []).dots, 0)

    def test_names_fit_on_a_line(self):
        named = views(["a # b", " tab\tand\nnewline ", "\x1b[31m", "c"])
        self.assertEqual([view.name for view in named], ["a _ b", "tab_and_newline", "_[31m", "c"])


class ProgramsForm(InFolder):
    def test_there_and_back(self):
        path = self.path("views.txt")
        views().write(path)
        self.assertEqual(jc.Views.read(path), views())
        with self.assertRaises(FileExistsError):
            views().write(path)

    def test_numbers_keep_their_bits(self):
        odd = jc.Views.from_arrays([[5e-324, -0.0], [1 / 3, 1e300], [0.1, 2.0], [3.0, 4.0]], [[[1e-5, 1e22]] * 4] * 3)
        back = jc.Views.from_text(odd.text())
        self.assertTrue(all(a.board.tobytes() == b.board.tobytes() and a.pixels.tobytes() == b.pixels.tobytes() for a, b in zip(odd, back)))

    def test_the_form_by_hand(self):
        text = "\ufeff# mine\r\ncenter 655 470 # px\r\nview\r\n0 0 1e1 2.5\r\n\r\nview  plate 2 # second\r\n1 2 3 4\r\n"
        read = jc.Views.from_text(text)
        self.assertEqual((read.centre, [view.name for view in read]), ((655.0, 470.0), ["", "plate 2"]))
        self.assertEqual(read[0].pixels.tolist(), [[10.0, 2.5]])

    def test_faults_have_their_line(self):
        for text, line, said in (
            ("view\n1 2 3\n", 2, "expected 4 finite numbers"),
            ("view\n1 2 3 4 5\n", 2, "expected 4"),
            ("view\n1 2 3 nan\n", 2, "expected 4"),
            ("view\n1,2,3,4\n", 2, "expected 4"),
            ("view\n1 2 3 1_0\n", 2, "expected 4"),
            ("centre 1\n", 1, "expected 2"),
            ("centre 1 2\ncentre 1 2\n", 2, "stated twice"),
            ("1 2 3 4\n", 1, "before the first `view`"),
        ):
            with self.assertRaisesRegex(FormatError, said) as raised:
                jc.Views.from_text(text, "mine.txt")
            self.assertEqual((raised.exception.line, raised.exception.source), (line, "mine.txt"))
        with self.assertRaisesRegex(FormatError, "UTF-8"):
            jc.Views.read(self.path("picture.png", b"\x89PNG\r\n"))


class CalibrationRs(InFolder):
    def test_there_and_back(self):
        path = self.path("views.json")
        views().write_calibration_rs(path)
        self.assertEqual(jc.Views.from_calibration_rs(path), views(centre=None))
        self.assertEqual(formats.read_any(path), views(centre=None))
        with self.assertRaises(FileExistsError):
            views().write_calibration_rs(path)

    def test_the_published_field_names(self):
        path = self.path("views.json")
        views(["", "", "", ""]).write_calibration_rs(path)
        whole = json.loads(path.read_text())
        self.assertEqual(list(whole), ["views"])
        self.assertEqual((set(whole["views"][0]), whole["views"][0]["meta"]), ({"obs", "meta"}, None))
        self.assertEqual(set(whole["views"][0]["obs"]), {"points_3d", "points_2d"})
        self.assertEqual(whole["views"][0]["obs"]["points_3d"][1], [20.0, 0.0, 0.0])

    def test_lists_of_views_and_of_observations(self):
        obs = {"points_3d": [[0, 0, 0], [0.1, 0, 0], [0.1, 0.1, 0], [0, 0.1, 0]], "points_2d": [[1, 2], [3, 4], [5, 6], [7, 8]]}
        for whole in ([obs], [{"obs": obs, "meta": {"name": "a"}}], {"views": [{"obs": obs | {"cov_px": []}, "meta": "a"}]}):
            read = jc.Views.from_calibration_rs(self.path("v.json", json.dumps(whole)))
            self.assertEqual(read[0].board.tolist(), [[0, 0], [0.1, 0], [0.1, 0.1], [0, 0.1]])

    def test_what_isnt_of_the_form(self):
        obs = {"points_3d": [[0, 0, 0]], "points_2d": [[1, 2]]}
        for whole, said in (
            ("{", "not JSON"),
            ("5", "neither"),
            ('{"views": [{}]}', "view 1 has no"),
            ('[{"points_3d": [[0, 0, 0]], "points_2d": []}]', "1 places and 0 pixels"),
            ('[{"points_3d": [["a", 0, 0]], "points_2d": [[1, 2]]}]', "real numbers"),
            ('[{"points_3d": [[0, 0, 0], [1]], "points_2d": [[1, 2]]}]', ""),
            ('[{"points_3d": [[NaN, 0, 0]], "points_2d": [[1, 2]]}]', "finite"),
            (json.dumps([obs | {"cov_px": [{"xx": 1, "xy": 0, "yy": 1}]}]), "weights its dots"),
        ):
            with self.subTest(whole), self.assertRaisesRegex(FormatError, said):
                jc.Views.from_calibration_rs(self.path("v.json", whole))


class Tables(InFolder):
    def test_there_and_back(self):
        path = self.path("views.csv")
        views(["a", "b, c", 'd "e"', "3"]).write_csv(path)
        self.assertEqual(jc.Views.from_csv(path, (655, 470)), views(["a", "b, c", 'd "e"', "3"]))
        views().write_csv(self.path("unnamed.csv"))
        self.assertEqual([view.name for view in jc.Views.from_csv(self.path("unnamed.csv"))], ["one.png", "two words.png", "3", "drei-ä.png"])
        with self.assertRaisesRegex(ValueError, "two views have one name"):
            views(["a", "a", "b", "c"]).write_csv(self.path("twice.csv"))
        with self.assertRaises(FileExistsError):
            views().write_csv(path)

    def test_headings_and_delimiters(self):
        for text in (
            "0,20,412.5,305\n1,2,3,4\n",
            "x,y,u,v\n0,20,412.5,305\n1,2,3,4\n",
            "U;V;X;Y;note\n412.5;305;0;20;good\n3;4;1;2;\n",
            "0 20 412.5 305\n1 2 3 4 # a comment\n",
            "x\ty\tz\tu\tv\n0\t20\t7\t412.5\t305\n1\t2\t7\t3\t4\n",
            "\ufeff0,20,0,412.5,305\r\n\r\n1,2,0,3,4\r\n",
        ):
            read = jc.Views.from_csv([self.path("left.csv", text)])
            self.assertEqual((read[0].name, read[0].board.tolist()), ("left", [[0, 20], [1, 2]]), text)
            self.assertEqual(read[0].pixels.tolist(), [[412.5, 305], [3, 4]])

    def test_a_file_for_each_view(self):
        paths = [self.path(f"view-{i}.csv", "\n".join(",".join(map(repr, row)) for row in np.hstack([BOARD, pixels]).tolist())) for i, pixels in enumerate(PIXELS)]
        self.assertEqual(jc.Views.from_csv(paths), jc.Views.from_arrays(BOARD, PIXELS, [f"view-{i}" for i in range(4)]))

    def test_what_isnt_of_the_form(self):
        for text, said in (
            ("", "no rows"),
            ("1,2,3\n", "3 columns"),
            ("a,b,c,d\n1,2,3,4\n", "no column x"),
            ("x,y,u,v,v\n1,2,3,4,5\n", "no column v, or it twice"),
            ("1,2,3,4\n1,2,3\n", "line 2: read '1 2 3'"),
            ("1,2,3,4\n1,2,3,x\n", "line 2"),
            ("1,2,3,nan\n", "finite"),
            ("1,2,0,3,4\n1,2,1,3,4\n", "don't lie in one plane"),
            (b"\xff\xfe1,2,3,4", "UTF-8"),
        ):
            with self.subTest(text), self.assertRaisesRegex(FormatError, said):
                jc.Views.from_csv(self.path("t.csv", text))


if __name__ == "__main__":
    unittest.main()
