"""What needs OpenCV: its files, photographs, the host and whole searches, on drawn photographs whose tilt is known."""

import os
import tempfile
import unittest
from pathlib import Path

import numpy as np

import jinnychair as jc
from jinnychair import formats, geometry, photographs
from jinnychair.errors import FormatError

from . import drawn, needs_cv2
from .test_views import BOARD, InFolder, views

TILTS = np.radians([-1.2, -0.4])
HALF_SIZE = {"camera": (710.0, 707.5, 327.0, 235.0), "size": (655, 470)}


@needs_cv2
class FileStorage(InFolder):
    def test_there_and_back(self):
        for name in ("views.yml", "views.yaml", "views.xml", "views.json"):
            views().write_opencv(self.path(name))
            self.assertEqual(jc.Views.from_opencv(self.path(name)), views(), name)
            self.assertEqual(formats.read_any(self.path(name)), views(), name)
            with self.assertRaises(FileExistsError):
                views().write_opencv(self.path(name))
        with self.assertRaisesRegex(ValueError, "ends with"):
            views().write_opencv(self.path("views.txt"))

    def storage(self, name, **nodes):
        import cv2

        file = cv2.FileStorage(str(self.path(name)), cv2.FILE_STORAGE_WRITE)
        for key, value in nodes.items():
            file.write(key, value)
        file.release()
        return self.path(name)

    def test_what_opencvs_calibration_sample_writes(self):
        pixels = np.array([view.pixels for view in views()], np.float32)
        expected = jc.Views.from_arrays(BOARD, pixels)
        for suffix in ("yml", "xml", "json"):
            path = self.storage(f"sized.{suffix}", image_points=pixels, board_width=5, board_height=4, square_size=20.0)
            self.assertEqual(jc.Views.from_opencv(path), expected)
            grid = np.pad(BOARD, ((0, 0), (0, 1))).astype(np.float32)[None]
            path = self.storage(f"grid.{suffix}", image_points=pixels, grid_points=grid)
            self.assertEqual(jc.Views.from_opencv(path), expected)

    def test_points_of_a_list_as_the_sample_writes_them(self):
        listed = "".join(f"   - [ {x}, {y}, 0. ]\n" for x, y in BOARD)
        flat = ", ".join(f"{x}, {y}, 0." for x, y in BOARD)
        pixels = np.array([view.pixels for view in views()], np.float32)
        for number, text in enumerate((f"grid_points:\n{listed}", f"grid_points: [ {flat} ]\n")):
            path = self.storage(f"list-{number}.yml", image_points=pixels)
            path.write_text(path.read_text() + text)
            self.assertEqual(jc.Views.from_opencv(path), jc.Views.from_arrays(BOARD, pixels))

    def test_a_packed_file(self):
        path = self.storage("views.yml.gz", image_points=views()[0].pixels[None], object_points=np.pad(BOARD, ((0, 0), (0, 1)))[None])
        self.assertEqual(jc.Views.from_opencv(path), views()[:1].with_centre(None).named([""]))

    def test_what_isnt_of_the_form(self):
        for path, said in (
            (self.path("a.yml", "no storage at all"), ""),
            (self.path("b.yml", "%YAML:1.0\n---\nfoo: 1\n"), "no `image_points`"),
            (self.path("c.xml", "<html>"), ""),
            (self.path("d.json", "{"), ""),
            (self.path("e.yml", b"\x00\xff"), ""),
            (self.storage("f.yml", image_points=np.zeros((2, 4, 2))), "neither `object_points` nor"),
            (self.storage("g.yml", image_points=np.zeros((3, 4, 2)), object_points=np.zeros((2, 4, 3))), "2 lists"),
            (self.storage("h.yml", image_points=np.zeros((3, 4, 2)), object_points=np.zeros((3, 5, 3))), "5 places and 4"),
            (self.storage("i.yml", image_points=np.full((3, 4, 2), np.nan), object_points=np.zeros((3, 4, 3))), "finite"),
        ):
            with self.subTest(path), self.assertRaisesRegex(FormatError, said):
                jc.Views.from_opencv(path)
        with self.assertRaises(FileNotFoundError):
            jc.Views.from_opencv(self.path("absent.yml"))


@needs_cv2
class Photographs(InFolder):
    def found(self, kind, grid, pitch, radius, count=2, held=drawn.HELD, **how):
        board = photographs.board_of(grid, pitch, kind)
        square = {"square": pitch} if kind == "chessboard" else {}
        paths, exact = drawn.photographs(Path(self.folder.name), board, radius, TILTS, np.random.default_rng(5), held[:count], **square, **how)
        seen = jc.Views.from_photographs(paths, grid, pitch, kind=kind, drawn=self.path("found"))
        self.assertEqual((seen.left_out, [view.name for view in seen]), ((), [path.name for path in paths]))
        self.assertEqual(len(list(self.path("found").iterdir())), count)
        errors = [np.abs(view.pixels - pixels).max() for view, pixels in zip(seen, exact)]
        # A plate without a mark may be found turned by half.
        turned = [np.abs(view.pixels - pixels[::-1]).max() for view, pixels in zip(seen, exact)]
        return max(map(min, errors, turned)), seen

    def test_circles(self):
        noisy = {"blur": 3.0, "noise": 8.0}
        for radius, how, limit in (
            (5.0, {}, 0.06), (1.0, {}, 0.15), (9.0, {}, 0.06), (7.0, {"bright": True}, 0.08), (5.0, {"bits": 12}, 0.06), (5.0, {"bits": 16}, 0.06), (5.0, noisy, 0.2),
        ):  # fmt: skip
            with self.subTest(radius=radius, **how):
                self.folder.cleanup()
                os.mkdir(self.folder.name)
                self.assertLess(self.found("circles", (10, 7), 20.0, radius, 1, drawn.HELD[5:], **how)[0], limit)

    def test_the_plate_is_seen_from_its_front(self):
        _, seen = self.found("circles", (10, 7), 20.0, 5.0, 3)
        for view in seen:
            a, b, c = view.pixels[[0, 1, 10]]
            self.assertGreater(np.cross(b - a, c - a), 0.0)

    def test_a_grid_in_the_order_of_its_back_is_turned_over(self):
        board = photographs.board_of((10, 7), 20.0)
        matrix = drawn.to_pixels(drawn.HELD[5], board.mean(axis=0), TILTS)
        pixels = drawn.mapped(matrix, board)
        for order in (pixels.reshape(7, 10, 2)[::-1], pixels.reshape(7, 10, 2)[:, ::-1]):
            turned = photographs._oriented(board, (10, 7), order.reshape(-1, 2))[1]
            self.assertTrue(np.array_equal(turned, pixels) or np.array_equal(turned, pixels[::-1]))

    def test_asymmetric_circles(self):
        self.assertLess(self.found("asymmetric", (4, 11), 14.0, 4.0)[0], 0.06)

    def test_chessboard(self):
        self.assertLess(self.found("chessboard", (9, 6), 20.0, 0.0, **HALF_SIZE)[0], 0.2)

    def test_charuco(self):
        import cv2

        if not hasattr(getattr(cv2, "aruco", None), "CharucoBoard_create"):
            self.skipTest("this OpenCV has no such ChArUco")
        grid, scale = (8, 6), 10
        pattern = cv2.aruco.CharucoBoard_create(*grid, 20.0, 15.0, cv2.aruco.Dictionary_get(cv2.aruco.DICT_4X4_50))
        picture = pattern.draw((grid[0] * 20 * scale, grid[1] * 20 * scale), marginSize=0)
        board = photographs.board_of(grid, 20.0, "charuco")
        paths, exact = [], []
        for number, held in enumerate(drawn.HELD[:2]):
            matrix = drawn.to_pixels(held, board.mean(axis=0), TILTS)
            # The first inner corner is a square away from the picture's corner, which is half a pixel before its first one's middle.
            to_board = np.array([[1 / scale, 0, 0.5 / scale - 20.0], [0, 1 / scale, 0.5 / scale - 20.0], [0, 0, 1.0]])
            warped = cv2.warpPerspective(cv2.GaussianBlur(picture, (0, 0), 2.0), matrix @ to_board, drawn.SIZE, borderValue=255)
            paths.append(self.path(f"{number}.png"))
            cv2.imwrite(str(paths[-1]), cv2.GaussianBlur(warped, (0, 0), 1.0))
            exact.append(matrix)
        seen = jc.Views.from_photographs(paths, grid, 20.0, kind="charuco", marker=15.0)
        self.assertEqual(len(seen), 2)
        for view, matrix in zip(seen, exact):
            self.assertGreater(len(view), 20)
            self.assertLess(np.abs(view.pixels - drawn.mapped(matrix, view.board)).max(), 0.1)

    def test_a_photograph_without_a_grid_is_named_and_left_out(self):
        import cv2

        board = photographs.board_of((10, 7), 20.0)
        paths, _ = drawn.photographs(Path(self.folder.name), board, 5.0, TILTS, np.random.default_rng(5), drawn.HELD[:1], **HALF_SIZE)
        cv2.imwrite(str(self.path("empty.png")), np.full((470, 655), 128, np.uint8))
        seen = jc.Views.from_photographs([self.path("empty.png"), *paths], (10, 7), 20.0)
        self.assertEqual((len(seen), seen.left_out), (1, ("empty.png: no grid of 10 x 7 was found",)))

    def test_what_isnt_a_photograph(self):
        import cv2

        text = self.path("views.txt", "view\n")
        with self.assertRaisesRegex(FormatError, "can't read it as a photograph"):
            jc.Views.from_photographs([text], (10, 7), 20.0)
        with self.assertRaises(FileNotFoundError):
            jc.Views.from_photographs([self.path("absent.png")], (10, 7), 20.0)
        for name, size in (("a.png", (470, 655)), ("b.png", (471, 655))):
            cv2.imwrite(str(self.path(name)), np.full(size, 128, np.uint8))
        with self.assertRaisesRegex(FormatError, "655 x 471 px, and the first photograph has 655 x 470"):
            jc.Views.from_photographs([self.path("a.png"), self.path("b.png")], (10, 7), 20.0)
        for grid, pitch, kind in (((1, 7), 20.0, "circles"), ((10, 7), 0.0, "circles"), ((10, 7), 20.0, "dots")):
            with self.assertRaises(ValueError):
                jc.Views.from_photographs([], grid, pitch, kind=kind)


def plate(noise, seed, count=14):
    board = photographs.board_of((10, 7), 20.0)
    return jc.Views.from_arrays(board, drawn.seen(board, TILTS, noise, np.random.default_rng(seed), drawn.HELD[:count]), centre=drawn.CAMERA[2:])


@needs_cv2
class Searches(unittest.TestCase):
    def test_photographs_of_a_known_tilt(self):
        board = photographs.board_of((10, 7), 20.0)
        with tempfile.TemporaryDirectory() as folder:
            paths, _ = drawn.photographs(Path(folder), board, 5.0, TILTS, np.random.default_rng(11))
            seen = jc.Views.from_photographs(paths, (10, 7), 20.0)
            found = jc.search(seen, drawn.CAMERA[2:])
            error = np.degrees(np.subtract(found.tilts, TILTS))
            self.assertLess(np.abs(error).max(), 0.01, found)
            # Three deviations: one set in ten has a tilt beyond the two that `uncertainty` states.
            self.assertTrue((np.abs(np.subtract(found.tilts, TILTS)) <= 1.5 * np.array(found.uncertainty())).all(), found)
            self.written(found, Path(folder, "camera.yml"), seen)

    def written(self, found, path, seen):
        """The camera as OpenCV reads it projects the plate to where the search says that it does."""
        import cv2

        found.write_opencv(path)
        file = cv2.FileStorage(str(path), cv2.FILE_STORAGE_READ)
        matrix, distortion = file.getNode("camera_matrix").mat(), file.getNode("distortion_coefficients").mat()
        self.assertEqual(distortion.shape, (14, 1))
        host = jc.OpenCVHost(seen, found.centre)
        fit = host.fit(found.tilts, found.winner.camera.k[:2])
        projected = [
            cv2.projectPoints(np.pad(view.board, ((0, 0), (0, 1))), turn, move, matrix, distortion)[0][:, 0]
            for view, turn, move in zip(seen, fit.rotations, fit.translations)
        ]
        errors = np.concatenate(projected) - np.concatenate([view.pixels for view in seen])
        self.assertLess(np.abs(errors - found.errors()).max(), 1e-3)

    def test_every_row_is_projected_as_opencv_does(self):
        import cv2

        rng = np.random.default_rng(2)
        ideal, tilts = rng.uniform(-0.4, 0.4, (50, 2)), rng.uniform(-0.3, 0.3, 2)
        camera = jc.PinholeCamera(jc.FxFyCxCy(*drawn.CAMERA), jc.BrownConrady5(0.01, -0.02, 0.003, 0.004, -0.005))
        points = np.column_stack([ideal, np.ones(50)])
        distortion = formats.opencv_distortion(camera, tilts)
        expected, _ = cv2.projectPoints(points, np.zeros(3), np.zeros(3), camera.k.matrix(), distortion)
        matrix = geometry.tilt_projection_matrix(geometry.trig(tilts))
        sensor = geometry.apply_homography(matrix, geometry.distort(camera.dist, ideal))
        self.assertLess(np.abs(geometry.sensor_to_pixel(camera.k, sensor) - expected[:, 0]).max(), 1e-9)

    def test_bounds_cover(self):
        """Of 160 tilts 95.45 % should lie within two standard deviations: more than 16 lie beyond once in some hundred times.
        The root of their mean square, in deviations, should be 1: it is beyond these limits as rarely, by the chi-square law."""
        fits = [jc.OpenCVHost(plate(0.1, 100 + seed, 6)).fit((0.0, 0.0), free_tilts=True) for seed in range(80)]
        ratios = np.array([np.abs(np.subtract(fit.sensor, TILTS)) / fit.deviations for fit in fits])
        self.assertLessEqual(int((ratios > 2.0).sum()), 16)
        self.assertTrue(0.85 <= np.sqrt((ratios**2).mean()) <= 1.15, np.sqrt((ratios**2).mean()))

    def test_tilts_and_centre_are_held(self):
        seen = plate(0.05, 1, 5)
        for tilts in ((0.05, -0.02), (-0.2, 0.1), (0.0, 0.0)):
            fit = jc.OpenCVHost(seen).fit(tilts)
            self.assertEqual((fit.sensor, fit.k[2:], fit.deviations), (tilts, drawn.CAMERA[2:], None))
        free = jc.OpenCVHost(seen).fit((0.0, 0.0), free_tilts=True)
        self.assertLess(free.rms, jc.OpenCVHost(seen).fit((0.0, 0.0)).rms)

    def test_an_exact_plate_has_its_tilt(self):
        found = jc.search(plate(0.0, 1, 5), options=jc.Options(refine_rounds=12, min_counted=90))
        self.assertLess(np.degrees(np.abs(np.subtract(found.tilts, TILTS)).max()), 0.003)
        self.assertLess(found.winner.mean_reproj_error, 1e-2)

    def test_a_host_of_ones_own(self):
        seen = plate(0.05, 1, 4)
        cv2_host, asked = jc.OpenCVHost(seen), []

        def host(seed):
            asked.append(seed)
            return None if len(asked) % 3 == 0 else cv2_host(seed)

        options = jc.Options(refine_rounds=2)
        found = jc.search(seen, options=options, host=host, base=drawn.CAMERA)
        self.assertEqual(len(found.tried), len(asked))
        self.assertEqual(sum(tried.outcome.skipped is jc.SkipReason.HOST_FAILED for tried in found.tried), len(asked) // 3)

        class Broken(Exception):
            pass

        def broken(seed):
            raise Broken

        with self.assertRaises(Broken):
            jc.search(seen, options=options, host=broken, base=drawn.CAMERA)

    def test_a_leave_one_out_names_a_view_that_disagrees(self):
        seen = plate(0.02, 3, 8)
        bent = [view.pixels + (0.0 if i != 4 else 0.004 * (view.pixels - view.pixels.mean(axis=0)) ** 2 / 100) for i, view in enumerate(seen)]
        found = jc.search(jc.Views.from_arrays(seen[0].board, bent, centre=seen.centre), options=jc.Options(refine_rounds=4))
        rms = [fit.rms for fit in found.without_each_view()]
        self.assertEqual(int(np.argmin(rms)), 4)

    def test_more_dots_than_a_search_takes(self):
        board = photographs.board_of((20, 18), 8.0)
        seen = jc.Views.from_arrays(board, drawn.seen(board, TILTS, 0.02, np.random.default_rng(1), drawn.HELD[:4]), centre=drawn.CAMERA[2:])
        self.assertEqual(seen.dots, 1440)
        found = jc.search(seen, options=jc.Options(refine_rounds=3))
        self.assertEqual(found.errors().shape, (1024, 2))

    def test_centres_anywhere(self):
        seen = plate(0.0, 1, 4)
        moved = jc.Views.from_arrays(seen[0].board, [view.pixels - (3000.0, 2000.0) for view in seen])
        fits = [jc.OpenCVHost(seen).fit(TILTS), jc.OpenCVHost(moved, np.subtract(seen.centre, (3000.0, 2000.0))).fit(TILTS)]
        self.assertTrue(np.allclose(fits[0].k[:2], fits[1].k[:2], atol=0.02), fits)

    def test_what_cant_be_searched(self):
        seen = plate(0.05, 1, 4)
        for wrong, said in (
            (lambda: jc.search(seen[:2]), "2 views: at least 3"),
            (lambda: jc.search(seen.with_centre(None)), "state the optical centre"),
            (lambda: jc.search(seen, (1, 2, 3)), "shape"),
            (lambda: jc.search(seen, (np.nan, 1)), "finite"),
            (lambda: jc.search(jc.Views([*seen, jc.View(BOARD[:3], BOARD[:3])], seen.centre)), "fewer than 4 dots in view 5"),
            (lambda: jc.search(seen, options=jc.Options(max_abs_tilt=0.6)), "TILT_TOO_LARGE"),
        ):
            with self.subTest(said), self.assertRaisesRegex(ValueError, said):
                wrong()
        line = jc.Views.from_arrays(np.column_stack([np.arange(6.0), np.zeros(6)]), [np.column_stack([np.arange(6.0), np.zeros(6)])] * 3, centre=(0, 0))
        with self.assertRaisesRegex(ValueError, "view 1 lie on a line"):
            jc.search(line)


if __name__ == "__main__":
    unittest.main()
