"""The library as it is bound: declarations, layout, version, arrays in and out, refusals, threads and closed searches."""

import copy
import ctypes
import math
import os
import random
import re
import subprocess
import sys
import tempfile
import threading
import unittest
from pathlib import Path
from shutil import which
from unittest import mock

import numpy as np

import jinnychair as jc
from jinnychair import _declarations as c
from jinnychair import _library, errors, geometry, journal

ROOT = Path(__file__).resolve().parents[2]
BASE, CENTRE = (1420.0, 1415.0, 655.0, 470.0), (655.0, 470.0)
INPUTS = jc.Inputs(14, BASE, CENTRE)


def toy_host(seed, beside=0.0):
    """A camera whose errors are least at tilts of -1.2 and -0.4 degrees, or beside it."""
    error = 40.0 * math.hypot(seed.sensor.tilt_x + 0.0209 - beside, seed.sensor.tilt_y + 0.00698) + 0.05
    k = seed.reference_k
    return jc.Solution(jc.PinholeCamera(k), [[0.0, 0.0, k.cx + error, k.cy]])


class Declarations(unittest.TestCase):
    def test_the_header_gives_them(self):
        check = subprocess.run([sys.executable, ROOT / "python/tools/declare", "--check"], capture_output=True, text=True)
        self.assertEqual(check.returncode, 0, check.stderr)

    def test_every_function_of_the_header_is_declared(self):
        text = re.sub(r"/\*.*?\*/", "", (ROOT / "include/jinnychair.h").read_text(), flags=re.S)
        inline = {"jc_is_compatible", "jc_distort"}
        self.assertEqual(set(re.findall(r"\b(jc_\w+)\(", text)) - inline, set(c.FUNCTIONS))

    @unittest.skipIf(which("cc") is None, "no C compiler")
    def test_sizes_and_offsets_are_a_c_compilers(self):
        lines = []
        for struct in (it for it in vars(c).values() if isinstance(it, type) and issubclass(it, ctypes.Structure) and hasattr(it, "_fields_")):
            lines.append((f"sizeof({struct.__name__})", ctypes.sizeof(struct)))
            lines += [(f"offsetof({struct.__name__}, {name})", getattr(struct, name).offset) for name, _ in struct._fields_]
        probes = "\n".join(f'printf("%zu\\n", {claim});' for claim, _ in lines)
        with tempfile.TemporaryDirectory() as folder:
            source = Path(folder, "probe.c")
            source.write_text(f'#include <stdio.h>\n#include "jinnychair.h"\nint main(void) {{\n{probes}\nreturn 0; }}\n')
            subprocess.run(["cc", "-std=c11", f"-I{ROOT}/include", source, "-c", "-o", f"{folder}/probe.o"], check=True)
            subprocess.run(["cc", f"{folder}/probe.o", "-o", f"{folder}/probe", _library._found()], check=True)
            said = subprocess.run([f"{folder}/probe"], capture_output=True, text=True, check=True, env={"LD_LIBRARY_PATH": str(Path(_library._found()).resolve().parent)})
        self.assertGreater(len(lines), 150)
        self.assertEqual([int(size) for size in said.stdout.split()], [size for _, size in lines])

    def test_each_struct_comes_back_as_it_went(self):
        rng = random.Random(1)
        echoes = [name for name in c.FUNCTIONS if name.startswith("jc_echo_")]
        self.assertGreater(len(echoes), 30)
        for name in echoes:
            struct = c.FUNCTIONS[name][0]
            sent = struct()
            fill(sent, rng)
            self.assertEqual(values(getattr(jc._library.library(), name)(sent)), values(sent), name)

    def test_another_version_or_layout_is_refused(self):
        for version in (c.VERSION - 1, c.VERSION + 1, 0):
            with self.assertRaisesRegex(errors.LibraryError, "install both from one release"):
                _library.check_version(version)
        size, offsets = c.LAYOUT[c.jc_line]
        for wrong in ((size + 8, offsets), (size, offsets | {"score": 64})):
            with self.assertRaisesRegex(errors.LibraryError, "jc_line isn't laid out"):
                _library.check_layout({c.jc_line: wrong})
        _library.check_layout(c.LAYOUT)

    def test_a_library_that_isnt_there_or_isnt_this_one_is_named(self):
        libc = next(iter(Path("/lib").glob("**/libm.so.6")))
        for path, said in (("/nowhere/libjinnychair.so", "can't be loaded"), (libc, "has no jc_version")):
            code = "import jinnychair; jinnychair.geometry.sqrt(2)"
            run = subprocess.run(
                [sys.executable, "-c", code], cwd=ROOT / "python", capture_output=True, text=True, env=os.environ | {"JINNYCHAIR_LIBRARY": str(path)}
            )
            self.assertEqual(run.returncode, 1)
            self.assertIn("LibraryError", run.stderr)
            self.assertIn(said, run.stderr)

    def test_versions_are_one(self):
        self.assertEqual(jc.version(), jc.__version__)

    def test_every_number_has_a_name_and_a_text(self):
        self.assertEqual(set(c.REFUSALS), {int(number) for number in jc.Number})
        self.assertEqual(set(c.SKIPS), {int(reason) for reason in jc.SkipReason})
        for number in jc.Number:
            refused = jc.Refused(number)
            self.assertEqual((refused.number, refused.name), (number, number.name))
            self.assertIn(f"({int(number)}, {number.name})", str(refused))


def fill(struct, rng):
    """Numbers in every field; flags are kept as they are written."""
    for name, kind in struct._fields_:
        field = getattr(struct, name)
        if isinstance(field, ctypes.Structure):
            fill(field, rng)
        elif kind is ctypes.c_double:
            setattr(struct, name, rng.uniform(-1e9, 1e9))
        elif kind is ctypes.c_uint8:
            setattr(struct, name, rng.randint(0, 1))
        else:
            setattr(struct, name, rng.getrandbits(63))


def values(struct):
    """Every number of a struct."""
    fields = [getattr(struct, name) for name, _ in struct._fields_]
    return [values(field) if isinstance(field, ctypes.Structure) else field for field in fields]


class Arrays(unittest.TestCase):
    def test_shapes(self):
        pixels = np.arange(24.0).reshape(3, 4, 2)
        self.assertEqual(geometry.pixel_to_sensor(BASE, pixels).shape, (3, 4, 2))
        self.assertEqual(geometry.sqrt(np.ones((2, 5))).shape, (2, 5))
        self.assertEqual(geometry.sqrt(2.0), 2.0**0.5)
        self.assertEqual(geometry.untilt_points(BASE, geometry.trig((0.0, 0.0)), pixels.reshape(-1, 2)).shape, (12, 2))
        self.assertEqual(geometry.design_rows([[0, 0], [1, 0], [1, 1], [0, 1]], [[0, 0], [2, 0], [2, 2], [0, 2]]).shape, (8, 9))
        self.assertEqual(geometry.distort((0, 0, 0, 0, 0), np.empty((0, 2))).shape, (0, 2))

    def test_other_dtypes_and_orders_are_copied(self):
        pixels = np.asfortranarray(np.arange(20).reshape(10, 2))
        for array in (pixels, pixels.astype(np.float32), pixels.astype(np.int8), pixels[::2], pixels.tolist()):
            expected = geometry.pixel_to_sensor(BASE, np.array(array, np.float64).copy())
            self.assertTrue(np.array_equal(geometry.pixel_to_sensor(BASE, array), expected))

    def test_nothing_that_is_given_is_changed(self):
        points = np.array([[0.0, 0.0], [1.0, 0.0], [1.0, 1.0], [0.0, 1.0]])
        before = points.copy()
        geometry.normalize_points_2d(points)
        geometry.design_rows(points, points)
        self.assertTrue(np.array_equal(points, before))

    def test_wrong_shapes(self):
        for call in (
            lambda: geometry.pixel_to_sensor((1, 2, 3), (0, 0)),
            lambda: geometry.pixel_to_sensor(BASE, (0, 0, 0)),
            lambda: geometry.pixel_to_sensor(BASE, 5.0),
            lambda: geometry.untilt_points(BASE, (0, 1, 0, 1), [[0, 0, 0]]),
            lambda: geometry.untilt_points(BASE, (0, 1, 0), [[0, 0]]),
            lambda: geometry.determinant(np.eye(2)),
            lambda: geometry.determinant(np.arange(9)),
            lambda: geometry.points_are_collinear([1, 2, 3, 4]),
            lambda: geometry.points_are_collinear([[1, 2], [3]]),
            lambda: geometry.mean_reproj_error((1,) * 9, (0, 1, 0, 1), [[0, 0, 0]]),
            lambda: geometry.mean_reproj_error((1,) * 9, (0, 1, 0, 1), [[0, 0, 0, 0]], [True, True]),
            lambda: geometry.count_errors((1,) * 8, (0, 0), []),
            lambda: geometry.conic_to_camera(np.zeros(5)),
            lambda: geometry.tilt_complexity([0.1]),
            lambda: jc.Search(jc.Inputs(3, (1, 2, 3), CENTRE)),
            lambda: jc.Search(jc.Inputs(3, BASE, CENTRE, jc.Options(tilt_x_seeds=[[0.0]]))),
            lambda: jc.Search(jc.Inputs(3, BASE, CENTRE, decomposition=[(1, 2, 3)])),
            lambda: jc.Search(jc.Inputs(-1, BASE, CENTRE)),
        ):
            with self.subTest(call), self.assertRaises(ValueError):
                call()

    def test_wrong_types(self):
        for call in (
            lambda: geometry.sqrt("2"),
            lambda: geometry.sqrt(None),
            lambda: geometry.sqrt(1 + 2j),
            lambda: geometry.pixel_to_sensor(BASE, np.array([[1j, 2]])),
            lambda: geometry.pixel_to_sensor(["1", "2", "3", "4"], (0, 0)),
            lambda: geometry.undistort((0,) * 5, (0, 0), 2.5),
            lambda: geometry.mean_reproj_error((1,) * 9, (0, 1, 0, 1), [[0, 0, 0, 0]], [0.5]),
            lambda: geometry.points_are_collinear([[True, False]]),
            lambda: jc.Search(jc.Inputs(3.0, BASE, CENTRE)),
            lambda: jc.Search(jc.Inputs(True, BASE, CENTRE)),
            lambda: jc.Search(jc.Inputs(3, BASE, CENTRE, jc.Options(refine_rounds="2"))),
            lambda: jc.Search(jc.Inputs(3, None, CENTRE)),
        ):
            with self.subTest(call), self.assertRaises(TypeError):
                call()
        with self.assertRaises(ValueError):
            geometry.undistort((0,) * 5, (0, 0), 2**32)

    def test_nan_is_a_number_or_refused(self):
        nan = math.nan
        self.assertTrue(math.isnan(geometry.sqrt(nan)) and math.isnan(geometry.sqrt(-1.0)))
        self.assertTrue(np.isnan(geometry.pixel_to_sensor(BASE, (nan, 0.0))[0]))
        self.refused(27, lambda: geometry.sine(nan))
        self.refused(27, lambda: geometry.trig((0.0, 0.51)))
        self.refused(20, lambda: geometry.design_rows([[nan, 0]] * 4, [[0, 0]] * 4))
        self.refused(3, lambda: jc.Search(jc.Inputs(3, BASE, CENTRE, jc.Options(max_abs_tilt=nan))))
        self.refused(7, lambda: jc.Search(jc.Inputs(3, BASE, CENTRE, jc.Options(tilt_x_seeds=[nan]))))
        self.refused(6, lambda: jc.Search(jc.Inputs(3, BASE, CENTRE, decomposition=[(nan, 1, 1, 1, 0, 0)])))

    def test_empty_lists(self):
        self.assertFalse(geometry.points_are_collinear([]))
        self.assertEqual(geometry.observed_pixel_center([]), (0.0, 0.0))
        self.assertEqual(geometry.mean_reproj_error((1,) * 9, (0, 1, 0, 1), []), math.inf)
        self.assertEqual(geometry.count_errors((1,) * 9, (0, 0), []), (0.0, 0))
        self.refused(19, lambda: geometry.normalize_points_2d([]))
        self.refused(22, lambda: geometry.design_rows([], []))
        self.refused(2, lambda: jc.Search(jc.Inputs(3, BASE, CENTRE, jc.Options(tilt_x_seeds=[]))))
        self.assertEqual(journal.read_line(b""), None)
        self.assertEqual(list(journal.read_lines(b"")), [])

    def test_too_long_lists(self):
        self.refused(17, lambda: geometry.untilt_points(BASE, (0, 1, 0, 1), np.zeros((401, 2))))
        self.refused(13, lambda: geometry.count_errors((1,) * 9, (0, 0), np.zeros((1025, 4))))
        self.refused(13, lambda: geometry.count_errors((1,) * 9, (0, 0), np.zeros((1, 4)), [2]))
        self.refused(5, lambda: jc.Search(jc.Inputs(3, BASE, CENTRE, jc.Options(tilt_x_seeds=np.zeros(10**6)))))

    def refused(self, number, call):
        with self.assertRaises(jc.Refused) as raised:
            call()
        self.assertEqual(raised.exception.number, number)


class Searches(unittest.TestCase):
    def test_a_whole_search(self):
        shown = []
        search = jc.Search(INPUTS)
        winner = search.run(toy_host, shown.append)
        self.assertEqual(winner, search.result())
        best = min(shown, key=lambda tried: tried.outcome.score)
        self.assertEqual((winner.number, winner.score), (best.number, best.outcome.score))
        self.assertEqual([tried.number for tried in shown], list(range(len(shown))))
        self.assertEqual(search.counts(), (len(shown), 0, 0, 0, 0))
        self.assertLess(abs(winner.sensor.tilt_x + 0.0209), 0.02)
        self.assertIsNone(search.next())

    def test_the_journal_of_a_search(self):
        with tempfile.TemporaryDirectory() as folder:
            path = Path(folder, "night.journal")
            search = jc.Search(INPUTS)
            with journal.JournalWriter.create(path) as writer:
                winner = search.run(toy_host, lambda tried: writer.write(tried.line))
                with self.assertRaisesRegex(jc.JinnychairError, "another process writes to it"):
                    journal.JournalWriter.resume(path, INPUTS)
            text = path.read_bytes()
            self.assertEqual(journal.replay(INPUTS, text), (winner.number, winner.score, None))
            with self.assertRaises(FileExistsError):
                journal.JournalWriter.create(path)
            path.write_bytes(text[: len(text) // 2])
            with journal.JournalWriter.resume(path, INPUTS) as writer:
                self.assertEqual(writer.resumed.search.run(toy_host, lambda tried: writer.write(tried.line)), winner)
            self.assertEqual(path.read_bytes(), text)
            with self.assertRaises(ValueError):
                writer.write(next(journal.read_lines(text)))
            path.write_bytes(b"something else\n")
            with self.assertRaisesRegex(jc.JinnychairError, "isn't touched"):
                journal.JournalWriter.resume(path, INPUTS)
            self.assertEqual(path.read_bytes(), b"something else\n")

    def test_a_damaged_journal_is_refused_with_its_line(self):
        lines = []
        jc.Search(INPUTS).run(toy_host, lambda tried: lines.append(journal.write_line(tried.line)))
        for number, text, line in ((29, b"".join(lines[:3]) + b"no line\n", 4), (30, b"".join([*lines[:2], lines[5]]), 3)):
            with self.assertRaises(jc.Refused) as raised:
                journal.replay(INPUTS, text)
            self.assertEqual((raised.exception.number, raised.exception.line), (number, line))
            resumed = journal.resume(INPUTS, text)
            self.assertEqual((resumed.lines, resumed.ended_by), (line - 1, number))

    def test_what_isnt_a_line(self):
        search = jc.Search(INPUTS)
        search.run_until(toy_host, lambda tried: False)
        line = search.last_line()
        for wrong, error in (
            (line._replace(number=-1), ValueError),
            (line._replace(number=2**64), ValueError),
            (line._replace(number=656), jc.Refused),
            (line._replace(round=17), jc.Refused),
            (line._replace(round=1.0), TypeError),
            (line._replace(skipped=5), ValueError),
            (line._replace(skipped=257), ValueError),
            (line._replace(score=math.nan), jc.Refused),
            (line._replace(score=None), TypeError),
            (line._replace(seed=(1, 2, 3)), ValueError),
            (line._replace(k=(1, 2, 3)), ValueError),
        ):
            with self.subTest(wrong), self.assertRaises(error):
                journal.write_line(wrong)
        text = journal.write_line(line)
        self.assertEqual(journal.read_line(text), (line, len(text)))
        self.assertIsNone(journal.read_line(text, 10**9))
        for at in (-1, 2**64):
            with self.assertRaises(ValueError):
                journal.read_line(text, at)
        with self.assertRaises(ValueError):
            journal.write_report((-1, 0, 0, 0, 0))

    def test_winners_of_stretches(self):
        candidates = []
        search = jc.Search(INPUTS)

        def keep(tried):
            line = tried.line
            camera = jc.PinholeCamera(line.k, jc.BrownConrady5(p1=line.p1, p2=line.p2))
            candidates.append(jc.Winner(line.number, camera, line.seed.sensor, line.mean, line.score))

        winner = search.run(toy_host, keep)
        rng = random.Random(3)
        for _ in range(50):
            cuts = sorted(rng.randint(0, len(candidates)) for _ in range(rng.randint(0, 4)))
            found = None
            for stretch in (candidates[a:b] for a, b in zip([0, *cuts], [*cuts, len(candidates)])):
                best = None
                for one in stretch:
                    best = journal.winner(best, one)
                found = journal.winner(found, best)
            self.assertEqual(found, winner)
        self.assertIsNone(journal.winner(None, None))

    def test_a_search_can_be_stopped_and_goes_on(self):
        search = jc.Search(INPUTS)
        stopped = search.run_until(toy_host, lambda tried: tried.number < 9)
        self.assertIsInstance(stopped, jc.Stopped)
        self.assertEqual(search.progress().answered_in_run, 10)
        self.assertEqual(stopped, search.stop())
        self.assertEqual(search.run(toy_host), jc.Search(INPUTS).run(toy_host))

    def test_what_a_host_raises_goes_through_and_its_seed_waits(self):
        class Broken(Exception):
            pass

        calls = []

        def host(seed):
            calls.append(seed)
            if len(calls) == 5:
                raise Broken
            return toy_host(seed)

        search = jc.Search(INPUTS)
        with self.assertRaises(Broken):
            search.run(host)
        self.assertEqual(search.waiting(), calls[4])
        self.assertEqual(search.run(host), jc.Search(INPUTS).run(toy_host))
        self.assertEqual(calls[5], calls[4])

    def test_a_solution_that_isnt_taken_leaves_its_seed_waiting(self):
        search = jc.Search(INPUTS)
        seed = search.next().seed
        for solution, error in (
            (jc.Solution((1,) * 9, np.zeros((1025, 4))), jc.Refused),
            (jc.Solution((1,) * 8, []), ValueError),
            (jc.Solution((1,) * 9, [[1, 2, 3]]), ValueError),
            (jc.Solution((1,) * 9, [["a", 2, 3, 4]]), TypeError),
            (jc.Solution((1,) * 9, [[0.0] * 4], [1, 1]), ValueError),
            (jc.Solution((1,) * 9, [[0.0] * 4], [256]), ValueError),
            ("nothing", (TypeError, ValueError)),
            (7, TypeError),
        ):
            with self.assertRaises(error):
                search.answer(solution)
            self.assertEqual(search.waiting(), seed)
            self.assertEqual(sum(search.counts()), 0)
        with self.assertRaises(jc.Refused) as raised:
            search.next()
        self.assertEqual(raised.exception.name, "SEED_WAITING")
        self.assertIs(search.answer(None).skipped, jc.SkipReason.HOST_FAILED)

    def test_a_copy_goes_its_own_way(self):
        search = jc.Search(INPUTS)
        search.run_until(toy_host, lambda tried: tried.number < 44)
        whole = jc.Search(INPUTS).run(toy_host)
        for other in (search.copy(), copy.copy(search), copy.deepcopy(search)):
            seed = other.next().seed
            other.answer(None)
            self.assertEqual(other.progress().answered_in_run, search.progress().answered_in_run + 1)
            self.assertEqual(search.copy().next().seed, seed)
            # Its later rounds lie elsewhere.
            self.assertNotEqual(other.run(lambda seed: toy_host(seed, 0.01)), whole)
        self.assertEqual(search.run(toy_host), whole)

    def test_a_closed_search_says_so(self):
        with jc.Search(INPUTS) as search:
            search.next()
        calls = [search.next, search.waiting, search.result, search.progress, search.counts, search.stop, search.last_line, lambda: search.answer(None), lambda: search.run(toy_host)]
        for call in calls:
            with self.assertRaisesRegex(errors.ClosedError, "the search is closed"):
                call()
        search.close()

    def test_a_host_that_closes_its_search(self):
        search = jc.Search(INPUTS)

        def host(seed):
            search.close()
            return toy_host(seed)

        with self.assertRaises(errors.ClosedError):
            search.run(host)

    def test_another_thread_may_look_and_may_not_change(self):
        search = jc.Search(INPUTS)
        in_host, looked = threading.Event(), threading.Event()
        found = []

        def host(seed):
            in_host.set()
            looked.wait(10)
            return toy_host(seed)

        thread = threading.Thread(target=lambda: found.append(search.run(host)))
        thread.start()
        in_host.wait(10)
        self.assertEqual(search.progress().answered, 0)
        self.assertIsNone(search.stop().best)
        for call in (search.next, lambda: search.answer(None), lambda: search.run(toy_host)):
            with self.assertRaises(errors.InUseError):
                call()
        looked.set()
        thread.join()
        self.assertEqual(found, [jc.Search(INPUTS).run(toy_host)])

    def test_calls_of_many_threads_come_one_after_another(self):
        search, answered = jc.Search(INPUTS), []

        def work():
            while True:
                try:
                    handed = search.next()
                    if handed is None:
                        return
                    search.answer(toy_host(handed.seed))
                    answered.append(handed.number)
                except jc.Refused as refused:
                    assert refused.number in (9, 12), refused

        threads = [threading.Thread(target=work) for _ in range(8)]
        for thread in threads:
            thread.start()
        for thread in threads:
            thread.join()
        self.assertEqual(sorted(answered), list(range(search.progress().answered_in_run)))

    def test_without_the_library_nothing_is_guessed(self):
        with mock.patch.object(_library, "_found", side_effect=errors.LibraryError("not there")):
            _library.library.cache_clear()
            with self.assertRaises(errors.LibraryError):
                geometry.sqrt(2.0)
        _library.library.cache_clear()
        self.assertEqual(geometry.sqrt(4.0), 2.0)


if __name__ == "__main__":
    unittest.main()
