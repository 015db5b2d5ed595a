#!/usr/bin/env python3
"""The time of a whole search beside OpenCV's one calibration of the same views.

    python3 time_beside_opencv.py PROGRAM [RUNS]

PROGRAM is `jinnychair` built by `cargo build --release`. Drawn are 14 views of 70 dots and 60 of 300. The search, with its
start, its usual 100 tilts, verdict, table and chart, and `calibrateCamera` (one thread, tilted model, centre held, its own
criteria, from a focal length of 1,400 px and no tilt) take turns. Shown are medians of processor time, and their ratio.
"""

import resource
import subprocess
import sys
import tempfile
import time
from pathlib import Path
from statistics import median

import cv2
import numpy as np

import fit

FLAGS = (
    cv2.CALIB_USE_INTRINSIC_GUESS | cv2.CALIB_TILTED_MODEL | cv2.CALIB_FIX_PRINCIPAL_POINT
    | cv2.CALIB_ZERO_TANGENT_DIST | cv2.CALIB_FIX_K1 | cv2.CALIB_FIX_K2 | cv2.CALIB_FIX_K3
)


def processor_time(of, work):
    """What the work costs this process, or its children, in seconds."""
    def spent():
        used = resource.getrusage(of)
        return used.ru_utime + used.ru_stime

    before = spent()
    work()
    return spent() - before


def calibrate(views):
    camera = np.array([[1400, 0, fit.CENTRE[0]], [0, 1400, fit.CENTRE[1]], [0, 0, 1]], dtype=float)
    boards = [np.hstack([board, np.zeros((len(board), 1))]).astype(np.float32) for board, _ in views]
    seen = [pixel.astype(np.float32) for _, pixel in views]
    return cv2.calibrateCamera(boards, seen, (1310, 940), camera, np.zeros(14), flags=FLAGS)


def search(program, folder):
    words = [program, "search", "drawn.views"]
    ended = subprocess.run(words, cwd=folder, stdout=subprocess.PIPE, stderr=subprocess.DEVNULL, text=True, check=False)
    assert ended.returncode in (0, 3), ended.stdout
    counts = [line for line in ended.stdout.splitlines() if line.startswith("tilts  ")]
    return ended.returncode, " ".join(counts[0].split()[1:3]).rstrip(",")


def main():
    program, runs = str(Path(sys.argv[1]).resolve()), int(sys.argv[2]) if len(sys.argv) > 2 else 5
    cv2.setNumThreads(1)
    shared = [1420, 1415, *np.radians([-1.2, -0.4]), 0.0, 0.0, 0.0, 0.0]
    for views, nx, ny in [(14, 10, 7), (60, 20, 15)]:
        seen, _ = fit.draw(np.random.default_rng(1), views, nx, ny, 1420, 0.05, shared)
        with tempfile.TemporaryDirectory() as folder:
            Path(folder, "drawn.views").write_text(fit.text_of(seen), encoding="ascii")
            times = []
            for _ in range(runs):
                begun = time.perf_counter()
                theirs = processor_time(resource.RUSAGE_SELF, lambda: calibrate(seen))
                half = time.perf_counter()
                here = processor_time(resource.RUSAGE_CHILDREN, lambda: search(program, folder))
                times.append((here, theirs, time.perf_counter() - half, half - begun))
            here, theirs, wall_here, wall_theirs = (median(column) for column in zip(*times))
            code, tried = search(program, folder)
        print(
            f"{views * nx * ny} dots, {tried}, ends with {code}: search {here:.3f} s, OpenCV {theirs:.3f} s, ratio {here / theirs:.2f}"
            f" (on the clock {wall_here:.3f} s, {wall_theirs:.3f} s); medians of {runs}"
        )


if __name__ == "__main__":
    main()
