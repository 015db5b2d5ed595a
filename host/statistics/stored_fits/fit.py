#!/usr/bin/env python3
"""Draws the stored views, and fits them with SciPy and OpenCV.

Run in this folder: `python3 fit.py` (NumPy 1.24, SciPy 1.10, OpenCV 4.6; Debian: python3-numpy python3-scipy
python3-opencv). It writes `NN.views`, in the form that `jinnychair search` reads, and `answers.txt`.

The model is OpenCV's (distortion, then the tilted sensor), with the optical centre held. Free are both focal lengths, the
tilts and all poses; in a second fit k1, k2, p1 and p2 too. The Jacobian is exact, by complex steps. SciPy's `least_squares`
is started from the true values, and again from what it found until the squares no longer shrink. The deviations are
s^2 (J^T J)^-1 from the Jacobian's singular values, with s^2 = squares / (numbers - unknowns).

OpenCV's own optimum stands beside it as a check from another minimiser, which stops earlier.
"""

import cv2
import numpy as np
from scipy.optimize import least_squares

CENTRE = np.array([655.0, 470.0])
# Views, dots along x and y, focal length, noise in pixels, tilts in degrees, k1, k2, p1, p2.
SETS = [
    (3, 3, 3, 1420, 0.05, -1.2, -0.4, 0, 0, 0, 0),
    (3, 10, 7, 1420, 0.1, 4.0, 1.5, 0, 0, 0, 0),
    (4, 4, 3, 1420, 0.05, 0.0, 0.0, 0, 0, 0, 0),
    (4, 10, 7, 1420, 0.3, -6.0, 2.0, 0, 0, 0, 0),
    (5, 5, 4, 1420, 0.1, 0.15, -0.1, 0, 0, 0, 0),
    (6, 3, 3, 1420, 0.1, -3.0, 3.0, 0, 0, 0, 0),
    (6, 10, 7, 1420, 0.05, 12.0, -9.0, 0, 0, 0, 0),
    (8, 6, 5, 1420, 0.3, -0.5, 0.5, 0, 0, 0, 0),
    (8, 10, 7, 1420, 0.02, 2.0, -2.0, 0.05, -0.02, 0.001, -0.0005),
    (10, 8, 6, 1420, 0.1, -9.0, 2.2, 0, 0, 0, 0),
    (12, 7, 5, 1420, 0.2, 1.0, 1.0, -0.1, 0.05, 0.0, 0.0),
    (14, 10, 7, 1420, 0.05, -1.2, -0.4, 0, 0, 0, 0),
    (14, 10, 7, 1420, 0.3, 15.0, 15.0, 0, 0, 0, 0),
    (3, 10, 7, 14200, 0.02, -1.2, -0.4, 0, 0, 0, 0),
    (4, 10, 7, 14200, 0.05, 1.0, 0.5, 0, 0, 0, 0),
    (6, 3, 3, 14200, 0.05, -2.0, 1.0, 0, 0, 0, 0),
    (6, 10, 7, 14200, 0.1, 3.0, -1.0, 0, 0, 0, 0),
    (8, 6, 5, 14200, 0.05, 0.0, 0.3, 0, 0, 0, 0),
    (10, 10, 7, 14200, 0.05, -4.0, 2.0, 0, 0, 0, 0),
    (14, 10, 7, 14200, 0.1, -0.6, -0.2, 0, 0, 0, 0),
]
STEP = 1e-30


def rotation(vector):
    """Rodrigues' formula, of complex numbers too."""
    x, y, z = vector
    square = x * x + y * y + z * z
    angle = np.sqrt(square)
    cross = np.array([[0 * x, -z, y], [z, 0 * x, -x], [-y, x, 0 * x]])
    return np.eye(3) + np.sin(angle) / angle * cross + (1 - np.cos(angle)) / square * (cross @ cross)


def tilted(x, y):
    """The tilted sensor's matrix, as OpenCV's documentation has it."""
    sx, cx, sy, cy = np.sin(x), np.cos(x), np.sin(y), np.cos(y)
    turn = np.array([[cy, 0 * x, -sy], [0 * x, 1 + 0 * x, 0 * x], [sy, 0 * x, cy]]) @ np.array(
        [[1 + 0 * x, 0 * x, 0 * x], [0 * x, cx, sx], [0 * x, -sx, cx]]
    )
    project = np.array(
        [[turn[2, 2], 0 * x, -turn[0, 2]], [0 * x, turn[2, 2], -turn[1, 2]], [0 * x, 0 * x, 1 + 0 * x]]
    )
    return project @ turn


def pixels(shared, pose, places):
    """Where a view's places are seen. A pose is a rotation vector, and where the places' middle is."""
    fx, fy, tilt_x, tilt_y, k1, k2, p1, p2 = shared
    turn = rotation(pose[:3])
    seen = places @ turn[:, :2].T + pose[3:]
    x, y = seen[:, 0] / seen[:, 2], seen[:, 1] / seen[:, 2]
    square = x * x + y * y
    radial = 1 + k1 * square + k2 * square * square
    bent_x = x * radial + 2 * p1 * x * y + p2 * (square + 2 * x * x)
    bent_y = y * radial + p1 * (square + 2 * y * y) + 2 * p2 * x * y
    u, v, w = tilted(tilt_x, tilt_y) @ np.array([bent_x, bent_y, np.ones_like(bent_x)])
    return np.stack([fx * u / w + CENTRE[0], fy * v / w + CENTRE[1]], axis=1)


class Problem:
    """The errors of all views as a function of the unknowns, each in a unit of its own."""

    def __init__(self, views, free, shared, poses):
        self.views, self.free, self.held = views, free, np.array(shared, dtype=float)
        self.start = np.concatenate([self.held[:free], np.ravel(poses)])

    def parts(self, unknowns):
        shared = np.concatenate([unknowns[: self.free], self.held[self.free :]])
        return shared, unknowns[self.free :].reshape(-1, 6)

    def errors(self, unknowns):
        shared, poses = self.parts(unknowns)
        of_views = zip(self.views, poses)
        return np.concatenate([(pixels(shared, pose, b) - s).ravel() for (b, s), pose in of_views])

    def jacobian(self, unknowns):
        columns = []
        for i in range(len(unknowns)):
            moved = unknowns.astype(complex)
            moved[i] += 1j * STEP
            columns.append(self.errors(moved).imag / STEP)
        return np.stack(columns, axis=1)

    def optimum(self):
        """The optimum, its squares, and the standard deviations of the shared unknowns."""
        unknowns, best = self.start, np.inf
        for _ in range(20):
            found = least_squares(
                self.errors, unknowns, self.jacobian, method="trf", x_scale="jac", ftol=3e-16, xtol=3e-16, gtol=3e-16
            )
            unknowns, is_last = found.x, 2 * found.cost >= best * (1 - 1e-15)
            best = min(best, 2 * found.cost)
            if is_last:
                break
        jacobian, errors = self.jacobian(unknowns), self.errors(unknowns)
        scale = np.linalg.norm(jacobian, axis=0)
        # A last step of Gauss and Newton: below what a sum of squares can tell.
        step = np.linalg.lstsq(jacobian / scale, -errors, rcond=None)[0] / scale
        moved = unknowns + step
        assert np.sum(self.errors(moved) ** 2) <= best * (1 + 1e-12)
        unknowns = moved
        jacobian, errors = self.jacobian(unknowns), self.errors(unknowns)
        _, sizes, turned = np.linalg.svd(jacobian / scale, full_matrices=False)
        variances = np.sum((turned.T / sizes) ** 2, axis=1) / scale**2
        squares = np.sum(errors**2)
        deviations = np.sqrt(variances * squares / (len(errors) - len(unknowns)))
        left = np.linalg.lstsq(jacobian / scale, -errors, rcond=None)[0] / scale
        print(f"    next step {np.max(np.abs(left[2:4])):.1e} rad, deviations {deviations[2:4]}")
        return unknowns, squares, deviations[: self.free]


def opencv(views, shared):
    """OpenCV's own optimum without a lens, from the true camera on: its tilts and its squares."""
    fx, fy, tilt_x, tilt_y = shared[:4]
    camera = np.array([[fx, 0, CENTRE[0]], [0, fy, CENTRE[1]], [0, 0, 1]])
    lens = np.zeros(14)
    lens[12:] = tilt_x, tilt_y
    flags = (
        cv2.CALIB_USE_INTRINSIC_GUESS | cv2.CALIB_TILTED_MODEL | cv2.CALIB_FIX_PRINCIPAL_POINT
        | cv2.CALIB_ZERO_TANGENT_DIST | cv2.CALIB_FIX_K1 | cv2.CALIB_FIX_K2 | cv2.CALIB_FIX_K3
    )
    boards = [np.hstack([board, np.zeros((len(board), 1))]).astype(np.float32) for board, _ in views]
    seen = [pixel.astype(np.float32) for _, pixel in views]
    end = (cv2.TERM_CRITERIA_COUNT | cv2.TERM_CRITERIA_EPS, 1000, 1e-16)
    rms, camera, lens, _, _ = cv2.calibrateCamera(boards, seen, (1310, 940), camera, lens, flags=flags, criteria=end)
    return lens.ravel()[12:14], rms**2 * sum(map(len, boards))


def check_model(views, shared, poses):
    """OpenCV's projection of the first view is this one."""
    fx, fy, tilt_x, tilt_y, k1, k2, p1, p2 = shared
    camera = np.array([[fx, 0, CENTRE[0]], [0, fy, CENTRE[1]], [0, 0, 1]])
    lens = np.array([k1, k2, p1, p2, 0, 0, 0, 0, 0, 0, 0, 0, tilt_x, tilt_y])
    board, pose = views[0][0], poses[0]
    places = np.hstack([board, np.zeros((len(board), 1))])
    theirs = cv2.projectPoints(places, pose[:3], pose[3:], camera, lens)[0].reshape(-1, 2)
    assert np.max(np.abs(theirs - pixels(shared, pose, board))) < 1e-9


def draw(random, views, nx, ny, focal, noise, shared):
    """Views in poses that are turned by 15 to 40 degrees about all axes. Places count from the plate's middle."""
    x, y = np.meshgrid(20.0 * (np.arange(nx) - (nx - 1) / 2), 20.0 * (np.arange(ny) - (ny - 1) / 2))
    board = np.stack([x.ravel(), y.ravel()], axis=1)
    half, first = np.max(np.hypot(x, y)), random.uniform(0, 2 * np.pi)
    seen, poses = [], []
    for i in range(views):
        about, turn = first + 2.4 * i + random.uniform(-0.3, 0.3), np.radians(random.uniform(15, 40))
        depth = focal * half / random.uniform(300, 430)
        beside = random.uniform(-90, 90, 2) * depth / focal
        pose = np.array([turn * np.cos(about), turn * np.sin(about), random.uniform(-0.3, 0.3), *beside, depth])
        pixel = pixels(shared, pose, board) + noise * random.standard_normal(board.shape)
        # OpenCV takes single precision: these are the same numbers there.
        seen.append((board, np.round(pixel * 2**13) / 2**13))
        poses.append(pose)
    return seen, poses


def text_of(views):
    lines = ["# Views of a plate, for jinnychair. Drawn by fit.py.", f"centre {CENTRE[0]} {CENTRE[1]}"]
    for board, seen in views:
        lines.append("view")
        lines += [f"{x!r} {y!r} {u!r} {v!r}" for (x, y), (u, v) in zip(board.tolist(), seen.tolist())]
    return "\n".join(lines) + "\n"


def main():
    lines = [
        "# Written by fit.py. Pixels, radians.",
        "# NN truth fx fy tilt_x tilt_y k1 k2 p1 p2, then each pose: a rotation vector, and the place of the plate's middle",
        "# NN plain|bent squares fx fy tilt_x tilt_y k1 k2 p1 p2, then the deviations of the free ones, 4 or 8",
        "# NN opencv squares tilt_x tilt_y",
    ]
    for number, (views, nx, ny, focal, noise, *rest) in enumerate(SETS, 1):
        random = np.random.default_rng(number)
        shared = [focal, focal * 0.9965, *np.radians(rest[:2]), *rest[2:]]
        seen, poses = draw(random, views, nx, ny, focal, noise, shared)
        check_model(seen, shared, poses)
        name = f"{number:02}"
        print(name, views, nx * ny, focal, noise)
        with open(f"{name}.views", "w", encoding="ascii") as file:
            file.write(text_of(seen))
        lines.append(" ".join([name, "truth", *(repr(float(number)) for number in (*shared, *np.ravel(poses)))]))
        straight = shared[:4] + [0.0] * 4
        for fit, free, held in [("plain", 4, straight), ("bent", 8, shared)]:
            problem = Problem(seen, free, held, poses)
            unknowns, squares, deviations = problem.optimum()
            found = problem.parts(unknowns)[0]
            if fit == "plain":
                tilts, theirs = opencv(seen, straight)
                print(f"    OpenCV: tilts off by {np.max(np.abs(tilts - found[2:4])):.1e} rad, squares {theirs / squares - 1:.1e}")
            numbers = [squares, *found, *deviations]
            lines.append(" ".join([name, fit, *(repr(float(number)) for number in numbers)]))
        lines.append(" ".join([name, "opencv", *(repr(float(number)) for number in (theirs, *tilts))]))
    with open("answers.txt", "w", encoding="ascii") as file:
        file.write("\n".join(lines) + "\n")


if __name__ == "__main__":
    main()
