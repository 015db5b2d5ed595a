"""Drawn photographs of a plate of dots, by a camera and a tilt that are known: exact outlines, blur and noise.

The tilt is OpenCV's model, written from its documentation: a pixel is K P R(tau) (x, y, 1) of the ideal point.
"""

import numpy as np

#: How the plate is held: turned about x, then y, in degrees, and shifted by millimetres.
HELD = [
    (0, 0, 0, 0, 420), (32, 0, 10, -8, 440), (-32, 4, -12, 6, 440), (3, 34, 8, 12, 430), (-5, -34, -9, -10, 430), (26, 26, 14, 4, 450),
    (-26, 26, -14, -6, 450), (26, -26, 6, 14, 460), (-26, -26, -4, -14, 460), (40, 12, 0, 18, 470), (-40, -12, 12, -18, 470),
    (12, 40, -18, 0, 470), (-12, -40, 18, 4, 470), (18, -8, 20, 20, 400),
]  # fmt: skip
CAMERA = (1420.0, 1415.0, 655.0, 470.0)
SIZE = (1310, 940)


def rotation(about_x, about_y):
    sx, cx, sy, cy = np.sin(about_x), np.cos(about_x), np.sin(about_y), np.cos(about_y)
    return np.array([[cy, 0, sy], [0, 1, 0], [-sy, 0, cy]]) @ np.array([[1, 0, 0], [0, cx, -sx], [0, sx, cx]])


def tilt_matrix(tilts):
    sx, cx, sy, cy = np.sin(tilts[0]), np.cos(tilts[0]), np.sin(tilts[1]), np.cos(tilts[1])
    r = np.array([[cy, 0, -sy], [0, 1, 0], [sy, 0, cy]]) @ np.array([[1, 0, 0], [0, cx, sx], [0, -sx, cx]])
    return np.array([[r[2, 2], 0, -r[0, 2]], [0, r[2, 2], -r[1, 2]], [0, 0, 1]]) @ r


def to_pixels(held, middle, tilts, camera=CAMERA):
    """The map from the plate to pixels, of a plate that is held so."""
    fx, fy, cx, cy = camera
    turn = rotation(*np.radians(held[:2]))
    moved = np.array(held[2:], float) - turn @ (*middle, 0.0)
    k = np.array([[fx, 0, cx], [0, fy, cy], [0, 0, 1.0]])
    return k @ tilt_matrix(tilts) @ np.column_stack([turn[:, 0], turn[:, 1], moved])


def mapped(matrix, points):
    homogeneous = np.column_stack([points, np.ones(len(points))]) @ matrix.T
    return homogeneous[:, :2] / homogeneous[:, 2:]


def seen(board, tilts, noise, rng, held=HELD, camera=CAMERA):
    """The pixels of the dots in each view, with Gaussian noise of this many px along each axis."""
    middle = (board.min(axis=0) + board.max(axis=0)) / 2
    return [mapped(to_pixels(h, middle, tilts, camera), board) + noise * rng.normal(size=board.shape) for h in held]


def photograph(board, radius, matrix, size=SIZE, blur=0.9, noise=2.0, rng=None, square=None, bright=False, bits=8):
    """A photograph of dark dots (or of a chessboard with such squares) on a brighter plate, of eight bits, or of sixteen whose
    first so many aren't used."""
    import cv2

    fine = 4
    width, height = size
    ink = np.zeros((height, width), np.float32)
    inverse = np.linalg.inv(matrix)
    if square is None:
        for place in board:
            draw_dot(ink, place, radius, matrix, inverse, fine)
    else:
        draw_board(ink, board, square, inverse, fine)
    ink = cv2.GaussianBlur(ink, (0, 0), blur) if blur else ink
    grey = 60.0 + 150.0 * ink if bright else 210.0 - 150.0 * ink
    light = 1.0 + 0.1 * np.linspace(-1, 1, width)[None] - 0.08 * np.linspace(-1, 1, height)[:, None]
    grey = grey * light + (0.0 if rng is None else noise * rng.normal(size=grey.shape))
    if bits == 8:
        return np.clip(np.rint(grey), 0, 255).astype(np.uint8)
    return np.clip(np.rint(grey * 2 ** (bits - 8)), 0, 2**bits - 1).astype(np.uint16)


def fine_pixels(left, top, right, bottom, fine):
    """Points within each pixel, `fine` along each side; a pixel's middle has whole numbers."""
    steps = (np.arange(fine) + 0.5) / fine - 0.5
    us = (np.arange(left, right)[:, None] + steps).ravel()
    vs = (np.arange(top, bottom)[:, None] + steps).ravel()
    return np.stack(np.meshgrid(us, vs), -1).reshape(-1, 2)


def share_of(inside, left, top, right, bottom, fine):
    return inside.reshape(bottom - top, fine, right - left, fine).mean(axis=(1, 3))


def draw_dot(ink, place, radius, matrix, inverse, fine):
    angles = np.linspace(0, 2 * np.pi, 24, endpoint=False)
    outline = mapped(matrix, place + 1.1 * radius * np.column_stack([np.cos(angles), np.sin(angles)]))
    height, width = ink.shape
    left, top = np.maximum(np.floor(outline.min(axis=0)).astype(int), 0)
    right, bottom = np.minimum(np.ceil(outline.max(axis=0)).astype(int) + 2, (width, height))
    if left >= right or top >= bottom:
        return
    plate = mapped(inverse, fine_pixels(left, top, right, bottom, fine))
    inside = ((plate - place) ** 2).sum(axis=1) < radius**2
    ink[top:bottom, left:right] += share_of(inside, left, top, right, bottom, fine)


def draw_board(ink, board, square, inverse, fine):
    """Dark and bright squares around inner corners, with a bright margin."""
    height, width = ink.shape
    least, most = board.min(axis=0) - square, board.max(axis=0) + square
    for top in range(0, height, 64):
        bottom = min(top + 64, height)
        plate = mapped(inverse, fine_pixels(0, top, width, bottom, fine))
        on_board = ((plate > least) & (plate < most)).all(axis=1)
        odd = np.floor((plate - least) / square).astype(int).sum(axis=1) % 2 == 0
        ink[top:bottom] = share_of(on_board & odd, 0, top, width, bottom, fine)


def photographs(folder, board, radius, tilts, rng, held=HELD, camera=CAMERA, **how):
    """Photographs of a plate that is held so, written as PNG, and the exact pixels of its dots."""
    import cv2

    middle = (board.min(axis=0) + board.max(axis=0)) / 2
    paths, exact = [], []
    for number, how_held in enumerate(held, 1):
        matrix = to_pixels(how_held, middle, tilts, camera)
        path = folder / f"view-{number:02}.png"
        cv2.imwrite(str(path), photograph(board, radius, matrix, rng=rng, **how))
        paths.append(path)
        exact.append(mapped(matrix, board))
    return paths, exact
