"""OpenCV, where it is installed."""

from __future__ import annotations

from typing import Any

from .errors import MissingPackageError


def cv2_module() -> Any:
    """The module ``cv2``."""
    try:
        import cv2
    except ImportError as error:
        raise MissingPackageError(f"this needs OpenCV, Debian's package python3-opencv: {error}") from error
    return cv2
