"""The package's tests. Those of OpenCV run where `cv2` imports; with JINNYCHAIR_NEED_CV=1 a missing one is a failure."""

import os
import unittest

try:
    import cv2  # noqa: F401

    HAS_CV2 = True
except ImportError:
    HAS_CV2 = False

if not HAS_CV2 and os.environ.get("JINNYCHAIR_NEED_CV") == "1":
    raise ImportError("JINNYCHAIR_NEED_CV is 1, and OpenCV isn't installed")

needs_cv2 = unittest.skipUnless(HAS_CV2, "OpenCV isn't installed")
