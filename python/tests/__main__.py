"""Runs all tests, and says how many ran and how many couldn't, and why: `python3 -m tests` in the folder python."""

import sys
import unittest
from collections import Counter
from pathlib import Path


def main(words):
    loader = unittest.TestLoader()
    folder = Path(__file__).resolve().parent
    suite = loader.loadTestsFromNames(words) if words else loader.discover(str(folder), top_level_dir=str(folder.parent))
    result = unittest.TextTestRunner(verbosity=1, buffer=True).run(suite)
    couldnt = Counter(reason for _, reason in result.skipped)
    why = "; ".join(f"{count} {reason}" for reason, count in sorted(couldnt.items()))
    ran = result.testsRun - len(result.skipped)
    print(f"Python package: {ran} tests ran, {len(result.skipped)} couldn't{': ' + why if why else ''}")
    return 0 if result.wasSuccessful() and ran else 1


sys.exit(main(sys.argv[1:]))
