"""The program: the independent model and the library on the same inputs, drawn from a seed.

It says what it compared, and ends with 1 at the first difference, with the inputs that show it.
"""

import argparse
import os
import random
import subprocess
import tempfile
import time
from collections import Counter
from pathlib import Path

from model.exported import EXPORTED

from . import faults, journals, layout, leaves, runs
from .bench import Bench, Difference
from .interface import ROOT, Library

SEED, COUNT = 50, 4000

# Each part with the share of the count that it runs; those of the first six together are the lists of calls.
LISTS = [(runs.lists_of_calls, 0.40), (runs.starts, 0.20), (runs.changed_lists, 0.15), (runs.made_up_records, 0.15),
         (journals.journals, 0.07), (journals.gone_on, 0.03)]
OTHERS = [(part, 0.10 if part in (leaves.point_maps, leaves.design_rows) else 0.25) for part in leaves.LEAVES]
OTHERS += [(journals.write_line, 0.25), (journals.write_report, 0.25), (layout.structs_come_back, 0.02),
           (layout.version, 0.0), (runs.longest_runs, 0.00025)]
REFUSALS = set(range(1, 35)) - {26}


def made_library(folder):
    """The shared library of the archive in JINNYCHAIR_STATICLIB, or of target/staticlib/libcapi.a."""
    archive = Path(os.environ.get("JINNYCHAIR_STATICLIB", ROOT / "target" / "staticlib")) / "libcapi.a"
    subprocess.run([ROOT / "tools" / "shared-library", folder, archive], check=True, stdout=subprocess.DEVNULL)
    return Path(folder) / "libjinnychair.so"


def run_part(library, part, seed, count):
    """A part with draws of its own, so that it is the same beside any others."""
    bench = Bench(library, random.Random(f"{seed} {part.__name__}"))
    for turn in range(1, count + 1):
        try:
            part(bench, bench.draws)
        except Difference:
            print(f"seed {seed}, {part.__name__}, turn {turn}:")
            raise
    return bench


def compare(library, seed, count):
    """What was counted, and the refusals by their numbers."""
    counted, refused = Counter(), Counter()
    for part, share in LISTS + OTHERS:
        begun, times = time.monotonic(), max(1, round(count * share))
        bench = run_part(library, part, seed, times)
        counted, refused = counted + bench.counted, refused + bench.refused
        print(f"{times:7} {part.__name__:20} {sum(bench.counted.values()):9} compared {time.monotonic() - begun:7.1f} s", flush=True)
    return counted, refused


def say(counted, refused, count):
    for title, those in (("compared", counted), ("refused", refused)):
        print(f"{title}: " + ", ".join(f"{what} {number}" for what, number in sorted(those.items())))
    print(f"{count} lists of calls, {sum(counted.values())} comparisons: 0 differences")


def arguments():
    parser = argparse.ArgumentParser(description=__doc__)
    parser.add_argument("--library", help="a shared library; without it one is made of the archive in JINNYCHAIR_STATICLIB or target/staticlib")
    parser.add_argument("--seed", type=int, default=SEED)
    parser.add_argument("--count", type=int, default=COUNT, help=f"how many lists of calls; {COUNT} if not given")
    parser.add_argument("--faults", action="store_true", help="change the model, one fault at a time: each has to be noticed")
    return parser.parse_args()


def main():
    asked = arguments()
    with tempfile.TemporaryDirectory() as folder:
        library = Library(asked.library or made_library(folder))
        if asked.faults:
            return faults.main(library, asked.seed)
        try:
            counted, refused = compare(library, asked.seed, asked.count)
        except Difference as difference:
            print(f"a difference in {difference}")
            return 1
    say(counted, refused, asked.count)
    left_out = sorted(EXPORTED.keys() - counted.keys())
    if asked.count >= COUNT:
        left_out += sorted(REFUSALS - refused.keys())
    if left_out:
        print(f"functions that weren't compared, and refusals that didn't occur: {left_out}")
    return 1 if left_out else 0
