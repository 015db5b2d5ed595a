"""The crates of crates.txt, and the kit's command `rattle` on one of them, over the libraries below it that `rt ci` proved and left in crates/NAME/out."""
import os
import re
import shutil

ROOT = os.path.dirname(os.path.dirname(os.path.abspath(__file__)))
KIT = os.path.dirname(os.path.dirname(os.path.realpath(shutil.which("rt") or "rt")))
RATTLE = f"{KIT}/bin/rattle"


def text_of(path):
    with open(path, encoding="utf-8") as it:
        return it.read()


def crates_of():
    """The crates in the order of crates.txt, each with those that it names."""
    rows = [it.partition("#")[0].partition(":") for it in text_of(f"{ROOT}/crates.txt").split("\n")]
    return {name.split()[0]: uses.split() for name, _, uses in rows if name.strip()}


def below(crates, crate, found=None):
    """All crates of crates.txt that the crate rests on; what it names beside them is the kit's."""
    found = [] if found is None else found
    for it in crates[crate]:
        if it in crates and it not in found:
            found.append(it)
            below(crates, it, found)
    return found


def library(crate):
    return f"{ROOT}/crates/{crate}/out/rlib"


def words(crates, crate):
    """What `rattle check` and `rattle build` are told of the crate: its name, its type, and where the libraries lie."""
    said = ["--crate-name", crate, "src/lib.rt", "--extern", f"std={KIT}/rlibs/std.rlib", "-L", f"dependency={KIT}/rlibs"]
    for it in crates[crate]:
        said += ["--extern", f"{it}={library(it) if it in crates else f'{KIT}/rlibs'}/{it}.rlib"]
    for it in below(crates, crate):
        said += ["-L", f"dependency={library(it)}"]
    said += ["--antt-project", f"{KIT}/rattle/logic/antt-project.json", "--logic-built", f"{KIT}/logic_built", "--links", f"{crate}="]
    is_static = re.search(rf"(?m)^{crate} staticlib:", text_of(f"{ROOT}/crates.txt"))
    return said + (["--crate-type", "staticlib"] if is_static else [])
