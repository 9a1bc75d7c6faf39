"""The proved build: what `rt ci` left of these sources, else what `rt run` and `rt lib` leave, which prove each crate first."""

import os
import re
import shutil
import subprocess
import tempfile
import time

from building import artefacts, library, tree
from building.module import Unbuilt

PROGRAM = os.path.join(tree.ROOT, "crates/assise/out/assise")
ARCHIVE = os.path.join(tree.ROOT, "crates/assise_c/out/libassise_c.a")
# Builds the archive over the crates that `rt ci` left proved.
OVER_GATE = os.path.join(tree.ROOT, "checks/library")
PROVED = re.compile(r"rt: (\w+) (?:proved|is kept)")


def is_of_these(path):
    """Whether a file is there, and no source is newer."""
    return os.path.exists(path) and all(os.stat(source).st_mtime_ns <= os.stat(path).st_mtime_ns for source in tree.code())


def prove(words, name, say):
    """Has `rt` prove a crate and all below it, and says how many are left."""
    left = {name, *tree.below(name, tree.crates())}
    how = {"cwd": os.path.join(tree.ROOT, "crates", name), "stdin": subprocess.DEVNULL, "stderr": subprocess.STDOUT, "text": True}
    said, begun = [], time.monotonic()
    with subprocess.Popen(words, stdout=subprocess.PIPE, **how) as part:
        for line in part.stdout:
            said.append(line)
            found = PROVED.match(line)
            if found and found[1] in left:
                left.remove(found[1])
                say(f"{found[1]} took {time.monotonic() - begun:.0f} seconds, {len(left)} crates are left")
                begun = time.monotonic()
    if part.returncode:
        raise Unbuilt("".join(said)[-4000:])


def named_program(folder, what):
    """The program with this text as its version, in the place of one as long."""
    _, unnamed = tree.version()
    told = what[what.index("(") :].ljust(len(unnamed)).encode()
    with open(PROGRAM, "rb") as file:
        text = file.read()
    if unnamed.encode() not in text or len(told) != len(unnamed):
        raise Unbuilt("the program has no place for its version")
    made = os.path.join(folder, "assise")
    shutil.copy(PROGRAM, made)
    with open(made, "wb") as file:
        file.write(text.replace(unnamed.encode(), told))
    return made


def build(kit, say):
    """Takes both, proved, and puts them below out/."""
    what = artefacts.what(True)
    if not is_of_these(PROGRAM):
        prove(["rt", "run", "--", "--version"], "assise", say)
    if not is_of_these(ARCHIVE) and subprocess.run([OVER_GATE], stdin=subprocess.DEVNULL, capture_output=True).returncode:
        prove(["rt", "lib"], "assise_c", say)
    with tempfile.TemporaryDirectory(prefix="assise-build-") as folder:
        archive = os.path.join(folder, "libassise.a")
        library.archive(kit, [ARCHIVE, library.named(kit, folder, what), f"{kit}/c/liblibc_c.a"], archive)
        artefacts.place(kit, named_program(folder, what), archive, proved=True)
