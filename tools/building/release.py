"""A release: what was built, with licence and README, in one archive, where the gate has passed on these sources."""

import gzip
import io
import json
import os
import tarfile

from building import artefacts, tree
from building.module import Unbuilt

# What `./test` writes once `rt ci` has passed: the sources' key, and the last line.
PASSED = os.path.join(artefacts.OUT, "passed.json")


def note_passed(kit, line):
    """Notes that the gate has passed on these sources."""
    os.makedirs(artefacts.OUT, exist_ok=True)
    artefacts.written(PASSED, json.dumps({"key": artefacts.key(kit), "line": line}))


def line_of_gate(kit):
    """The last line of the gate, where it has passed on these sources."""
    try:
        with open(PASSED, encoding="utf-8") as file:
            found = json.load(file)
    except (OSError, ValueError):
        found = {}
    if found.get("key") != artefacts.key(kit):
        raise Unbuilt("`./test` hasn't passed on these sources here, and a release is of sources that the gate has passed")
    return found["line"]


def pack(kit):
    """Makes the archive, the same bytes from the same build; its place."""
    gate, built = line_of_gate(kit), artefacts.mark()
    name = f"assise-{tree.version()[0]}-x86_64-linux"
    place = os.path.join(artefacts.OUT, f"{name}.tar.gz")
    about = f"assise {built['what']}\nkit: {built['kit']}\ngate: {gate}\n"
    files = [(part, os.path.join(artefacts.OUT, part)) for part in artefacts.ALL]
    files += [(part, os.path.join(tree.ROOT, part)) for part in ("LICENSE", "README.md")]
    with open(place, "wb") as out, gzip.GzipFile("", "wb", mtime=0, fileobj=out) as packed, tarfile.open(fileobj=packed, mode="w") as made:
        add(made, f"{name}/BUILT", about.encode(), 0o644)
        for part, path in sorted(files):
            with open(path, "rb") as file:
                add(made, f"{name}/{part}", file.read(), 0o755 if os.access(path, os.X_OK) else 0o644)
    return place


def add(made, name, text, mode):
    """Adds a file whose time and owner say nothing."""
    entry = tarfile.TarInfo(name)
    entry.size, entry.mode = len(text), mode
    made.addfile(entry, io.BytesIO(text))
