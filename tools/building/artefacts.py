"""What a build leaves below out/: the program, the library for C with its header and its pkg-config file, and what tells of which sources
they are."""

import fcntl
import hashlib
import json
import os
import shutil
from contextlib import contextmanager

from building import kit as kits
from building import tree

# Where builds stand: out/, or the folder that ASSISE_OUT names.
OUT = os.path.abspath(os.environ.get("ASSISE_OUT") or os.path.join(tree.ROOT, "out"))
PROGRAM, LIBRARY, HEADER, PACKAGE = "bin/assise", "lib/libassise.a", "include/assise.h", "lib/pkgconfig/assise.pc"
ALL = (PROGRAM, LIBRARY, HEADER, PACKAGE)
MARK = os.path.join(OUT, "built.json")

PKG_CONFIG = """prefix=${{pcfiledir}}/../..
Name: assise
Description: a replicated file system with machine-checked guarantees, in one process
Version: {version}
Cflags: -I${{prefix}}/include
Libs: -L${{prefix}}/lib -lassise
"""


def key(kit):
    """What tells these sources and this kit from others."""
    found = hashlib.sha256(kits.identity(kit).encode())
    for path in tree.sources():
        with open(path, "rb") as file:
            text = file.read()
        found.update(f"{os.path.relpath(path, tree.ROOT)} {len(text)}\n".encode() + text)
    return found.hexdigest()[:16]


def mark():
    """What the last build left: its key, and whether it is proved."""
    try:
        with open(MARK, encoding="utf-8") as file:
            found = json.load(file)
    except (OSError, ValueError):
        return {}
    return found if all(os.path.exists(os.path.join(OUT, name)) for name in ALL) else {}


def stands(kit, proved):
    """Whether the last build is of these sources and this kit, and proved where that is asked for."""
    found = mark()
    if found.get("key") != key(kit) or proved and not found.get("proved"):
        return False
    os.utime(MARK)
    return True


@contextmanager
def alone():
    """Nobody else builds meanwhile: who comes second waits, and finds what the first has built."""
    os.makedirs(OUT, exist_ok=True)
    with open(os.path.join(OUT, "lock"), "w", encoding="utf-8") as lock:
        fcntl.flock(lock, fcntl.LOCK_EX)
        yield


def place(kit, program, library, proved):
    """Puts a build below out/, each file whole or not at all, and marks it."""
    if os.path.exists(MARK):
        os.remove(MARK)
    for name, made in ((PROGRAM, program), (LIBRARY, library), (HEADER, tree.HEADER)):
        put(made, os.path.join(OUT, name))
    written(os.path.join(OUT, PACKAGE), PKG_CONFIG.format(version=tree.version()[0]))
    told = {"key": key(kit), "proved": proved, "what": what(proved), "kit": kits.identity(kit)}
    written(MARK, json.dumps(told))


def what(proved):
    """What a build says of itself."""
    return f"{tree.version()[0]} ({tree.commit()}, {'proved' if proved else 'unproved'})"


def put(made, stands_at):
    os.makedirs(os.path.dirname(stands_at), exist_ok=True)
    beside = f"{stands_at}.{os.getpid()}"
    shutil.copy(made, beside)
    os.replace(beside, stands_at)


def written(stands_at, text):
    os.makedirs(os.path.dirname(stands_at), exist_ok=True)
    beside = f"{stands_at}.{os.getpid()}"
    with open(beside, "w", encoding="utf-8") as file:
        file.write(text)
    os.replace(beside, stands_at)


def install(prefix, more=()):
    """Installs what was built, and more that stands beside it."""
    for name in [*ALL, *more]:
        put(os.path.join(OUT, name), os.path.join(prefix, name))
