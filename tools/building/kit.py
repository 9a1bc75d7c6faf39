"""The kit of Rattle that is on the path: where it stands, and which one it is."""

import os
import shutil


def folder():
    """Where the kit stands, or none where `rt` isn't on the path."""
    command = shutil.which("rt")
    return command and os.path.dirname(os.path.dirname(os.path.realpath(command)))


def identity(kit):
    """What tells this kit from others, without running it."""
    try:
        with open(os.path.join(kit, "KIT-ID"), encoding="utf-8") as file:
            return file.read().strip()
    except OSError:
        prover = os.stat(os.path.join(kit, "bin/rattle"))
        return f"a kit of {prover.st_size} bytes made at {prover.st_mtime_ns}"


def tool(kit, name):
    return os.path.join(kit, "toolchain/bin", name)
