"""The mount: its sources in mount/, compiled with libfuse3 over the library for C."""

import glob
import os
import shutil
import subprocess

from building import artefacts, tree
from building.module import Unbuilt, said

PROGRAM = "bin/assise_mount"
SOURCES = os.path.join(tree.ROOT, "mount")
FLAGS = ["-std=c11", "-D_GNU_SOURCE", "-DFUSE_USE_VERSION=312", "-O2", "-g", "-Wall", "-Wextra", "-Wpedantic", "-Werror"]


def lacks():
    """What is missing of a compiler and of libfuse3's header, with the Debian package that has it; nothing where all is there."""
    if shutil.which("gcc") is None:
        return "gcc"
    text = b"#define FUSE_USE_VERSION 312\n#include <fuse3/fuse.h>\n"
    words = ["gcc", "-D_FILE_OFFSET_BITS=64", "-fsyntax-only", "-x", "c", "-"]
    return "" if subprocess.run(words, input=text, capture_output=True).returncode == 0 else "libfuse3-dev"


def compile_to(made, library, flags=()):
    """Compiles the mount over a library, with more flags."""
    sources = sorted(glob.glob(os.path.join(SOURCES, "*.c")))
    include = ["-I", os.path.dirname(tree.HEADER), "-D_FILE_OFFSET_BITS=64"]
    told = said(["gcc", *FLAGS, *flags, *include, *sources, library, "-lfuse3", "-lpthread", "-o", made])
    if not os.path.exists(made):
        raise Unbuilt(told)


def build(say):
    """Compiles the mount over the library that was built, and puts it below out/."""
    package = lacks()
    if package:
        raise Unbuilt(f"the mount needs Debian's package {package}")
    place = os.path.join(artefacts.OUT, PROGRAM)
    beside = f"{place}.{os.getpid()}"
    os.makedirs(os.path.dirname(place), exist_ok=True)
    compile_to(beside, os.path.join(artefacts.OUT, artefacts.LIBRARY))
    os.replace(beside, place)
    say("the mount is built")
