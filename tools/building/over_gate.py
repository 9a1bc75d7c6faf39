"""A crate that is proved and compiled over the crates that `rt ci` left proved in crates/*/out, and no other with it."""

import os
import subprocess

from building import tree
from building.module import Unbuilt

# How the lines begin that tell of what is loaded.
LOADED = ("statements ", "logic ")


def rlib(name):
    return os.path.join(tree.ROOT, "crates", name, "out/rlib", f"{name}.rlib")


def words(kit, name, lists, out, is_library):
    """The command, as `rt run` would have it, or for a library `rt lib`."""
    main = "src/lib.rt" if is_library else "src/main.rt"
    found = [f"{kit}/bin/rattle", "build", "--crate-name", name, main, "--extern", f"std={kit}/rlibs/std.rlib"]
    for dep in lists[name]:
        found += ["--extern", f"{dep}={rlib(dep) if dep in lists else f'{kit}/rlibs/{dep}.rlib'}"]
    for folder in [f"{kit}/rlibs", *(os.path.dirname(rlib(low)) for low in tree.below(name, lists))]:
        found += ["-L", f"dependency={folder}"]
    found += ["--antt-project", f"{kit}/rattle/logic/antt-project.json", "--logic-built", f"{kit}/logic_built", "--jobs", "1"]
    found += ["--links", f"{name}=", *["--crate-type", "staticlib"] * is_library, "--toolchain", f"{kit}/toolchain", "--backend", "llvm"]
    return [*found, "-o", out]


def build(kit, name, crate, lists, out, is_library=False):
    """Builds the object file of a program, or the archive of a library, whose sources stand below `crate`; `lists` says what each crate
    stands on."""
    missing = [low for low in tree.below(name, lists) if not os.path.exists(rlib(low))]
    if missing:
        raise Unbuilt(f"{missing[0]} isn't built: `rt ci` leaves all crates so")
    how = {"cwd": crate, "stdin": subprocess.DEVNULL, "stdout": subprocess.PIPE, "stderr": subprocess.STDOUT}
    done = subprocess.run(words(kit, name, lists, out, is_library), **how)
    if done.returncode or not os.path.exists(out):
        lines = done.stdout.decode(errors="replace").splitlines()
        said = "\n".join(line for line in lines if not line.startswith(LOADED))
        raise Unbuilt(f"{name} isn't built:\n{said[-4000:]}")
