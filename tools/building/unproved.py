"""The unproved build: the same sources by the same front end, compiled for speed, without a proof."""

import os
import shutil
import tempfile
from concurrent.futures import ThreadPoolExecutor

from building import artefacts, library, module, native, tree

def console(folder, what):
    """The console's sources, with this text as the version that the program prints."""
    copy = os.path.join(folder, "assise_console")
    shutil.copytree(os.path.join(tree.CONSOLE, "src"), os.path.join(copy, "src"))
    place = os.path.join(copy, "src/options.rt")
    with open(place, encoding="utf-8") as file:
        text = file.read()
    with open(place, "w", encoding="utf-8") as file:
        file.write(tree.VERSION.sub(lambda found: found[1] + what + found[4], text))
    return copy


def program(kit, folder, what, say):
    """The program, as a file below the folder."""
    os.makedirs(folder)
    moved = {"assise_console": console(folder, what)}
    kept = module.of_crate(kit, "assise", os.path.join(tree.ROOT, "crates/assise"), folder, moved)
    say("the program is read; now it is compiled")
    made = os.path.join(folder, "assise")
    native.program(kit, native.compiled(kit, kept, folder, True), made)
    return made


def archive(kit, folder, what, say):
    """The library for C, as a file below the folder."""
    os.makedirs(folder)
    kept = library.module_of(kit, folder)
    say("the library for C is read; now it is compiled")
    made = os.path.join(folder, "libassise.a")
    parts = [library.object_of(kit, folder, kept), library.named(kit, folder, what), f"{kit}/c/liblibc_c.a"]
    library.archive(kit, parts, made)
    return made


def build(kit, say):
    """Builds both at once, and puts them below out/."""
    what = artefacts.what(False)
    with tempfile.TemporaryDirectory(prefix="assise-build-") as folder, ThreadPoolExecutor(2) as pool:
        say("the program and the library, unproved: one to three minutes, once for these sources")
        wanted = [("the program", program, "program"), ("the library for C", archive, "library")]
        running = [(name, pool.submit(maker, kit, os.path.join(folder, part), what, say)) for name, maker, part in wanted]
        made = []
        for name, part in running:
            made.append(part.result())
            say(f"{name} is built")
        artefacts.place(kit, *made, proved=False)
