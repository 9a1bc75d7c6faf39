"""A program in a folder outside crates/, as those of examples/library.  `rt ci` refuses a source there that has its own ending, so the
folder has main.rattle, which is the crate's src/main.rt, and crate.txt, which is its line of crates.txt."""

import os
import shutil

from building import module, native, over_gate, tree


def laid_out(place, folder):
    """The program as a crate below the folder: its name, where it stands, and what it and all others stand on."""
    top = tree.listed(os.path.join(place, "crate.txt"))
    name = next(iter(top))
    crate = os.path.join(folder, name)
    os.makedirs(os.path.join(crate, "src"))
    shutil.copy(os.path.join(place, "main.rattle"), os.path.join(crate, "src/main.rt"))
    return name, crate, {**tree.crates(), **top}


def unproved(kit, place, folder):
    """The object file of the program without a proof, which stops where a proof shows that a place isn't reached."""
    name, crate, lists = laid_out(place, folder)
    kept = module.of_crate(kit, name, crate, folder, lists=lists)
    return native.compiled(kit, kept, folder, False)


def proved(kit, place, folder):
    """The object file of the program, proved over the crates that `rt ci` left."""
    name, crate, lists = laid_out(place, folder)
    made = os.path.join(folder, "proved.o")
    over_gate.build(kit, name, crate, lists, made)
    return made


def program(kit, place, folder, is_proved):
    """The program of a folder, as a file below another."""
    made = os.path.join(folder, "program")
    native.program(kit, (proved if is_proved else unproved)(kit, place, folder), made)
    return made
