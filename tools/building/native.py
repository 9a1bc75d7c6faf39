"""From a module of LLVM to code for this machine: the checks that only a try has are taken out, and it is compiled and linked."""

import os
import re

from building import kit as kits
from building.module import Unbuilt, linked, said

# Lines of a module that have no other effect than to check, lines that stop it, and what asks for checks in the attributes of functions.
CHECKS = re.compile(r"""^.*call void @(?:llvm\.memset\.p0\.i64\(ptr [^,]*, i8 -86,|"rattle-llvm-checks::).*\n""", re.MULTILINE)
STOPS = re.compile(r"^.*call void @llvm\.trap\(\).*\n", re.MULTILINE)
ATTRIBUTES = re.compile(r"^attributes.*", re.MULTILINE)
ASKING = [("sanitize_address", "nounwind"), ('"frame-pointer"="all"', ""), ('"probe-stack"="inline-asm"', "")]

TARGET = ["--target=x86_64-unknown-linux-gnu", "--no-default-config"]
LOADER = "/lib64/ld-linux-x86-64.so.2"
CODE = ["-march=x86-64-v2", "-mllvm", "-no-trap-after-noreturn", "-ffunction-sections", "-fdata-sections", "-fPIE"]


def without_checks(text, is_fast):
    """A module's text without what only checks, and without what stops it where it has to be fast."""

    def asks_for_none(line):
        found = line[0]
        for asking, other in ASKING:
            found = found.replace(asking, other)
        return found

    found = ATTRIBUTES.sub(asks_for_none, CHECKS.sub("", text))
    return STOPS.sub("", found) if is_fast else found


def compiled(kit, kept, folder, is_fast, change=lambda text: text):
    """The object file of a module, whose text is changed before it is compiled."""
    clang = [kits.tool(kit, "clang"), *TARGET]
    text, made = os.path.join(folder, "module.ll"), os.path.join(folder, "module.o")
    told = said([*clang, "-x", "ir", kept, "-S", "-emit-llvm", "-O0", "-Xclang", "-disable-llvm-passes", "-o", text])
    if not os.path.exists(text):
        raise Unbuilt(told[-4000:])
    with open(text, encoding="utf-8", errors="surrogateescape") as file:
        module = change(without_checks(file.read(), is_fast))
    with open(text, "w", encoding="utf-8", errors="surrogateescape") as file:
        file.write(module)
    told = said([*clang, *CODE, "-O2" if is_fast else "-O1", "-c", "-x", "ir", text, "-o", made])
    if not os.path.exists(made):
        raise Unbuilt(told[-4000:])
    return made


def program(kit, made, place):
    """Links a program over this machine's library of C."""
    low = f"{kit}/toolchain/lib/"
    begin, end = ["Scrt1.o", "crti.o", "crtbeginS.o"], ["libc.so.6", "libc_nonshared.a", "libgcc.a", "crtendS.o", "crtn.o"]
    words = [kits.tool(kit, "ld.lld"), "-pie", "--gc-sections", "-z", "relro", "-z", "now", "-dynamic-linker", LOADER, "-o", place]
    told = said([*words, *(low + part for part in begin), made, *linked(kit), *(low + part for part in end)])
    if not os.path.exists(place):
        raise Unbuilt(told[-4000:])
