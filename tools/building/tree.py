"""What stands in the repository: its crates, its sources, its commit and its version."""

import glob
import os
import re
import subprocess

ROOT = os.path.dirname(os.path.dirname(os.path.dirname(os.path.abspath(__file__))))
CONSOLE = os.path.join(ROOT, "crates/assise_console")

# The version and, in parentheses, what the program that these sources make by themselves says of its commit and its proof.
VERSION = re.compile(r'(pub const VERSION: &str = ")(\S+) (\([^"]*\))(";)')
HEADER = os.path.join(ROOT, "include/assise.h")


def crates():
    """What each crate of the repository stands on, by its name."""
    return listed(os.path.join(ROOT, "crates.txt"))


def listed(path):
    """What each crate of such a list stands on, by its name."""
    found = {}
    with open(path) as file:
        for line in file:
            row = re.match(r"(\w+)[^:#]*:([^#]*)", line)
            if row:
                found[row[1]] = row[2].split()
    return found


def below(name, lists):
    """The crates of the repository below a crate, each behind those that it stands on."""
    found = {}
    for low in lists[name]:
        if low in lists:
            found.update(dict.fromkeys([*below(low, lists), low]))
    return list(found)


def code():
    """The files that the compiler reads: the code of all crates but those of tests."""
    found = glob.glob(os.path.join(ROOT, "crates/*/src/**/*.rt"), recursive=True)
    return [os.path.join(ROOT, "crates.txt"), *sorted(path for path in found if "_tests/src/" not in path)]


def sources():
    """The files that program and library are built from: the code, the header, and what builds them."""
    return [*code(), HEADER, *sorted(glob.glob(os.path.join(ROOT, "tools/building/*.py")))]


def version():
    """The version of these sources, and what a program says in parentheses that nobody told its commit."""
    with open(os.path.join(CONSOLE, "src/options.rt"), encoding="utf-8") as file:
        found = VERSION.search(file.read())
    return found[2], found[3]


def commit():
    """Nine letters that name the commit of these sources, the last of them `+` where they differ from it; `unknown` outside a clone."""
    name, changes = (git(words) for words in (["rev-parse", "--short=9", "HEAD"], ["status", "--porcelain", "--untracked-files=no"]))
    if name is None or changes is None:
        return "unknown"
    return name[:8] + "+" if changes else name[:9]


def git(words):
    """What git prints in the repository, or none where it can't."""
    try:
        done = subprocess.run(["git", "-C", ROOT, *words], stdin=subprocess.DEVNULL, capture_output=True, text=True)
    except OSError:
        return None
    return done.stdout.strip() if done.returncode == 0 else None
