"""What ./assise does where no build is of these sources: it builds, and then runs the program.

`--help`, `--version` and a script that isn't there are answered without a build."""

import os
import re
import signal
import subprocess
import sys

sys.dont_write_bytecode = True
sys.path.insert(0, os.path.dirname(os.path.dirname(os.path.realpath(__file__))))

from building import artefacts, tree  # noqa: E402

# The statuses of a fault of the command line or script, and of a script that can't be read, are the program's; the last is for no build.
UNREADABLE, UNBUILT = 3, 4


def main():
    # As any program starts, and as the one that follows has to.
    signal.signal(signal.SIGPIPE, signal.SIG_DFL)
    words = sys.argv[1:]
    if len(words) == 1:
        answer_at_once(words[0])
    if subprocess.run([os.path.join(tree.ROOT, "build")], stdin=subprocess.DEVNULL).returncode:
        sys.exit(UNBUILT)
    program = os.path.join(artefacts.OUT, artefacts.PROGRAM)
    os.execv(program, [program, *words])


def answer_at_once(word):
    """Ends with what the program would answer to this one word, where that needs no program."""
    if word in ("-h", "--help"):
        print(help_text())
        sys.exit(0)
    if word in ("-V", "--version"):
        print(f"assise {tree.version()[0]} ({tree.commit()}, not built)")
        sys.exit(0)
    if not word.startswith("-") and not os.path.exists(word):
        print(f"assise: cannot read {word}", file=sys.stderr)
        sys.exit(UNREADABLE)


def help_text():
    """The constant of the program's sources, which has it without escapes."""
    with open(os.path.join(tree.CONSOLE, "src/options.rt"), encoding="utf-8") as file:
        return re.search(r'const HELP: &str =\s*r?"([^"]*)";', file.read())[1]


if __name__ == "__main__":
    main()
