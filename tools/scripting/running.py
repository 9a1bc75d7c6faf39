"""Runs of the program, and what it answered to each line of a script."""

import os
import re
import signal
import subprocess
import sys
from dataclasses import dataclass
from typing import Dict, List, Optional, Tuple

from scripting import faults, grammar

ROOT = os.path.dirname(os.path.dirname(os.path.dirname(os.path.abspath(__file__))))
PROGRAM = os.path.join(ROOT, "assise")
SECONDS = 600

# An answer's first line. No other line of an answer, as of a tree or a history, begins so.
ANSWER = re.compile("([0-9]+): (.*)", re.DOTALL)
FAULT = re.compile("assise: script line ([0-9]+): (.*)\n")


@dataclass(frozen=True)
class Run:
    """A run: its status, the lines of each answer by the number of its command's line, and what was on standard error."""

    status: int
    answers: Dict[int, List[str]]
    said: str

    def fault(self) -> Optional[Tuple[int, str]]:
        """The number of the faulty line and its fault, where the script is why it wasn't run."""
        found = FAULT.fullmatch(self.said)
        return (int(found[1]), found[2]) if found else None

    def ending(self):
        """Why it has another status than 0, where no line of the script is the reason."""
        return self.said.rstrip("\n") or f"the program ended with status {self.status}"


def begin(program, is_stopped_late=False):
    """Lets standard output take any bytes, and ends where there is no program; where it has to be built first, that is seen.

    A tool that has something to do when it is stopped says so."""
    # As any program starts: it ends where nobody reads on, and where it is stopped.
    signal.signal(signal.SIGPIPE, signal.SIG_DFL)
    if not is_stopped_late and signal.getsignal(signal.SIGINT) != signal.SIG_IGN:
        signal.signal(signal.SIGINT, signal.SIG_DFL)
    sys.stdout.reconfigure(encoding="utf-8", errors="surrogateescape")
    try:
        status = subprocess.run([program, os.devnull], stdin=subprocess.DEVNULL).returncode
    except OSError as error:
        sys.exit(f"cannot run {program}: {error.strerror}")
    if status:
        sys.exit(f"{program} doesn't run an empty script: status {status}")


def text_of(read):
    """Bytes as a text, of which those that aren't UTF-8 can be written again."""
    return read.decode("utf-8", "surrogateescape")


def read(path):
    with open(path, "rb") as file:
        return text_of(file.read())


def run(program, words, script="", seconds=SECONDS):
    """Runs the program with these words, and this script on standard input. After so many seconds it is ended."""
    written = script.encode("utf-8", "surrogateescape")
    how = {"stdout": subprocess.PIPE, "stderr": subprocess.PIPE, "timeout": seconds}
    try:
        done = subprocess.run([program, *words], input=written, **how)
    except subprocess.TimeoutExpired:
        return Run(-1, {}, f"no end after {seconds} seconds\n")
    return Run(done.returncode, answers(text_of(done.stdout)), text_of(done.stderr))


def answers(printed):
    found, number = {}, 0
    for line in printed.split("\n")[:-1]:
        begun = ANSWER.fullmatch(line)
        number = int(begun[1]) if begun else number
        found.setdefault(number, []).append(begun[2] if begun else line)
    return found


def told(fault, lines):
    """What is told of the fault of a run of these lines."""
    number, text = fault
    return "\n".join(faults.explained(lines[number - 1], any(map(grammar.words_of, lines[: number - 1])), text))
