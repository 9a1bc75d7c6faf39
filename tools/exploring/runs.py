"""Runs scripts by chance one after another, judges each, and shrinks one that is wrong."""

import os
import random
import subprocess
import time
from collections import Counter
from dataclasses import dataclass

from scripting import running

from exploring import judge, scripts
from exploring.shrinking import Shrinker

# Tries of a call, on one thread and with several: what holds frames back makes each of them wait.
TURNS, TURNS_OF_THREADS = "200", "3000"

# How many scripts are tried to make a wrong one shorter; with threads, where a run may differ from the one before, how many, and how often.
SHRINKING, SHRINKING_OF_THREADS, TRIES_OF_THREADS = 1_500, 200, 4

# For how many seconds a script may run, which takes far less than one, and for how many a wrong one is made shorter.
SECONDS, SECONDS_OF_SHRINKING = 30, 300
PICTURE = os.path.join(running.ROOT, "tools/picture")


@dataclass(frozen=True)
class Found:
    """A run that is wrong: its seed, the shrunk lines, their run, and why it is wrong."""

    seed: int
    lines: list
    run: running.Run
    reason: str


class Explorer:
    """Explores a program with scripts of a shape; counts what has happened so far."""

    def __init__(self, program, shape):
        self.program = program
        self.shape = shape
        self.counts = Counter()

    def run(self, lines):
        words = ["-", *(["--threads", "--turns", TURNS_OF_THREADS] if self.shape.has_threads else ["--turns", TURNS])]
        return running.run(self.program, words, "".join(f"{line}\n" for line in lines), SECONDS)

    def why(self, lines):
        """A run of these lines, and why it is wrong, if it is."""
        run = self.run(lines)
        return run, judge.why(lines, run, self.shape.has_threads)

    def explore(self, seed):
        """Runs the script of a seed: what is found, or nothing."""
        lines = scripts.script(random.Random(seed), self.shape)
        run, reason = self.why(lines)
        self.count(lines, run)
        if not reason:
            return None
        self.counts["wrong"] += 1
        return self.shrunk(Found(seed, lines, run, reason))

    def count(self, lines, run):
        """Counts commands, and calls, failures, returns and crashes that came to something."""
        self.counts.update(runs=1, steps=len(lines))
        for number, line in enumerate(lines, 1):
            text = "".join(run.answers.get(number, [])[:1])
            if line[0].isdigit():
                self.counts["calls"] += not text.startswith("F") and text != "wait"
            else:
                self.counts.update(kind for kind in ("failed", "returned", "crashed") if text.startswith(kind))

    def shrunk(self, found):
        """The same with fewer lines. What is kept is the last run that was wrong."""
        best, until = [found], time.monotonic() + SECONDS_OF_SHRINKING

        def is_wrong(lines):
            for _ in range(TRIES_OF_THREADS if self.shape.has_threads else 1):
                if time.monotonic() > until:
                    return False
                run, reason = self.why(lines)
                if reason:
                    best[0] = Found(found.seed, lines, run, reason)
                    return True
            return False

        Shrinker(found.lines, is_wrong, SHRINKING_OF_THREADS if self.shape.has_threads else SHRINKING).shrunk()
        return best[0]

    def draw(self, found, path):
        """Writes a picture of what was found: its history, up to its last line."""
        run = self.run([*found.lines, "history"])
        number = len(found.lines) + 1
        text = f"{number}: " + "".join(f"{line}\n" for line in run.answers.get(number, []))
        done = subprocess.run([PICTURE], input=text.encode("utf-8", "surrogateescape"), stdout=subprocess.PIPE)
        if done.returncode == 0:
            with open(path, "wb") as file:
                file.write(done.stdout)


def told(found):
    """The lines that tell of a wrong run: its script, with what was answered beside it, and why it is wrong."""
    width = min(40, max(map(len, found.lines))) + 2
    yield f"seed {found.seed} is wrong, {found.reason}"
    for number, line in enumerate(found.lines, 1):
        answer = found.run.answers.get(number, [])
        yield f"    {line:{width}}{f'# {number}: {answer[0]}' if answer else ''}".rstrip(" ")
        yield from (f"    {'':{width}}#    {more}" for more in answer[1:])
