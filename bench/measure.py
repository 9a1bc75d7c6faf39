"""What bench/run, bench/compare and bench/budget.py measure with: a program, its scripts, and the plain program."""

import os
import re
import shutil
import statistics
import subprocess
import sys
import tempfile
import time
from typing import NamedTuple

HERE = os.path.dirname(os.path.abspath(__file__))
PROGRAM = os.path.join(HERE, "../crates/assise/out/assise")
PLAIN = os.path.join(HERE, "plain/Cargo.toml")
BUILT = os.path.expanduser("~/.cache/assise_plain")
TRIES = 5

# The workloads that ours and the plain program are compared by, and the calls of each in its usual size.
COMPARED = {
    "create": 100_000,
    "rename": 100_000,
    "parse": 200_000,
    "share": 50_000,
    "mix": 20_000,
    "write": 20_000,
    "read": 10_000,
}


def plain_program():
    """Builds bench/plain outside the tree, and answers where its program is."""
    words = ["cargo", "build", "--release", "--offline", "--quiet", "--manifest-path", PLAIN, "--target-dir", BUILT]
    subprocess.run(words, check=True)
    return os.path.join(BUILT, "release/assise_plain")


class Taken(NamedTuple):
    """What a run takes: nanoseconds by the clock and of all processors, and its most memory, in bytes."""

    clock: int
    processors: int
    memory: int


def taken(words):
    """What a run of a command takes."""
    with open(os.devnull, "r+b") as null:
        begin = time.perf_counter_ns()
        child = subprocess.Popen(words, stdin=null, stdout=null)
        _, status, usage = os.wait4(child.pid, 0)
        clock = time.perf_counter_ns() - begin
    child.returncode = os.waitstatus_to_exitcode(status)
    if child.returncode != 0:
        raise subprocess.CalledProcessError(child.returncode, words)
    return Taken(clock, int((usage.ru_utime + usage.ru_stime) * 10**9), usage.ru_maxrss * 1024)


def medians(commands, runs):
    """The medians of what each command takes.  They run in turn, so that a slow second of the machine meets all of them."""
    rounds = [[taken(words) for words in commands] for _ in range(runs)]
    return [Taken(*map(statistics.median, zip(*tries))) for tries in zip(*rounds)]


class Bench:
    """A program, and the folder that its scripts are written into."""

    def __init__(self, program, folder):
        self.program = program
        self.folder = folder

    def script(self, kind, count, **words):
        """The path of a script of bench/generate."""
        words = [kind, str(count), *(f"{word}={value}" for word, value in words.items())]
        path = os.path.join(self.folder, " ".join(words))
        if not os.path.exists(path):
            with open(path, "wb") as file:
                subprocess.run([os.path.join(HERE, "generate"), *words], stdout=file, check=True)
        return path

    def checked(self, kind, count):
        """A script of bench/generate with a check of the history behind it."""
        plain, path = self.script(kind, count), os.path.join(self.folder, f"{kind} {count} checked")
        with open(plain) as file, open(path, "w") as copy:
            copy.write(f"{file.read()}check\n")
        return path

    def printed(self, script, *options):
        return subprocess.run([self.program, script, *options], stdout=subprocess.PIPE, check=True).stdout.decode()

    def refused(self, script, *options):
        """How many commands of a script are refused."""
        return len(re.findall(r"^\d+: F\d", self.printed(script, *options), re.MULTILINE))

    def prints_as(self, other, script):
        """Whether another program prints the same bytes."""
        with tempfile.TemporaryFile() as ours, tempfile.TemporaryFile() as theirs:
            for bench, file in ((self, ours), (other, theirs)):
                subprocess.run([bench.program, script], stdout=file, check=True)
                file.seek(0)
            while True:
                one, two = ours.read(1 << 20), theirs.read(1 << 20)
                if one != two or not one:
                    return one == two

    def fastest(self, script, *options):
        """What the fastest run takes."""
        return min(taken([self.program, script, *options]) for _ in range(TRIES))

    def best(self, script, *options):
        """The nanoseconds of the fastest run by the clock."""
        return self.fastest(script, *options).clock

    def kernel_calls(self, script, *options):
        """How often a run calls the kernel; none where strace isn't there, which counts that."""
        if not shutil.which("strace"):
            return None
        path = os.path.join(self.folder, "kernel")
        words = ["strace", "-c", "-f", "-o", path, self.program, script, *options]
        subprocess.run(words, stdout=subprocess.DEVNULL, check=True)
        with open(path) as file:
            *_, total = (line.split() for line in file if line.endswith(" total\n"))
        # Percent, seconds, microseconds a call, calls, errors and the word.
        return int(total[3])

    def instructions(self, script):
        """The instructions of a run."""
        if not shutil.which("valgrind"):
            sys.exit("no valgrind, which counts instructions")
        words = ["valgrind", "--tool=callgrind", "--callgrind-out-file=/dev/null", self.program, script]
        done = subprocess.run(words, stdout=subprocess.DEVNULL, stderr=subprocess.PIPE, check=True)
        return int(re.search(r"Collected : (\d+)", done.stderr.decode())[1])

    def instructions_between(self, turns, more, less):
        """The instructions of a turn, of which the one script has `turns` more than the other."""
        return (self.instructions(more) - self.instructions(less)) / turns

    def costs(self, turns, more, less):
        """What a turn costs, of which the one script has `turns` more than the other."""
        nanoseconds = (self.best(more) - self.best(less)) // turns
        if not shutil.which("valgrind"):
            return f"{nanoseconds} ns"
        return f"{nanoseconds} ns, {int(self.instructions_between(turns, more, less))} instructions"

    def turn(self, kind, turns, **words):
        """What a turn of a kind costs."""
        return self.costs(turns, self.script(kind, turns, **words), self.script(kind, 0, **words))

    def records_digested(self, **words):
        """The records that all nodes digest where a script of groups says so."""
        return sum(map(int, re.findall(r": digested (\d+)", self.printed(self.script("groups", 1024, **words)))))
