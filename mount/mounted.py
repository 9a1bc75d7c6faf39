"""A new cluster, mounted in folders of its own for as long as a `with` lasts, and its control directory."""

import os
import shutil
import signal
import subprocess
import sys
import tempfile
import time

SECONDS = 20


class Unmounted(Exception):
    """Why there is no mount, with what was said."""


class Mounted:
    """`with Mounted(program, ["--nodes", "3"], at=[2]) as mounted`: `mounted.folders` has one on node 1 and one on node 2."""

    def __init__(self, program, words=(), at=()):
        self.program, self.words, self.at = program, list(words), list(at)
        self.above = self.process = None
        self.wrong = ""
        self.folders = []

    def __enter__(self):
        self.above = tempfile.mkdtemp(prefix="assise-mount-")
        try:
            self.begin()
        except BaseException:
            self.end()
            raise
        return self

    def __exit__(self, *_):
        self.end()

    def begin(self):
        self.folders = [os.path.join(self.above, str(place)) for place in range(1 + len(self.at))]
        for folder in self.folders:
            os.mkdir(folder)
        places = [word for node, folder in zip(self.at, self.folders[1:]) for word in ("--at", f"{node}={folder}")]
        words = dying([self.program, self.folders[0], "-f", *places, *self.words])
        self.process = subprocess.Popen(words, stdin=subprocess.DEVNULL, stdout=subprocess.PIPE, stderr=subprocess.STDOUT)
        until = time.monotonic() + SECONDS
        while not all(map(os.path.ismount, self.folders)):
            if self.process.poll() is not None or time.monotonic() > until:
                self.end_process()
                raise Unmounted(self.wrong or "nothing was mounted in time")
            time.sleep(0.002)

    def end(self):
        """The mount's process unmounts what it has; what it leaves is unmounted from outside."""
        if self.process:
            self.end_process()
        for folder in self.folders:
            if is_mounted(folder):
                subprocess.run(["fusermount3", "-u", "-z", folder], stderr=subprocess.DEVNULL)
        if not any(map(is_mounted, self.folders)):
            shutil.rmtree(self.above, ignore_errors=True)

    def end_process(self):
        """`wrong` is what the process said, where it doesn't end well."""
        self.process.terminate()
        try:
            said = self.process.communicate(timeout=SECONDS)[0]
        except subprocess.TimeoutExpired:
            self.process.kill()
            said = self.process.communicate()[0]
        if self.process.returncode != 0:
            self.wrong = f"status {self.process.returncode}: {said.decode(errors='replace').strip()}"

    def order(self, words, place=0):
        """Writes words to the control file of a mount. An OSError says that it is refused."""
        with open(os.path.join(self.folders[place], ".assise/control"), "w", encoding="utf-8") as file:
            file.write(words)

    def read(self, name, place=0):
        with open(os.path.join(self.folders[place], ".assise", name), encoding="utf-8") as file:
            return file.read()

    def status(self):
        """The numbers of the status, by their words."""
        rows = (line.split() for line in self.read("status").splitlines())
        return {row[0]: int(row[1]) for row in rows if row[0] not in ("node", "mount", "mode")}

    def nodes(self):
        """How each node stands, by its number."""
        rows = (line.split() for line in self.read("status").splitlines())
        return {int(row[1]): row[2] for row in rows if row[0] == "node"}


def dying(words):
    """The words of a command that is ended with whoever calls it, however that ends."""
    return ["setpriv", "--pdeathsig", "TERM", *words] if shutil.which("setpriv") else words


def end_in_order():
    """Has this process end by a signal so that each `with` is left."""
    signal.signal(signal.SIGTERM, lambda *_: sys.exit(1))


def is_mounted(folder):
    """Whether a folder is a mount, also one whose process is gone."""
    try:
        return os.path.ismount(folder)
    except OSError:
        return True


def why_not():
    """Why nothing can be mounted here, or nothing."""
    if not os.path.exists("/dev/fuse"):
        return "there is no /dev/fuse"
    if not os.access("/dev/fuse", os.R_OK | os.W_OK):
        return "/dev/fuse may not be used"
    return ""
