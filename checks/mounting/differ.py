"""Random calls, the same on a mount and in a folder of a memory file system, while nodes fail: results, errnos and trees are the same."""

import errno
import os
import random
import shutil
import stat

NAMES = ["a", "b", "c", "dir", "e" * 200, "ü", "x y"]
MOST_OPEN = 12
MOST_BYTES = 70_000
LOOK_STEPS = 500
TROUBLE = 0.02

FLAGS = [os.O_RDWR | os.O_CREAT, os.O_RDWR, os.O_RDWR | os.O_CREAT | os.O_EXCL, os.O_RDWR | os.O_CREAT | os.O_TRUNC,
         os.O_RDWR | os.O_CREAT | os.O_APPEND, os.O_RDONLY]


def shown(root):
    """What lies below a folder: names, modes, sizes and bytes. What FUSE keeps of open files that were removed isn't looked at."""
    found = []
    for above, folders, names in os.walk(root):
        for name in folders + names:
            path = os.path.join(above, name)
            what = os.stat(path)
            if name.startswith(".fuse_hidden"):
                continue
            row = [os.path.relpath(path, root), stat.S_IMODE(what.st_mode)]
            if stat.S_ISREG(what.st_mode):
                with open(path, "rb") as file:
                    row += [what.st_size, file.read()]
            found.append(row)
    return sorted(found)


def seen(path, what):
    """A stat's mode and, of a file, its size."""
    return path, stat.S_IFMT(what.st_mode), stat.S_IMODE(what.st_mode), what.st_size if stat.S_ISREG(what.st_mode) else 0


class Differ:
    """Calls by one seed on the mounts of a cluster and on a plain folder beside."""

    def __init__(self, mounted, plain, seed, nodes):
        self.mounted, self.nodes = mounted, nodes
        self.random, self.aside = random.Random(seed), random.Random(seed)
        self.places = [os.path.join(folder, "differ") for folder in mounted.folders]
        self.plain = os.path.join(plain, "differ")
        self.files = []
        self.calls = self.troubles = 0
        self.differences = []

    def both(self, what, call):
        """Makes a call on one of the mounts and in the plain folder, by the side (0 or 1) and its folder; what came of each."""
        came = []
        for side, root in enumerate([self.aside.choice(self.places), self.plain]):
            try:
                came.append(call(side, root))
            except OSError as error:
                came.append(errno.errorcode[error.errno])
        self.calls += 1
        if came[0] != came[1]:
            self.differences.append(f"call {self.calls}, {what}: {str(came[0])[:60]}, and not {str(came[1])[:60]}")
        return came

    def path(self):
        return "/".join(self.random.choice(NAMES) for _ in range(self.random.choice([1, 1, 2, 2, 3])))

    def close(self, files):
        for file in files:
            self.files.remove(file)
            self.both("close", lambda side, root: os.close(file[side]))

    def close_hidden(self):
        """FUSE hides an open file that is removed in its folder, which is then not empty; another mount's isn't hidden."""
        several = len(self.places) > 1
        self.close([file for file in self.files if several or os.fstat(file[1]).st_nlink == 0])

    def open(self):
        path, flags, opened = self.path(), self.random.choice(FLAGS), [None, None]

        def call(side, root):
            opened[side] = os.open(f"{root}/{path}", flags, 0o640)

        self.both("open", call)
        if None in opened:
            for file in opened:
                if file is not None:
                    os.close(file)
            return
        self.files.append(opened)
        if len(self.files) > MOST_OPEN:
            self.close([self.random.choice(self.files)])

    def of_names(self):
        """A call by a path or two."""
        path, other, mode = self.path(), self.path(), self.random.choice([0o400, 0o600, 0o440])
        size = self.random.randrange(700_000)
        kind = self.random.choice(["mkdir", "rmdir", "unlink", "rename", "rename", "truncate", "chmod", "list", "stat", "utime"])
        if kind in ("rmdir", "rename") or kind == "unlink" and len(self.places) > 1:
            self.close_hidden()
        calls = {
            "mkdir": lambda root: os.mkdir(f"{root}/{path}"),
            "rmdir": lambda root: os.rmdir(f"{root}/{path}"),
            "unlink": lambda root: os.unlink(f"{root}/{path}"),
            "rename": lambda root: os.rename(f"{root}/{path}", f"{root}/{other}"),
            "truncate": lambda root: os.truncate(f"{root}/{path}", size),
            "chmod": lambda root: os.chmod(f"{root}/{path}", mode),
            "list": lambda root: sorted(name for name in os.listdir(f"{root}/{path}") if not name.startswith(".fuse")),
            "stat": lambda root: seen(path, os.stat(f"{root}/{path}")),
            "utime": lambda root: (os.utime(f"{root}/{path}", (5, size)), os.stat(f"{root}/{path}").st_mtime),
        }
        self.both(kind, lambda side, root: calls[kind](root))

    def of_files(self):
        """A call by a file that is open."""
        file, at = self.random.choice(self.files), self.random.randrange(700_000)
        count = self.random.choice([0, 1, 17, 4096, MOST_BYTES, self.random.randrange(300_000)])
        data = self.random.randbytes(min(count, MOST_BYTES))
        kind = self.random.choice(["pwrite", "pwrite", "pwrite", "pread", "ftruncate", "fsync", "fstat"])
        calls = {
            "pwrite": lambda fd: os.pwrite(fd, data, at),
            "pread": lambda fd: os.pread(fd, count, at),
            "ftruncate": lambda fd: os.ftruncate(fd, at),
            "fsync": os.fsync,
            "fstat": lambda fd: seen("", os.fstat(fd)),
        }
        self.both(kind, lambda side, root: calls[kind](file[side]))

    def trouble(self):
        """A node fails, now or behind some more changes, or comes back. What is refused is no trouble."""
        node = self.aside.randrange(1, self.nodes + 1)
        words = f"fail {node}" if self.mounted.nodes()[node] == "full" else f"back {node}"
        if words[0] == "f" and self.aside.random() < 0.5:
            words += f" after {self.aside.randrange(1, 20)}"
        try:
            self.mounted.order(words)
            self.troubles += 1
        except OSError:
            pass

    def look(self):
        if shown(self.places[0]) != shown(self.plain):
            self.differences.append(f"behind call {self.calls}: the trees")

    def run(self, steps):
        """What differs, a line each."""
        for root in (self.places[0], self.plain):
            os.mkdir(root)
        for step in range(1, steps + 1):
            kind = self.random.randrange(19)
            if kind < 3:
                self.open()
            elif kind < 13 or not self.files:
                self.of_names()
            else:
                self.of_files()
            if self.nodes and self.aside.random() < TROUBLE:
                self.trouble()
            if step % LOOK_STEPS == 0 or step == steps:
                self.look()
            if self.differences:
                break
        self.close(list(self.files))
        shutil.rmtree(self.plain)
        return self.differences
