"""A plain tree of files and directories: what each call answers, by docs/SCRIPT.md."""

MOST_BYTES, MOST_ENTRIES = 1_048_576, 4_096
SYNCS = ("fsync", "dsync")
LOOKS = ("read", "list", "stat")


def names_of(path):
    return path[1:].split("/") if path != "/" else []


def bytes_of(data):
    """The bytes that a word DATA says."""
    kind, rest = data[0], data[1:]
    if kind == "t":
        return rest.encode("utf-8", "surrogateescape")
    return bytes.fromhex(rest) if kind == "x" else bytes(int(rest))


def leaves_record(words, reply):
    """Whether a call that is answered so has changed something, if only to what it was."""
    if reply != "done" or words[0] in SYNCS:
        return False
    is_empty = words[0] == "write" and not bytes_of(words[3])
    return not is_empty and not (words[0] == "rename" and words[1] == words[2])


def with_count(words):
    """The words of a call as a history has them: a write has the count of its bytes."""
    return [*words[:3], str(len(bytes_of(words[3])))] if words[0] == "write" else words


class Fault(Exception):
    """An error of the tree, by its number and name."""


class Tree:
    """Files are bytearrays, directories are dicts by their entries' names."""

    def __init__(self):
        self.root = {}

    def reply(self, words):
        """Makes a call, and answers it as the program does."""
        if words[0] in SYNCS:
            return "done"
        try:
            return getattr(self, words[0])(*words[1:]) or "done"
        except Fault as fault:
            return str(fault)

    def lines(self, at=None, path=""):
        """The lines of the whole tree as the program prints them."""
        at = self.root if at is None else at
        found = []
        for name in sorted(at, key=str.encode):
            if isinstance(at[name], dict):
                found += [f"{path}/{name} dir", *self.lines(at[name], f"{path}/{name}")]
            else:
                found.append(f"{path}/{name} file {len(at[name])}")
        return found

    # ---- on the way

    def find(self, names):
        """The file or directory of a path."""
        at = self.visited(self.root)
        for name in names:
            at = directory(at).get(name)
            if at is None:
                raise Fault("E1 NoEnt")
            self.visited(at)
        return at

    def visited(self, at):
        """A file or directory that a call looks at."""
        return at

    def parent(self, names):
        return directory(self.find(names[:-1]))

    def file(self, path):
        at = self.find(names_of(path))
        if isinstance(at, dict):
            raise Fault("E4 IsDir")
        return at

    # ---- the calls, in the order of their checks

    def make(self, path, entry):
        names = names_of(path)
        if not names:
            raise Fault("E2 Exists")
        parent = self.parent(names)
        if names[-1] in parent:
            raise Fault("E2 Exists")
        if len(parent) >= MOST_ENTRIES:
            raise Fault("E8 DirFull")
        parent[names[-1]] = entry

    def create(self, path):
        self.make(path, bytearray())

    def mkdir(self, path):
        self.make(path, {})

    def read(self, path, offset, length):
        found = self.file(path)[int(offset) : int(offset) + int(length)]
        return f"bytes {len(found)} x{found.hex()}"

    def write(self, path, offset, data):
        at, offset, data = self.file(path), int(offset), bytes_of(data)
        if offset + len(data) > MOST_BYTES:
            raise Fault("E7 TooBig")
        if data:
            at.extend(bytes(max(0, offset - len(at))))
            at[offset : offset + len(data)] = data

    def truncate(self, path, size):
        at, size = self.file(path), int(size)
        if size > MOST_BYTES:
            raise Fault("E7 TooBig")
        at.extend(bytes(max(0, size - len(at))))
        del at[size:]

    def unlink(self, path):
        if path == "/":
            raise Fault("E4 IsDir")
        self.file(path)
        names = names_of(path)
        del self.parent(names)[names[-1]]

    def rmdir(self, path):
        names = names_of(path)
        if not names:
            raise Fault("E6 Invalid")
        if directory(self.find(names)):
            raise Fault("E5 NotEmpty")
        del self.parent(names)[names[-1]]

    def list(self, path):
        at = directory(self.find(names_of(path)))
        return " ".join([f"names {len(at)}", *sorted(at, key=str.encode)])

    def stat(self, path):
        at = self.find(names_of(path))
        return f"dir {len(at)}" if isinstance(at, dict) else f"file {len(at)}"

    def rename(self, source, target):
        names, others = names_of(source), names_of(target)
        if not names or not others or names == others[: len(names)] and names != others:
            raise Fault("E6 Invalid")
        moved, parent, other = self.find(names), self.parent(names), self.parent(others)
        if names == others:
            return
        if others[-1] in other:
            replaced(moved, self.visited(other[others[-1]]))
        elif other is not parent and len(other) >= MOST_ENTRIES:
            raise Fault("E8 DirFull")
        del parent[names[-1]]
        other[others[-1]] = moved


def directory(at):
    if not isinstance(at, dict):
        raise Fault("E3 NotDir")
    return at


def replaced(moved, at):
    """Sees that what stands at the target of a rename may go."""
    if isinstance(at, dict) and not isinstance(moved, dict):
        raise Fault("E4 IsDir")
    if isinstance(moved, dict) and directory(at):
        raise Fault("E5 NotEmpty")
