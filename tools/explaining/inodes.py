"""A plain tree whose files and directories have numbers that stay, and what a call visits and changes in it."""

from dataclasses import dataclass, field
from typing import List

from exploring.tree import Tree, bytes_of, leaves_record, names_of

# The number of the root. Every other inode has its client's, and how many that client made before.
ROOT = (0, 0)


class File(bytearray):
    """A file."""

    number = ROOT


class Directory(dict):
    """A directory."""

    number = ROOT


@dataclass
class Plan:
    """What a call comes to: the inodes that it looks at; its effects, each with the inode that it changes in second place; its reply."""

    visits: List[tuple] = field(default_factory=list)
    effects: List[tuple] = field(default_factory=list)
    reply: str = ""


class Inodes(Tree):
    """A tree in which a call is made by `maker`, and `visits` has what it looked at."""

    def __init__(self):
        self.root = Directory()
        self.maker, self.visits = ROOT, []

    def visited(self, at):
        self.visits.append(at.number)
        return at

    def make(self, path, entry):
        made = Directory() if isinstance(entry, dict) else File()
        made.number = self.maker
        super().make(path, made)

    def copied(self, paths):
        """Another tree with what stands at these paths and above them; all else they share."""
        other = Inodes()
        other.root = copy_of(self.root)
        for path in paths:
            at = other.root
            for name in names_of(path):
                if not isinstance(at, dict) or name not in at:
                    break
                at[name] = copy_of(at[name])
                at = at[name]
        return other

    def plan(self, words, maker):
        """What a call would come to. Nothing changes."""
        trial = self.copied([word for word in words[1:] if word.startswith("/")])
        trial.maker = maker
        reply = trial.reply(words)
        has_effects = leaves_record(words, reply)
        return Plan(list(dict.fromkeys(trial.visits)), self.effects(words, maker) if has_effects else [], reply)

    def effects(self, words, maker):
        """The effects of a call that succeeds, in their order."""
        called = words[0]
        names = names_of(words[1])
        if called in ("write", "truncate"):
            number = self.find(names).number
            offset = int(words[2])
            return [("write", number, offset, offset + len(bytes_of(words[3])))] if called == "write" else [("size", number)]
        entry = (self.find(names[:-1]).number, names[-1])
        if called in ("create", "mkdir"):
            return [("new", maker), ("link", *entry)]
        if called in ("unlink", "rmdir"):
            return [("unlink", *entry), ("free", self.find(names).number)]
        others = names_of(words[2])
        taker = self.find(others[:-1])
        there = taker.get(others[-1])
        gone = [] if there is None else [("unlink", taker.number, others[-1]), ("free", there.number)]
        return [*gone, ("unlink", *entry), ("link", taker.number, others[-1])]

    def path(self, number, at=None, front=""):
        """The path of an inode; nothing where it is gone."""
        at = self.root if at is None else at
        if at.number == number:
            return front or "/"
        for name, entry in at.items() if isinstance(at, dict) else ():
            found = self.path(number, entry, f"{front}/{name}")
            if found:
                return found
        return ""


def copy_of(at):
    other = Directory(at) if isinstance(at, dict) else File(at)
    other.number = at.number
    return other


def overrides(later, earlier):
    """Whether an effect makes an earlier one of no account."""
    if later[1] != earlier[1]:
        return False
    if later[0] in ("new", "free"):
        return True
    if later[0] == "write":
        return earlier[0] == "write" and later[2] <= earlier[2] and earlier[3] <= later[3]
    entries = ("link", "unlink")
    return later[0] in entries and earlier[0] in entries and later[2] == earlier[2]


def size_of(effect):
    """How many bytes an effect has in a frame: its kind, an inode, and what else there is."""
    kind = effect[0]
    if kind == "write":
        return 17 + effect[3] - effect[2]
    name = len(effect[2].encode("utf-8", "surrogateescape")) + 1 if kind in ("link", "unlink") else 0
    return 9 + name + {"size": 4, "link": 8}.get(kind, 0)

