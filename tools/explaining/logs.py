"""The records of clients, and up to which of them each node has got and digested."""

from dataclasses import dataclass, field
from typing import Dict, List, Tuple

from explaining.inodes import overrides

MOST_GROUPED = 64


@dataclass(frozen=True)
class Record:
    """A record: the number of the call, its effects, and whether a group begins with it."""

    call: int
    effects: Tuple[tuple, ...]
    begins: bool = True

    def touches(self, inode):
        return any(effect[1] == inode for effect in self.effects)


@dataclass
class Log:
    """A client's records, numbered from `first` on, and by full node up to which it has received and digested them.

    Up to `goal` they are to be replicated. Once the client is over, all its leases go behind `last_cut`."""

    home: int
    kind: str
    is_optimistic: bool
    limit: int
    first: int = 0
    goal: int = 0
    last_cut: int = 0
    has_failed: bool = False
    is_over: bool = False
    records: List[Record] = field(default_factory=list)
    received: Dict[int, int] = field(default_factory=dict)
    digested: Dict[int, int] = field(default_factory=dict)

    def end(self):
        return self.first + len(self.records)

    def acked(self):
        """Up to which record each full node has them."""
        return min([self.end(), *self.received.values()])

    def digested_by_all(self):
        return min([self.end(), *self.digested.values()])

    def since(self, number, to=None):
        """The records from a number on."""
        return self.records[max(0, number - self.first) : None if to is None else max(0, to - self.first)]

    def is_border(self, number):
        return not self.first < number < self.end() or self.records[number - self.first].begins

    def group_end(self, number):
        while not self.is_border(number):
            number += 1
        return number

    def whole_count(self, begin, most):
        """How many records from a number on, at most so many, end with a group."""
        count = max(0, most)
        while count and not self.is_border(begin + count):
            count -= 1
        return count

    # ---- what happens

    def add(self, call, effects):
        """A call leaves a record at its client's own node."""
        self.records.append(Record(call, tuple(effects)))
        self.received[self.home] = self.end()

    def cut(self, inode):
        """The revoker's answer, raised to the end of a group."""
        return self.group_end({"least": self.least, "eights": self.eights, "whole": self.whole}[self.kind](inode))

    def least(self, inode):
        touched = (number for number in range(self.end(), self.first, -1) if self.records[number - 1 - self.first].touches(inode))
        return next(touched, self.first)

    def eights(self, inode):
        return min(self.end(), -(-self.least(inode) // 8) * 8)

    def whole(self, inode):
        return self.end()

    def drop(self):
        """What all full nodes have digested goes."""
        to = self.digested_by_all()
        del self.records[: max(0, to - self.first)]
        self.first = max(self.first, to)

    def cut_tail(self, end):
        """What is behind a place goes, from every node."""
        del self.records[max(0, end - self.first) :]
        self.received = {node: min(end, place) for node, place in self.received.items()}

    def coalesce(self):
        """What no other full node has and wasn't to be replicated becomes groups, without what is overridden in them."""
        others = [place for node, place in self.received.items() if node != self.home]
        begin = max([self.goal, self.acked(), *others])
        tail = self.since(begin)
        del self.records[max(0, begin - self.first) :]
        for place in range(0, len(tail), MOST_GROUPED):
            self.records += coalesced(tail[place : place + MOST_GROUPED])
        self.received[self.home] = self.end()
        self.goal = max(self.goal, self.end())


def coalesced(group):
    """What is left of a group when effects go that later ones of it override. Its first record gets the call that it began with."""
    left = []
    effects = [(record.call, effect) for record in group for effect in record.effects]
    last = [not any(overrides(later, effect) for _, later in effects[place + 1 :]) for place, (_, effect) in enumerate(effects)]
    for record in group:
        kept = tuple(effect for (call, effect), stays in zip(effects, last) if stays and call == record.call)
        if kept:
            left.append(Record(record.call if left else group[0].call, kept, not left))
    return left
