"""Frames, and the links that carry them."""

from dataclasses import dataclass
from typing import Optional, Tuple

from explaining.inodes import size_of
from explaining.logs import Record

MOST_RECORDS, HEAD = 64, 29


@dataclass(frozen=True)
class Frame:
    """A piece of a client's log. `ends` says of each record whether it is its group's last; it is none in version 1."""

    version: int
    epoch: int
    client: int
    first: int
    records: Tuple[Record, ...]
    ends: Optional[Tuple[bool, ...]]

    def size(self):
        """How many bytes it has."""
        marks = len(self.ends or ())
        return HEAD + marks + sum(9 + sum(map(size_of, record.effects)) for record in self.records)


@dataclass
class Link:
    """A link of a kind, and the frame that it was handed before, where it keeps that."""

    kind: str = "perfect"
    most: int = 0
    before: Optional[Frame] = None

    def carry(self, frame):
        """What comes at the other end, if something does."""
        if self.kind in ("lose", "fault") or self.kind == "cut" and frame.size() > self.most:
            return None
        if self.kind == "delay":
            came, self.before = self.before, frame
            return came
        if self.kind == "repeat":
            came, self.before = (self.before, None) if self.before else (frame, frame)
            return came
        return frame


def message(log, node, to_node, client, epoch, version):
    """The frame of a client's records that a node sends to the next one; none where that lacks nothing of what is to go."""
    first = max(log.received[to_node], log.first)
    end = min(log.goal, log.received[node])
    count = log.whole_count(first, min(MOST_RECORDS, end - first))
    if count <= 0:
        return None
    ends = tuple(log.is_border(number + 1) for number in range(first, first + count)) if version == 2 else None
    return Frame(version, epoch, client, first, tuple(log.since(first, first + count)), ends)


def is_taken(log, frame, node, epoch, level):
    """Whether a node takes a frame in: it is of the epoch, leaves no gap, and goes on as the client's own log does."""
    received = log.received[node]
    if frame.epoch != epoch or frame.first > received or frame.version > level:
        return False
    had = received - frame.first
    marks = (frame.ends or ())[had:]
    if any(mark != log.is_border(received + place + 1) for place, mark in enumerate(marks)):
        return False
    end = frame.first + len(frame.records)
    if end <= received:
        return True
    own = log.since(received, end)
    same = [(record.call, record.effects) for record in own] == [(record.call, record.effects) for record in frame.records[had:]]
    return end <= log.end() and log.is_border(end) and same
