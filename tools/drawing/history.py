"""What a printed history says, line by line."""

import re
from dataclasses import dataclass
from typing import Optional, Tuple

# What a line of a history looks like.  Clients and nodes have numbers of 32 bits, all else has 64.
NUMBER = r"\+?[0-9]+"
HEAD = re.compile(rf"({NUMBER}): history ({NUMBER})")
FORMS = [
    re.compile(rf"(?P<kind>open) (?P<client>{NUMBER}) (?P<node>{NUMBER})(?P<optimistic> optimistic)?"),
    re.compile(rf"(?P<kind>call) (?P<client>{NUMBER}) (?P<number>{NUMBER}) (?P<call>.*?) = (?P<reply>.*)"),
    re.compile(rf"(?P<kind>crash) (?P<client>{NUMBER})"),
    re.compile(rf"(?P<kind>fail) (?P<node>{NUMBER})(?P<tails>(?: {NUMBER}:{NUMBER})*)"),
    re.compile(rf"(?P<kind>return) (?P<node>{NUMBER})"),
]


class NoPicture(Exception):
    """Why there is no picture of a text."""


@dataclass
class Line:
    """A line of a history, with what it says.  `tails` has the number of the first lost call of each client."""

    text: str
    kind: str
    client: Optional[int] = None
    node: Optional[int] = None
    is_optimistic: bool = False
    number: int = 0
    call: str = ""
    reply: str = ""
    tails: Tuple[Tuple[int, int], ...] = ()

    def fits(self, opened):
        """Whether it names none but opened clients, and opens none of them anew."""
        if self.kind == "open":
            return self.client not in opened
        named = {client for client, _ in self.tails} | ({self.client} - {None})
        return named <= opened


def number(word, bits):
    """What a word says; refused where that takes more bits, which no more digits than bits can say."""
    digits = word.lstrip("+0") or "0"
    if len(digits) > bits or int(digits) >> bits:
        raise ValueError(word)
    return int(digits)


def pair(word):
    client, first = word.split(":")
    return number(client, 32), number(first, 64)


def line_of(text):
    """A line of a history with what it says; refused where it isn't one."""
    found = next(filter(None, (form.fullmatch(text) for form in FORMS)), None)
    if found is None:
        raise ValueError(text)
    said = found.groupdict()
    return Line(
        text,
        said["kind"],
        client=number(said["client"], 32) if "client" in said else None,
        node=number(said["node"], 32) if "node" in said else None,
        is_optimistic=said.get("optimistic") is not None,
        number=number(said.get("number", "0"), 64),
        call=said.get("call", ""),
        reply=said.get("reply", ""),
        tails=tuple(map(pair, said.get("tails", "").split())),
    )


def lines_in(text):
    """The lines of a text, each of which ends with LF or CR LF, but for the last, which may end with the text."""
    *ended, last = text.split("\n")
    return [line[:-1] if line.endswith("\r") else line for line in ended] + [last] * (last != "")


def count_in(line):
    """How many lines a history has that this line begins; None where it begins none."""
    found = HEAD.fullmatch(line)
    try:
        return found and (number(found[1], 64), number(found[2], 64))[1]
    except ValueError:
        return None


def read_history(text):
    """The lines of the last history that a text has."""
    texts = lines_in(text)
    heads = [(place, count) for place, line in enumerate(texts, 1) if (count := count_in(line)) is not None]
    if not heads:
        raise NoPicture("no history")
    head, count = heads[-1]
    lines, opened = [], set()
    for place, line in enumerate(texts[head : head + count], head + 1):
        try:
            lines.append(line_of(line))
        except ValueError as error:
            raise NoPicture(f"line {place}: not a line of a history") from error
        if not lines[-1].fits(opened):
            raise NoPicture(f"line {place}: not a line of a history")
        if lines[-1].kind == "open":
            opened.add(lines[-1].client)
    if len(lines) < count:
        raise NoPicture(f"line {len(texts) + 1}: missing")
    return lines


def lost_lines(lines):
    """The places of the calls that later failures took."""
    firsts, lost = {}, set()
    for place, line in reversed(list(enumerate(lines))):
        if line.kind == "call" and line.number >= firsts.get(line.client, line.number + 1):
            lost.add(place)
        for client, first in line.tails:
            firsts[client] = min(first, firsts.get(client, first))
    return lost


def first_lost(lines, client, first):
    """The place of the first call that a tail takes, if it takes any."""
    calls = (place for place, line in enumerate(lines) if line.kind == "call" and line.client == client and line.number >= first)
    return next(calls, None)
