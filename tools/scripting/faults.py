"""What is wrong with a line of a script: the program's words for it, and more than those."""

import difflib
import re
from dataclasses import dataclass

from scripting import grammar

# A byte that is no UTF-8, as it is read.
STRAY = re.compile("[\udc80-\udcff]")

# Of a line, how many characters are shown at most, and of these how many before the faulty word.
WIDTH, BEFORE = 80, 50


@dataclass(frozen=True)
class Fault:
    """What the program says of a line; the place of the faulty word, and its characters in the line; and what was wanted there."""

    text: str
    place: int
    begin: int
    end: int
    wanted: str
    usage: str = ""


def explained(line, has_cluster, text):
    """The lines that tell of a fault which the program has found: more than its own text where this module finds the same.

    `has_cluster` says whether a command stands before the line."""
    line = grammar.without_return(line)
    found = needs_serial(line, text) if text.endswith("needs the serial mode") else fault_of(line, has_cluster)
    return [text, *(shown(line, found) if found and found.text == text else [])]


def shown(line, fault):
    """The line with its faulty word marked, and how the command is written."""
    first = max(0, fault.begin - BEFORE)
    part = "".join(character if character.isprintable() else "?" for character in line[first : first + WIDTH])
    begin = fault.begin - first
    mark = "^" * max(1, min(fault.end - first, WIDTH) - begin)
    yield f"  {part}"
    yield f"  {' ' * begin}{mark} word {fault.place}: {fault.wanted}"
    if fault.usage:
        yield f"  {fault.usage}"


def fault_of(line, has_cluster):
    """The first fault of a line, or nothing."""
    words = grammar.words_of(line)
    stray = STRAY.search(line) if not line.startswith("#") else None
    if stray:
        place = sum(word.start() <= stray.start() for word in words)
        return Fault("not UTF-8", place, stray.start(), stray.end(), "its byte isn't UTF-8")
    return command_fault(line, words, has_cluster) if words else None


def at(line, words, place, text, wanted, usage=""):
    """A fault of a word, or of a missing one at the line's end."""
    if place < len(words):
        return Fault(text, place + 1, words[place].start(), words[place].end(), wanted, usage)
    end = len(line.rstrip(" ")) + 1
    return Fault(text, place + 1, end, end, wanted, usage)


def command_fault(line, words, has_cluster):
    """The first fault of a line with words."""
    texts = [word[0] for word in words]
    place, known = grammar.command_place(texts)
    if place and grammar.value(texts[0]) is None:
        return at(line, words, 0, "bad number", "a client's number is a number below 2^64")
    called = texts[place] if len(texts) > place else ""
    if called not in known:
        wanted, usage = near_command(called, known)
        return at(line, words, place, "unknown command", wanted + hint("", called), usage)
    usage = grammar.usage(called)
    if has_cluster == (called == "cluster"):
        text = "second cluster" if has_cluster else "no cluster yet"
        return at(line, words, 0, text, "`cluster` is the first command, and only that", grammar.usage("cluster"))
    given = texts[place + 1 :]
    least, most = grammar.counts(called, given)
    kinds = ({**grammar.KEYWORDS, **grammar.CALLS})[called]
    if len(given) < least:
        kind = kinds[len(given)]
        return at(line, words, len(texts), "wrong number of words", f"{kind.name} is missing: {kind.wanted}", usage)
    if len(given) > most:
        wanted = "nothing is wanted here" + hint(called, given[most])
        return at(line, words, place + 1 + most, "wrong number of words", wanted, usage)
    return first_wrong(line, words, place + 1, kinds, usage)


def first_wrong(line, words, place, kinds, usage):
    """The fault of the first word from a place on that isn't of its kind, or nothing."""
    for number, (word, kind) in enumerate(zip(words[place:], kinds), place):
        text = kind.fault(word[0])
        if text:
            wanted = f"{kind.name} is {kind.wanted}" + meant(word[0], kind.choices) + hint("", word[0])
            return at(line, words, number, text, wanted, usage)
    return None


def near_command(called, known):
    """What is wanted where a word names no command, and the usage of the nearest one."""
    what, others = ("call", grammar.KEYWORDS) if known is grammar.CALLS else ("command", grammar.CALLS)
    if called in others:
        wanted = "this command has no number in front" if what == "call" else "a client's number stands in front of a call"
        return wanted, grammar.usage(called)
    near = nearest(called, [*known, *others])
    if near:
        return f"no {what}" + meant(called, [near]), grammar.usage(near)
    return (f"no {what}" if called else f"a {what} is missing"), f"one of {', '.join(known)}"


def nearest(word, known):
    return next(iter(difflib.get_close_matches(word, known, 1)), "")


def meant(word, known):
    near = nearest(word, known)
    return f"; is `{near}` meant?" if near else ""


def hint(called, word):
    """What explains a word that looks as if it were of another language."""
    if word.startswith("\ufeff"):
        return "; a byte order mark stands in front"
    if "\t" in word:
        return "; a tab parts no words"
    if word.startswith("#"):
        return "; a comment is a line that begins with #"
    return "; DATA is one word: text with spaces needs x, in which a space is 20" if called == "write" else ""


def needs_serial(line, text):
    """The fault of a line that `--threads` can't run."""
    words = grammar.words_of(line)
    return at(line, words, 0, text, "it runs on one thread only: leave --threads out") if words else None
