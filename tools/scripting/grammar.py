"""The commands of a script, and what each of their words is.

docs/SCRIPT.md has them for people. The program has its own reader, crates/assise_fault_script; checks/tools compares the two."""

import re
from dataclasses import dataclass
from typing import Callable, Tuple

DIGITS = tuple("0123456789")
NUMBER = re.compile("0*([0-9]{1,20})")
MOST_NAMES, MOST_NAME_BYTES, MOST_ZEROS = 32, 255, 1_048_576


# ---- the fault of a word, as the program calls it, or nothing


def value(word):
    """The number that a word writes; none where that is no number below 2^64."""
    found = NUMBER.fullmatch(word)
    return int(found[1]) if found and int(found[1]) < 2**64 else None


def number_fault(word):
    return "bad number" if value(word) is None else ""


def within(low, high):
    return lambda word: number_fault(word) or ("" if low <= value(word) <= high else "out of limits")


def one_of(choices, fault):
    return lambda word: "" if word in choices else fault


def name_fault(word):
    if not word:
        return "empty name"
    if len(word.encode()) > MOST_NAME_BYTES:
        return "name too long"
    return "bad name" if "\0" in word or word in (".", "..") else ""


def path_fault(word):
    if not word.startswith("/"):
        return "bad path: not absolute"
    names = word[1:].split("/") if word != "/" else []
    faults = [fault for fault in map(name_fault, names) if fault] + ["too deep"] * (len(names) > MOST_NAMES)
    return f"bad path: {faults[0]}" if faults else ""


def data_fault(word):
    rest, count = word[1:], value(word[1:])
    is_hex = word.startswith("x") and re.fullmatch("([0-9a-fA-F]{2})*", rest)
    is_zeros = word.startswith("z") and count is not None and count <= MOST_ZEROS
    return "" if word.startswith("t") or is_hex or is_zeros else "bad data"


# ---- the words of commands


@dataclass(frozen=True)
class Word:
    """What a word is called in its command's usage, what is wanted there, its fault if any, and all that it may be where that is little."""

    name: str
    wanted: str
    fault: Callable[[str], str]
    choices: Tuple[str, ...] = ()


def a_number(called, wanted="a number below 2^64"):
    return Word(called, wanted, number_fault)


def a_limited(called, low, high):
    return Word(called, f"a number from {low} to {high}", within(low, high))


def a_path(called):
    return Word(called, "/, or a slash before each of 1 to 32 names; a name has 1 to 255 bytes, and isn't . or ..", path_fault)


REVOKERS, MODES = ("least", "eights", "whole"), ("optimistic",)
LINKS = ("perfect", "repeat", "delay", "cut", "lose", "fault")

NODE, CLIENT = a_number("NODE", "the number of a node"), a_number("C", "the number of a client")
REVOKER = Word("KIND", "least, eights or whole", one_of(REVOKERS, "unknown revoker"), REVOKERS)
MODE = Word("[optimistic]", "optimistic, or nothing", one_of(MODES, "unknown mode"), MODES)
LINK = Word("KIND", "perfect, repeat, delay, lose, fault, or cut and a count of bytes", one_of(LINKS, "unknown link"), LINKS)
DATA = Word("DATA", f"t and a text, x and pairs of hexadecimal digits, or z and a count of zeros, at most {MOST_ZEROS}", data_fault)

# The commands by their first word, with the words behind it.
KEYWORDS = {
    "cluster": (a_limited("NODES", 1, 16), a_limited("LOG", 8, 4096), a_limited("HOT", 1, 4096)),
    "open": (NODE, REVOKER, MODE),
    "crash": (CLIENT,),
    "fail": (NODE,),
    "back": (NODE,),
    "hot": (NODE, a_limited("CAPACITY", 1, 4096)),
    "tree": (NODE,),
    "history": (),
    "check": (),
    "manual": (),
    "carry": (NODE,),
    "digest": (NODE,),
    "release": (),
    "refill": (NODE,),
    "join": (NODE,),
    "raise": (NODE,),
    "link": (NODE, LINK, a_number("K", "a count of bytes, below 2^64")),
}

# The calls, which stand behind their client's number.
CALLS = {
    "create": (a_path("P"),),
    "mkdir": (a_path("P"),),
    "read": (a_path("P"), a_number("OFFSET"), a_number("LENGTH")),
    "write": (a_path("P"), a_number("OFFSET"), DATA),
    "truncate": (a_path("P"), a_number("SIZE")),
    "rename": (a_path("P"), a_path("Q")),
    "unlink": (a_path("P"),),
    "rmdir": (a_path("P"),),
    "list": (a_path("P"),),
    "stat": (a_path("P"),),
    "fsync": (),
    "dsync": (),
}


# ---- the words of a line


def without_return(line):
    return line[:-1] if line.endswith("\r") else line


def words_of(line):
    """The words of a line, each with its place there; a comment has none."""
    return [] if line.startswith("#") else list(re.finditer("[^ ]+", without_return(line)))


def texts_of(line):
    return [word[0] for word in words_of(line)]


def command_place(texts):
    """At which word a line's command is named, and the commands among which that has to be."""
    return (1, CALLS) if texts[0].startswith(DIGITS) else (0, KEYWORDS)


def counts(called, given):
    """How many words a command has at least and at most, where these are given."""
    most = len({**KEYWORDS, **CALLS}[called])
    if called == "link":
        return (most, most) if given[1:2] == ["cut"] else (most - 1, most - 1)
    return (most - 1 if called == "open" else most), most


def usage(called):
    """How a command is written, as `assise --help` does."""
    if called in CALLS:
        return " ".join(["C", called, *(word.name for word in CALLS[called])])
    words = KEYWORDS[called][:2] if called == "link" else KEYWORDS[called]
    return " ".join([called, *(word.name for word in words)])


def paths_in(lines):
    """The paths that lines of a script name, each once."""
    found = {}
    for texts in filter(None, map(texts_of, lines)):
        place, known = command_place(texts)
        kinds = known.get(texts[place], ()) if len(texts) > place else ()
        for kind, text in zip(kinds, texts[place + 1 :]):
            if kind.fault is path_fault and not path_fault(text):
                found[text] = True
    return list(found)


def completions(lines, before, text):
    """What a text may become behind what is before it in a line: a command, one of few words, or a path that lines of the script name.

    Words that are whole have a space behind them; a path may go on."""
    texts = texts_of(before)
    place, known = command_place(texts) if texts else (0, KEYWORDS)
    kinds = known.get(texts[place], ())[len(texts) - place - 1 :] if len(texts) > place else ()
    if kinds and kinds[0].fault is path_fault:
        found = paths_in(lines)
    else:
        found = [f"{word} " for word in (kinds[0].choices if kinds else known if len(texts) <= place else ())]
    return sorted(word for word in found if word.startswith(text))
