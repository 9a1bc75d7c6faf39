"""Text in a picture: how it is spelled, and how much of it a label shows."""

import re

# How text is spelled within XML (Extensible Markup Language 1.0, sections 2.2 and 2.4), and what no document may have.
FORBIDDEN = [*range(0x09), 0x0B, 0x0C, *range(0x0E, 0x20), *range(0xD800, 0xE000), 0xFFFE, 0xFFFF]
SPELLED = {**{ord("&"): "&amp;", ord("<"): "&lt;", ord(">"): "&gt;", ord('"'): "&quot;"}, **dict.fromkeys(FORBIDDEN, "\ufffd")}

# How wide a label may be, and how wide characters of 11 pixels' height are at most in usual fonts without serifs, in pixels.
MOST, NARROW, USUAL, BROAD, BROADEST = 108, 3.6, 6.7, 11, 15
BYTES = re.compile("bytes [0-9]+ x((?:[0-9a-f]{2})+)")


def spelled(text):
    """Text as XML spells it, so that no name ends an element."""
    return text.translate(SPELLED)


def width(character):
    if character in "ijl.,:;'|!/ ":
        return NARROW
    if ord(character) > 0xFFFF:
        return BROADEST
    return BROAD if character in "mwMW@%\u2026" or ord(character) > 0x24F else USUAL


def fitted(text):
    """As much of a text as a label has room for; where something is left out it ends with an ellipsis."""
    if sum(map(width, text)) <= MOST:
        return text
    room, shown = MOST - width("\u2026"), ""
    for character in text:
        room -= width(character)
        if room < 0:
            break
        shown += character
    return f"{shown.rstrip()}\u2026"


def reply(text):
    """A reply, with bytes as text where they are some."""
    found = BYTES.fullmatch(text)
    try:
        shown = bytes.fromhex(found[1]).decode() if found else ""
    except UnicodeDecodeError:
        shown = ""
    return f"\u201c{shown}\u201d" if shown.isprintable() and shown else text
