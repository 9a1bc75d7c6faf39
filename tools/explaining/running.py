"""Runs a script, and goes through its answers: each line with why it was answered so."""

import os

from exploring.wrong import Wrong
from scripting import grammar, running

from explaining import sentences
from explaining.model import Lost, Model, Step

TURNS = 100_000


def words_beside(script):
    """The words for the program in the file beside a script, and whether --threads is among them."""
    beside = os.path.splitext(script)[0] + ".args"
    words = running.read(beside).split() if os.path.exists(beside) else []
    return [word for word in words if word != "--threads"], "--threads" in words


def turns_of(words):
    """How often a call is tried, by the words for the program."""
    parts = [part for word in words for part in word.split("=", 1)]
    return int(parts[parts.index("--turns") + 1]) if "--turns" in parts else TURNS


def explained(lines, answers, turns):
    """Each line of a script that has words, as a step, with why it was answered so."""
    yield from steps_of(lines, answers, turns)[0]


def steps_of(lines, answers, turns):
    """The same as a list, and the model behind the last line that it understood."""
    model = Model(turns)
    return list(explained_by(model, lines, answers)), model


def explained_by(model, lines, answers):
    lost = ""
    for number, line in enumerate(lines, 1):
        words = grammar.texts_of(line)
        if not words:
            continue
        step = Step(number, grammar.without_return(line), plain(words), answers.get(number, []))
        try:
            if not lost:
                model.see(step)
            why = lost or sentences.why(model, step)
        except (Lost, Wrong) as reason:
            why = f"This tool doesn't know: {reason}."
            lost = f"This tool doesn't know, since it lost the thread in line {number}."
        yield step, why


def plain(words):
    """The words of a line, numbers of clients and nodes without leading zeros."""
    place = 1 if words[0] in grammar.KEYWORDS and words[1:] and grammar.value(words[1]) is not None else 0
    return [str(grammar.value(word)) if number == place and grammar.value(word) is not None else word for number, word in enumerate(words)]
