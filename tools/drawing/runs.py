"""What is drawn: a history, and what is known beside it of the run that it is of."""

import re
from dataclasses import dataclass, field
from typing import Dict, List

from explaining import running as explaining
from exploring.tree import leaves_record
from scripting import running

from drawing import history

REFUSED = re.compile("F[0-9]+ ")


@dataclass(frozen=True)
class Arrow:
    """The place of a call that made another client's changes safe, and the numbers of these among the client's calls."""

    place: int
    client: int
    calls: List[int]


@dataclass
class Drawn:
    """A history, with the number that stands at the axis for each of its lines.

    Of a run whose script is known: how many calls of each client no failure can take, the arrows, and the explained steps."""

    lines: List[history.Line]
    numbers: List[int]
    safe: Dict[int, int] = field(default_factory=dict)
    arrows: List[Arrow] = field(default_factory=list)
    steps: list = field(default_factory=list)


def printed(text):
    """What a printed history alone says: its own lines are numbered, and calls up to a sync are safe."""
    lines = history.read_history(text)
    return Drawn(lines, list(range(1, len(lines) + 1)))


def makes_entry(step):
    """Whether a step stands in the history."""
    text = step.text()
    if step.words[0][0].isdigit():
        return not REFUSED.match(text) and text != "wait"
    return text.split(" ")[0] in ("client", "crashed", "failed", "returned")


def of_script(program, script):
    """Runs a script on one thread, and takes down what happened."""
    words, _ = explaining.words_beside(script)
    lines = running.read(script).split("\n")
    ran = running.run(program, ["-", *words], "\n".join([*lines, "history\n"]))
    if ran.status:
        raise history.NoPicture(refused(script, lines, ran))
    said = ran.answers[max(ran.answers)]
    entries = history.read_history(f"1: {said[0]}\n" + "".join(f"{line}\n" for line in said[1:]))
    steps, model = explaining.steps_of(lines, ran.answers, explaining.turns_of(words))
    numbers = [step.number for step, _ in steps if makes_entry(step)]
    drawn = Drawn(entries, numbers, steps=steps)
    if model.members:
        drawn.safe = safe_counts(model, entries)
        drawn.arrows = list(arrows(model, steps, numbers))
    return drawn


def refused(script, lines, ran):
    """Why a script wasn't run. Where only the `history` behind its lines has a fault, it has no cluster."""
    fault = ran.fault()
    if not fault:
        return f"{script}: {ran.ending()}"
    return f"{script}:{fault[0]}: {running.told(fault, lines)}" if fault[0] <= len(lines) else f"{script}: no history"


def safe_counts(model, entries):
    """How many calls of each client no failure can take: those that all full nodes have, before the first that was lost."""
    firsts = {client: first for line in reversed(entries) for client, first in line.tails}
    return {client: min(count, firsts.get(client, count)) for client, count in model.safe().items()}


def arrows(model, steps, numbers):
    """Where a call of one client made changes of others safe."""
    places = {number: place for place, number in enumerate(numbers)}
    for step, _ in steps:
        if step.number not in places or not step.words[0][0].isdigit():
            continue
        for client, (first, to) in sorted(step.safe.items()):
            calls = enumerate(model.lines[client][first:to], first)
            changes = [number for number, call in calls if leaves_record(call.words[1:], call.text())]
            if changes and client != int(step.words[0]):
                yield Arrow(places[step.number], client, changes)
