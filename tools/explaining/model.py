"""Goes through a script line by line with the answers that the program printed, and says what it takes each line to come to.

The model serves calls as docs/SCRIPT.md says. Where it would have answered otherwise it is lost, and says so."""

import re
from dataclasses import dataclass, field
from typing import Dict, List, Optional, Tuple

from exploring.ledger import Ledger
from exploring.members import FULL, Members
from exploring.tree import SYNCS, bytes_of

from explaining.inodes import Inodes, Plan
from explaining.links import Link
from explaining.machine import Machine, Tried

MOST_WRITTEN = 65_536
BUSY, WAIT, TOO_LARGE, LOG_FULL = "F2 Busy", "wait", "F6 TooLarge", "F12 LogFull"


class Calls(Ledger):
    """The calls, over a tree whose inodes have numbers. `makers` has the numbers of each client's calls that made one."""

    def __post_init__(self):
        self.makers = {}
        super().__post_init__()

    def bare(self):
        return Inodes()

    def inode(self, client, number):
        """The inode that a call makes, if it makes one."""
        makers = self.makers.setdefault(client, [])
        return (client, makers.index(number) if number in makers else len(makers))

    def made(self, tree, call):
        tree.maker = self.inode(call.client, call.number)
        if call.has_record and call.words[0] in ("create", "mkdir") and call.number not in self.makers[call.client]:
            self.makers[call.client].append(call.number)
        return tree.reply(call.words)


@dataclass
class Step:
    """A line with its answer, and what the model knows of it.

    `safe` has of each client with calls that became safe by it, from which number on and up to which; `found` is what the command itself
    came to. `refusal` is the refusal that it has to have for nodes or clients."""

    number: int
    line: str
    words: List[str]
    answer: List[str]
    found: object = None
    refusal: str = ""
    tried: Optional[Tried] = None
    plan: Plan = field(default_factory=Plan)
    safe: Dict[int, Tuple[int, int]] = field(default_factory=dict)

    def text(self):
        return self.answer[0] if self.answer else ""


class Lost(Exception):
    """Where the program's answer is another than the model's."""


class Model:
    """What is known behind the lines so far. `lines` has the steps of each client's calls, `ended` the line in which a client
    ended, and `made_safe` the line by which each client's calls became safe."""

    def __init__(self, turns):
        self.turns = turns
        self.is_manual = False
        self.lines, self.ended, self.made_safe = {}, {}, {}
        self.members = None

    def see(self, step):
        """Sees a step, and notes what it comes to."""
        called = step.words[0]
        if called == "cluster":
            self.members = Members(int(step.words[1]))
            self.machine, self.calls = Machine(self.members, int(step.words[2])), Calls(int(step.words[1]))
            return
        before = self.safe()
        step.refusal = self.members.refusal_of_call(int(called)) if called[0].isdigit() else self.members.refusal(step.words)
        if called[0].isdigit():
            self.see_call(step, int(called), step.words[1:])
        elif step.refusal:
            expect(step, step.refusal)
        else:
            getattr(self, f"see_{called}", lambda step: None)(step)
        self.note_safe(step, before)

    def note_safe(self, step, before):
        """Notes which calls became safe by a step, but of clients that it ended."""
        for client, to in self.safe().items():
            begin = before.get(client, 0)
            if to > begin and self.ended.get(client) != step.number:
                step.safe[client] = (begin, to)
                self.made_safe.setdefault(client, []).extend([step.number] * (to - begin))

    def safe(self):
        """Of each client, up to which of its calls they are replicated: before the first whose record some full node lacks."""
        found = {}
        for client, account in (self.calls.accounts if self.members else {}).items():
            log = self.machine.logs[client]
            open_records = log.since(log.acked())
            found[client] = open_records[0].call if open_records else account.count
        return found

    # ---- calls

    def see_call(self, step, client, words):
        if not step.refusal and words[0] == "write" and len(bytes_of(words[3])) > MOST_WRITTEN:
            step.refusal = TOO_LARGE
        if step.refusal:
            expect(step, step.refusal)
            return
        turns = 1 if self.is_manual else self.turns
        number = self.calls.accounts[client].count
        if words[0] in SYNCS:
            step.tried = self.machine.sync(client, words[0] == "dsync", turns)
            step.plan = Plan(reply="done")
        else:
            step.plan = self.calls.tree.plan(words, self.calls.inode(client, number))
            step.tried = self.machine.call(client, number, step.plan, turns)
        waiting = LOG_FULL if step.tried.is_full else WAIT if self.is_manual else BUSY
        expect(step, step.plan.reply if step.tried.is_answered else waiting)
        if step.tried.is_answered:
            self.lines.setdefault(client, []).append(step)
            self.calls.calls(client, words, step.text())

    # ---- the other commands

    def see_manual(self, step):
        self.is_manual = True

    def see_open(self, step):
        node, is_optimistic = int(step.words[1]), step.words[3:] == ["optimistic"]
        client = len(self.members.clients) + 1
        expect(step, f"client {client}")
        self.members.opens(node, is_optimistic)
        self.calls.opens(node, is_optimistic)
        self.machine.opens(client, node, step.words[2], is_optimistic)

    def see_crash(self, step):
        client = int(step.words[1])
        self.ended[client] = step.number
        self.members.crashes(client)
        self.calls.crashes(client)
        self.machine.crashes(client)

    def see_fail(self, step):
        node = int(step.words[1])
        lost = self.machine.fails(node)
        step.found = {client: (first, self.calls.accounts[client].count, lacking) for client, (first, lacking) in lost.items()}
        firsts = {client: first for client, (first, _) in lost.items()}
        expect(step, " ".join([f"failed {node}", *(f"{client}:{first}" for client, first in firsts.items())]))
        if self.members.nodes[node].phase == FULL:
            living = [number for number, client in self.members.clients.items() if client.node == node and not client.refusal]
            self.ended.update(dict.fromkeys(living, step.number))
        self.members.fails(node)
        self.calls.fails(node, firsts)

    def see_back(self, step):
        node = int(step.words[1])
        self.machine.begins(node)
        stale = re.fullmatch(f"back {node} stale ([0-9]+)", step.text())
        self.members.begins(node, int(stale[1]) if stale else 0)
        if not self.is_manual:
            self.see_join(step)

    def see_join(self, step):
        node = int(step.words[1])
        if step.text() == BUSY and self.members.may_lack(node):
            return
        expect(step, f"returned {node}")
        self.machine.joins(node)
        self.members.joins(node)
        self.calls.returns(node)

    def see_refill(self, step):
        node = int(step.words[1])
        left = re.fullmatch("left ([0-9]+)", step.text())
        self.members.fills(node, int(left[1]) if left else 0)

    def see_carry(self, step):
        step.found = self.machine.carry(int(step.words[1]))
        expect(step, f"carried {len(step.found[1])}")

    def see_digest(self, step):
        step.found = self.machine.digest(int(step.words[1]))
        count = sum(map(len, step.found.values()))
        if count:
            self.members.digests()
        expect(step, f"digested {count}")

    def see_release(self, step):
        step.found = self.machine.release()
        expect(step, f"released {len(step.found)}")

    def see_raise(self, step):
        self.members.nodes[int(step.words[1])].level = 2

    def see_link(self, step):
        kind = step.words[2:]
        self.machine.links[int(step.words[1])] = Link(kind[0], int(kind[1]) if kind[1:] else 0)
        self.members.nodes[int(step.words[1])].link = " ".join(kind)


def expect(step, text):
    if step.text() != text:
        raise Lost(f"by the model of this tool the answer would be '{text}'")
