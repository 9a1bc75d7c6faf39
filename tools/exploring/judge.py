"""Judges a run: what each line was answered, beside a plain tree, the history, and what is known of nodes and clients.

On one thread each answer is judged as it stands. With threads calls of several clients come in either order: they are judged once a
history is printed, which has to have each of them."""

import re
from collections import deque

from scripting import grammar

from exploring.ledger import Ledger
from exploring.members import Members
from exploring.tree import SYNCS, bytes_of, leaves_record
from exploring.wrong import Wrong

MOST_WRITTEN, MOST_IN_FRAME, LEAST_FRAME = 65_536, 64, 29
BUSY, TOO_LARGE, LOG_FULL = "F2 Busy", "F6 TooLarge", "F12 LogFull"

# Commands that leave what is replicated as it is.
STILL = ("tree", "history", "check", "hot", "link", "raise", "manual", "open")
FAILED = re.compile("failed ([0-9]+)((?: [0-9]+:[0-9]+)*)")


def counted(text, form):
    """The count that an answer has in the place of COUNT."""
    found = re.fullmatch(form.replace("COUNT", "([0-9]+)"), text)
    if found is None:
        raise Wrong(f"answered {text!r}, and not {form}")
    return int(found[1])


def asked(text, wanted):
    if text != wanted:
        raise Wrong(f"answered {text!r}, and not {wanted!r}")


class Judge:
    """What is known behind the lines so far."""

    def __init__(self, has_threads):
        self.has_threads = has_threads
        self.is_manual = self.may_digest = False
        self.waiting = []
        self.made = {}
        self.shown = None
        self.swept, self.sweep, self.syncing = 0, [], {}

    def see(self, words, answer):
        """Sees a line's words and the lines of its answer."""
        called = words[0]
        if called == "cluster":
            nodes, self.log = int(words[1]), int(words[2])
            self.members, self.ledger = Members(nodes), Ledger(nodes)
        elif called == "manual":
            self.is_manual = True
        if called in ("cluster", "manual"):
            if answer:
                raise Wrong(f"answered {answer[0]!r}, and not nothing")
            return
        if not answer:
            raise Wrong("not answered")
        if called not in STILL:
            self.shown = None
        if called[0].isdigit():
            self.see_call(int(called), words[1:], answer[0])
        elif self.is_refused(self.members.refusal(words), words, answer[0]):
            return
        else:
            getattr(self, f"see_{called}")(words, answer)

    def is_refused(self, refusal, words, text):
        """Whether a line is refused, as it has to be exactly then."""
        if refusal or re.match("F[0-9]+ ", text):
            is_busy = text == BUSY and not refusal and self.may_be_busy(words)
            if not is_busy:
                self.see_refusal(refusal, text)
            if words[0] == "back" and is_busy:
                self.members.begins(int(words[1]), 0)
                self.members.forget()
            return True
        return False

    def see_refusal(self, refusal, text):
        if not refusal:
            raise Wrong(f"answered {text!r}, and nothing in the run is a reason for that")
        asked(text, refusal)

    def may_be_busy(self, words):
        if words[0] == "join":
            return self.members.may_lack(int(words[1]))
        return words[0] == "back" and self.has_threads

    # ---- entries of the history

    def happens(self, what, *words):
        """Something happens. With threads it is judged once a history has it."""
        if self.has_threads:
            self.waiting.append((what, words))
        else:
            getattr(self.ledger, what)(*words)

    def see_history(self, words, answer):
        lines = answer[1:]
        if counted(answer[0], "history COUNT") != len(lines):
            raise Wrong(f"answered {answer[0]!r}, and has {len(lines)} lines")
        if self.has_threads:
            self.take_waiting(lines)
        if lines != self.ledger.lines:
            differ = [line != wanted for line, wanted in zip(lines, self.ledger.lines)]
            place = differ.index(True) if True in differ else len(differ)
            there, wanted = ("".join(found[place : place + 1]) or "nothing" for found in (lines, self.ledger.lines))
            raise Wrong(f"the history's line {place + 1} is {there!r}, and by the answers {wanted!r}")

    def take_waiting(self, lines):
        """Takes over what has happened since the history before, in the order that this one has."""
        lines = deque(lines[len(self.ledger.lines) :])
        stretch = {}
        for what, words in [*self.waiting, ("", ())]:
            if what == "calls":
                stretch.setdefault(words[0], deque()).append(words)
                continue
            self.take_stretch(stretch, lines)
            stretch = {}
            if what:
                getattr(self.ledger, what)(*words)
                if lines:
                    lines.popleft()
        self.waiting = []

    def take_stretch(self, stretch, lines):
        """Takes over calls that were made at once, each client's in order."""
        for _ in range(sum(map(len, stretch.values()))):
            line = lines.popleft() if lines else "nothing"
            found = re.match("call ([0-9]+) ", line)
            calls = stretch.get(int(found[1])) if found else None
            if not calls or line != self.ledger.line_of_call(*calls[0]):
                raise Wrong(f"the history's line {len(self.ledger.lines) + 1} is {line!r}, which no line was answered")
            self.ledger.calls(*calls.popleft())

    # ---- calls

    def see_call(self, client, words, text):
        self.may_digest = self.may_digest or not self.is_manual
        refusal = self.members.refusal_of_call(client)
        if not refusal and words[0] == "write" and len(bytes_of(words[3])) > MOST_WRITTEN:
            refusal = TOO_LARGE
        if refusal:
            return self.see_refusal(refusal, text)
        if text in (BUSY, "wait"):
            return self.see_waiting(client, words, text)
        if text == LOG_FULL:
            return self.see_log_full(client, words)
        if re.match("F[0-9]+ ", text):
            self.see_refusal("", text)
        self.happens("calls", client, words, text)
        self.made[client] = self.made.get(client, 0) + leaves_record(words, text)
        if self.made[client] > self.log and not self.may_digest:
            raise Wrong(f"client {client} has made {self.made[client]} records, and its log has {self.log} at most")
        self.syncing.pop(client, None)

    def see_log_full(self, client, words):
        """A log is full of records that were made, and a call that it has no room for needs one."""
        if self.made.get(client, 0) < self.log:
            raise Wrong(f"the log of client {client} is full, and has {self.made.get(client, 0)} of {self.log} records at most")
        if words[0] in (*SYNCS, "read", "list", "stat"):
            raise Wrong(f"{words[0]} needs no record")

    def see_waiting(self, client, words, text):
        """A call waits for another client's lease, or a sync for a node that lacks a record."""
        if text == "wait" and not self.is_manual or text == BUSY and self.is_manual:
            raise Wrong(f"answered {text!r} {'after' if self.is_manual else 'before'} manual")
        if self.has_threads:
            return
        if text == BUSY and self.members.is_even():
            raise Wrong("answered F2 Busy, and every link is perfect")
        if words[0] not in SYNCS:
            if len(self.members.clients) == 1:
                raise Wrong(f"answered {text!r}, and there is no other client to wait for")
        elif not self.ledger.is_sync(client, words) or self.ledger.has_all(client):
            raise Wrong(f"answered {text!r}, and every full node has all records of client {client}")
        else:
            self.see_sweeps(client)

    def see_sweeps(self, client):
        """A sync that waits again: each full node hasn't sent often enough since it asked for that."""
        if self.log <= MOST_IN_FRAME and self.swept - self.syncing.setdefault(client, self.swept) >= len(self.members.nodes) + 1:
            raise Wrong(f"client {client} still waits, though each node has sent all that was to be replicated")

    # ---- the other commands

    def see_open(self, words, answer):
        node, is_optimistic = int(words[1]), words[3:] == ["optimistic"]
        asked(answer[0], f"client {len(self.members.clients) + 1}")
        self.members.opens(node, is_optimistic)
        self.happens("opens", node, is_optimistic)

    def see_crash(self, words, answer):
        asked(answer[0], f"crashed {words[1]}")
        self.members.crashes(int(words[1]))
        self.happens("crashes", int(words[1]))

    def see_fail(self, words, answer):
        found = FAILED.fullmatch(answer[0])
        if not found or found[1] != words[1]:
            raise Wrong(f"answered {answer[0]!r}, and not failed {words[1]}")
        losses = [tuple(map(int, pair.split(":"))) for pair in found[2].split()]
        self.members.fails(int(words[1]))
        self.happens("fails", int(words[1]), dict(losses))
        self.unsweep()

    def see_back(self, words, answer):
        if self.is_manual:
            lacks = counted(answer[0], f"back {words[1]} stale COUNT")
            self.members.begins(int(words[1]), lacks)
            return
        asked(answer[0], f"returned {words[1]}")
        self.see_return(int(words[1]))

    def see_join(self, words, answer):
        asked(answer[0], f"returned {words[1]}")
        self.see_return(int(words[1]))

    def see_return(self, node):
        self.members.joins(node)
        self.happens("returns", node)
        self.unsweep()

    def see_refill(self, words, answer):
        self.members.fills(int(words[1]), counted(answer[0], "left COUNT"))

    def see_tree(self, words, answer):
        lines = answer[1:]
        if counted(answer[0], "tree COUNT") != len(lines):
            raise Wrong(f"answered {answer[0]!r}, and has {len(lines)} lines")
        if self.shown is not None and self.shown != lines:
            raise Wrong("another full node has just shown another tree")
        if self.shown is None and not self.waiting:
            self.ledger.shows(lines)
        self.shown = lines

    def see_check(self, words, answer):
        asked(answer[0], "legal")

    def see_carry(self, words, answer):
        node, count = self.members.nodes[int(words[1])], counted(answer[0], "carried COUNT")
        kind, *least = node.link.split(" ")
        is_lost = kind in ("lose", "fault") or kind == "cut" and int(least[0]) < LEAST_FRAME
        most = 0 if is_lost or len(self.members.full()) == 1 else len(self.members.clients)
        if count > most:
            raise Wrong(f"{count} frames were taken in, and {most} can come at most")
        self.note_sweep(int(words[1]))

    def see_digest(self, words, answer):
        count, made = counted(answer[0], "digested COUNT"), sum(self.made.values())
        if count > min(MOST_IN_FRAME, made):
            raise Wrong(f"{count} records were digested, and {min(MOST_IN_FRAME, made)} can be at most")
        if count:
            self.may_digest = True
            self.members.digests()

    def see_release(self, words, answer):
        counted(answer[0], "released COUNT")

    def see_hot(self, words, answer):
        asked(answer[0], f"hot {words[1]}")

    def see_raise(self, words, answer):
        asked(answer[0], f"raised {words[1]}")
        self.members.nodes[int(words[1])].level = 2
        self.unsweep()

    def see_link(self, words, answer):
        asked(answer[0], f"linked {words[1]}")
        self.members.nodes[int(words[1])].link = " ".join(words[2:])
        self.unsweep()

    # ---- how often all nodes have sent

    def note_sweep(self, node):
        """A sweep is one carry of each full node, ascending, while nothing holds frames back."""
        full = self.members.full()
        if not self.members.is_even():
            return
        if node == full[len(self.sweep)]:
            self.sweep.append(node)
            if self.sweep == full:
                self.swept, self.sweep = self.swept + 1, []

    def unsweep(self):
        self.sweep, self.syncing = [], {}


def why(lines, run, has_threads):
    """Why a run of these lines is wrong, with the number of the line that shows it; or nothing."""
    if run.status or run.said:
        return f"the program ended with status {run.status}: {run.said.strip()}".rstrip(": ")
    judge, number = Judge(has_threads), 0
    try:
        for number, line in enumerate(lines, 1):
            words = grammar.texts_of(line)
            if words:
                judge.see(words, run.answers.get(number, []))
    except Wrong as reason:
        return f"line {number}: {reason}"
    return ""
