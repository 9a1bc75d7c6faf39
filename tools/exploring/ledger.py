"""What happened in a run, entry by entry, beside a plain tree: who called what, which calls are kept, and which are surely replicated."""

from dataclasses import dataclass, field
from itertools import product
from typing import List

from exploring.tree import Tree, leaves_record, with_count
from exploring.wrong import Wrong

# How many ways to cut clients' calls a tree is compared with at most, and how many calls these may have together.
MOST_WAYS, MOST_CALLS = 64, 2_000


@dataclass
class Call:
    """A kept call: its client, number, words and reply, and whether it has a record."""

    client: int
    number: int
    words: List[str]
    reply: str
    has_record: bool


@dataclass
class Account:
    """A client's calls: how many were answered, up to which one all is synced, and how many are surely replicated.

    `is_settled` says that a failure of its node has already shown which are."""

    node: int
    is_optimistic: bool
    count: int = 0
    synced: int = 0
    replicated: int = 0
    is_settled: bool = False


@dataclass
class Ledger:
    """The history's lines, the calls that are kept and their tree, and the account of each client."""

    nodes: int
    lines: List[str] = field(default_factory=list)

    def __post_init__(self):
        self.full = set(range(1, self.nodes + 1))
        self.accounts = {}
        self.kept = []
        self.tree = self.grown([])

    # ---- the entries

    def opens(self, node, is_optimistic):
        number = len(self.accounts) + 1
        self.accounts[number] = Account(node, is_optimistic)
        self.lines.append(f"open {number} {node}{' optimistic' * is_optimistic}")

    def line_of_call(self, client, words, reply):
        """The line that the client's next call has in a history."""
        return f"call {client} {self.accounts[client].count} {' '.join(with_count(words))} = {reply}"

    def calls(self, client, words, reply):
        account = self.accounts[client]
        call = Call(client, account.count, words, reply, leaves_record(words, reply))
        right = self.made(self.tree, call)
        if reply != right:
            raise Wrong(f"client {client} was answered {reply!r} to {' '.join(words)}: a plain tree says {right!r}")
        self.lines.append(self.line_of_call(client, words, reply))
        self.kept.append(call)
        account.count += 1
        if self.is_sync(client, words):
            account.synced = account.replicated = account.count

    def is_sync(self, client, words):
        return words[0] == "dsync" or words[0] == "fsync" and not self.accounts[client].is_optimistic

    def crashes(self, client):
        self.lines.append(f"crash {client}")

    def fails(self, node, losses):
        """A node fails, and takes these calls: each client's from a number on."""
        self.note_alone()
        if node not in self.full and losses:
            raise Wrong(f"node {node} wasn't full, and its failure takes calls")
        if list(losses) != sorted(losses):
            raise Wrong("the clients that lose calls don't ascend")
        for client, first in losses.items():
            self.see_loss(node, client, first)
        self.lines.append(" ".join([f"fail {node}", *(f"{client}:{first}" for client, first in losses.items())]))
        self.full.discard(node)
        self.cut(losses)
        for account in self.accounts.values():
            if account.node == node and not account.is_settled:
                account.replicated, account.is_settled = account.count, True

    def see_loss(self, node, client, first):
        """Sees that a failure may take a client's calls from a number on."""
        account = self.accounts.get(client)
        if account is None or account.node != node or account.is_settled:
            raise Wrong(f"client {client} loses calls, and isn't of node {node} any more")
        if first < account.synced:
            raise Wrong(f"client {client} loses its call {first}, and has synced up to call {account.synced - 1}")
        if first < account.replicated:
            raise Wrong(f"client {client} loses its call {first}, which each full node had")
        if not any(call.client == client and call.number == first and call.has_record for call in self.kept):
            raise Wrong(f"client {client} loses calls from {first} on, which has no record")

    def cut(self, losses):
        """Leaves the calls that a failure doesn't take. They have to be a run still, with the same replies."""
        lost = [call for call in self.kept if call.number >= losses.get(call.client, call.number + 1)]
        if not lost:
            return
        self.kept = [call for call in self.kept if call.number < losses.get(call.client, call.number + 1)]
        self.tree = self.grown(self.kept)

    def grown(self, calls):
        """The tree that kept calls leave. They have to be a run."""
        tree = self.bare()
        for call in calls:
            right = self.made(tree, call)
            if right != call.reply:
                raise Wrong(
                    f"client {call.client} was answered {call.reply!r} to its call {call.number}, {' '.join(call.words)}, which rests on "
                    f"what the failure took: without it a plain tree says {right!r}"
                )
        return tree

    def bare(self):
        """A tree that has nothing."""
        return Tree()

    def made(self, tree, call):
        """What a tree answers to a call."""
        return tree.reply(call.words)

    def returns(self, node):
        self.note_alone()
        self.full.add(node)
        self.lines.append(f"return {node}")

    # ---- what is replicated

    def note_alone(self):
        """Where one node alone is full, it has all calls, and so they are replicated."""
        if len(self.full) == 1:
            for account in self.accounts.values():
                account.replicated = account.count

    def has_all(self, client):
        """Whether all records of a client are surely replicated."""
        self.note_alone()
        return not self.open_places(client)

    def open_places(self, client):
        """The calls from which on a client's may not be replicated yet: its kept records that aren't surely."""
        replicated = self.accounts[client].replicated
        return [call.number for call in self.kept if call.client == client and call.has_record and call.number >= replicated]

    def shows(self, lines):
        """Sees that a full node's tree is that of the replicated calls, as far as these are known, and learns from it which they are."""
        self.note_alone()
        places = {client: [*self.open_places(client), account.count] for client, account in self.accounts.items()}
        if all(len(numbers) == 1 for numbers in places.values()):
            self.see_tree(lines)
            return
        ways = 1
        for numbers in places.values():
            ways *= len(numbers)
        if ways > MOST_WAYS or ways * len(self.kept) > MOST_CALLS:
            return
        found = [way for way in product(*places.values()) if self.is_tree_of(dict(zip(places, way)), lines)]
        if not found:
            raise Wrong("the tree isn't that of a run of all synced calls and of first ones of those behind")
        for client, numbers in zip(places, zip(*found)):
            account = self.accounts[client]
            account.replicated = max(account.replicated, min(numbers))

    def see_tree(self, lines):
        right = self.tree.lines()
        if lines != right:
            missing = [line for line in right if line not in lines]
            more = [line for line in lines if line not in right]
            raise Wrong(f"all calls are replicated, and the tree lacks {missing} and has {more} besides")

    def is_tree_of(self, firsts, lines):
        """Whether the calls before these numbers, each client's, are a run, and leave this tree."""
        tree = Tree()
        for call in self.kept:
            if call.number < firsts[call.client] and tree.reply(call.words) != call.reply:
                return False
        return tree.lines() == lines
