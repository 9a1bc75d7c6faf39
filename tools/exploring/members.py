"""Which nodes are full, which clients are over, and so which refusals have their reason."""

from dataclasses import dataclass

from scripting.grammar import value

from exploring.wrong import Wrong

MOST_CLIENTS = 32
FULL, DOWN, RETURNING = "full", "down", "coming back"
BAD_NODE, BAD_CLIENT, NODE_DOWN, GONE, LAST, PHASE = (
    "F8 BadNode",
    "F9 BadClient",
    "F3 NodeDown",
    "F4 ClientGone",
    "F7 LastNode",
    "F10 WrongPhase",
)


@dataclass
class Node:
    """A node: what it is, its level, the kind of its link, and at least how many inodes it may lack while it comes back.

    `is_exact` says whether it lacks just so many."""

    phase: str = FULL
    level: int = 1
    link: str = "perfect"
    lacks: int = 0
    is_exact: bool = True


@dataclass
class Client:
    """A client: the number of its node, whether its fsyncs promise nothing, and why its calls are refused, if they are."""

    node: int
    is_optimistic: bool
    refusal: str = ""


class Members:
    """Nodes and clients by their numbers, as the answers so far leave them."""

    def __init__(self, count):
        self.nodes = {number: Node() for number in range(1, count + 1)}
        self.clients = {}

    def full(self):
        return [number for number, node in self.nodes.items() if node.phase == FULL]

    def is_even(self):
        """Whether nothing holds frames back: each full node has a perfect link, and all have one level."""
        full = [self.nodes[number] for number in self.full()]
        return all(node.link == "perfect" for node in full) and len({node.level for node in full}) == 1

    def refusal(self, words):
        """The refusal that a command must have, or nothing; those of memory, of waiting and of a full log aren't looked for here."""
        looks = getattr(self, f"refusal_of_{words[0]}", None)
        if looks:
            return looks(words)
        if words[0] in ("carry", "digest", "hot", "tree", "raise"):
            return self.refusal_of_full(words)
        return BAD_NODE if words[0] == "link" and value(words[1]) not in self.nodes else ""

    def refusal_of_call(self, client):
        return self.clients[client].refusal if client in self.clients else BAD_CLIENT

    def refusal_of_crash(self, words):
        return self.refusal_of_call(value(words[1]))

    def refusal_of_open(self, words):
        number = value(words[1])
        if number not in self.nodes:
            return BAD_NODE
        if self.nodes[number].phase != FULL:
            return NODE_DOWN
        return BAD_CLIENT if len(self.clients) == MOST_CLIENTS else ""

    def refusal_of_full(self, words):
        """Of a command that only a full node takes."""
        node = self.nodes.get(value(words[1]))
        if node is None:
            return BAD_NODE
        return PHASE if node.phase != FULL or words[0] == "raise" and node.level == 2 else ""

    def refusal_of_fail(self, words):
        number = value(words[1])
        if number not in self.nodes:
            return BAD_NODE
        if self.nodes[number].phase == DOWN:
            return PHASE
        return LAST if self.full() == [number] else ""

    def refusal_in(self, words, phase):
        node = self.nodes.get(value(words[1]))
        return BAD_NODE if node is None else "" if node.phase == phase else PHASE

    def refusal_of_back(self, words):
        return self.refusal_in(words, DOWN)

    def refusal_of_refill(self, words):
        return self.refusal_in(words, RETURNING)

    refusal_of_join = refusal_of_refill

    # ---- what happens

    def opens(self, node, is_optimistic):
        self.clients[len(self.clients) + 1] = Client(node, is_optimistic)

    def crashes(self, client):
        self.clients[client].refusal = GONE

    def fails(self, number):
        if self.nodes[number].phase == FULL:
            for client in self.clients.values():
                if client.node == number and not client.refusal:
                    client.refusal = NODE_DOWN
            self.forget()
        self.nodes[number].phase = DOWN

    def forget(self):
        """What nodes that come back lack is counted anew, or more."""
        for node in self.nodes.values():
            node.lacks, node.is_exact = 0, False

    def begins(self, number, lacks):
        node = self.nodes[number]
        node.phase, node.lacks, node.is_exact = RETURNING, lacks, True

    def digests(self):
        """A digest may have changed inodes, which nodes that come back then lack."""
        for node in self.nodes.values():
            node.is_exact = False

    def fills(self, number, left):
        """A node has got an inode."""
        node = self.nodes[number]
        least = max(0, node.lacks - 1)
        if left < least or node.is_exact and left > least:
            raise Wrong(f"left {left}, where the node lacked {node.lacks}")
        node.lacks, node.is_exact = left, True

    def joins(self, number):
        node, donor = self.nodes[number], self.full()[0]
        if node.phase == RETURNING and node.lacks:
            raise Wrong(f"node {number} is full again, and may lack {node.lacks} inodes")
        node.phase, node.level = FULL, max(node.level, self.nodes[donor].level)
        node.lacks, node.is_exact = 0, True

    def may_lack(self, number):
        node = self.nodes[number]
        return node.lacks > 0 or not node.is_exact
