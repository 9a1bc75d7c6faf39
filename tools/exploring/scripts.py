"""Scripts by chance. The same chance and shape give the same script."""

from dataclasses import dataclass, field
from typing import List, Optional, Tuple

from scripting.grammar import LINKS, REVOKERS

from exploring.tree import Tree

FOLDERS = ("", "/d", "/d/e", "/x")
NAMES = ("a", "b", "c", "d", "e", "x", "ü")
LENGTHS = (8, 14, 25, 40, 70)


@dataclass(frozen=True)
class Shape:
    """What scripts have: how many nodes and clients at most (by chance where none is given), kinds of links, and whether threads."""

    nodes: Optional[int] = None
    clients: Optional[int] = None
    links: Tuple[str, ...] = LINKS
    has_threads: bool = False


def script(chance, shape):
    """The lines of a script."""
    return Writer(chance, shape).written()


@dataclass
class Writer:
    """The lines so far, and what is likely so behind them: which nodes are down, and on which node each client lives."""

    chance: object
    shape: Shape
    lines: List[str] = field(default_factory=list)

    def written(self):
        chance = self.chance
        self.nodes = self.shape.nodes or chance.choice((1, 2, 2, 3, 3, 3, 4, 5))
        self.down, self.homes, self.over, self.tree = set(), {}, set(), Tree()
        self.is_manual = self.is_raised = False
        self.add(f"cluster {self.nodes} {chance.choice((8, 8, 9, 12, 16, 64))} {chance.choice((1, 2, 4, 64))}")
        if not self.shape.has_threads and chance.random() < 0.35:
            self.manual()
        clients = self.shape.clients or chance.choice((1, 2, 2, 3, 3, 4))
        for _ in range(clients):
            self.open()
        self.call(f"mkdir {chance.choice(('/d', '/x'))}")
        for _ in range(chance.randint(1, 3)):
            self.call(f"create {self.new_path()}")
        length = len(self.lines) + chance.choice(LENGTHS)
        while len(self.lines) < length:
            self.move()
        self.end()
        return self.lines

    def add(self, line):
        self.lines.append(line)

    def move(self):
        """Some lines that belong together, or one."""
        moves = [(30, self.burst), (14, self.look), (10, self.one_call), (7, self.fail), (7, self.back), (6, self.sweep), (4, self.away)]
        moves += [(2, self.crash), (3, self.open), (3, self.show), (2, self.raise_node), (1, self.hot), (1, self.stray), (9, self.crossing)]
        if self.is_manual:
            moves += [(14, self.step), (6, self.sweep), (9, self.half_sent)]
        elif not self.shape.has_threads:
            moves.append((1, self.manual))
        if self.shape.links and not self.shape.has_threads:
            moves.append((3, self.link))
        if "lose" in self.shape.links and not self.shape.has_threads:
            moves.append((6, self.half_sent))
        weights, made = zip(*moves)
        self.chance.choices(made, weights)[0]()

    # ---- who and where

    def node(self):
        return self.chance.randint(1, self.nodes)

    def up(self):
        return self.chance.choice([node for node in range(1, self.nodes + 1) if node not in self.down] or [1])

    def living(self):
        return [client for client in self.homes if client not in self.over]

    def client(self):
        """A client that likely lives; sometimes any."""
        living = self.living()
        if not living or self.chance.random() < 0.02:
            return self.chance.randint(1, len(self.homes) + 1)
        return self.chance.choice(living)

    def two(self):
        """Two clients, others where that is possible."""
        living = self.living()
        return self.chance.sample(living, 2) if len(living) > 1 else (self.client(), self.client())

    def path(self, ending=""):
        """A path of something that likely stands, of a file or a folder where that is asked for; sometimes any."""
        there = [line.split(" ")[0] for line in self.tree.lines() if ending in line]
        if there and self.chance.random() < 0.7:
            return self.chance.choice(there)
        return self.new_path()

    def new_path(self):
        """A path at which something may be made."""
        folders = [line[:-4] for line in self.tree.lines() if line.endswith(" dir")]
        folder = self.chance.choice(["", *folders] if self.chance.random() < 0.8 else FOLDERS)
        return f"{folder}/{self.chance.choice(NAMES)}"

    # ---- calls

    def call(self, words, client=None):
        client = client or self.client()
        if client in self.homes and client not in self.over:
            self.tree.reply(words.split(" "))
        self.add(f"{client} {words}")

    def change(self, path=None):
        """A call that changes something, of this file where that is possible."""
        chance, new = self.chance, self.new_path()
        path, folder = path or self.path(" file "), self.path(" dir")
        offset, size = chance.choice((0, 0, 1, 5, 4096)), chance.choice((0, 1, 7, 5000))
        data = chance.choice(("tx", "tyz", "tone", "t", "x00ff", "z3", "z4096", "z9000"))
        rare = chance.choice(("z65536", "z65537", "z1048576"))
        return chance.choices(
            (
                f"create {chance.choice((path, new))}",
                f"mkdir {new}",
                f"write {path} {offset} {data}",
                f"truncate {path} {size}",
                f"rename {path} {chance.choice((new, self.path()))}",
                f"rename {folder} {chance.choice((new, folder + new, self.path()))}",
                f"unlink {path}",
                f"rmdir {folder}",
                f"write {path} {chance.choice((0, 1048575))} {rare}",
            ),
            (6, 3, 10, 2, 2, 2, 2, 2, 0.1),
        )[0]

    def glance(self, path):
        chance = self.chance
        read = f"read {path} {chance.choice((0, 0, 2))} {chance.choice((1, 4, 100))}"
        return chance.choice((read, read, f"stat {path}", f"list {chance.choice((path, path.rpartition('/')[0] or '/'))}"))

    def sync(self):
        return self.chance.choice(("fsync", "fsync", "dsync"))

    def one_call(self):
        self.call(self.chance.choice((self.change(), self.glance(self.path()), self.sync(), "list /", "stat /")))

    def burst(self):
        """A client changes a file or two, and may sync."""
        client, path = self.client(), self.path(" file ")
        for _ in range(self.chance.randint(1, 5)):
            self.call(self.change(path if self.chance.random() < 0.7 else None), client)
        if self.chance.random() < 0.4:
            self.call(self.sync(), client)
        if self.chance.random() < 0.1:
            self.fail(self.homes.get(client))

    def look(self):
        """A client changes a file, and another one looks at it."""
        path = self.path(" file ")
        if self.chance.random() < 0.8:
            self.call(self.change(path))
        self.call(self.glance(path))
        if self.is_manual and self.chance.random() < 0.8:
            self.sweep()
            self.call(self.glance(path))

    def crossing(self):
        """A folder comes, and may move, while another client goes through it and those above it."""
        one, other = self.two()
        near, far = self.chance.sample(FOLDERS[1:], 2)
        folder, moved = (f"{above}/{self.chance.choice(NAMES)}" for above in (far, near))
        for above in (near, far):
            self.call(f"mkdir {above}", one)
        self.call(f"create {near}/a", other)
        self.call(f"mkdir {folder}", one)
        if self.chance.random() < 0.4:
            self.call(f"create {folder}/a", one)
            self.call(f"rename {folder} {moved}", one)
        ways = (f"rename {near}/a {folder}/c", f"rename {folder}/a {near}/c", f"{self.chance.choice(('create', 'stat'))} {moved}/a")
        for words in self.chance.sample(ways, 2):
            self.call(words, other)

    def half_sent(self):
        """What a client did is sent, maybe not to all nodes, and its node fails."""
        client = self.client()
        home = self.homes.get(client, 1)
        chain = [*range(home, self.nodes + 1), *range(1, home)]
        for _ in range(self.chance.randint(1, 3)):
            self.call(self.change(), client)
        stop = self.chance.choice(chain)
        if not self.is_manual:
            self.add(f"link {stop} lose")
        self.call(*self.chance.choice(((self.sync(), client), (self.glance(self.path()),))))
        if self.is_manual:
            self.lines += [f"carry {node}" for node in chain[: chain.index(stop) + 1]]
        for words in self.chance.sample((self.sync(), self.change(), ""), 2):
            if words:
                self.call(words, client)
            else:
                self.add(f"tree {home}")
        self.fail(home)
        self.show()
        if not self.is_manual:
            self.add(f"link {stop} perfect")

    # ---- nodes

    def fail(self, node=None):
        node = node or (self.up() if self.chance.random() < 0.95 else self.node())
        self.add(f"fail {node}")
        if len(self.down | {node}) < self.nodes:
            self.down.add(node)
            self.over |= {client for client, home in self.homes.items() if home == node}
        if self.chance.random() < 0.4:
            self.call(self.glance(self.path()))

    def back(self, node=None):
        if node is None and not self.down and self.chance.random() < 0.9:
            return
        node = node or self.chance.choice(sorted(self.down) or [self.node()])
        self.add(f"back {node}")
        if self.is_manual:
            self.fill(node)
        else:
            self.down.discard(node)

    def fill(self, node):
        """What a node needs that comes back, or some of it."""
        for _ in range(self.chance.choice((0, 2, 6, 12))):
            self.add(f"refill {node}")
            if self.chance.random() < 0.1:
                self.step()
        self.add(f"join {node}")
        self.down.discard(node)

    def away(self):
        """A node is away while others write and digest."""
        node = self.up()
        self.fail(node)
        for _ in range(self.chance.randint(1, 4)):
            self.burst()
        self.call(self.sync())
        self.sweep()
        self.back(node)
        self.show()

    def crash(self):
        client = self.client()
        self.add(f"crash {client}")
        self.over.add(client)
        if self.chance.random() < 0.5:
            self.look()

    def open(self):
        node = self.up() if self.chance.random() < 0.95 else self.node()
        mode = " optimistic" if self.chance.random() < 0.35 else ""
        self.add(f"open {node} {self.chance.choice(REVOKERS)}{mode}")
        if node not in self.down and len(self.homes) < 32:
            self.homes[len(self.homes) + 1] = node

    def sweep(self):
        """Nodes send and digest, and leases go."""
        for _ in range(self.chance.choice((1, 1, 2))):
            for node in range(1, self.nodes + 1):
                self.add(f"carry {node}")
        if self.chance.random() < 0.4:
            self.add("release")
        often = self.chance.choice((0, 0, 0.9, 1))
        for node in range(1, self.nodes + 1):
            if self.chance.random() < often:
                self.add(f"digest {node}")
        self.add("release")

    def step(self):
        node = self.node()
        self.add(self.chance.choice((f"carry {node}", f"carry {node}", f"digest {node}", "release", f"refill {node}", f"join {node}")))

    def raise_node(self):
        """A node is raised; with threads all are, since calls would wait long otherwise."""
        up = [node for node in range(1, self.nodes + 1) if node not in self.down]
        self.lines += [f"raise {node}" for node in (up if self.shape.has_threads else [self.up()])]
        self.is_raised = True

    def hot(self):
        self.add(f"hot {self.node()} {self.chance.choice((1, 2, 9))}")

    def link(self):
        kind = self.chance.choice(self.shape.links)
        self.add(f"link {self.node()} {kind}" + (f" {self.chance.choice((0, 28, 30, 80, 100000))}" if kind == "cut" else ""))

    def manual(self):
        self.is_manual = True
        self.add("manual")

    def stray(self):
        """What is refused, or nearly."""
        other = self.nodes + 1
        node = self.node()
        self.add(self.chance.choice((f"fail {other}", f"open {other} least", f"join {node}", f"carry {other}", "99 stat /", "release")))

    def show(self):
        if self.chance.random() < 0.3:
            self.add(self.chance.choice(("check", "history")))
        if self.shape.has_threads:
            self.add("history")
        for node in range(1, self.nodes + 1):
            if self.chance.random() < 0.8:
                self.add(f"tree {node}")

    def end(self):
        """Everything is made safe, and shown."""
        if self.chance.random() < 0.6:
            for node in sorted(self.down):
                self.back(node)
        nodes = [node for node in range(1, self.nodes + 1) if node not in self.down]
        if not self.shape.has_threads:
            self.lines += [f"link {node} perfect" for node in nodes]
        if self.is_raised:
            self.lines += [f"raise {node}" for node in nodes]
        syncs = [f"{client} dsync" for client in self.living()]
        carries = [f"carry {node}" for node in nodes]
        self.lines += syncs + carries * (self.nodes + 1) + syncs + ["history"] + [f"tree {node}" for node in nodes] + ["check"]
