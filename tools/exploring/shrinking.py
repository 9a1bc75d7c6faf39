"""Makes a script that goes wrong as short as it gets: it still goes wrong with each line that is left, and not without."""

from scripting import grammar


class Spent(Exception):
    """All tries are spent."""


class Shrinker:
    """The shortest lines so far that go wrong. `is_wrong` says of lines whether they do, and is asked so many `tries` at most."""

    def __init__(self, lines, is_wrong, tries):
        self.lines = list(lines)
        self.is_wrong = is_wrong
        self.tries = tries
        self.seen = set()

    def shrunk(self):
        try:
            before = None
            while before != self.lines:
                before = self.lines
                self.without_lines()
                self.without_clients()
                self.with_short_paths()
                self.simpler()
        except Spent:
            pass
        return self.lines

    def take(self, lines):
        """Goes on with these lines, if they go wrong too."""
        if tuple(lines) in self.seen:
            return False
        if not self.tries:
            raise Spent
        self.seen.add(tuple(lines))
        self.tries -= 1
        if self.is_wrong(lines):
            self.lines = list(lines)
            return True
        return False

    def without_lines(self):
        """Leaves out stretches of lines, each half as long as those before, but never the cluster's line."""
        size = max(1, len(self.lines) // 2)
        while size:
            place = len(self.lines) - size
            while place > 0:
                self.take(self.lines[:place] + self.lines[place + size :])
                place -= size
            if size > 1:
                self.take(self.lines[:1] + self.lines[1 + size :])
            size //= 2

    def without_clients(self):
        """Leaves out a client: those behind it get other numbers."""
        opened = [place for place, line in enumerate(self.lines) if line.startswith("open ")]
        for client in range(len(opened), 0, -1):
            lines = [without_client(line, client) for place, line in enumerate(self.lines) if place != opened[client - 1]]
            if self.take([line for line in lines if line]):
                self.without_clients()
                return

    def with_short_paths(self):
        """Takes a path right below the root in place of a deeper one."""
        for path in grammar.paths_in(self.lines):
            if path.count("/") > 1:
                self.take([with_path(line, path, path[path.rindex("/") :]) for line in self.lines])

    def simpler(self):
        """Takes simpler words where the script still goes wrong."""
        for place in range(len(self.lines)):
            for line in simpler_lines(self.lines[place]):
                self.take(self.lines[:place] + [line] + self.lines[place + 1 :])


def without_client(line, client):
    """A line without this client: nothing where it is the client's own."""
    words = grammar.texts_of(line)
    place = 1 if words[0] == "crash" else 0
    if not words[place].isdigit() or int(words[place]) < client:
        return line
    if int(words[place]) == client:
        return ""
    words[place] = str(int(words[place]) - 1)
    return " ".join(words)


def with_path(line, path, other):
    """A line with another path in place of this one, also where it is the front of one."""
    words = (other + word[len(path) :] if f"{word}/".startswith(f"{path}/") else word for word in grammar.texts_of(line))
    return " ".join(words)


def simpler_lines(line):
    """What a line may become."""
    words = grammar.texts_of(line)
    if words[0] == "cluster":
        yield from (f"cluster {nodes} {' '.join(words[2:])}" for nodes in range(1, int(words[1])))
        yield f"cluster {words[1]} 8 4"
    elif words[0] == "open":
        yield from (f"open {words[1]} {kind}" for kind in ("least", words[2]) if f"open {words[1]} {kind}" != line)
    elif words[0] == "link":
        yield from (f"link {words[1]} {kind}" for kind in ("perfect", "lose") if kind != words[2])
    elif words[1:2] == ["write"]:
        yield " ".join([*words[:3], "0", "tx"])
    elif words[1:2] == ["read"]:
        yield " ".join([*words[:3], "0", "9"])
    elif words[1:2] == ["dsync"]:
        yield f"{words[0]} fsync"
