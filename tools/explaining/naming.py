"""How lines, nodes, leases and inodes are called."""

from exploring.tree import leaves_record

# How many lines are counted up one by one.
MOST_NAMED = 4


def listed(words):
    """Words one after another, with `and` before the last."""
    words = [str(word) for word in words]
    return " and ".join(filter(None, [", ".join(words[:-1]), words[-1]])) if words else ""


def counted(count, what):
    return f"{count} {what}{'' if count == 1 else 's'}"


def nodes(numbers):
    return f"node{'' if len(numbers) == 1 else 's'} {listed(numbers)}"


def lines(numbers):
    """Lines by their numbers, of a long list or a stretch the first and the last."""
    if len(numbers) > MOST_NAMED or len(numbers) > 2 and numbers[-1] - numbers[0] == len(numbers) - 1:
        return f"lines {numbers[0]} to {numbers[-1]}"
    return f"line{'' if len(numbers) == 1 else 's'} {listed(numbers)}"


def sentence(text):
    """A text that begins with a capital and ends with a full stop."""
    return f"{text[:1].upper()}{text[1:]}." if text else ""


def together(*sentences):
    return " ".join(filter(None, sentences))


class Names:
    """Names for what a model knows."""

    def __init__(self, model):
        self.model = model

    def line(self, client, number):
        """The line of a client's call."""
        return f"line {self.model.lines[client][number].number}"

    def calls(self, client, first, to):
        """The lines of a client's calls."""
        return [step.number for step in self.model.lines.get(client, [])[first:to]]

    def changes(self, client, first, to):
        """The lines of those of a client's calls that have a record."""
        steps = self.model.lines.get(client, [])[first:to]
        return [step.number for step in steps if leaves_record(step.words[1:], step.text())]

    def records(self, client, begin, to):
        """The lines whose records a client's log has from one place up to another."""
        return self.of_records(client, self.model.machine.logs[client].since(begin, to))

    def of_records(self, client, records):
        """The lines of records; nothing where there are none."""
        found = [self.model.lines[client][record.call].number for record in records]
        return lines(found) if found else ""

    def inode(self, number):
        """An inode by its path, or by the line that made it."""
        path, made = self.model.calls.tree.path(number), self.model.calls.makers.get(number[0], [])[number[1] :]
        return path or (f"what {self.line(number[0], made[0])} made" if made else "a new inode")

    def of_clients(self, ranges):
        """Lines that change something, of several clients: each client with the first call and the one behind the last."""
        found = [(client, self.changes(client, *places)) for client, places in sorted(ranges.items())]
        return listed([f"client {client}'s {lines(numbers)}" for client, numbers in found if numbers])
