"""Where everything is in a picture: bands of nodes, and in them the lanes of clients. All lengths are pixels."""

from dataclasses import dataclass

# How far the first mark is from the left edge, and how far two are apart; how far lanes end from the right edge, for the last labels.
LEFT, STEP, REST = 110, 44, 60

# The numbers at the upper edge; what two bands leave free; the strip of a band with its node's name.
NUMBERS, GAP, STRIP = 26, 16, 22

# How high a lane is, and how far its line is below its upper edge: above the line are the labels of its calls.
LANE, AXIS = 118, 96

# The legend's rows: how high each is, how many there are, and how wide the widest is.
ROW, ROWS, LEGEND = 22, 3, 790


@dataclass
class Lane:
    """A client's lane, `axis` from the top, from the place `begin` of its opening to `end`. Its calls up to the place `kept` are safe."""

    client: int
    node: int
    is_optimistic: bool
    begin: int
    end: int
    kept: int
    axis: int = 0


def keeps(call, is_optimistic):
    """Whether a call keeps all that its client did before: a dsync, or an fsync of a client whose fsyncs don't only order."""
    return call == "dsync" or call == "fsync" and not is_optimistic


def lanes_of(drawn):
    """The lanes of all clients by their numbers, which have no axis yet."""
    lanes, lines = {}, drawn.lines
    for place, line in enumerate(lines):
        lane = lanes.get(line.client)
        if line.kind == "open":
            lanes[line.client] = Lane(line.client, line.node, line.is_optimistic, place, len(lines), place)
        elif line.kind == "call" and is_kept(drawn, line, lane):
            lane.kept = place
        for lane in lanes.values():
            if line.kind == "crash" and line.client == lane.client or line.kind == "fail" and line.node == lane.node:
                lane.end = min(lane.end, place)
    return lanes


def is_kept(drawn, line, lane):
    """Whether a call is safe, as far as that is known: without the run it is once a sync is answered."""
    return line.number < drawn.safe[line.client] if line.client in drawn.safe else keeps(line.call, lane.is_optimistic)


def downtimes(lines):
    """For how long nodes are down: each with the places of its failure and of its return, or of the history's end."""
    since, found = {}, []
    for place, line in enumerate(lines):
        if line.kind == "fail":
            since.setdefault(line.node, place)
        elif line.kind == "return" and line.node in since:
            found.append((line.node, since.pop(line.node), place))
    return found + [(node, place, len(lines)) for node, place in since.items()]


class Layout:
    """The bands of nodes, each with its upper and lower edge, the lanes of clients, and the place of each call by client and number."""

    def __init__(self, drawn):
        self.lanes = lanes_of(drawn)
        self.calls = {(line.client, line.number): place for place, line in enumerate(drawn.lines) if line.kind == "call"}
        self.bands = {}
        self.right = across(len(drawn.lines)) + REST
        self.width = max(self.right, LEGEND)
        height = NUMBERS
        for node in sorted({line.node for line in drawn.lines} - {None}):
            lanes = [lane for _, lane in sorted(self.lanes.items()) if lane.node == node]
            for row, lane in enumerate(lanes):
                lane.axis = height + STRIP + LANE * row + AXIS
            self.bands[node] = height, height + STRIP + LANE * max(len(lanes), 1)
            height = self.bands[node][1] + GAP
        self.legend = height
        self.height = height + ROW * ROWS + GAP // 2


def across(place):
    """How far the mark of a line is from the left edge; lines are counted from 0."""
    return LEFT + STEP * place
