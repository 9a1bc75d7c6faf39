"""The lines of a picture, as SVG (Scalable Vector Graphics 1.1). Each kind of mark has a shape of its own: nobody needs colours."""

from explaining import naming

from drawing import labels, legend
from drawing.history import first_lost, lost_lines
from drawing.labels import spelled
from drawing.layout import Layout, across, downtimes, keeps

# The colours are those of Okabe and Ito (Color Universal Design, 2008), which people tell apart whatever colours they see.
STYLE = (
    "text{font:11px sans-serif;fill:#000}"
    ".name{font-weight:bold}.number{fill:#666;text-anchor:middle}"
    ".label text{paint-order:stroke;stroke:#fff;stroke-width:2px;stroke-linejoin:round}.label .reply{fill:#555}"
    ".label .halo{fill:#fff}.fail text,.return text{stroke-width:4px}"
    ".band{fill:#f4f4f4}.down{fill:url(#assise-down)}"
    ".lane{stroke:#999;stroke-width:1}.kept{fill:#009e73;fill-opacity:.25;stroke:#009e73;stroke-width:1}"
    ".mark circle{fill:#0072b2;stroke:#0072b2;stroke-width:2}.mark .look{fill:#fff}"
    ".error circle{fill:#e69f00;stroke:#e69f00}.error .look{fill:#fff}.slash{stroke:#000;stroke-width:1.5}"
    ".sync{fill:#009e73;stroke:#009e73;stroke-width:2}.order{fill:#fff;stroke:#009e73;stroke-width:2}"
    ".open path{fill:#000}.crash path{stroke:#d55e00;stroke-width:3;fill:none}"
    ".fail path{stroke:#d55e00;stroke-width:3}.return path{stroke:#56b4e9;stroke-width:3;stroke-dasharray:6 4}"
    ".lost circle,.lost rect{opacity:.4}.label .gone{fill:#777;stroke:none;text-decoration:line-through}"
    ".strike{stroke:#d55e00;stroke-width:2}.arrow{fill:none;stroke:#000;stroke-width:1.5;marker-end:url(#assise-head)}"
)
DEFINED = (
    '<defs><pattern id="assise-down" width="8" height="8" patternUnits="userSpaceOnUse" patternTransform="rotate(45)">'
    '<path d="M0 0V8" stroke="#888" stroke-width="2.5"/></pattern>'
    '<marker id="assise-head" viewBox="0 0 10 10" refX="9" refY="5" markerWidth="7" markerHeight="7" orient="auto">'
    '<path d="M0 0L10 5L0 10Z"/></marker></defs>'
)

# The size of a bar and of a circle, and the lines of a triangle, of a cross and of an error's slash.
BAR, CIRCLE = 'x="-3" y="-16" width="6" height="32"', 'r="6"'
TRIANGLE, CROSS, SLASH = "M-6-8L8 0L-6 8Z", "M-8-8L8 8M-8 8L8-8", "M-5 5L5-5"


def picture(drawn):
    """The lines of the whole picture."""
    layout, lost = Layout(drawn), lost_lines(drawn.lines)
    yield from ground(layout, drawn)
    for place, line in enumerate(drawn.lines):
        yield from mark(layout, place, line, place in lost)
    yield from strikes(layout, drawn.lines)
    yield from arrows(layout, drawn)
    for place, line in enumerate(drawn.lines):
        if line.kind == "call":
            yield from label(layout.lanes[line.client], place, line, place in lost)
    yield from legend.rows(layout.legend)
    yield "</svg>"


def ground(layout, drawn):
    """What lies behind the marks."""
    size = f'width="{layout.width}" height="{layout.height}"'
    yield f'<svg xmlns="http://www.w3.org/2000/svg" {size} viewBox="0 0 {layout.width} {layout.height}">'
    yield "<title>What happened</title>"
    yield f"<style>{STYLE}</style>"
    yield DEFINED
    yield f'<rect {size} fill="#fff"/>'
    for node, (top, bottom) in layout.bands.items():
        yield f'<rect class="band" y="{top}" width="{layout.right}" height="{bottom - top}"/>'
        yield f'<text class="name" x="8" y="{top + 15}">node {node}</text>'
    for node, begin, end in downtimes(drawn.lines):
        top, bottom = layout.bands[node]
        right = across(end) if end < len(drawn.lines) else layout.right
        box = f'x="{across(begin)}" y="{top}" width="{right - across(begin)}" height="{bottom - top}"'
        yield f'<rect class="down" {box}><title>node {node} is down</title></rect>'
    yield '<text x="8" y="16">line</text>'
    for place, number in enumerate(drawn.numbers):
        yield f'<text class="number" x="{across(place)}" y="16">{number}</text>'
    for lane in sorted(layout.lanes.values(), key=lambda lane: lane.axis):
        yield from drawn_lane(lane)


def drawn_lane(lane):
    left, y = across(lane.begin), lane.axis
    yield f'<text x="8" y="{y + 4}">client {lane.client}</text>'
    box = f'x="{left}" y="{y - 10}" width="{across(lane.kept) - left}" height="20"'
    yield f'<rect class="kept" {box}><title>no failure takes these of client {lane.client}</title></rect>'
    yield f'<path class="lane" d="M{left} {y}H{across(lane.end)}"/>'


def mark(layout, place, line, is_lost):
    """The mark of a line; its title is the whole line."""
    is_error = line.kind == "call" and line.reply.startswith("E")
    more = " lost" if is_lost else " error" if is_error else ""
    yield f'<g class="mark {line.kind}{more}" data-place="{place}"><title>{spelled(line.text)}</title>'
    x, lane = across(place), layout.lanes.get(line.client)
    if line.kind == "call":
        element, size = sign_of(line.call, lane.is_optimistic)
        yield f'<{element} transform="translate({x} {lane.axis})" {size}/>'
        if is_error:
            yield f'<path class="slash" transform="translate({x} {lane.axis})" d="{SLASH}"/>'
    elif lane is not None:
        shape = TRIANGLE if line.kind == "open" else CROSS
        yield f'<path transform="translate({x} {lane.axis})" d="{shape}"/>'
    else:
        top, bottom = layout.bands[line.node]
        yield f'<path d="M{x} {top}V{bottom}"/>'
        yield f'<g class="label"><text x="{x + 5}" y="{top + 14}">{line.kind}s</text></g>'
    yield "</g>"


def sign_of(call, is_optimistic):
    """A bar where a call keeps what was done, hollow where it only orders; else a circle, hollow where the call looks."""
    if keeps(call, is_optimistic):
        return 'rect class="sync"', BAR
    if call == "fsync":
        return 'rect class="order"', BAR
    if call.startswith(("read ", "list ", "stat ")):
        return 'circle class="look"', CIRCLE
    return "circle", CIRCLE


def label(lane, place, line, is_lost):
    """The beginnings of a call's words and of its reply, above its sign. What is struck out has white text behind it, so that the strike
    isn't covered by it."""
    at = f'transform="translate({across(place)} {lane.axis}) rotate(-40)" x="19"'
    gone = " gone" if is_lost else ""
    yield f'<g class="label"><title>{spelled(line.text)}</title>'
    for kind, y, text in (("words", -8, line.call), ("reply", 4, labels.reply(line.reply))):
        shown = spelled(labels.fitted(text))
        if is_lost:
            yield f'<text class="halo" {at} y="{y}">{shown}</text>'
        yield f'<text class="{kind}{gone}" {at} y="{y}">{shown}</text>'
    yield "</g>"


def strikes(layout, lines):
    """A line through the calls that a failure took."""
    for place, line in enumerate(lines):
        for client, first in line.tails:
            begin = first_lost(lines, client, first)
            if begin is not None:
                yield f'<path class="strike" d="M{across(begin) - 12} {layout.lanes[client].axis}H{across(place)}"/>'


def arrows(layout, drawn):
    """From each call that made calls of another client safe to the last of them."""
    for arrow in drawn.arrows:
        ends = [layout.calls[arrow.client, number] for number in arrow.calls]
        x, y = across(arrow.place), layout.lanes[drawn.lines[arrow.place].client].axis
        to, target = across(ends[-1]), layout.lanes[arrow.client].axis
        way = 1 if y < target else -1
        bend = f"C{x} {y + 45 * way} {to} {target - 45 * way} {to} {target - 9 * way}"
        which = naming.lines([drawn.numbers[end] for end in ends])
        said = f"line {drawn.numbers[arrow.place]} made client {arrow.client}'s {which} safe"
        yield f'<path class="arrow" d="M{x} {y + 9 * way}{bend}"><title>{said}</title></path>'
