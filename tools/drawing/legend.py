"""The legend of a picture, in three rows."""

from drawing import labels
from drawing.layout import ROW

# What is left free in front of a sign, and how far behind its middle its text begins.
GAP, TEXT = 20, 16

# In each row signs, each with its text. They are drawn as the marks are.
CALL, LINE = '<g class="mark">{}</g>', '<g class="mark {}"><path d="M0-8V8"/></g>'
SIGNS = (
    (
        ('<g class="mark open"><path d="M-6-8L8 0L-6 8Z"/></g>', "opened"),
        (CALL.format('<circle r="6"/>'), "may change files"),
        (CALL.format('<circle class="look" r="6"/>'), "looks"),
        ('<g class="mark error"><circle r="6"/><path class="slash" d="M-5 5L5-5"/></g>', "error"),
        ('<rect class="sync" x="-3" y="-8" width="6" height="16"/>', "sync"),
        ('<rect class="order" x="-3" y="-8" width="6" height="16"/>', "fsync that only orders"),
        ('<g class="mark crash"><path d="M-6-6L6 6M-6 6L6-6"/></g>', "crashes"),
    ),
    (
        (LINE.format("fail"), "node fails"),
        (LINE.format("return"), "node returns"),
        ('<rect class="down" x="-8" y="-8" width="18" height="16"/>', "node is down"),
        ('<g class="mark lost"><circle r="6"/></g><path class="strike" d="M-10 0H10"/>', "a failure took the call"),
    ),
    (
        ('<rect class="kept" x="-8" y="-7" width="18" height="14"/>', "no failure takes what is up to here"),
        ('<path class="arrow" d="M12 0H-8"/>', "a client's call made calls of another one safe"),
    ),
)


def rows(top):
    """The legend, from its upper edge on."""
    for row, signs in enumerate(SIGNS):
        x, y = 20, top + ROW * row + ROW // 2
        for sign, text in signs:
            yield f'<g class="legend" transform="translate({x} {y})">{sign}<text x="{TEXT}" y="4">{text}</text></g>'
            x += TEXT + int(sum(map(labels.width, text))) + GAP
