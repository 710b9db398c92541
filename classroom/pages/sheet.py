"""Several configurations of a run in one picture, in rows. A *frame* is the state of the run after an event."""
from __future__ import annotations

import re

from classroom.core.counts import plural
from classroom.pages import colours
from classroom.pages.drawing import KEY_HIGH, Drawing
from classroom.pages.frames import Frame
from classroom.pages.layout import CELL

ACROSS = 3  # the number of drawings in a row
TITLE = 24.0  # the height of the line above a configuration
OWN = "svg text.title { font-size: 14px; font-weight: 700; text-anchor: middle; }"
ARROW = re.compile("<defs>.*?</defs>", re.DOTALL)  # the definition of arrows, of which one serves all drawings of the sheet


def sheet(drawing: Drawing, frames: list[Frame], theme: str = colours.LIGHT) -> str:
    """Returns the text of an SVG file with the configurations of all frames. `drawing` is the drawing of one of them,
    for the field CELL, and `theme` names the colours, `light` or `dark`."""
    across, down = min(ACROSS, len(frames)), -(-len(frames) // ACROSS)
    key, whole = drawing.key(), down * (CELL.height + TITLE)
    high = whole + (KEY_HIGH if key else 0)
    arrow = ARROW.search(drawing.svg(frames[0].state, None))
    assert arrow is not None
    return "\n".join([
        '<?xml version="1.0" encoding="UTF-8"?>',
        f'<svg xmlns="http://www.w3.org/2000/svg" viewBox="0 0 {across * CELL.width:g} {high:g}" role="group"'
        f' aria-label="{len(frames)} configurations">',
        colours.style(OWN, theme),
        f'<rect class="ground" width="100%" height="100%"/>{arrow[0]}',
        *(cell(drawing, frame, index) for index, frame in enumerate(frames)),
        # The position of `key` is that below a single field.
        f'<g transform="translate(0 {whole - CELL.height:g})">{key}</g></svg>\n' if key else "</svg>\n",
    ])


def cell(drawing: Drawing, frame: Frame, index: int) -> str:
    """Returns the SVG elements of the title of a frame and, below it, of its configuration as this drawing shows it.
    `index` is the frame's position in the list, from which its row and column follow."""
    x, y = index % ACROSS * CELL.width, index // ACROSS * (CELL.height + TITLE)
    state = frame.state
    left = f"{plural(len(state.privileged), 'node')} can move" if not state.stable else "at rest"
    title = f"after {plural(state.place, 'event')}, {plural(state.moves, 'move')}: {left}" if state.place else f"at the beginning: {left}"
    size = f' x="{x:g}" y="{y + TITLE:g}" width="{CELL.width:g}" height="{CELL.height:g}"'
    drawn = ARROW.sub("", drawing.svg(state, frame.event)).replace(' id="drawing"', size, 1)
    return f'<text class="title" x="{x + CELL.width / 2:g}" y="{y + 17:g}">{title}</text>\n{drawn}'
