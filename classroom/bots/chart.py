"""The chart of an experiment: moves, closes and rounds by number of nodes, together with the proved bounds.

A *row* is the result of one run. A *panel* shows the rows of one family of networks under one daemon, the part of a run
that decides which nodes move. A *theme* is `colours.LIGHT` or `colours.DARK`: the colours of a light or a dark page.
The proved program prints the bounds, so functions that use them raise `Fault` if it isn't built.
"""
from __future__ import annotations

import statistics
from collections.abc import Callable, Sequence
from html import escape

from classroom.bots.measuring import Row
from classroom.core import bounds
from classroom.core.bounds import MOVES
from classroom.pages import colours

WIDE, HIGH = 360, 362  # the width and height of a panel
LEFT, RIGHT, ABOVE, BELOW = 48, 14, 94, 38
LINE = 16  # the distance of two lines of text
KEY = 118  # the height of the legend
MEASURES: list[tuple[str, str, Callable[[Row], int]]] = [
    ("moves", "--point", lambda row: row.moves),
    ("closes", "--can", lambda row: row.closes),
    ("rounds", "--wed", lambda row: row.rounds),
]
OWN = """
svg .axis, svg .tick { stroke: var(--quiet); stroke-width: 1; }
svg .tick { stroke-width: 0.4; }
svg .bound { stroke: var(--hit); stroke-width: 1.6; stroke-dasharray: 7 4; }
svg .least { stroke-dasharray: 2 3; }
svg .loose { stroke-width: 1; stroke-dasharray: 12 3 2 3; }
svg .most { stroke-width: 1.2; }
svg .median { stroke-width: 2.4; }
svg circle { opacity: 0.35; }
svg circle.worst { opacity: 1; fill: none; stroke: var(--ink); stroke-width: 1.6; }
svg text.over { paint-order: stroke; stroke: var(--ground); stroke-width: 4px; stroke-linejoin: round; }
svg text { font-size: 12px; text-anchor: middle; }
svg text.left { text-anchor: start; }
svg text.end { text-anchor: end; }
svg text.title { font-weight: bold; font-size: 14px; }
"""


class Scale:
    """A mapping from numbers of nodes and counts to positions in a panel."""

    def __init__(self, least: int, most: int, high: int) -> None:
        """Maps the numbers of nodes `least` to `most`, and counts from 0 to `high`."""
        # Positions are divided by these ranges, which therefore can't be empty.
        self.least, self.most, self.high = least, max(most, least + 1), max(high, 1)

    def x(self, nodes: float) -> float:
        """Returns the horizontal position of a number of nodes."""
        return LEFT + (nodes - self.least) / (self.most - self.least) * (WIDE - LEFT - RIGHT)

    def y(self, count: float) -> float:
        """Returns the vertical position of a count."""
        return HIGH - BELOW - count / self.high * (HIGH - ABOVE - BELOW)


def tick_distance(high: int, parts: int = 5) -> int:
    """Returns the distance of the ticks on an axis from 0 to `high`. The distance is the first of 1, 2, 5, 10, 20, 50
    and so on that divides the axis into at most `parts` parts."""
    step = 1
    while True:
        for factor in (1, 2, 5):
            if high <= step * factor * parts:
                return step * factor
        step *= 10


def line(points: Sequence[tuple[float, float]], kind: str, colour: str = "", theme: str = colours.LIGHT) -> str:
    """Returns the SVG path through some points. A single point becomes a short line. `kind` is the path's CSS class,
    and `colour` the name of its colour in the theme, or empty if the CSS class has one."""
    if len(points) == 1:
        points = [(points[0][0] - 8, points[0][1]), (points[0][0] + 8, points[0][1])]
    path = " ".join(f"{'M' if index == 0 else 'L'}{x:.1f} {y:.1f}" for index, (x, y) in enumerate(points))
    style = f' style="stroke: {colours.value(colour, theme)}"' if colour else ""
    return f'<path class="{kind}" d="{path}"{style}/>'


def axes(scale: Scale) -> list[str]:
    """Returns the SVG elements of a panel's two axes with their numbers. `scale` has the range of each axis."""
    parts = [line([(LEFT, ABOVE), (LEFT, HIGH - BELOW), (WIDE - RIGHT, HIGH - BELOW)], "axis")]
    for count in range(0, scale.high + 1, tick_distance(scale.high)):
        y = scale.y(count)
        parts.append(line([(LEFT, y), (WIDE - RIGHT, y)], "tick"))
        parts.append(f'<text class="end" x="{LEFT - 6}" y="{y + 4:.1f}">{count}</text>')
    step = tick_distance(scale.most - scale.least)
    # The first number is the least multiple of `step` in the range.
    for nodes in range(-(-scale.least // step) * step, scale.most + 1, step):
        parts.append(f'<text x="{scale.x(nodes):.1f}" y="{HIGH - BELOW + 16}">{nodes}</text>')
    parts.append(f'<text class="end" x="{WIDE - RIGHT}" y="{HIGH - 6}">nodes</text>')
    return parts


def panel(title: str, rows: list[Row], theme: str) -> str:
    """Returns the SVG drawing of one panel with this title, in a theme's colours. The panel has the bounds, and for
    each of moves, closes and rounds the counts of the runs in `rows`, their maximum and their median. It also names and
    rings the runs that came closest to their bounds."""
    sizes = sorted({row.nodes for row in rows})
    links = {size: max(row.links for row in rows if row.nodes == size) for size in sizes}
    most = {size: bounds.of(size, links[size]) for size in sizes}
    loose = {size: 3 * size + 2 * links[size] for size in sizes}  # a simpler bound of moves, which is never less than that in `most`
    scale = Scale(sizes[0], sizes[-1], max(loose.values()))
    parts = [f'<text class="title" x="{WIDE / 2}" y="18">{escape(title)}</text>', *closest_lines(rows), *axes(scale)]
    parts.append(line([(scale.x(size), scale.y(loose[size])) for size in sizes], "bound loose"))
    parts.append(line([(scale.x(size), scale.y(most[size].moves)) for size in sizes], "bound"))
    parts.append(line([(scale.x(size), scale.y(most[size].rounds)) for size in sizes], "bound least"))
    for name, colour, of in MEASURES:
        seen = sorted({(row.nodes, of(row)) for row in rows})
        parts += [f'<circle cx="{scale.x(size):.1f}" cy="{scale.y(count):.1f}" r="2" style="fill: {colours.value(colour, theme)}"/>' for size, count in seen]
        by_size = {size: [of(row) for row in rows if row.nodes == size] for size in sizes}
        parts.append(line([(scale.x(size), scale.y(max(by_size[size]))) for size in sizes], f"most {name}", colour, theme))
        parts.append(line([(scale.x(size), scale.y(statistics.median(by_size[size]))) for size in sizes], f"median {name}", colour, theme))
    for name, row, count, bound in closest_to_bounds(rows):
        told = f"<title>{count} of at most {bound} {name}</title>"
        parts.append(f'<circle class="worst" cx="{scale.x(row.nodes):.1f}" cy="{scale.y(count):.1f}" r="5">{told}</circle>')
    last = sizes[-1]
    for count, name in ((most[last].moves, "moves"), (most[last].rounds, "rounds")):
        parts.append(f'<text class="end over" x="{WIDE - RIGHT}" y="{scale.y(count) - 5:.1f}">at most {count} {name}</text>')
    return "".join(parts)


def closest_to_bounds(rows: list[Row]) -> list[tuple[str, Row, int, int]]:
    """Returns two of the runs in `rows`: the one that came closest to its bound of moves, and the one that came closest
    to its bound of rounds. Each has `moves` or `rounds`, its row, its count of these and the bound."""
    by_moves = max(rows, key=lambda row: row.moves / bounds.of(row.nodes, row.links).moves)
    by_rounds = max(rows, key=lambda row: row.rounds / bounds.of(row.nodes, row.links).rounds)
    return [("moves", by_moves, by_moves.moves, bounds.of(by_moves.nodes, by_moves.links).moves),
            ("rounds", by_rounds, by_rounds.rounds, bounds.of(by_rounds.nodes, by_rounds.links).rounds)]


def closest_lines(rows: list[Row]) -> list[str]:
    """Returns the SVG text lines below a panel's title. They name the runs in `rows` that came closest to their
    bounds."""
    texts = [f"{count} of at most {bound} {name} ({row.nodes} nodes, seed {row.seed})" for name, row, count, bound in closest_to_bounds(rows)]
    return [f'<text x="{WIDE / 2}" y="{18 + LINE * number}">{text}</text>' for number, text in enumerate(["the runs closest to their bounds:", *texts], 1)]


def legend(runs: int, theme: str) -> str:
    """Returns the SVG legend that explains the lines and points of all panels, in a theme's colours. `runs` is the
    number of runs in the chart."""
    parts = []
    for column, (name, colour, _) in enumerate(MEASURES):
        x = 12 + 84 * column
        parts.append(line([(x, 14), (x + 22, 14)], "median", colour, theme) + f'<text class="left" x="{x + 28}" y="18">{name}</text>')
    parts.append(f'<text class="left" x="270" y="18">{runs} runs</text>')
    for y, text in ((36, "point: a run; thick line: median; thin line: greatest"), (52, "ring: the run that came closest to its bound"),
                    (68, "proved bounds, for n nodes and L links:")):
        parts.append(f'<text class="left" x="12" y="{y}">{text}</text>')
    for y, kind, text in ((84, "bound", f"{MOVES} moves"), (100, "bound loose", "3n + 2L moves"),
                          (116, "bound least", "2n rounds, or 2n - 1 if n is odd")):
        parts.append(line([(12, y - 4), (34, y - 4)], kind) + f'<text class="left" x="40" y="{y}">{text}</text>')
    return "".join(parts)


def chart(rows: list[Row], theme: str = colours.LIGHT) -> str:
    """Returns the SVG document of the runs in `rows`, in a theme's colours. It has a panel for each family and daemon,
    families side by side and daemons below each other, and the legend."""
    # A family's name may have the size of the network, as `random:8:12` does, and these sizes share a panel.
    families = list(dict.fromkeys(row.family.partition(":")[0] for row in rows))
    daemons = list(dict.fromkeys(row.daemon for row in rows))
    wide, high = max(WIDE * len(families), WIDE), HIGH * len(daemons) + KEY + 8
    parts = []
    for down, daemon in enumerate(daemons):
        for across, family in enumerate(families):
            own = [row for row in rows if row.daemon == daemon and row.family.partition(":")[0] == family]
            if own:
                parts.append(f'<g transform="translate({across * WIDE} {down * HIGH})">{panel(f"{family}, {daemon}", own, theme)}</g>')
    style = colours.style(OWN, theme)
    return (f'<?xml version="1.0" encoding="UTF-8"?>\n<svg xmlns="http://www.w3.org/2000/svg" viewBox="0 0 {wide} {high}" '
            f'width="{wide}" height="{high}" role="img" aria-label="moves, closes and rounds to stability">{style}'
            f'<rect class="ground" width="100%" height="100%"/>{"".join(parts)}'
            f'<g transform="translate(0 {HIGH * len(daemons)})">{legend(len(rows), theme)}</g></svg>\n')
