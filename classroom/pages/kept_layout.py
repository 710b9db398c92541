"""The layout of a network of no known shape, for which positions have to be searched. The layout is kept in the folder
of the network's run, so that the search is made once."""
from __future__ import annotations

import json
import math
from pathlib import Path

from classroom.core import plain
from classroom.core.folders import LAYOUT
from classroom.core.lab import Lab
from classroom.core.program import Fault
from classroom.pages import springs
from classroom.pages.layout import lay_out

MOST = 1 << 20  # the most bytes of the layout's file
FARTHEST = 1e6  # the largest distance of a point from the middle


def save(folder: Path, lab: Lab) -> None:
    """Writes the layout of a lab's network into the folder of its run, unless it needs no search or is there already.
    Raises no error if the file can't be written, for example because the disk is full."""
    file, new = folder / LAYOUT, folder / f"{LAYOUT}.new"
    nodes, links = tuple(sorted(node.id for node in lab.nodes)), tuple(sorted(lab.links))
    if file.exists() or lay_out(nodes, links).kind != "general":
        return
    points = {str(node): point for node, point in springs.by_springs(nodes, links).items()}
    try:
        new.write_text(json.dumps({"links": links, "points": points}, separators=(",", ":")) + "\n", encoding="utf-8")
        new.replace(file)
    except OSError:
        new.unlink(missing_ok=True)


def load(folder: Path) -> None:
    """Reads the layout in the folder of a run. All drawings of that network use it from now on. Ignores a file that
    isn't a layout."""
    try:
        it = json.loads(plain.read(folder / LAYOUT, MOST))
        points = {int(node): (float(x), float(y)) for node, (x, y) in it["points"].items()}
        links = tuple(sorted((int(a), int(b)) for a, b in it["links"]))
    except (Fault, ValueError, TypeError, KeyError, AttributeError, OverflowError, RecursionError):
        return
    if all(math.isfinite(value) and abs(value) < FARTHEST for point in points.values() for value in point):
        springs.KNOWN[tuple(sorted(points)), links] = points
