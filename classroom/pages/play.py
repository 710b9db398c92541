"""`./class play`: makes a page of a run, or a picture of configurations. A *place* is the number of events up to a
configuration."""
from __future__ import annotations

import argparse
import re
from itertools import chain, takewhile
from pathlib import Path

from classroom.core import classes, folders
from classroom.core.program import Fault
from classroom.pages import kept_layout
from classroom.pages.colours import DARK, LIGHT
from classroom.pages.drawing import drawing_of, standalone
from classroom.pages.frames import Frame, frames_of
from classroom.pages.layout import CELL, WIDE
from classroom.pages.page import page_of
from classroom.pages.sheet import sheet


def page(lab_file: Path, journal: Path) -> str:
    """Returns the HTML page of a whole run. Raises `Fault` if the audit refuses the journal."""
    kept_layout.load(lab_file.parent)
    lab, frames = frames_of(lab_file, journal)
    return page_of(folders.title(lab_file, journal), lab, frames)


def places(word: str) -> list[int]:
    """Returns the places in an argument, which are separated by commas. Raises `ArgumentTypeError` for any other
    text."""
    if not re.fullmatch(r"\d+(,\d+)*", word):
        raise argparse.ArgumentTypeError(f"{word}: write numbers of events with commas between them, such as 0,4,24; 0 is the beginning")
    return [int(place) for place in word.split(",")]


def picture(lab_file: Path, journal: Path, asked: list[int], theme: str = LIGHT) -> str:
    """Returns the text of an SVG file with the configurations at the places in `asked`: one alone, or several in rows.
    `theme` names the colours, `light` or `dark`. Raises `Fault` if the run has no such place, or if the audit refuses
    the journal."""
    kept_layout.load(lab_file.parent)
    lab, frames = frames_of(lab_file, journal)
    first = next(frames)
    drawing = drawing_of(lab.without_house(), first.state.links, CELL if len(asked) > 1 else WIDE)
    found: dict[int, Frame] = {}
    last = 0
    for frame in chain([first], takewhile(lambda frame: frame.state.place <= max(asked), frames)):
        last = frame.state.place
        if frame.state.place in asked:
            found[frame.state.place] = Frame(frame.event, frame.state.copy())  # The next state is made by changing this one, so a copy is kept.
    for place in asked:
        if place not in found:
            raise Fault(f"{journal}: there is no event {place}; the last event has the number {last}", 3)
    if len(asked) > 1:
        return sheet(drawing, [found[place] for place in asked], theme)
    return standalone(drawing, found[asked[0]].state, found[asked[0]].event, theme)


def play(words: argparse.Namespace) -> int:
    """Writes the page of a run, or with `--svg` the picture of one or more of its events. Prints the file's name and
    size. Returns the exit status. Raises `Fault` if the arguments don't name one run, if the audit refuses its journal,
    or if the journal has no event with a number that `--svg` names."""
    runs = classes.given(words.run)
    if len(runs) != 1:
        raise Fault("play: name the folder of one run, or one lab and one journal")
    lab_file, journal = runs[0]
    output = Path(words.output or ("run.html" if words.svg is None else f"{'-'.join(map(str, words.svg))}.svg"))
    text = page(lab_file, journal) if words.svg is None else picture(lab_file, journal, words.svg, DARK if words.dark else LIGHT)
    output.write_text(text, encoding="utf-8")
    print(f"written: {output} ({len(text.encode())} bytes)")
    return 0
