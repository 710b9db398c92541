"""The SVG files that `./class play --svg` and `./class experiment --plot` write, seen without a browser:
`rsvg-convert` renders them, and the tests count the pixels of each colour. Colours have the names that they have in the
style of the pages, such as `--ink`."""
from __future__ import annotations

import math
import re
import struct
import subprocess
import unittest
import zlib
from collections import Counter
from pathlib import Path

from classroom.pages import colours
from tests.classroom.help import EXAMPLES, LIMIT, InRoom, call_class
from tests.classroom.runs import edited_run, journal_of, many_owners
from tests.classroom.test_experiment import TINY

RENDERER = "rsvg-convert"
NEAR = 40  # the most difference of two colours that count as alike; black and the dark grey of texts differ more
BYTES = {2: 3, 6: 4}  # bytes of a pixel, by the colour type of a PNG: red, green, blue, and in type 6 the opacity


def unfiltered(kind: int, row: bytes, above: bytes, step: int) -> bytes:
    """Returns the bytes of a row of a PNG image after undoing its filter, which replaced each byte by the difference
    from a guess. As in the PNG standard, `kind` is 0 for no filter, 1 if the guess is the pixel to the left, 2 if it is
    that in the row `above`, 3 for the average of both, and 4 for Paeth's guess. A pixel has `step` bytes."""
    if kind == 0:
        return row
    if kind == 2:
        return bytes((byte + up) & 255 for byte, up in zip(row, above))
    out = bytearray(step) + row
    corners = bytes(step) + above
    for at in range(step, len(out)):
        left, up, corner = out[at - step], corners[at], corners[at - step]
        if kind == 1:
            guess = left
        elif kind == 3:
            guess = (left + up) // 2
        else:
            # Paeth's guess is the nearest of the three to this sum. The second number decides if two are equally near.
            far = left + up - corner
            guess = min((abs(far - left), 0, left), (abs(far - up), 1, up), (abs(far - corner), 2, corner))[2]
        out[at] = (out[at] + guess) & 255
    return bytes(out[step:])


def colours_of(png: bytes) -> Counter[str]:
    """Returns the number of pixels of each colour in a PNG. Fails if its pixels have a form that isn't in BYTES."""
    # After the eight bytes of the signature there are chunks: the size of the data, a name of four bytes, the data, and
    # a checksum of four bytes. The first chunk is the header.
    wide, high, depth, kind, _, _, interlaced = struct.unpack(">IIBBBBB", png[16:29])
    assert depth == 8 and kind in BYTES and not interlaced, "another kind of PNG"
    data, at = b"", 8
    while at < len(png):
        size, name = struct.unpack(">I4s", png[at:at + 8])
        data += png[at + 8:at + 8 + size] if name == b"IDAT" else b""
        at += size + 12
    content, step = zlib.decompress(data), BYTES[kind]
    size = step * wide
    above, found = bytes(size), Counter[str]()
    for at in range(0, high * (size + 1), size + 1):  # Each row begins with a byte for its filter.
        above = unfiltered(content[at], content[at + 1:at + 1 + size], above, step)
        found.update(f"#{above[point:point + 3].hex()}" for point in range(0, size, step))
    return found


def render(picture: Path) -> Counter[str]:
    """Renders an SVG file, and returns the number of pixels of each colour. Fails if it can't be rendered."""
    done = subprocess.run([RENDERER, "--width", "1000", "--keep-aspect-ratio", picture], capture_output=True, check=False, timeout=LIMIT)
    assert done.returncode == 0, done.stderr
    return colours_of(done.stdout)


def alike(found: Counter[str], colour: str) -> int:
    """Returns the number of pixels whose colour is nearly this one. The pixels of thin lines are mixed with their
    surroundings, so few of them have exactly the line's colour."""
    wanted = bytes.fromhex(colour[1:])
    return sum(count for other, count in found.items() if math.dist(wanted, bytes.fromhex(other[1:])) < NEAR)


class Pictures(InRoom):
    """The files that `--svg` and `--plot` write."""

    def check_colours(self, picture: Path, *names: str, theme: str = colours.LIGHT) -> None:
        """Checks that a picture has the colours with these names, and the background of a page in this theme. Fails if
        more than one pixel in a hundred is black, since colours that the renderer doesn't understand become black."""
        self.assertNotIn("var(", picture.read_text(encoding="utf-8"))  # The renderer doesn't know variables of CSS.
        found = render(picture)
        self.assertEqual(found.most_common(1)[0][0], colours.value("--ground", theme), picture)
        wanted = [colours.value(name, theme) for name in names]
        self.assertEqual([colour for colour in wanted if alike(found, colour) < 3], [], picture)
        self.assertLess(found["#000000"], found.total() / 100, picture)

    def draw(self, lab: Path, journal: Path, places: str, *more: str) -> Path:
        """Writes a picture by `./class play` with the options `more`, and returns its path. The picture shows the
        configurations after the events with the numbers in `places`, which has commas between them."""
        output = self.room / f"{lab.stem}-{places.replace(',', '-')}.svg"
        done = call_class("play", lab, journal, "--svg", places, "-o", output, *more)
        self.assertEqual(done.returncode, 0, done.stderr)
        return output

    def test_a_picture_of_a_configuration_has_the_colours_of_each_theme(self) -> None:
        """The picture shows the configuration after 9 events, in which something has each of these colours."""
        lab = EXAMPLES / "cycle.toml"
        journal = journal_of(lab, EXAMPLES / "cycle-run.script", self.room / "journal")
        for theme, more in ((colours.LIGHT, ()), (colours.DARK, ("--dark",))):
            picture = self.draw(lab, journal, "9", *more)
            self.check_colours(picture, "--hair", "--quiet", "--wed", "--wedtint", "--point", "--can", "--oncan", "--ink", theme=theme)

    def test_a_picture_of_several_configurations_has_the_colour_of_a_fault(self) -> None:
        lab, journal = edited_run(self.room)
        self.check_colours(self.draw(lab, journal, "0,7,9,10"), "--hit", "--can", "--point", "--ink")

    def test_a_picture_of_sixty_small_nodes_has_its_colours(self) -> None:
        lab = many_owners(self.room, 60)
        journal = self.file("none.journal", "")
        self.check_colours(self.draw(lab, journal, "0"), "--can", "--hair", "--quiet")

    def test_a_chart_has_the_colours_of_each_theme(self) -> None:
        plot = self.room / "runs.svg"
        for theme, more in ((colours.LIGHT, ()), (colours.DARK, ("--dark",))):
            done = call_class("experiment", *TINY, "--csv", self.room / "runs.csv", "--plot", plot, *more)
            self.assertEqual(done.returncode, 0, done.stdout + done.stderr)
            self.check_colours(plot, "--can", "--wed", "--point", "--hit", "--quiet", theme=theme)

    def test_colours_are_those_of_a_page(self) -> None:
        """The style of a picture has the value of each colour that the style of a page uses, in both themes. Two values
        are compared with the text of the colour, so that the lookup itself is tested."""
        page = colours.STYLE.read_text(encoding="utf-8")
        used = set(re.findall(r"var\((--[a-z]+)\)", page))
        for theme in colours.THEMES:
            picture = colours.style(theme=theme)
            self.assertEqual({name for name in used if colours.value(name, theme) not in picture}, set())
        self.assertEqual((colours.value("--can"), colours.value("--can", colours.DARK)), ("#b93a06", "#ff9a5c"))


if __name__ == "__main__":
    unittest.main()
