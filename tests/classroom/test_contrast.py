"""The contrast of each text of a page or a picture with its background, computed from the palette in both themes, light
and dark. A colour is given by its name in the palette."""
from __future__ import annotations

import re
import unittest

from classroom.pages import colours
from tests.classroom.contrast import LEAST, contrast

PAGES = ("page.css", "by_hand.css", "hall.css")
RULE = re.compile(r"(?P<chosen>[^{}]+)\{(?P<set>[^{}]*)\}")
COLOUR = re.compile(r"(?:^|[\s;])color: var\(--([a-z]+)\)")
BACKGROUND = re.compile(r"(?:^|[\s;])background: var\(--([a-z]+)\)")
FILL = re.compile(r"(?:^|[\s;])fill: var\(--([a-z]+)\)")
GROUNDS = ("ground", "panel", "rule")  # the backgrounds that a text of a page may have if its own style rule sets none
# The texts of a drawing, with their colours and the colours of their backgrounds.
DRAWN = {
    ("ink", "ground"), ("ink", "wedtint"), ("ground", "quiet"), ("onwed", "wed"), ("quiet", "ground"), ("can", "cantint"), ("oncan", "can"),
    ("hit", "ground"), ("can", "ground"),
}
# The selectors of style rules for texts in a drawing.
TEXTS = re.compile(r"\btext\b|\.identifier|\.owner|\.mark")


def text_colours(name: str) -> set[tuple[str, str]]:
    """Returns the colours of the texts in the style sheet of a page, each with a colour that its background may have.
    This is the background in the same style rule, if the rule has one. Otherwise it is each of GROUNDS for `quiet`, and
    each of the first two for any other colour. A text in a drawing has its fill on `ground`, and a text without a rule
    has `ink` on each of GROUNDS."""
    found = {("ink", ground) for ground in GROUNDS}
    for rule in RULE.finditer((colours.STYLE.parent / name).read_text("utf-8")):
        front, back, fill = COLOUR.search(rule["set"]), BACKGROUND.search(rule["set"]), FILL.search(rule["set"])
        if front is not None:
            found |= {(front[1], ground) for ground in ([back[1]] if back is not None else GROUNDS if front[1] == "quiet" else GROUNDS[:2])}
        if fill is not None and TEXTS.search(rule["chosen"]):
            found.add((fill[1], "ground"))
    return found


class Palette(unittest.TestCase):
    """Computed contrasts, without a browser."""

    def check_readable(self, pairs: set[tuple[str, str]]) -> None:
        """Checks that the two colours of each of these pairs have enough contrast in both themes."""
        for theme in colours.THEMES:
            for front, back in sorted(pairs):
                # The value of a colour is `#`, and two hexadecimal digits each for red, green and blue.
                one, other = ([float(int(colours.value(f"--{name}", theme)[at:at + 2], 16)) for at in (1, 3, 5)] for name in (front, back))
                with self.subTest(theme=theme, front=front, back=back):
                    self.assertGreaterEqual(contrast(one, other), LEAST)

    def test_texts_of_pages_have_enough_contrast(self) -> None:
        for name in PAGES:
            self.check_readable(text_colours(name))

    def test_texts_of_drawings_have_enough_contrast(self) -> None:
        self.check_readable(DRAWN)

    def test_the_table_of_drawn_texts_has_each_colour_of_the_style_and_no_other(self) -> None:
        # The second part is the style of drawings, without the themes.
        fills = {fill[1] for rule in RULE.finditer(colours.parts()[1]) if TEXTS.search(rule["chosen"]) and (fill := FILL.search(rule["set"])) is not None}
        self.assertEqual(fills, {front for front, _ in DRAWN})

    def test_every_style_sheet_is_checked_here(self) -> None:
        self.assertEqual({file.name for file in colours.STYLE.parent.glob("*.css")}, {*PAGES, colours.STYLE.name})

    def test_contrasts_are_from_1_to_21(self) -> None:
        black, white, grey = [0.0] * 3, [255.0] * 3, [119.0] * 3
        self.assertAlmostEqual(contrast(black, white), 21.0)
        self.assertLess(contrast(grey, white), LEAST)
        self.assertAlmostEqual(contrast(grey, grey), 1.0)


if __name__ == "__main__":
    unittest.main()
