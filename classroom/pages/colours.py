"""The style of a drawing in a file of its own. The colours are literal values, because programs other than browsers
don't support the variables of a style. A *theme* is `light` or `dark`, and gives each variable a value."""
from __future__ import annotations

import re
from functools import cache
from pathlib import Path

STYLE = Path(__file__).with_name("drawing.css")
LIGHT, DARK = THEMES = ("light", "dark")
BEGINNING = re.compile(r"\A:root, svg \{(?P<light>[^}]*)\}\n@media [^{]*\{\n[^{]*\{(?P<dark>[^}]*)\}\n\}\n", re.DOTALL)
SET = re.compile(r"(--[a-z]+): ([^;]+);")
USED = re.compile(r"var\((--[a-z]+)\)")


@cache
def parts() -> tuple[dict[str, dict[str, str]], str]:
    """Returns the variables of each theme with their values, and the CSS rules that use them, from drawing.css."""
    text = STYLE.read_text(encoding="utf-8")
    found = BEGINNING.match(text)
    assert found is not None, "drawing.css begins with the themes"
    return {theme: dict(SET.findall(found[theme])) for theme in THEMES}, text[found.end():]


def value(name: str, theme: str = LIGHT) -> str:
    """Returns the value of the CSS variable `name`, such as `--point`, in a theme."""
    return parts()[0][theme][name]


def literal(rules: str, theme: str = LIGHT) -> str:
    """Returns CSS rules in which each variable is replaced by its value in a theme."""
    return USED.sub(lambda used: value(used[1], theme), rules)


def style(more: str = "", theme: str = LIGHT) -> str:
    """Returns the style element of a drawing in a theme, with the CSS rules `more` added."""
    return f"<style>{literal(parts()[1] + more, theme)}</style>"
