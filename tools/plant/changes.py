"""Small changes to a line of a body, such as a tired programmer makes."""
from __future__ import annotations

import re
from collections.abc import Iterator

# The beginnings of lines of a body that aren't code.
ASIDE = ("//", "#", "ghost ", "invariant ", "measure ")
STRING = re.compile(r'b?"(?:[^"\\]|\\.)*"')
NUMBER = re.compile(r"(?<![\w.])\d+(?=(?:[iu](?:8|16|32|64)|usize)?(?![\w.]))")
CONDITION = re.compile(r"\bif (?!let\b)(?P<test>[^{}]+) \{")
PAIR = re.compile(r"\((?P<first>[a-z_]\w*), (?P<second>[a-z_]\w*)\)")
# A plain variant outside of the patterns of arms: if one of those was changed, two arms would have the same pattern.
VARIANT = re.compile(r"\b(?P<enum>[A-Z]\w*)::(?P<variant>[A-Z]\w*)(?![\w({:])(?! \{)(?!.*=>)")
STATEMENT = re.compile(r"(?!let\b|return\b|break\b|continue\b|use\b|const\b)[a-z_*].*;")
EXCHANGED = (
    (" < ", " <= "), (" <= ", " < "), (" > ", " >= "), (" >= ", " > "), (" == ", " != "), (" != ", " == "),
    (" && ", " || "), (" || ", " && "), (" + ", " - "), (" - ", " + "), ("..=", ".."), (" += ", " -= "),
    (" + 1", ""), (" - 1", ""), ("true", "false"), ("false", "true"), (".is_some()", ".is_none()"), (".is_none()", ".is_some()"),
    (".is_ok()", ".is_err()"), (".is_err()", ".is_ok()"), (".min(", ".max("), (".max(", ".min("), (".any(", ".all("), (".all(", ".any("),
    (".first()", ".last()"), (".last()", ".first()"),
)


def code_of(line: str) -> str:
    """Returns a line with its string literals replaced by spaces, so that it keeps its length."""
    return STRING.sub(lambda found: " " * len(found[0]), line)


def is_balanced(text: str) -> bool:
    """Returns whether a text has as many closing brackets of each kind as opening ones."""
    return all(text.count(opened) == text.count(closed) for opened, closed in (("(", ")"), ("[", "]"), ("{", "}")))


def exchanges(line: str) -> Iterator[str]:
    """Yields all lines that one replacement of EXCHANGED makes of a line. Such a replacement puts the opposite, or
    something similar, in place of an operator, a truth value or a method such as `is_some`. Strings aren't changed."""
    code = code_of(line)
    for old, new in EXCHANGED:
        for found in re.finditer(re.escape(old), code):
            # The beginning of a name such as `true_count` isn't a truth value.
            if not (old in ("true", "false") and re.match(r"\w", code[found.end() :])):
                yield line[: found.start()] + new + line[found.end() :]


def spans(line: str, variants: dict[str, list[str]]) -> Iterator[tuple[int, int, str]]:
    """Yields replacements of single parts of a line, each as the part's beginning, its end, and the new text. A number
    is increased by one, a condition is negated, the two names in a pair are exchanged, and a variant is replaced by
    another one. `variants` has the variants without values of each enum."""
    code = code_of(line)
    for found in NUMBER.finditer(code):
        yield found.start(), found.end(), str(int(found[0]) + 1)
    for found in CONDITION.finditer(code):
        yield found.start("test"), found.end("test"), f"!({line[found.start('test') : found.end('test')]})"
    for found in PAIR.finditer(code):
        yield found.start(), found.end(), f"({found['second']}, {found['first']})"
    for found in VARIANT.finditer(code):
        for other in variants.get(found["enum"], []):
            if other != found["variant"] and found["variant"] in variants[found["enum"]]:
                yield found.start("variant"), found.end("variant"), other


def changes_of(line: str, variants: dict[str, list[str]]) -> list[str]:
    """Returns all lines that one small change makes of a line. If the line is a whole statement, one of them is empty,
    which removes the statement. Returns none for lines that aren't code. `variants` has the variants without values of
    each enum."""
    if not line.strip() or line.strip().startswith(ASIDE):
        return []
    found = [*exchanges(line), *(line[:begin] + new + line[end:] for begin, end, new in spans(line, variants))]
    if STATEMENT.fullmatch(line.strip()) and is_balanced(line):
        found.append("")
    return [changed for changed in dict.fromkeys(found) if changed != line]


def variants_of(text: str) -> dict[str, list[str]]:
    """Returns the variants without values of each enum in the text of a source file."""
    found = {}
    for enum in re.finditer(r"^(?:pub(?:\(\w+\))? )?enum (\w+)[^{]*\{\n(.*?)^\}", text, re.MULTILINE | re.DOTALL):
        found[enum[1]] = re.findall(r"^    ([A-Z]\w*),", enum[2], re.MULTILINE)
    return found
