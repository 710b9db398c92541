"""Every line that a teacher or a student can see, as a table: `kept/lines.txt`.

    python3 -B -m tests.classroom.lines      writes the table anew

It has the lines of the programs, of `class`, of the bots and of the pages. Each is a text in a source, with `{}` for
each value. If a line changes, the table changes too, so that a reviewer sees the new text there without the code around
it. The help of options is in `operate/class.1`.
"""
from __future__ import annotations

import ast
import re
from collections.abc import Iterator
from html.parser import HTMLParser
from pathlib import Path

TOP = Path(__file__).resolve().parents[2]
TABLE = Path(__file__).parent / "kept" / "lines.txt"
# The sources with lines that people see, and those among them whose texts aren't such lines.
SOURCES = (
    "classroom/**/*.py", "classroom/pages/*.html", "classroom/pages/*.js", "examples/*.py", "examples/bot.*", "examples/Bot.java",
    "student/*.py", "crates/mml_board/src/denial.rt", "crates/mml_program/src/*.rt", "crates/mml_host_program/src/*.rt",
    "crates/mml_host_program/src/judging/*.rt", "crates/mml_ports/src/*.rt", "crates/mml_recording/src/*.rt", "crates/mml_serving/src/*.rt",
)
NO_SOURCES = ("classroom/setup/word_list.py", "crates/mml_program/src/built_in.rt")
# The calls whose texts aren't such lines, but regular expressions, the help of options, and forms of dates.
NOT_LINES = ("add_argument", "add_parser", "compile", "fullmatch", "match", "search", "sub", "findall", "strftime")
WORDS = re.compile(r"[a-z]{2,}.* .*[a-z{]|[a-z{].* .*[a-z]{2,}")
# The texts in sources of other languages, and the form of a value in such a text.
COMMENTS = re.compile(r"^\s*(?://|/?\*|ghost |#\[(?!error)).*$|/\*.*?\*/", re.MULTILINE)
LITERALS = re.compile(r"\"((?:[^\"\\\n]|\\.|\\\n)*)\"|`((?:[^`\\]|\\.)*)`")
VALUE = re.compile(r"\$\{[^{}]*\}|\{[\w.:$]*\}|%l*[sduc]")
# Texts that are parts of a drawing or a style: tags, attributes and class names.
STYLE = re.compile(r"\{ .*\}$|^[\w-]+-src |^use strict$|^\w+ %\d+s$")
MARKUP = re.compile(r"</?[a-z][^<>]*>?|[\w:-]+=\\?\"[^\"]*\\?\"?")


def template(node: ast.JoinedStr | ast.Constant) -> str:
    """Returns the text of a literal or an f-string in a syntax tree, with `{}` for each value in it."""
    if isinstance(node, ast.Constant):
        return str(node.value)
    return "".join(str(part.value) if isinstance(part, ast.Constant) else "{}" for part in node.values)


def is_call_of(node: ast.AST, names: tuple[str, ...]) -> bool:
    """Returns whether a node of a syntax tree is a call of a function or method with one of these names."""
    return isinstance(node, ast.Call) and ast.unparse(node.func).rpartition(".")[2] in names


def texts(node: ast.AST) -> Iterator[str]:
    """Yields the texts in a node of a syntax tree. Leaves out docstrings, and the texts in calls of NOT_LINES, which
    are regular expressions, the help of options, and forms of dates."""
    for child in ast.iter_child_nodes(node):
        is_text = isinstance(child, ast.JoinedStr) or isinstance(child, ast.Constant) and isinstance(child.value, str)
        if isinstance(child, (ast.JoinedStr, ast.Constant)) and is_text:
            if not isinstance(node, ast.Expr):  # A text that is a statement by itself is a docstring.
                yield template(child)
        elif not is_call_of(child, NOT_LINES):
            yield from texts(child)


class Page(HTMLParser):
    """The texts of a page: those that it shows, and those for screen readers."""

    def __init__(self) -> None:
        """Begins without texts."""
        super().__init__()
        self.found: list[str] = []

    def handle_data(self, data: str) -> None:
        """Keeps a text between tags, with one space in place of each run of spaces and newlines."""
        self.found.append(" ".join(data.split()))

    def handle_starttag(self, tag: str, attrs: list[tuple[str, str | None]]) -> None:
        """Keeps the texts of a tag that are read aloud or shown as a tooltip."""
        self.found += [value for name, value in attrs if name in ("title", "aria-label", "placeholder") and value]


def literals(source: str) -> Iterator[str]:
    """Yields the texts in a source of another language than Python, with `{}` for each value. Leaves out what COMMENTS
    matches: comments, and lines for the compiler or the prover."""
    for found in LITERALS.finditer(COMMENTS.sub("", source)):
        # One of the two groups, for texts in double quotes and in backquotes, is None. A backslash joins two lines.
        yield VALUE.sub("{}", next(text for text in (*found.groups(), "") if text is not None).replace("\\\n", ""))


def texts_of(file: Path) -> Iterator[str]:
    """Yields the texts in the file of a source, which may be a page or in any language."""
    source = file.read_text(encoding="utf-8")
    if file.suffix == ".py":
        yield from texts(ast.parse(source))
    elif file.suffix == ".html":
        page = Page()
        page.feed(source)
        yield from page.found
    else:
        yield from literals(source)


def lines() -> list[str]:
    """Returns the lines of the table in order. Each has the path of a source (without `.py` if it is Python) and a text
    that looks like words of a person and not like markup or a style. The sources NO_SOURCES are left out."""
    found = set()
    for file in {file for pattern in SOURCES for file in TOP.glob(pattern)}:
        name = file.relative_to(TOP).as_posix()
        for text in texts_of(file) if name not in NO_SOURCES else ():
            shown = (" ".join(MARKUP.sub(" ", line).split()) for line in text.splitlines())
            found |= {f"{name.removesuffix('.py')}: {line}" for line in shown if WORDS.search(line) and not STYLE.search(line)}
    return sorted(found)


if __name__ == "__main__":
    TABLE.write_text("".join(f"{line}\n" for line in lines()), encoding="utf-8")
