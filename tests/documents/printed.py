"""Compares the output of a command with the one that the documents show.

    python3 -B -m tests.documents.printed COMMAND < OUTPUT

In an indented block, a command follows `$ `, and the lines below it, up to the next command or the end of the block,
are its output. In an output `...` stands for any text, and on a line of its own for any lines. The time in the name of
a run's folder may differ.
"""
from __future__ import annotations

import re
import sys
from collections.abc import Iterator
from pathlib import Path

TOP = Path(__file__).resolve().parents[2]
PAGES = ("*.md", "docs/*.md", "course/*.md", "course/*/*.md")
FENCE = re.compile(r"^```.*?^```$", re.MULTILINE | re.DOTALL)
RUN = r"(runs|grades)/\d{4}-\d\d-\d\dT\d{4}-"
# Below this command a page also shows the lines that are typed. `converses` in tests/pages/pages checks them instead.
CONVERSATION = "python3 client.py "


def shown(text: str) -> Iterator[tuple[str, list[str]]]:
    """Yields each command of a page that stands after `$ `, with the lines that are shown below it."""
    for block in re.findall(r"(?:^    .*\n)+", FENCE.sub("", text), re.MULTILINE):
        lines = [line[4:] for line in block.splitlines()]
        starts = [at for at, line in enumerate(lines) if line.startswith("$ ")]
        for at, end in zip(starts, [*starts[1:], len(lines)]):
            yield lines[at][2:], lines[at + 1:end]


def pattern(lines: list[str]) -> str:
    """Returns the regular expression that matches an output if a page shows it by these lines."""
    # Control characters stand for the parts that may differ, since `re.escape` has to leave those parts unchanged.
    # "\0" stands for a line `...`. "\1" and "\2" enclose the word before a time, which is `runs` or `grades`.
    text = "".join(f"{line}\n" for line in lines)
    whole = re.sub(r"(?m)^\.\.\.\n", "\0", text)
    found = re.sub(RUN, lambda folder: f"\1{folder[1]}\2", whole)
    found = re.escape(found).replace(re.escape("..."), "[^\n]*").replace(re.escape("\0"), "(?:[^\n]*\n)*")
    return re.sub(f"{re.escape(chr(1))}(\\w+){re.escape(chr(2))}", lambda folder: f"{folder[1]}/[0-9T-]+-", found)


def page_that_differs(command: str, output: str, texts: dict[str, str]) -> str | None:
    """Returns the first of these pages that shows another output of a command than this one, or None if there is
    none. A page shows no output if it has no lines below the command, or if the command begins with CONVERSATION."""
    for page, text in texts.items():
        for each, lines in shown(text):
            if each == command and lines and not each.startswith(CONVERSATION) and not re.fullmatch(pattern(lines), output):
                return page
    return None


def pages() -> dict[str, str]:
    """Returns the text of each page, by its path."""
    return {str(path.relative_to(TOP)): path.read_text(encoding="utf-8") for form in PAGES for path in sorted(TOP.glob(form))}


def main() -> None:
    """Compares the output on standard input with the pages. Exits with status 1 and a line about the first page that
    shows another one."""
    page = page_that_differs(" ".join(sys.argv[1:]), sys.stdin.read(), pages())
    if page:
        sys.exit(f"{page} shows another output of: {' '.join(sys.argv[1:])}")


if __name__ == "__main__":
    main()
