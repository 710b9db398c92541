"""Removes links from the pages of a release that lead to files which the release doesn't have.

    python3 -B -m tools.links FOLDER

A release has neither sources nor tests, and not all pages, but its pages have links to them. The text of such a link
stays. A picture has to be in the release: if one is missing, nothing is changed, and the status is 1.
"""
from __future__ import annotations

import re
import sys
from pathlib import Path

# A code block, or a link or picture with its text and its target.
LINK = re.compile(r"^```.*?^```$|(?P<picture>!?)\[(?P<text>[^][]*)\]\((?P<target>[^)\s]+)\)", re.MULTILINE | re.DOTALL)


def is_missing(page: Path, target: str) -> bool:
    """Returns whether a link on a page leads to a file that doesn't exist. Other sites, and places on the same page, are
    never missing."""
    return not re.match(r"[a-z]+:|#", target) and not (page.parent / target.partition("#")[0]).exists()


def without_missing(page: Path) -> tuple[str, list[str]]:
    """Returns the text of a page without links that lead to missing files, and the targets of its missing pictures."""
    pictures: list[str] = []

    def shown(found: re.Match[str]) -> str:
        """Returns what the new text has in place of a link, a picture or a code block."""
        if found["target"] is None or not is_missing(page, found["target"]):
            return found[0]
        if found["picture"]:
            pictures.append(found["target"])
        return found["text"]

    return LINK.sub(shown, page.read_text(encoding="utf-8")), pictures


def main(words: list[str]) -> int:
    """Removes links to missing files from the pages in the folder that the only argument names. Returns the exit
    status. If a picture is missing, prints that, changes no page, and returns 1."""
    folder = Path(words[0])
    pages = {page: without_missing(page) for page in sorted(folder.rglob("*.md"))}
    missing = [f"{page.relative_to(folder)}: there is no picture {picture}" for page, (_, pictures) in pages.items() for picture in pictures]
    for line in missing:
        print(line, file=sys.stderr)
    if missing:
        return 1
    for page, (text, _) in pages.items():
        page.write_text(text, encoding="utf-8")
    return 0


if __name__ == "__main__":
    sys.exit(main(sys.argv[1:]))
