"""Checks the links and pictures on the pages of an unpacked release: each of them is a file of the release.

    python3 -B -m tests.release.links FOLDER     prints those that aren't; its status is 1 if there is one
"""
from __future__ import annotations

import re
import sys
from pathlib import Path

TARGET = re.compile(r"\]\(\s*<?([^)>\s]+)|^ {0,3}\[[^]]+\]:\s*<?([^>\s]+)|\b(?:src|srcset|href)\s*=\s*[\"']([^\"'\s]+)", re.MULTILINE)


def targets_of(page: Path) -> list[str]:
    """Returns the paths in the links and pictures of a page, without those that lead to other sites or stay on the
    page."""
    found = ["".join(each) for each in TARGET.findall(page.read_text(encoding="utf-8"))]
    return [target.partition("#")[0] for target in found if not re.match(r"[a-z]+:|#", target)]


def missing(folder: Path) -> list[str]:
    """Returns a line for each link and picture, on a page in a folder, that isn't a file or folder in this folder."""
    top = folder.resolve()
    places = [(page, target, (page.parent / target).resolve()) for page in sorted(top.rglob("*.md")) for target in targets_of(page)]
    return [f"{page.relative_to(top)}: {target}" for page, target, place in places if not place.exists() or not place.is_relative_to(top)]


if __name__ == "__main__":
    lines = missing(Path(sys.argv[1]))
    for line in lines:
        print(line)
    sys.exit(1 if lines else 0)
