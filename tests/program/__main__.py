"""Tests of many command lines of the program, and of its servers with clients that come at the same time.

    python3 -B -m tests.program [WORD..]

With arguments, only the parts whose names contain one of them are run.
"""
import sys

from tests.common.preload import in_room
from tests.program import answering, bounds, crowd, limits, serving, words

PARTS = [words, limits, answering, bounds, serving, crowd]


def main() -> None:
    """Runs the parts that the arguments name, or all parts if there is no argument, each in its own folder. Exits with
    status 1 if there is no such part."""
    asked = sys.argv[1:]
    chosen = [part for part in PARTS if not asked or any(word in part.__name__ for word in asked)]
    if not chosen:
        sys.exit(f"no part has {' or '.join(asked)} in its name. The parts are: {', '.join(part.__name__ for part in PARTS)}")
    for part in chosen:
        in_room(part.work)


main()
