#!/usr/bin/env python3
"""Runs a bot with one mistake: wrong.py NAME SLIP. The bot `right` has none."""
from __future__ import annotations

import re
import sys
from pathlib import Path

sys.path.append(str(Path(__file__).resolve().parents[3]))
from classroom.client import Closed, Slip, stop  # noqa: E402
from tests.classroom.wrong_bots.asking import ASKING  # noqa: E402
from tests.classroom.wrong_bots.base import Bot  # noqa: E402
from tests.classroom.wrong_bots.changing import CHANGING  # noqa: E402
from tests.classroom.wrong_bots.guards import GUARDS  # noqa: E402
from tests.classroom.wrong_bots.habits import HABITS  # noqa: E402
from tests.classroom.wrong_bots.staying import STAYING  # noqa: E402


def named(kind: type[Bot]) -> str:
    """Returns the name of a bot on the command line, such as `never-updates` for the class `NeverUpdates`."""
    return re.sub("(?!^)([A-Z])", r"-\1", kind.__name__).lower()


BOTS = {named(kind): kind for kind in (*GUARDS, *ASKING, *STAYING, *CHANGING, *HABITS)}

if __name__ == "__main__":
    try:
        (Bot if sys.argv[1] == "right" else BOTS[sys.argv[1]])(Slip.read(sys.argv[2])).play()
    except Closed as closed:
        sys.exit(stop(closed)[0])
