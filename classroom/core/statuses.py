"""The exit statuses of all subcommands."""
from __future__ import annotations

import signal

USAGE, LAB, JOURNAL, FAILED, WARNED = 1, 2, 3, 4, 5
TABLE = (
    "exit status: 0 done; 1 wrong command line; 2 the lab is refused; 3 the journal is refused; 4 any other error; "
    "5 done, with warnings"
)


def how_ended(code: int) -> str:
    """Returns how a process ended, as a text: with the status `code`, or if `code` is below 0, by the signal with the
    number `-code`."""
    return f"with status {code}" if code >= 0 else f"by the signal {signal.Signals(-code).name}"
