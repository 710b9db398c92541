"""The result of a part of a check, from its exit status and its output."""
from __future__ import annotations

import re
from dataclasses import dataclass

from tools.check.running import Done

SUM = re.compile(r"(\d+) passed, (\d+) failed(?: \(.*\))?")  # For some crates, a note in parentheses follows.


@dataclass(frozen=True)
class Result:
    """The number of tests of a part that passed and failed, and the line that sums them up. A part that doesn't count
    its tests counts as one test."""

    passed: int
    failed: int
    line: str


def of_cases(output: str) -> str | None:
    """Returns a line that sums up a run of test cases: their number, without the skipped ones, and the time. Returns
    None if the output isn't that of such a run."""
    ran = re.search(r"^Ran (\d+) tests? in (.*)$", output, re.MULTILINE)
    if ran is None:
        return None
    left_out = re.search(r"skipped=(\d+)", output[ran.end():])
    return f"{int(ran[1]) - int(left_out[1] if left_out else 0)} test cases in {ran[2]}"


def last_line(output: str) -> str:
    """Returns the last line of an output that isn't blank, or an empty text if all lines are."""
    return next((line for line in reversed(output.splitlines()) if line.strip()), "")


def result(done: Done) -> Result:
    """Returns the result of a part that has ended. A part fails if its status isn't 0, or if the line that sums up its
    output has no number of tests above 0."""
    line = of_cases(done.output) or last_line(done.output)
    counted = SUM.fullmatch(line)
    passed, failed = (int(counted[1]), int(counted[2])) if counted else (int(done.status == 0), 0)
    if done.status != 0:
        return Result(passed if counted else 0, max(failed, 1), line or f"status {done.status}")
    # The line has to contain a whole number above 0, that of the tests.
    if not re.search(r"(?<![\w.])[1-9]\d*(?![\w.]*\d)", line):
        return Result(0, 1, f"no test ran: {line}")
    return Result(passed, failed, line)


def not_tried(output: str) -> list[str]:
    """Returns the reasons why test cases were skipped, from the output of a part. The list is sorted, and has each
    reason once."""
    return sorted(set(re.findall(r"^.* skipped [\"'](.*)[\"']$", output, re.MULTILINE)))
