"""The results of a grade: a table for people, and the file formats of autograders. A result says whether a bot, a
student's program, passed a case. A case is a lab, a daemon (which decides when a step ends and who moves) and a
seed."""
from __future__ import annotations

import json
from collections.abc import Callable
from dataclasses import asdict
from pathlib import Path
from typing import Any
from xml.etree import ElementTree

from classroom.bots.trial import Result
from classroom.core.counts import plural
from classroom.core.printable import printable
from classroom.core.program import Fault

NEVER = "not tried: the bot can't be started"
ABOUT = ("bot", "lab", "daemon", "seed", "passed", "why", "moves", "denied")


def case_name(result: Result) -> str:
    """Returns the name of a result's case: its lab, its daemon and its seed. `Case.name` returns the same text."""
    return f"{result.lab} {result.daemon} {result.seed}"


def as_json(results: list[Result]) -> str:
    """Returns the results as a JSON list. It has an object for each case, with the values named in ABOUT."""
    cases = [{key: value for key, value in asdict(result).items() if key in ABOUT} for result in results]
    return json.dumps(cases, indent=1, ensure_ascii=False) + "\n"


def as_junit(results: list[Result]) -> str:
    """Returns the results in JUnit's format: a test suite for each bot."""
    top = ElementTree.Element("testsuites")
    for bot in dict.fromkeys(result.bot for result in results):
        own = [result for result in results if result.bot == bot]
        suite = ElementTree.SubElement(top, "testsuite", name=printable(bot), tests=str(len(own)),
                                       failures=str(sum(not result.passed for result in own)))
        for result in own:
            case = ElementTree.SubElement(suite, "testcase", classname=printable(bot), name=case_name(result), time=str(result.seconds))
            if not result.passed:
                ElementTree.SubElement(case, "failure", message=printable(result.why))
    ElementTree.indent(top)
    return ElementTree.tostring(top, encoding="unicode", xml_declaration=True) + "\n"


def as_gradescope(results: list[Result]) -> str:
    """Returns the results in Gradescope's format: one point for each case."""
    tests: list[dict[str, Any]] = [
        {"name": f"{result.bot}: {case_name(result)}", "score": int(result.passed), "max_score": 1,
         "status": "passed" if result.passed else "failed", "output": printable(result.why) or "passed"}
        for result in results
    ]
    return json.dumps({"tests": tests}, indent=1, ensure_ascii=False) + "\n"


FORMS: dict[str, Callable[[list[Result]], str]] = {"json": as_json, "junit": as_junit, "gradescope": as_gradescope}


def write(form: str, path: Path, results: list[Result]) -> None:
    """Writes the results into a file in one of FORMS. Raises `Fault` if that fails, and leaves the old file
    unchanged."""
    new = path.with_name(f"{path.name}.new")
    try:
        new.write_text(FORMS[form](results), encoding="utf-8")
        new.replace(path)
    except OSError as error:
        new.unlink(missing_ok=True)
        raise Fault(f"{path}: {error.strerror}", 4) from None


def result_line(result: Result) -> str:
    """Returns a result as a line for people. If the case isn't passed, the reason follows on a second line."""
    denied = ", ".join(f"{count} {word}" for word, count in result.denied.items())
    tail = f"; {plural(result.moves, 'move')}" + (f"; not granted: {denied}" if denied else "")
    return printable(f"{'passed' if result.passed else 'FAILED'}  {result.bot}: {result.lab}, daemon {result.daemon}, seed {result.seed}{tail}"
                     + (f"\n        {result.why}" if result.why else ""))


def table(results: list[Result]) -> str:
    """Returns a line for each bot in `results`: how many of its cases it passed and how many it has, or that it
    couldn't be started."""
    rows = []
    for bot in dict.fromkeys(result.bot for result in results):
        own = [result for result in results if result.bot == bot]
        passed = f"{sum(result.passed for result in own)} of {len(own)} cases passed"
        rows.append(f"{printable(bot)}: {passed if any(result.started for result in own) else NEVER}")
    return "\n".join(rows)
