"""The parts of a check: their command lines, the time that they take, and what they need. A part that runs *beside*
uses only the processors that others leave idle. A crate is *below* another one if that crate uses it, directly or by
other crates."""
from __future__ import annotations

import re
from collections.abc import Iterator
from dataclasses import dataclass, replace
from pathlib import Path

TOP = Path(__file__).resolve().parents[2]
ALL = 1_000_000  # a width that is more than the processors of any machine, so that the part runs alone


@dataclass(frozen=True)
class Part:
    """A part of a check: its command line, its times, and its needs."""

    name: str
    command: tuple[str, ...]
    work: float  # processor minutes
    least: float  # minutes of the clock, however many processors there are
    width: float = 1  # how many processors it keeps busy: less than one if it mostly waits
    needs: tuple[str, ...] = ()  # names in `needs.NEEDS` of programs without which the part can't run
    likes: tuple[str, ...] = ()  # names of programs that only some of the part's tests need, which are left out without them
    shows: str = ""  # a pattern of the lines of its output that are shown as they come
    hands_on: str = ""  # a pattern whose group is passed to the parts that run beside it, until it ends
    is_beside: bool = False  # whether it runs from the beginning on, on the processors that all other parts leave idle

    def minutes(self, processors: int) -> float:
        """Returns the expected minutes of the part on `processors` processors."""
        return max(self.least, self.work / min(self.width, processors))

    def over(self, crates: list[str], share: float) -> Part:
        """Returns this part limited to these crates, which have the share `share` of its work."""
        return replace(self, command=(*self.command, *crates), work=self.work * share, least=self.least * share)


def module(name: str, *words: str, of: str = "tests") -> tuple[str, ...]:
    """Returns the command line that runs the module `name` of the package `of`, `tests` or `tools`, with these
    arguments."""
    return ("python3", "-B", "-m", f"{of}.{name}", *words)


def cases(*names: str, python: str = "python3") -> tuple[str, ...]:
    """Returns the command line that runs these modules of test cases, which are below `tests`. `python` is the
    interpreter."""
    return (python, "-B", "-m", "unittest", "-v", *(f"tests.{name}" for name in names))


BUILT = ("programs",)
LANGUAGES = ("java", "node", "cc", "rustc")
LIKED = (*LANGUAGES, "jupyter-nbconvert")
PROVED = "[ps]*/**/*.*t"  # a crate's src/, specs/ and proofs/
EDITS = "wrong/*.edit"
STANDS = r"^rt: (\w+) (?:proved$|is kept: )"  # the line for a crate whose library has been written
PROOFS = Part("proofs", ("rt", "ci"), 200, 50, ALL, ("rt",), shows=r"^rt: ", hands_on=STANDS)
WRONG = Part("wrong", module("wrong", of="tools"), 158, 10, ALL, ("rt",))
LAST_CRATES = 5  # minutes of the wrong bodies of the crates that are proved last


def with_imported(module: Path) -> str:
    """Returns the text of a test module, and after it the texts of the test modules of its folder that it imports."""
    text = module.read_text(encoding="utf-8")
    names = re.findall(r"(?m)^from tests\.classroom\.(test_\w+) import", text)
    return text + "".join((module.parent / f"{it}.py").read_text(encoding="utf-8") for it in names)


def classroom() -> Iterator[Part]:
    """Yields a part for each module of tests/classroom. Most of them start servers of their own, and some a browser.
    What a part needs is found out from the text of its module. A browser is also needed if only an imported test module
    imports it."""
    for it in sorted((TOP / "tests/classroom").glob("test_*.py")):
        text = it.read_text(encoding="utf-8")
        has_browser = "tests.classroom.browser" in with_imported(it)
        needs = (*BUILT, "python3", *["browser"] * has_browser, *["pictures"] * ('"rsvg-convert"' in text))
        likes = tuple(it for it in LIKED if f'"{it}"' in text)
        name = it.stem.replace("test_", "class-")
        yield Part(name, cases(f"classroom.{it.stem}", python="/usr/bin/python3"), 0.2, 0.4, 0.5, needs, likes)


# The parts that need no proof. The first one that fits is started first, so the long ones come before the short ones.
QUICK = [
    Part("release", ("bash", "tests/release/run"), 1.5, 2.5, 1, ("built", "root", "release", "openssh-server", "git")),
    Part("hostile", module("hostile"), 0.1, 1.1, 0.5, BUILT),
    Part("random", module("random"), 1.0, 1.0, 1, BUILT),
    *classroom(),
    Part("launchers", ("bash", "tests/program/launchers"), 1.2, 1.3, 1, ("built", "rt", "git")),
    Part("host", module("host"), 0.3, 0.8, 0.5, BUILT),
    Part("outsiders", module("outsiders"), 0.3, 1.0, 0.5, (*BUILT, "rt")),
    Part("outsiders-bots", module("outsiders.bots"), 0.2, 0.7, 0.5, BUILT),
    Part("hostile-host", module("hostile", "15", "host"), 0.2, 0.5, 0.5, BUILT),
    Part("resume", module("resume"), 0.5, 1.0, 0.5, (*BUILT, "rt")),
    Part("memory-classes", module("memory", "classes"), 0.4, 0.8, 0.5, (*BUILT, "rt")),
    Part("record", module("record"), 0.4, 0.5, 1, BUILT),
    Part("wrong-tests", cases(*(f"wrong.test_{it}" for it in ("wrong", "beside", "saved", "kept", "plants", "drawing"))), 0.6, 0.6, 1, ("rt",)),
    Part("build", cases("build.test_build", "build.test_class"), 0.4, 0.9, 0.5, ("git",)),
    Part("check", cases(*(f"check.test_{it}" for it in ("check", "pieces", "imports", "chain", "model", "arguments", "connections"))), 0.2, 0.8, 0.5),
    Part("memory", module("memory", "uses"), 0.2, 0.4, 0.5, (*BUILT, "rt")),
    Part("memory-hosts", module("memory", "hosts"), 0.2, 0.3, 0.5, (*BUILT, "rt")),
    Part("tally", module("tally", "20"), 0.1, 0.2, 0.5, BUILT),
    Part("calls", module("program"), 0.2, 0.3, 1, BUILT),
    Part("refusals", module("memory", "tests"), 0.2, 0.2, 1, ("tests", "rt")),
    Part("program", ("bash", "tests/program/run"), 0.1, 0.2, 0.5, BUILT),
    Part("server", ("env", "MML_PROGRAM=crates/mml_server/out/mml_server", *module("program.words")), 0.1, 0.2, 1, (*BUILT, "server")),
    Part("faults", module("faults"), 0.1, 0.2, 0.5, (*BUILT, "rt")),
    Part("audits", module("program.audits"), 0.2, 0.2, 1, BUILT),
    Part("labs", module("labs"), 0.1, 0.1, 1, BUILT),
    Part("lines", module("program.lines"), 0.1, 0.1, 1, BUILT),
    Part("halted", module("program.halted"), 0.1, 0.1, 1, BUILT),
    Part("journals", ("bash", "tests/journals/run"), 0.1, 0.2, 0.5, BUILT),
    Part("large", module("program.large"), 0.1, 0.1, 1, BUILT),
    Part("documents", module("documents"), 0.1, 0.1, 1, ("git",)),
    Part("documents-cases", cases("documents.test_lessons", "documents.test_potential", "documents.test_printed", "documents.test_style",
                                  "release.test_links"), 0.1, 0.1, 1),
    Part("manuals", cases("documents.test_manuals"), 0.1, 0.1, 1, ("man",)),
    Part("python", module("check.python", of="tools"), 0.5, 0.5, 1, ("git", "types")),
    Part("kit", module("check.kit", of="tools"), 0.1, 0.1, 1, ("rt",)),
]


def uses() -> dict[str, list[str]]:
    """Returns all crates, each with the crates and the toolchain's libraries that it uses."""
    lines = re.findall(r"(?m)^(\w+):(.*)$", (TOP / "crates.txt").read_text(encoding="utf-8"))
    return {crate: used.split() for crate, used in lines}


def with_those_below(crates: list[str]) -> set[str]:
    """Returns these crates and all crates below them."""
    all_uses, found, near = uses(), set[str](), [*crates]
    while near:
        crate = near.pop()
        if crate in all_uses and crate not in found:
            found.add(crate)
            near += all_uses[crate]
    return found


def share(crates: set[str], pattern: str) -> float:
    """Returns what share of all crates' files that match a pattern is in these crates, by bytes. Returns 1 if no crates
    are given, or if no file matches."""
    sizes = {it: sum(file.stat().st_size for file in (TOP / "crates" / it).glob(pattern)) for it in uses()}
    whole = sum(sizes.values())
    return sum(sizes[it] for it in crates) / whole if crates and whole else 1.0


def proofs_of(crates: list[str]) -> Part:
    """Returns the part that proves these crates and those below them, or all crates if there are none."""
    return PROOFS.over(crates, share(with_those_below(crates), PROVED))


def wrong_of(crates: list[str]) -> Part:
    """Returns the part that tries the wrong bodies of these crates, or of all crates if there are none."""
    return WRONG.over(crates, share({*crates}, EDITS))


def wrong_beside() -> Part:
    """Returns the part that tries the wrong bodies of all crates as they are proved, on the processors that the proofs
    leave idle."""
    return replace(WRONG, command=(*WRONG.command, "--as-proved"), least=min(WRONG.least, LAST_CRATES), is_beside=True)


def minutes_of(stages: list[list[Part]], processors: int) -> list[float]:
    """Returns the expected minutes of each stage of parts, on `processors` processors. A part that runs beside counts
    only for the time that the other parts of all stages don't leave idle."""
    takes = [minutes([part for part in stage if not part.is_beside], processors) for stage in stages]
    idle = sum(takes) * processors - sum(part.work for stage in stages for part in stage if not part.is_beside)
    for number, stage in enumerate(stages):
        for part in stage:
            if part.is_beside:
                takes[number] += max(part.least, (part.work - idle) / processors)
    return takes


def minutes(parts: list[Part], processors: int) -> float:
    """Returns the expected minutes of some parts on `processors` processors. Parts that keep all processors busy run
    one after another, and the others side by side."""
    alone = [it.minutes(processors) for it in parts if it.width >= processors]
    beside = [it for it in parts if it.width < processors]
    shared = sum(it.width * it.minutes(processors) for it in beside) / processors
    return sum(alone) + max([shared, *(it.minutes(processors) for it in beside)])
