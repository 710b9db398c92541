"""The man pages mml(1) and class(1), made from the help texts of the commands.

    python3 -B -m tests.documents.manuals      writes operate/mml.1 and operate/class.1 anew

mml(1) has the lines of `./mml --help`, and class(1) the subcommands of `classroom.words` with their options.
"""
from __future__ import annotations

import argparse
import re
import subprocess
from collections.abc import Iterator
from pathlib import Path

from classroom.core.statuses import TABLE
from classroom.words import EACH, EXAMPLES, parser

TOP = Path(__file__).resolve().parents[2]
FOLDER = TOP / "operate"
IN_A_CLONE = "build"  # a subcommand that no release has
LINE = re.compile(r"  \./mml ?(.*?) {2,}(.*)")
OF_ITSELF = "-h, --help"  # the option that `argparse` adds to each command


def plain(text: str) -> str:
    """Returns a text as the source of a man page has it: with hyphens that can be typed, and without a line that would
    be a command of the format."""
    text = text.replace("\\", r"\e").replace("-", r"\-").replace("~", r"\(ti").replace("^", r"\(ha")
    return re.sub(r"(?m)^([.'])", r"\\&\1", text)


def bold(text: str) -> str:
    """Returns a text in bold, as the source of a man page has it."""
    return rf"\fB{plain(text)}\fR"


def form(synopsis: str) -> str:
    """Returns the form of a call in the source of a man page: words in bold, and parts to be replaced, which are in
    capitals, in italics."""
    return re.sub(r"[A-Z]{2,}", lambda found: rf"\fI{found[0]}\fP", plain(synopsis))


def head(name: str, what: str) -> Iterator[str]:
    """Yields the first lines of the man page `name`. `what` says in a few words what the command is for."""
    version = (TOP / "VERSION").read_text(encoding="ascii").strip()
    yield f'.TH {name.upper()} 1 "" "Cenduwa {version}" "Cenduwa"'
    yield from (".SH NAME", rf"{name} \- {plain(what)}")


def foot(name: str, *pages: str) -> Iterator[str]:
    """Yields the last lines of a man page: the other man page `name` to see also, and the documents `pages`."""
    named = ", ".join(rf"\fI{plain(page)}\fP" for page in pages)
    yield from (".SH SEE ALSO", rf".BR {name} (1);", f"{named} of the release.")


def mml() -> str:
    """Returns the source of the page mml(1), made from the lines that `mml --help` prints."""
    done = subprocess.run([TOP / "mml", "--help"], stdin=subprocess.DEVNULL, capture_output=True, text=True, check=True)
    first, *lines = done.stdout.splitlines()
    words = [found.groups() for line in lines if (found := LINE.fullmatch(line))]
    rest = " ".join(line for line in lines if not LINE.fullmatch(line))
    source = [*head("mml", first.partition(": ")[2]), ".SH SYNOPSIS", ".B mml", r"[\fIWORD\fP \fI..\fP]"]
    source += [".SH DESCRIPTION", plain(rest)]
    for synopsis, what in words:
        if synopsis != IN_A_CLONE:
            source += [".TP", form(f"mml {synopsis}".strip()), plain(what) + "."]
    source += [".SH EXIT STATUS", "0 if the work is done; each error line and its status is in", r"\fIdocs/LAB.md\fP."]
    return "\n".join([*source, *foot("class", "docs/LAB.md", "docs/PROTOCOL.md", "docs/JOURNAL.md", "docs/RECORD.md", "docs/OPERATE.md")]) + "\n"


def choices(every: argparse.ArgumentParser) -> dict[str, argparse.ArgumentParser]:
    """Returns the parser of each command, by its name, from the parser of the whole command line."""
    found = (action.choices for action in every._actions if isinstance(action, argparse._SubParsersAction))
    return dict(next(found))


def term(action: argparse.Action) -> str:
    """Returns the form of an option or a positional argument, as the source of a man page has it. An option's value has
    the name in `metavar`, or the choices, or else the option's own name."""
    value = str(action.metavar or (",".join(map(str, action.choices)) if action.choices else action.dest.upper()))
    if not action.option_strings:
        return form(value if action.metavar else action.dest.upper())
    takes = "" if action.nargs == 0 else " " + form(value)
    return ", ".join(map(bold, action.option_strings)) + takes


def section_of(name: str) -> Iterator[str]:
    """Yields the lines of the page class(1) about a subcommand: what it does, its arguments and options, and an
    example."""
    what, _ = EACH[name]
    yield from (f'.SS "class {plain(name)}"', plain(what[0].upper() + what[1:]) + ".")
    for action in choices(parser(name))[name]._actions:
        if ", ".join(action.option_strings) != OF_ITSELF and action.help != argparse.SUPPRESS:
            yield from (".TP", term(action), plain((action.help or "").replace("%%", "%")) or r"\&")
    yield from (".PP", plain(EXAMPLES[name]))


def classes() -> str:
    """Returns the source of the page class(1), made from the parser of its command line."""
    source = [*head("class", "a course on self-stabilising algorithms: labs, classes, marks"), ".SH SYNOPSIS", ".B class",
              r"\fIWORD\fP [\fI..\fP]", ".SH DESCRIPTION", plain(str(parser("").description)), ".SH WORDS"]
    for name in EACH:
        source += section_of(name)
    status = TABLE.partition(": ")[2]
    source += [".SH EXIT STATUS", plain(status[0].upper() + status[1:]) + "."]
    return "\n".join([*source, *foot("mml", "docs/TEACHER.md", "docs/STUDENT.md", "docs/COURSE.md", "docs/OPERATE.md")]) + "\n"


def pages() -> dict[Path, str]:
    """Returns the source of each man page, by its path."""
    return {FOLDER / "mml.1": mml(), FOLDER / "class.1": classes()}


if __name__ == "__main__":
    for page, text in pages().items():
        page.write_text(text, encoding="ascii")
