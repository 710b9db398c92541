"""Draws `docs/crates.svg` from `crates.txt`: the groups of crates in their order, a function or law that each group
provides, and the tests of each crate.

    python3 -B -m tests.documents.crates > docs/crates.svg

A group begins with a comment line. The words of that line up to the first colon or comma are the group's title, and a
comment `Provides NAME of CRATE` names such a function or law. An arrow leads to each group from the last one of those that it
uses. A crate is tested in the crates `mml_tests_..` that use it, and in the folders of `tests/` that FOLDERS names. If
there are none, the crate has only laws, and no code that runs.
"""
from __future__ import annotations

import re
from dataclasses import dataclass, field
from pathlib import Path
from xml.sax.saxutils import escape

TOP = Path(__file__).resolve().parents[2]
PICTURE = TOP / "docs/crates.svg"
TESTS = "mml_tests_"
ONLY_LAWS = "laws alone"
# What a source has that isn't only laws: types, traits, and functions with parameters. A law has no parameters.
CODE = re.compile(r"(?m)^\s*(?:pub )?(?:fn \w+(?:<[^(]*>)?\((?!\))|(?:struct|enum|trait|impl)\b)")
FOLDERS = {
    "mml_lab_file": ["labs", "resume"],
    "mml_tally": ["tally"],
    "mml_stable": ["scripts"],
    "mml_audit": ["journals"],
    "mml_engine": ["scripts", "random"],
    "mml_record": ["record"],
    "mml_class": ["record", "tally"],
    "mml_recording": ["record"],
    "mml_resuming": ["resume"],
    "mml_program": ["program"],
    "mml_server": ["program"],
    "mml_ports": ["host", "outsiders"],
    "mml_host_program": ["host", "resume", "tally", "record"],
    "mml_host": ["program", "host", "hostile"],
}
COLUMNS, WIDTH, HEIGHT, GAP, MARGIN = 4, 232, 44, 8, 16
STYLE = """
:root, svg { --ground: #ffffff; --text: #1a1a1a; --line: #8a8a8a; --band: #f1f3f7; }
@media screen and (prefers-color-scheme: dark) {
  :root, svg { --ground: #16181c; --text: #f2f2f2; --line: #7d838c; --band: #23262d; }
}
svg { font-family: system-ui, sans-serif; font-size: 13px; }
text { fill: var(--text); } .small { font-size: 11px; } .title { font-weight: bold; }
.ground, .crate { fill: var(--ground); } .band { fill: var(--band); } .crate, .way { stroke: var(--line); fill-opacity: 1; }
.way { fill: none; stroke-width: 1.5; }
""".strip()


@dataclass
class Group:
    """A group of crates in the order of reading, and a function or law that it provides."""

    title: str
    provides: str = ""
    of: str = ""
    crates: dict[str, list[str]] = field(default_factory=dict)


def groups(text: str) -> list[Group]:
    """Returns the groups in the text of `crates.txt`. A comment after which no crate follows makes no group."""
    found: list[Group] = []
    for line in text.splitlines():
        provided = re.fullmatch(r"# Provides (\w+) of (\w+)\.", line)
        if provided:
            found[-1].provides, found[-1].of = provided[1], provided[2]
        elif line.startswith("# "):
            found.append(Group(re.split(r"[:,]", line[2:])[0]))
        elif ":" in line:
            crate, used = line.split(":")
            found[-1].crates[crate] = used.split()
    return [it for it in found if it.crates]


def tested_in(crate: str, all_groups: list[Group]) -> str:
    """Returns a text with the crates and the folders of tests that test a crate, or ONLY_LAWS if none does. Returns an
    empty text for a crate of tests. `all_groups` has all crates with those that they use."""
    if crate.startswith(TESTS):
        return ""
    uses = {name: used for group in all_groups for name, used in group.crates.items()}
    crates = [name.removeprefix(TESTS) for name, used in uses.items() if name.startswith(TESTS) and crate in used]
    testers = [*crates, *(f"tests/{it}" for it in FOLDERS.get(crate, []))]
    return "tested in " + ", ".join(testers) if testers else ONLY_LAWS


def has_code(crate: str) -> bool:
    """Returns whether a crate has code that runs, and not only laws."""
    return any(CODE.search(it.read_text(encoding="utf-8")) for it in (TOP / "crates" / crate / "src").rglob("*.rt"))


def text_at(x: int, y: int, text: str, kind: str = "") -> str:
    """Returns a line of text at a point as an SVG element of the class `kind`, or of no class if that is empty."""
    of_kind = f' class="{kind}"' if kind else ""
    return f'<text x="{x}" y="{y}"{of_kind}>{escape(text)}</text>'


def band(group: Group, top: int, all_groups: list[Group]) -> tuple[list[str], int]:
    """Returns the SVG elements of the drawing of a group that begins at the height `top`, and the height of its end.
    `all_groups` has all crates with those that they use."""
    rows = -(-len(group.crates) // COLUMNS)
    height = 30 + rows * (HEIGHT + GAP) + GAP
    width = COLUMNS * (WIDTH + GAP) + GAP
    drawn = [f'<rect class="band" x="{MARGIN}" y="{top}" width="{width}" height="{height}" rx="6"/>', text_at(MARGIN + GAP, top + 20, group.title, "title")]
    if group.provides:
        drawn.append(text_at(MARGIN + GAP + 2 * (WIDTH + GAP), top + 20, f"provides {group.provides} ({group.of})"))
    for at, crate in enumerate(group.crates):
        x, y = MARGIN + GAP + at % COLUMNS * (WIDTH + GAP), top + 30 + at // COLUMNS * (HEIGHT + GAP)
        drawn.append(f'<rect class="crate" x="{x}" y="{y}" width="{WIDTH}" height="{HEIGHT}" rx="4"/>')
        drawn.append(text_at(x + 8, y + 18, crate))
        drawn.append(text_at(x + 8, y + 35, tested_in(crate, all_groups), "small"))
    return drawn, top + height


def way(above: int, below: int, is_next: bool) -> str:
    """Returns an SVG path with an arrow from the foot of a band at the height `above` to the head of another one at the
    height `below`. If `is_next` is set, that is the next band, and the arrow goes straight down. Otherwise it goes along
    the margin."""
    middle, head = MARGIN + GAP + WIDTH // 2, below + 20
    if is_next:
        return f'<path class="way" d="M{middle} {above} V{below - 2} m-5 -6 l5 6 l5 -6"/>'
    return f'<path class="way" d="M{MARGIN} {above - 20} H6 V{head} H{MARGIN - 2} m-6 -5 l6 5 l-6 5"/>'


def drawing(text: str) -> str:
    """Returns the SVG picture for the text of `crates.txt`."""
    all_groups, feet = groups(text), list[int]()
    top, drawn = MARGIN, list[str]()
    for at, group in enumerate(all_groups):
        used = {it for its in group.crates.values() for it in its}
        stands_on = max((below for below in range(at) if used & all_groups[below].crates.keys()), default=None)
        if stands_on is not None:
            drawn.append(way(feet[stands_on], top, stands_on == at - 1))
        lines, foot = band(group, top, all_groups)
        drawn += lines
        feet.append(foot)
        top = foot + 20
    width, height = 2 * MARGIN + COLUMNS * (WIDTH + GAP) + GAP, top + MARGIN - 20
    head = f'<svg xmlns="http://www.w3.org/2000/svg" viewBox="0 0 {width} {height}" role="img" aria-label="the crates by groups">'
    return "\n".join([head, f"<style>{STYLE}</style>", f'<rect class="ground" width="{width}" height="{height}"/>', *drawn, "</svg>", ""])


def faults() -> list[str]:
    """Returns an error text if `docs/crates.svg` isn't the picture of `crates.txt`. Returns another one for each crate
    that lacks the function or law which its group provides, for each crate with code that has no test in the picture,
    and for each folder in FOLDERS that doesn't exist."""
    text = (TOP / "crates.txt").read_text(encoding="utf-8")
    is_so = PICTURE.exists() and PICTURE.read_text(encoding="utf-8") == drawing(text)
    found = [] if is_so else ["docs/crates.svg isn't that of crates.txt: python3 -B -m tests.documents.crates"]
    all_groups = groups(text)
    for group in all_groups:
        found += [f"docs/crates.svg says that {crate} has only laws, but it has code: name the folder of its tests in FOLDERS"
                  for crate in group.crates if tested_in(crate, all_groups) == ONLY_LAWS and has_code(crate)]
        sources = (TOP / "crates" / group.of / "src").rglob("*.rt") if group.of in group.crates else iter(())
        declared = any(re.search(rf"pub fn {group.provides}\b", it.read_text(encoding="utf-8")) for it in sources)
        if group.provides and not declared:
            found.append(f"crates.txt: {group.of} has no {group.provides}")
    missing = [it for its in FOLDERS.values() for it in its if not (TOP / "tests" / it).is_dir()]
    return found + [f"no folder tests/{it}" for it in missing]


if __name__ == "__main__":
    print(drawing((TOP / "crates.txt").read_text(encoding="utf-8")), end="")
