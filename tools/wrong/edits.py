"""The wrong bodies of a crate, and which of them are tried together.

A wrong body is a file `crates/NAME/wrong/WHAT_IT_DOES.edit`:

    # refused: FUNCTION GOAL
    file: src/lib.rt
    old: TEXT
    new: TEXT

FUNCTION is a path below the crate, and GOAL is the goal that the prover must leave open there. There may be several
such lines. Each TEXT is one line. The text after `old` occurs exactly once in the file. Further pairs apply to the
result of the earlier ones. A pair for a file of `proofs/` changes the name of a part of the body in a proof's answer.

A line `# round: 2` keeps an edit out of the first round. Some functions are proved once more in a round: those that
are called by one edited function and call another, and those that cite an edited constant. So an edit of a constant,
or of a function that many others call, is cheaper in a later round.
"""
from __future__ import annotations

from collections.abc import Iterable, Mapping
from dataclasses import dataclass
from pathlib import Path

MARK = "# refused:"
ROUND = "# round:"


class EditFault(Exception):
    """Raised if an edit can't be tried. The text is the reason."""


@dataclass(frozen=True)
class Refusal:
    """A function, without its crate's name, and a goal of it that the prover must leave open."""

    function: str
    goal: str

    def line(self) -> str:
        """Returns the line that an edit's file has for this refusal."""
        return f"{MARK} {self.function} {self.goal}"


@dataclass(frozen=True)
class Pair:
    """A text in a file of the crate, and its replacement."""

    file: str
    old: str
    new: str


@dataclass(frozen=True)
class Edit:
    """A wrong body: its replacements, the expected refusals, and the first round in which it may be tried."""

    name: str
    wanted: tuple[Refusal, ...]
    pairs: tuple[Pair, ...]
    first: int = 1

    def functions(self) -> set[str]:
        """Returns the functions that the prover must refuse because of this edit."""
        return {it.function for it in self.wanted}


@dataclass
class Round:
    """Edits that are tried in one copy of the crate, and the changed texts of its files."""

    edits: list[Edit]
    texts: dict[str, str]

    def functions(self) -> set[str]:
        """Returns the functions that the prover must refuse because of one of the edits."""
        return {function for edit in self.edits for function in edit.functions()}


def refusal_of(name: str, text: str) -> Refusal:
    """Returns the refusal in the text after `# refused:`. `name` is that of the edit, for an error. Raises `EditFault`
    if the text has another form."""
    words = text.split()
    if len(words) != 2:
        raise EditFault(f"{name}: this line doesn't have the form '{MARK} FUNCTION GOAL': {MARK}{text}")
    return Refusal(*words)


def round_of(name: str, text: str) -> int:
    """Returns the number in the text after `# round:`. `name` is that of the edit, for an error. Raises `EditFault` if
    the text isn't a number above 1."""
    if not text.strip().isdecimal() or int(text) < 2:
        raise EditFault(f"{name}: this line doesn't have the form '{ROUND} NUMBER', with a number above 1: {ROUND}{text}")
    return int(text)


def parse_pairs(name: str, text: str) -> tuple[Pair, ...]:
    """Returns the replacements in the text of an edit's file. `name` is that of the edit, for an error. Raises
    `EditFault` if the text has another form, or replaces nothing in src/."""
    pairs: list[Pair] = []
    file, old = "", ""
    for line in text.split("\n"):
        word, _, rest = line.partition(":")
        if word == "file":
            file = rest.strip()
        elif word == "old":
            old = rest.removeprefix(" ")
        elif word == "new" and file and old:
            pairs.append(Pair(file, old, rest.removeprefix(" ")))
            old = ""
        elif line.strip():
            raise EditFault(f"{name}: a line of an unknown kind: {line[:80]}")
    if not any(it.file.startswith("src/") for it in pairs) or old:
        raise EditFault(f"{name}: there is no complete pair of an 'old:' and a 'new:' line for a file of src/")
    return tuple(pairs)


def parse_edit(name: str, text: str) -> Edit:
    """Returns the edit with this name in the text of a file. Raises `EditFault` if the text has another form."""
    wanted: list[Refusal] = []
    first, rest = 1, list[str]()
    for line in text.split("\n"):
        if line.startswith(MARK):
            wanted.append(refusal_of(name, line.removeprefix(MARK)))
        elif line.startswith(ROUND):
            first = round_of(name, line.removeprefix(ROUND))
        else:
            rest.append(line)
    if not wanted:
        raise EditFault(f"{name}: there is no line '{MARK} FUNCTION GOAL'. Write one with any goal, and this tool prints the right one")
    return Edit(name, tuple(wanted), parse_pairs(name, "\n".join(rest)), first)


def apply_edit(edit: Edit, texts: Mapping[str, str], folder: Path) -> dict[str, str]:
    """Returns the changed texts of a crate's files after an edit, by their paths. `texts` has those that earlier edits
    changed. Other files are read from the crate's folder. Raises `EditFault` if the edit names another file than one of
    src/ and proofs/, or if a text doesn't occur exactly once."""
    after = dict(texts)
    for pair in edit.pairs:
        if pair.file not in after:
            path = folder / pair.file
            if not pair.file.startswith(("src/", "proofs/")) or ".." in path.parts or not path.is_file():
                raise EditFault(f"{edit.name}: there is no such file in src/ or proofs/: {pair.file}")
            after[pair.file] = path.read_text(encoding="utf-8")
        found = after[pair.file].count(pair.old)
        if found != 1:
            raise EditFault(f"{edit.name}: a text occurs {found} times in {pair.file}, but it has to occur once: {pair.old.strip()[:80]}")
        after[pair.file] = after[pair.file].replace(pair.old, pair.new)
    return after


def read_edits(folder: Path) -> tuple[list[Edit], list[str]]:
    """Returns the edits in a crate's folder, in the order of their names. Also returns error texts about the files that
    are no edits or don't fit the sources, which are left out."""
    edits, faults = [], []
    for path in sorted((folder / "wrong").iterdir()):
        try:
            if path.suffix != ".edit":
                raise EditFault(f"{path.name}: an edit's name ends in .edit")
            edit = parse_edit(path.name, path.read_text(encoding="utf-8"))
            apply_edit(edit, {}, folder)
            edits.append(edit)
        except EditFault as fault:
            faults.append(str(fault))
    return edits, faults


def join(into: Round, edit: Edit, folder: Path) -> bool:
    """Adds an edit to a round, and returns True. If another edit of the round changes the same text or must be refused
    in the same function, changes nothing and returns False. `folder` is the crate's folder."""
    if into.functions() & edit.functions():
        return False
    try:
        into.texts = apply_edit(edit, into.texts, folder)
    except EditFault:
        return False
    into.edits.append(edit)
    return True


def rounds_of(edits: Iterable[Edit], folder: Path) -> list[Round]:
    """Returns the rounds for these edits of the crate in a folder. Each edit is in the first round that is allowed for
    it and has room for it. If there is none yet, a round is added for the edit, even if the round's number is lower
    than the allowed one. Raises `EditFault` if an edit doesn't fit the sources."""
    rounds: list[Round] = []
    for edit in sorted(edits, key=lambda it: it.first):
        if not any(join(it, edit, folder) for it in rounds[edit.first - 1 :]):
            rounds.append(Round([edit], apply_edit(edit, {}, folder)))
    return rounds
