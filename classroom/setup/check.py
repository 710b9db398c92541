"""`./class check`: prints the verdict of `mml check` on a lab, the line of an error, and warnings. A *lab* is the TOML
file that defines a network with its students and their keys. In the functions about the file's format, *keys* are those
of TOML."""
from __future__ import annotations

import argparse
import difflib
import math
import re
import string
import tempfile
import tomllib
from collections.abc import Iterable, Iterator
from pathlib import Path

from classroom.core import lab as labs
from classroom.core import bounds, limits, networks
from classroom.core.counts import plural
from classroom.core.printable import printable
from classroom.core.program import TOP, Answer, Fault, call
from classroom.core.statuses import WARNED
from classroom.setup import keys, positions

# The keys that the format has in each table, by the table's name. That of the document itself is empty.
KNOWN = {
    "": ("events", "sessions", "teacher", "student", "node", "links"),
    "teacher": ("name", "key"),
    "student": ("name", "key", "written", "id"),
    "node": ("id", "owner", "owners", "p", "m"),
}
ABOVE = "above"  # in place of a similar key: the key belongs above all tables
# What is wrong, or what the format allows, for errors of the program that don't say it.
HINTS = {
    "owner and owners": "A node has either `owner` or `owners`. Delete one of the two",
    "identifier stands twice": "An earlier node has the same `id`",
    "name stands twice": "An earlier participant has the same name",
    "owner stands twice": "The two owners are the same student",
    "stands twice": "An earlier link joins the same nodes",
    "no such owner": "Each owner has to be the `name` of a student in this file",
    "no such node": "Each end of a link has to be the `id` of a node in this file",
    "p is not a neighbour": "`p` has to be the `id` of a node that a link joins to this node",
    "node.owner is missing": "This node has neither `owner` nor `owners`. Write one of the two",
}
WRONG_KIND = "is of the wrong kind"  # the end of the program's error about a value
# What a value has to be, by the key that this error names, without the name of the table before it.
WANTED = {
    "events": "`events` has to be an integer, without quotes",
    "sessions": "`sessions` has to be an integer, without quotes",
    "teacher": "The teacher's `name` and `key` have to be below one line [teacher]",
    "student": "The `name` and `key` of each student have to be below a line [[student]]",
    "node": "The `id` and the owner of each node have to be below a line [[node]]",
    "name": "`name` has to be a text in quotes",
    "key": "`key` has to be a text in quotes",
    "id": "`id` has to be an integer, without quotes",
    "owner": "`owner` has to be the name of one student, in quotes",
    "owners": '`owners` has to be a list of one or two names of students, such as ["ana", "ben"]',
    "p": "`p` has to be the `id` of a neighbour: an integer, without quotes",
    "m": "`m` has to be true or false, without quotes",
    "links": "`links` has to be a list of links, such as [[1, 2], [2, 3]]",
    "link": "Each link has to be a list of two integers, such as [1, 2]",
}
MOST_LISTED = 8  # the most nodes that a warning names
ENOUGH_BITS = 64  # the bits that a key needs if a person may have chosen it
ENOUGH_DRAWN = keys.bits_of(keys.WORDS_EACH, keys.DIGITS)  # the bits that a key needs if it was drawn by lot, as `new` does
KINDS = (string.ascii_lowercase, string.ascii_uppercase, string.digits, string.punctuation)  # the kinds of characters of which a key is taken to be drawn
OTHERS = 128  # how many characters a key is taken to be drawn from if one of its characters is of no kind
DAY = 86400  # in seconds
YEAR = 365 * DAY


def refused(path: Path, error: str) -> Iterator[str]:
    """Yields the lines to print about a lab's file that the program has refused with the message `error`. These lines
    have the error, the line in the file at which it is, and suggestions for unknown keys."""
    text = path.read_bytes().decode("utf-8-sig", errors="replace")
    yield f"{path}: {error}"
    line, what = place_of_error(text, error)
    if line is not None:
        yield f"  line {line}{what}: {text.splitlines()[line - 1].strip()}"
    if hint := hint_of(error):
        yield f"  {hint}"
    for found, key, meant in unknown_keys(text):
        if meant:
            yield f"  line {found}: {key} isn't known here. {suggestion(key, meant)}"


def suggestion(key: str, meant: str) -> str:
    """Returns what to write for an unknown key. `meant` is the most similar known key, or ABOVE for a key of the
    document in another table, as `unknown_keys` yields it."""
    if meant == ABOVE:
        return f"Write {key} above the first line in brackets, such as [teacher]"
    return f"Did you mean {meant}?"


def hint_of(error: str) -> str:
    """Returns what is wrong or what the format allows, for an error of the program that doesn't say it. Returns an empty
    text for any other error, and for an error about a limit if the program doesn't print its limits."""
    what = re.sub(r"^lab: (?:\w+ \d+: )?", "", error)
    if what.endswith(WRONG_KIND):
        return WANTED.get(what.removesuffix(WRONG_KIND).strip().rpartition(".")[2], "")
    most = limits.known()
    return (HINTS if most is None else HINTS | hints_of_limits(most)).get(what, "")


def hints_of_limits(most: limits.Limits) -> dict[str, str]:
    """Returns the hints that name the program's limits, by the errors of the program."""
    return {
        "bad name or key": f"A name has 1 to {most.name} letters a to z, digits and hyphens, and begins with a letter. "
                           f"A key has 1 to {most.key} printable ASCII characters, and no space",
        "identifier out of range": f"`id` has to be from 1 to {most.identifier}",
        "too many nodes": f"A lab can have at most {most.nodes} nodes",
        "events is out of its limits": f"`events` has to be from 1 to {most.events}",
        "sessions is out of its limits": f"`sessions` has to be from 1 to {most.sessions}",
        "student is out of its limits": f"A lab can have at most {most.students} students",
    }


def place_of_error(text: str, error: str) -> tuple[int | None, str]:
    """Returns the number of the line that the program's error about a lab's text refers to, or None if the line isn't
    found. Also returns a text to print after the number, which may be empty: the message of the TOML reader, the
    identifier of a node, or which participant it is."""
    if error == "lab: not a TOML document":
        try:
            tomllib.loads(text)
        except tomllib.TOMLDecodeError as fault:
            at = re.search(r"line (\d+)", str(fault))
            last = max(1, len(text.splitlines()))
            return (min(int(at[1]), last) if at else last), f" ({fault})"
        return None, ""
    numbered = re.match(r"lab: (node|principal|link) (\d+): (.*)", error)
    if numbered is None:
        key = re.match(r"lab: ([\w.]+) (is .*)", error)
        return place_of_key(text, key[1], key[2]) if key else (None, "")
    kind, index, fault_text = numbered[1], int(numbered[2]), numbered[3]
    if kind == "link":
        return positions.link(text, index), ""
    # The principal 0 is the teacher, and the students have the numbers from 1 on.
    name = "node" if kind == "node" else "student" if index else "teacher"
    place = index if kind == "node" else max(index - 1, 0)
    table = positions.table(text, name, place)
    if table is None:
        return None, ""
    wanted = {"no such owner": ("owner", "owners"), "owner stands twice": ("owners",), "p is not a neighbour": ("p",),
              "name stands twice": ("name",)}.get(fault_text, ("id",) if kind == "node" else ())
    line = next((table.keys[key] for key in wanted if key in table.keys), table.line)
    return line, whose(text, table, place)


def whose(text: str, table: positions.Table, index: int) -> str:
    """Returns the text to print after a line of the table of a node or a participant: which one it is, in brackets.
    `index` is that of the table among those of its name, counted from 0."""
    return {"node": identifier(text, table), "student": f" (student number {index + 1})", "teacher": " (the teacher)"}[table.name]


def identifier(text: str, table: positions.Table) -> str:
    """Returns the text to print after the line of a node: its identifier as the file has it, in brackets. Returns an
    empty text if the node's table has none."""
    line = table.keys.get("id")
    found = re.search(r"\bid\s*=\s*([-+\w]+)", text.splitlines()[line - 1]) if line else None
    return f" (the node with identifier {found[1]})" if found else ""


def place_of_key(text: str, key: str, what: str) -> tuple[int | None, str]:
    """Returns a line and a text for an error about a key, such as `node.p`, as `place_of_error` does. `what` is the end
    of the error, for example `is missing`. If the key is missing in a table, the line is the first one of this table.
    If a value has the wrong kind, the line is that of its key."""
    if "." not in key:
        return line_of_document_key(text, key, what == WRONG_KIND), ""
    name, word = key.split(".")
    own = [each for each in positions.tables(text) if each.name == name]
    if what == "is missing":
        words = {"owner", "owners"} if word == "owner" else {word}
        index = next((at for at, each in enumerate(own) if not words.intersection(each.keys)), None)
    else:
        having = [at for at, each in enumerate(own) if word in each.keys]
        index = having[0] if len(having) == 1 else index_of_wrong(labs.parsed(text).get(name), word)
    if index is None or index >= len(own):
        return None, ""
    return own[index].keys.get(word, own[index].line), whose(text, own[index], index)


def line_of_document_key(text: str, key: str, is_wrong: bool) -> int | None:
    """Returns the number of the line with a key of the document, or None if the key isn't found. `link` stands for an
    element of `links`. If `is_wrong` is set, the value has the wrong kind. Then the result is the line of the first
    wrong link, and for the other keys it may also be the line of the first table with this name."""
    if key == "link":
        index = index_of_wrong(labs.parsed(text).get("links"), key)
        return None if index is None else positions.link(text, index)
    tables = positions.tables(text)
    headers = [each.line for each in tables if each.name == key] if is_wrong else []
    return tables[0].keys.get(key, headers[0] if headers else None)


def index_of_wrong(values: object, word: str) -> int | None:
    """Returns the index of the first element of `values` whose value under the key `word` has the wrong kind. If `word`
    is `link`, returns that of the first list that isn't a link. Returns None if there is no such element, or if `values`
    isn't a list."""
    every = values if isinstance(values, list) else []
    if word == "link":
        return next((at for at, each in enumerate(every) if isinstance(each, list) and not is_link(each)), None)
    return next((at for at, each in enumerate(every) if isinstance(each, dict) and word in each and not has_kind(each[word], word)), None)


def has_kind(value: object, word: str) -> bool:
    """Returns whether the value of the key `word` of a participant or a node has the right kind."""
    if word == "owners":
        return isinstance(value, list) and len(value) in (1, 2) and all(isinstance(each, str) for each in value)
    return type(value) is {"id": int, "p": int, "m": bool}.get(word, str)  # For `isinstance`, true is an integer.


def is_link(ends: list[object]) -> bool:
    """Returns whether the elements of a list are the two ends of a link: two integers."""
    return len(ends) == 2 and all(type(each) is int for each in ends)


def unknown_keys(text: str) -> Iterator[tuple[int, str, str | None]]:
    """Yields the keys and tables in a lab's text that the format doesn't have. Each is the number of its line, the key
    or table, and the most similar known one, or None if none is similar. For a key of the document in another table,
    the third value is ABOVE."""
    for table in positions.tables(text):
        known = KNOWN.get(table.name)
        if known is None:
            if table.name not in KNOWN[""]:
                yield table.line, f"[{table.name}]", nearest(table.name, KNOWN[""])
            continue
        for key, line in table.keys.items():
            if key not in known:
                yield line, key, ABOVE if key in KNOWN[""] else nearest(key, known)


def nearest(key: str, known: Iterable[str]) -> str | None:
    """Returns the known key that is most similar to `key`, or None if none is similar."""
    found = difflib.get_close_matches(key, list(known), 1, 0.6)
    return found[0] if found else None


def is_drawn(key: str) -> bool:
    """Returns whether a person's key looks like one that `new` has drawn at random. Such a key consists of words of the
    list in `word_list` and of numbers, and has at least WORDS_EACH words."""
    parts = keys.count_parts(key)
    return parts is not None and parts[0] >= keys.WORDS_EACH


def bits(key: str) -> float:
    """Returns an upper bound on the bits of entropy of a person's key. If the key looks drawn at random (`is_drawn`),
    counts its words and digits as random ones. Otherwise returns the smaller one of two bounds: that count,
    if the key has only such parts, and `bits_of_letters`."""
    parts = keys.count_parts(key)
    by_words = keys.bits_of(*parts) if parts else math.inf
    return by_words if is_drawn(key) else min(by_words, bits_of_letters(key))


def bits_of_letters(key: str) -> float:
    """Returns an upper bound on the bits of a person's key by its length, the kinds of its characters, and the number
    of different ones."""
    letters = set(key)
    # Each character counts as drawn from its kinds, but from at most twice as many characters as the key has different
    # ones. If all characters are the same, each adds almost nothing.
    return len(key) * math.log2(max(2, min(letters_of_kinds(letters), 2 * len(letters))) if len(letters) > 1 else 1.01)


def letters_of_kinds(letters: set[str]) -> int:
    """Returns how many characters the kinds of these characters have together. The kinds are lower case, upper case,
    digits and punctuation. OTHERS is added if one of these characters, such as a space, is of no kind."""
    others = letters.difference(*KINDS)
    return sum(len(kind) for kind in KINDS if letters.intersection(kind)) + (OTHERS if others else 0)


def effort(key: str) -> str:
    """Returns the longest time in which a person's key can be guessed, as a text. The server limits the rate of
    guesses."""
    seconds = 2 ** bits(key) / keys.DENIALS
    for size, scale in ((1e9, "billion"), (1e6, "million")):
        if seconds >= size * YEAR:
            return f"{seconds / (size * YEAR):.0f} {scale} years"
    for length, unit in ((YEAR, "year"), (DAY, "day"), (3600, "hour"), (60, "minute")):
        if seconds >= length:
            return plural(round(seconds / length), unit)
    return plural(round(seconds), "second")


def example_keys() -> set[str]:
    """Returns the keys of all persons in the example labs and in the lab that is built into the program. These keys are
    public. Raises `Fault` if an example lab can't be read."""
    found = {"chalk", "a-key", "b-key", "c-key"}  # those of the built-in lab
    for path in (TOP / "examples").glob("*.toml"):
        it = labs.document(path)
        found |= {each["key"] for each in [it["teacher"], *it["student"]]}
    return found


def key_warnings(lab: labs.Lab) -> Iterator[str]:
    """Yields a warning for each person of the lab whose key is public or can be guessed. Raises `Fault` if an example
    lab can't be read."""
    examples = example_keys()
    for name, key in [lab.teacher, *lab.students.items()]:
        if key in examples:
            yield f"the key of {name} is that of an example lab, which everybody can read. Write another key"
        elif bits(key) < (ENOUGH_DRAWN if is_drawn(key) else ENOUGH_BITS):
            yield (f"the key of {name} may be easy to guess: it has at most {bits(key):.0f} bits, and guessing it takes at most {effort(key)}. "
                   "It may take much less. Write a longer key; 128 bits are certainly enough")


def network_warnings(lab: labs.Lab) -> Iterator[str]:
    """Yields a warning for each student of the lab without a node, for each node without a neighbour, and one if the
    network isn't connected."""
    owners = {owner for node in lab.nodes for owner in node.owners}
    yield from (f"the student {name} has no node" for name in lab.students if name not in owners)
    near = networks.neighbours((node.id for node in lab.nodes), lab.links)
    yield from (f"node {node} has no neighbour, so it can't be in a pair" for node, others in near.items() if not others)
    parts = parts_of(near)
    if parts > 1:
        yield f"the network isn't connected: it has {parts} parts without a link between them"


def parts_of(near: dict[int, list[int]]) -> int:
    """Returns the number of connected parts of a network. `near` has the neighbours of each node."""
    left, parts = set(near), 0
    while left:
        parts += 1
        reached = [left.pop()]
        while reached:
            further = left.intersection(near[reached.pop()])
            left -= further
            reached += further
    return parts


def limit_warnings(lab: labs.Lab) -> Iterator[str]:
    """Yields warnings if the lab has fewer sessions or events than the class may need. Raises `Fault` if the program
    doesn't print the limits or bounds."""
    people, most = len(lab.without_house().students) + 1, limits.allowed().sessions
    if lab.sessions < people:
        yield (f"`sessions` is {lab.sessions}, so the {people - 1} students and the teacher can't all be connected at once. "
               + (f"No lab can have more than {most}: make several labs by ./class new --groups" if people > most else f"Raise `sessions` to {people}"))
    need = bounds.of_lab(lab)
    if lab.events < need.events:
        yield f"`events` is {lab.events}, which may be too few: the class may need {need.moves} moves and as many closed steps. Raise `events` to {need.events}"


def pair_warnings(lab: labs.Lab) -> Iterator[str]:
    """Yields a warning if the lab has nodes that two students own: there, marks by granted moves favour the student
    whose program asks first."""
    shared = [str(node.id) for node in lab.without_house().nodes if len(node.owners) == 2]
    if shared:
        nodes = ("nodes " if len(shared) > 1 else "node ") + ", ".join(shared[:MOST_LISTED]) + ", ..." * (len(shared) > MOST_LISTED)
        yield f"two students own {nodes}: the one with the quicker program gets most of the moves there, and so the better marks. Mark the two together"


def start_warnings(path: Path, lab: labs.Lab) -> Iterator[str]:
    """Yields a warning if no node is privileged at the beginning, that is, if no rule can be applied at any
    node. Learns this from the program's report. `path` is the lab's file. Raises `Fault` if the program refuses it."""
    hello = '{"do":"hello","name":"%s","key":%s}' % (lab.teacher[0], labs.quoted(lab.teacher[1]))
    with tempfile.TemporaryDirectory() as room:
        script = Path(room, "script")
        script.write_text(f'1 {hello}\n1 {{"do":"report"}}\n', encoding="utf-8")
        answer = call("script", path, script)
    if answer.status != 0:
        raise Fault(f"{path}: {answer.error}", answer.status)
    if '"stable":true' in answer.output.splitlines()[-1]:
        yield "no node is privileged at the beginning, so the students have nothing to do before a fault"


def warnings(path: Path) -> Iterator[str]:
    """Yields all warnings about the lab in a file, which the program accepts. If `labs.read` fails all the same, yields
    only those about unknown TOML keys and tables, and a line with this error. Then the people's secret keys, the
    network with its owners, the limits and the beginning aren't checked. Raises `Fault` if an example lab can't be
    read, or if the program doesn't print the limits or bounds."""
    text = path.read_text(encoding="utf-8-sig")
    for line, key, meant in unknown_keys(text):
        more = f" {suggestion(key, meant)}" if meant else ""
        yield f"line {line}: {key} isn't known here, so it is ignored.{more}"
    try:
        lab = labs.read(path)
    except Fault as fault:
        yield f"{fault}. So keys, owners and limits weren't checked"
        return
    for found in (key_warnings(lab), network_warnings(lab), limit_warnings(lab), pair_warnings(lab), start_warnings(path, lab)):
        yield from found


def size_line(path: Path, line: str) -> str:
    """Returns `line`, which the program has printed about the size of the lab in a file. If the lab can be read, the
    line is changed so that the house, a student without a person, is counted separately."""
    try:
        return labs.with_house_apart(line, labs.read(path))
    except Fault:
        return line


def check(words: argparse.Namespace) -> int:
    """Prints the program's verdict on a lab, and warnings. If the program refuses the lab, prints the line of the error
    instead, and hints. Returns 0, 5 if there are warnings, or the program's status if it refuses the lab or can't read
    it. Raises `Fault` if the program isn't built."""
    path = Path(words.lab)
    answer: Answer = call("check", path)
    if answer.status != 0:
        found = refused(path, answer.error) if answer.status == 2 else [labs.unread(path, answer.error)]
        print(*map(printable, found), sep="\n")
        return answer.status
    print(size_line(path, answer.output.strip()))
    warned = list(warnings(path))
    print(*(f"warning: {printable(each)}\n" for each in warned), sep="", end="")
    return WARNED if warned else 0
