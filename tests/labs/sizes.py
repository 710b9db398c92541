"""Labs at their limits and beyond, which are too large to write by hand. They are computed here as rows, which have the
same form as those of the tables."""
from collections.abc import Iterable

from tests.common.limits import MOST as LIMIT
from tests.labs.rows import Row

# The limits, and the first lines of labs.
NAME, KEY, SESSIONS = LIMIT["name"], LIMIT["key"], LIMIT["sessions"]
HEAD = f"""sessions = {SESSIONS}
teacher = {{ name = "tess", key = "chalk" }}
"""
MOST = f"events = {LIMIT['events']}\n"


def student(number: int) -> tuple[str, str]:
    """Returns the name and the key of the student with a number, both of the greatest length."""
    return f"s{number:031}", f"{number:064}"


def students(count: int) -> str:
    """Returns the lines of a lab's file for `count` students with the longest names and keys."""
    return "".join('[[student]]\nname = "{}"\nkey = "{}"\n'.format(*student(number)) for number in range(count))


def nodes(ids: Iterable[int]) -> str:
    """Returns the lines of a lab's file for nodes with these identifiers, which the first student owns."""
    return "".join(f'[[node]]\nid = {node}\nowner = "{student(0)[0]}"\n' for node in ids)


def sizes() -> list[Row]:
    """Returns rows with different numbers of nodes and students. The `events` and `sessions` of these labs are the
    greatest allowed numbers."""
    ids = range(60000, 60257)
    wanted = {
        (1, 1): "ok: 1 nodes, 0 links, 1 students",
        (256, 256): "ok: 256 nodes, 0 links, 256 students",
        (257, 256): "lab: too many nodes",
        (257, 257): "lab: too many nodes",
        (256, 257): "lab: student is out of its limits",
        (1, 0): "lab: student is missing",
    }
    rows = [
        Row(f"{few} nodes, {many} students", (MOST + HEAD + students(many) + nodes(ids[:few])).encode(), says=line)
        for (few, many), line in wanted.items()
    ]
    # A lab with too many nodes, one of them out of range, is refused because of their number.
    document = MOST + HEAD + students(1) + nodes([*ids[:256], 0])
    return [*rows, Row("too many nodes, one of them 0", document.encode(), says="lab: too many nodes")]


def loose() -> Row:
    """Returns the row of a lab without links. The lab's nodes, students, events and sessions are as many as allowed."""
    people = tuple(student(number) for number in range(256))
    ids = range(60000, 60256)
    marks = "." * 256
    shows = f"{LIMIT['events']} {SESSIONS} 256 0 256" + "".join(f"; {node} false {people[0][0]} {marks}" for node in ids)
    document = MOST + HEAD + students(256) + nodes(ids)
    return Row("256 nodes without links", document.encode(), shows=shows, students=people)


def lengths() -> list[Row]:
    """Returns rows of labs of one node. In each row the length of the teacher's name, the length of the teacher's key,
    or the number of sessions is allowed, or is just outside its limits."""
    bad, sessions = "lab: principal 0: bad name or key", "lab: sessions is out of its limits"
    wanted = [
        (1, 1, 1, ""), (NAME, KEY, SESSIONS, ""), (NAME + 1, KEY, SESSIONS, bad), (NAME, KEY + 1, SESSIONS, bad), (0, KEY, SESSIONS, bad),
        (NAME, 0, SESSIONS, bad),
        (NAME, KEY, SESSIONS + 1, sessions), (NAME, KEY, 0, sessions),
    ]
    rows = []
    for name, key, count, line in wanted:
        teacher = "n" * name, "k" * key
        document = f"""events = 100
sessions = {count}
[teacher]
name = "{teacher[0]}"
key = "{teacher[1]}"
[[student]]
name = "ana"
key = "a-key"
[[node]]
id = 1
owner = "ana"
"""
        shows = "" if line else f"100 {count} 1 0 1; 1 false ana ."
        what = f"name {name}, key {key}, sessions {count}"
        rows.append(Row(what, document.encode(), line, shows, teacher, (("ana", "a-key"),)))
    return rows


def greatest() -> Row:
    """Returns the row with 256 nodes in a complete graph, with the greatest identifiers, and two of 256 students
    for each node."""
    ids = range(65280, 65536)
    people = tuple(student(number) for number in range(256))
    links = ",".join(f"[{a},{b}]" for a in ids for b in range(65280, a))
    owners = {node: sorted([node % 256, (node + 1) % 256]) for node in ids}
    shows = f"100 {SESSIONS} 256 32640 256"
    document = f"events = 100\n{HEAD}links = [{links}]\n" + students(256)
    # The file names the owners of a node in the wrong order, and they are shown in the order of the students.
    for at, (node, (a, b)) in enumerate(owners.items()):
        document += f'[[node]]\nid = {node}\nowners = ["{people[b][0]}", "{people[a][0]}"]\n'
        shows += f"; {node} false {people[a][0]}{people[b][0]} {'-' * at}.{'-' * (255 - at)}"
    return Row("the greatest lab", document.encode(), shows=shows, students=people)


def computed_rows() -> list[Row]:
    """Returns all rows that are computed."""
    return [*sizes(), *lengths(), loose(), greatest()]
