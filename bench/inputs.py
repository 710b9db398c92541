"""Labs, scripts and journals as input for measurements. A *turn* is a few lines that are repeated, and each script
begins with its hellos."""
from collections.abc import Iterable

from bench.common import built_in

EVENTS = 100_000
PEOPLE = ("ana", "ben", "cyd")
TESS = '1 {"do":"hello","key":"chalk","name":"tess"}'
ANA = '2 {"do":"hello","key":"a-key","name":"ana"}'
BEN = '1 {"do":"hello","key":"b-key","name":"ben"}'
# The first and the last identifier in the greatest lab. The last node is ben's.
FIRST, LAST = 65280, 65535


def largest_built_in() -> str:
    """Returns the text of the built-in lab with the largest number of events that a lab may have."""
    return built_in(events=EVENTS)


def lab(owners: dict[int, str], links: Iterable[tuple[int, int]]) -> str:
    """Returns the text of a lab with these links, and with the students and the limits of `largest_built_in`. `owners`
    has the owner of each node."""
    listed = ", ".join(f"[{a}, {b}]" for a, b in links)
    head = largest_built_in().split("[[node]]")[0].replace("[[1, 2], [2, 3]]", f"[{listed}]")  # the links of the built-in lab are replaced
    return head + "\n".join(f'[[node]]\nid = {node}\nowner = "{owner}"\n' for node, owner in owners.items())


def ring(nodes: int, reach: int = 1) -> str:
    """Returns the text of a lab whose nodes form a ring. Each node is linked to the next `reach` nodes on both sides.
    The nodes are owned by the students of PEOPLE in rotation."""
    ids = range(1, nodes + 1)
    links = ((node, (node + step - 1) % nodes + 1) for node in ids for step in range(1, reach + 1))
    return lab({node: PEOPLE[node % 3] for node in ids}, links)


def all_links() -> str:
    """Returns the text of the greatest lab: each of 256 nodes is linked to each other one."""
    ids = range(FIRST, LAST + 1)
    return lab({node: "ben" if node == LAST else "ana" for node in ids}, ((a, b) for a in ids for b in range(FIRST, a)))


def sees(turns: int) -> Iterable[str]:
    """Yields the lines of a script: the teacher's hello, and `turns` requests, each to see one of the nodes 1, 2, 3 in
    rotation."""
    yield TESS
    for turn in range(turns):
        yield f'1 {{"do":"see","node":{turn % 3 + 1}}}'


def sees_and_more(turns: int) -> Iterable[str]:
    """Yields the lines of a script: the teacher's hello, and `turns` requests, each to see one of the nodes 1, 2, 3 in
    rotation. Each of these requests has a further key, `x`, which no request needs."""
    yield TESS
    for turn in range(turns):
        yield f'1 {{"do":"see","node":{turn % 3 + 1},"x":[]}}'


def mixed(turns: int) -> Iterable[str]:
    """Yields the lines of a script that repeats six requests `turns` times: three to see or to look, a move, a close,
    and a fault that undoes the close. Three in six lines are granted as events."""
    yield from (TESS, ANA)
    for turn in range(turns):
        yield '1 {"do":"see","node":1}'
        yield '2 {"do":"look","node":1}'
        yield f'2 {{"at":{2 * turn},"do":"move","node":1,"rule":"seduction"}}'
        yield '1 {"do":"close"}'
        yield '2 {"do":"see","node":2}'
        yield '1 {"do":"fault","m":false,"node":1,"p":null}'


def granted(turns: int) -> Iterable[str]:
    """Yields the lines of a script that repeats a move and its release `turns` times. Both are granted."""
    yield from (TESS, ANA)
    for _ in range(turns):
        yield '2 {"at":0,"do":"move","node":1,"rule":"seduction"}'
        yield '1 {"do":"release","node":1}'


def greetings(turns: int) -> Iterable[str]:
    """Yields the lines of a script that repeats a student's hello and bye `turns` times."""
    for _ in range(turns):
        yield BEN
        yield '1 {"do":"bye"}'


def looks(turns: int) -> Iterable[str]:
    """Yields the lines of a script: the teacher's hello, and `turns` requests, each to look at one of the nodes 1 to 64
    in rotation."""
    yield TESS
    for turn in range(turns):
        yield f'1 {{"do":"look","node":{turn % 64 + 1}}}'


def reports(turns: int) -> Iterable[str]:
    """Yields the lines of a script: the teacher's hello, and `turns` requests for the report."""
    yield TESS
    for _ in range(turns):
        yield '1 {"do":"report"}'


def sees_of_all(turns: int) -> Iterable[str]:
    """Yields the lines of a script: the hello of the student ben, and `turns` requests, each to see one node of the
    greatest lab in rotation."""
    yield BEN
    for turn in range(turns):
        yield f'1 {{"do":"see","node":{FIRST + turn % 256}}}'


def looks_at_last(turns: int) -> Iterable[str]:
    """Yields the lines of a script: the hello of the student ben, and `turns` looks at ben's node in the greatest
    lab."""
    yield BEN
    for _ in range(turns):
        yield f'1 {{"do":"look","node":{LAST}}}'


def journal(turns: int) -> Iterable[str]:
    """Yields the lines of a journal that repeats three events `turns` times: a move, a close and a fault that undoes
    the close."""
    for turn in range(turns):
        place, number = 3 * turn, 2 * turn
        yield f"{place + 1} {number} grant ana 1 seduction"
        yield f"{place + 2} {number} close"
        yield f"{place + 3} {number + 1} fault 1 - false"
