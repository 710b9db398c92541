"""Lines of the protocol, written by hand: requests and replies."""
import json

# The keys of the people in the built-in lab, and the nodes of its students.
KEYS = {"ana": "a-key", "ben": "b-key", "cyd": "c-key", "tess": "chalk"}
NODES = {"ana": 1, "ben": 2, "cyd": 3}
# The number of a denial's clause, and its text.
DENIALS = {
    "chosen": (3, "this node is already chosen"),
    "empty": (2, "no node is chosen"),
    "hidden": (1, "this node is not shown to you"),
    "not-greeted": (0, "say hello first"),
    "stale": (2, "this is not the current configuration"),
    "unknown": (2, "name and key do not match"),
}


def line_of(**members: object) -> bytes:
    """Returns the line of a request or a reply with these keys and values, in the order of the keys."""
    return json.dumps(members, separators=(",", ":"), sort_keys=True).encode() + b"\n"


def hello(name: str) -> bytes:
    """Returns the line of the hello of a person in the built-in lab."""
    return line_of(do="hello", key=KEYS[name], name=name)


def look(name: str) -> bytes:
    """Returns the line of a look at the node of a student."""
    return line_of(do="look", node=NODES[name])


def seduction(at: int, node: int = 1) -> bytes:
    """Returns the line of a request for a seduction at a node, in the configuration with the number `at`."""
    return line_of(at=at, do="move", node=node, rule="seduction")


def fault_at(node: int, m: bool = False) -> bytes:
    """Returns the line of a fault that sets p of a node to null, and m to this value."""
    return line_of(do="fault", m=m, node=node, p=None)


def greeted(name: str) -> bytes:
    """Returns the reply to the granted hello of a person."""
    return line_of(ok="hello", who=name)


def seduced(at: int, place: int, node: int = 1) -> bytes:
    """Returns the reply to a granted seduction at a node. `at` is the number of the configuration, and `place` that of
    the event."""
    return line_of(at=at, node=node, ok="move", place=place, rule="seduction")


def closed(at: int, place: int, *moved: int) -> bytes:
    """Returns the reply to a close by which these nodes moved. `at` is the number of the configuration that the close
    makes, and `place` that of the event."""
    return line_of(at=at, moved=moved, ok="close", place=place)


def denial_of(word: str, **more: object) -> bytes:
    """Returns the reply of the denial with this word, with its clause and its text. `more` has further values of the
    reply."""
    clause, text = DENIALS[word]
    return line_of(clause=clause, deny=word, text=text, **more)


def refusal_of(word: str) -> bytes:
    """Returns the reply of the refusal with this word."""
    return line_of(refuse=word)


BYE = line_of(do="bye")
BID = line_of(ok="bye")
CLOSE = line_of(do="close")
REPORT = line_of(do="report")
# A hello with a wrong key.
WRONG = line_of(do="hello", key="a-kez", name="ana")
UNKNOWN = denial_of("unknown")
MALFORMED = refusal_of("malformed")
# The last lines on connections that a host closes. Each says why.
BUSY, LATE, LONG, OVER = (refusal_of(word) for word in ("busy", "late", "long", "over"))
