"""Scripts with malformed lines: the replies before them, and the line that is reported.

    python3 -B -m tests.program.lines

The rows are written by hand. Then random scripts are run in three forms with the same meaning, and have the same
replies: as they were drawn, with an additional nested array, so that no line is read byte by byte, and as Python's
reader writes them again.
"""
import json
import math
from pathlib import Path
from random import Random

from tests.common.limits import MOST
from tests.common.preload import Ended, built_in, fail, in_room, run

BYE, LEFT = '4 {"do":"bye"}\n', '4 {"ok":"bye"}\n'
MALFORMED = '1 {"refuse":"malformed"}\n'
UNKNOWN = '1 {"clause":2,"deny":"unknown","text":"name and key do not match"}\n'


def long_bye(length: int, end: str) -> str:
    """Returns a script's line with a bye on connection 1, whose request has `length` bytes. The line ends with
    `end`."""
    return "1 " + '{"do":"bye"}'.ljust(length) + end


# A script for the built-in lab, its replies, and the number of its malformed line.
ROWS = [
    ("", "", None),
    ("1 \n", MALFORMED, None),
    ('1  {"do":"dance"}\n', MALFORMED, None),
    (BYE, LEFT, None),
    # Bytes after the last newline are no line.
    (BYE + BYE[:-1], LEFT, None),
    ("0", "", None),
    ('0 {"do":"bye"}\n', "", 1),
    ('5 {"do":"bye"}\n', "", 1),
    ('01 {"do":"bye"}\n', "", 1),
    ('{"do":"bye"}\n', "", 1),
    (' 1 {"do":"bye"}\n', "", 1),
    ('1{"do":"bye"}\n', "", 1),
    ("1\n", "", 1),
    ("\n", "", 1),
    (BYE + "\n" + BYE, LEFT, 2),
    (long_bye(4096, "\n"), '1 {"ok":"bye"}\n', None),
    (long_bye(4097, "\n"), "", 1),
    (long_bye(4098, "\n"), "", 1),
    # At the end there may be at most 4099 bytes without a newline.
    (long_bye(4097, ""), "", None),
    (long_bye(4098, ""), "", 1),
    ('1 {"do":"hello","key":"' + "k" * 2000 + '","name":"' + "n" * 2000 + '"}\n', UNKNOWN, None),
    ('1 {"do":"hello","key":"' + "k" * 4001 + '","name":""}\n', UNKNOWN, None),
]


def on_each(connections: int, text: str) -> str:
    """Returns one line of a script for each of the connections 1 to `connections`, with this text."""
    return "".join(f"{connection} {text}\n" for connection in range(1, connections + 1))


HELLO, WELCOME = '{"do":"hello","key":"chalk","name":"tess"}', '{"ok":"hello","who":"tess"}'
# The same for the built-in lab with as many sessions as a lab may have.
MANY = MOST["sessions"]
ON_MANY = [
    (on_each(MANY, HELLO), on_each(MANY, WELCOME), None),
    (on_each(MANY + 1, HELLO), on_each(MANY, WELCOME), MANY + 1),
]


def wants(room: Path, lab: Path, rows: list[tuple[str, str, int | None]]) -> None:
    """Checks the replies and the end of the script in each row. The last value of a row is the number of the wrong
    line, or None."""
    script = room / "lines.script"
    for text, answers, bad in rows:
        script.write_text(text, encoding="ascii")
        found = run(["script", str(lab), str(script)], b"", {})
        end = (0, "") if bad is None else (2, f"script: line {bad}: bad line\n")
        if found != Ended(end[0], answers.encode(), end[1].encode()):
            fail(f"another end of {text[:100]!r}: {found}")


# What random lines consist of: members of requests, and keys, values and bytes that are put beside and into them.
REQUESTS = [
    '"do":"see","node":2',
    '"do":"look","node":18446744073709551615',
    '"do":"look","node":3',
    '"at":0,"do":"move","node":1,"rule":"update"',
    '"at":0,"do":"move","node":1,"rule":"seduction"',
    '"at":1,"do":"move","node":3,"rule":"marriage","with":2',
    '"do":"fault","m":false,"node":1,"p":null',
    '"do":"fault","m":true,"node":1,"p":2',
    '"a":2,"b":1,"do":"link"',
    '"a":1,"b":3,"do":"link"',
    '"do":"hello","key":"a-key","name":"ana"',
    '"do":"hello","key":"chalk","name":"tess"',
    '"do":"close"',
    '"do":"report"',
    ' "d\\u006f" : "cut" , "a":1,"b":2',
]
KEYS = [
    '"do":', '"d\\u006f":', '"node":', ' "node" : ', '"n\\u006fde":', '"at":', '"p":', '"m":', '"b":', '"rule":',
    '"name":', '"colour":', '"\\ud800":',
]
VALUES = [
    "0", "1", "2", "7", "-0", "-1", "1.0", "1e0", "01", "1e999", "18446744073709551615", "18446744073709551616", "null",
    "true", "false", '"see"', '"r\\u0065port"', '"bye"', '"seduction"', '"\\ud83d\\ude00"', '"\\ud800"', "[]",
    '{"do":"bye"}', "[{},[1]]", "{}", "[ ]", '[1.5,{"do":"bye"},null]', "[{}", "[1e999]", '{"a":[01]}',
    '{"a":["\\ud800"]}', "[" * 126 + "]" * 126, "[" * 127 + "]" * 127,
]
HURTS = b'{}[]":,\\ \t0-.eEn\x00\x1f\x7f\xc3\xff'
LINES = 4000  # the number of random lines
PART = 40  # the number of random lines in a script


def others(rng: Random) -> str:
    """Returns the text of zero, one or two random members of an object."""
    return "".join(rng.choice(KEYS) + rng.choice(VALUES) + "," for _ in range(rng.randrange(3)))


def drawn_line(rng: Random) -> bytes:
    """Returns a request with other members before or after its own. In one of three lines a byte is replaced."""
    after = f',{others(rng)}"x":0' if rng.random() < 0.5 else ""
    line = bytearray(f"{{{others(rng)}{rng.choice(REQUESTS)}{after}}}".encode())
    offset = rng.randrange(3 * len(line))
    if offset < len(line):
        line[offset] = rng.choice(HURTS)
    return bytes(line)


def with_array(line: bytes) -> bytes:
    """Returns the line with a nested array as its first member, if it has a brace."""
    return line.replace(b"{", b'{"":[{},[0.5]],', 1)


def number(text: str) -> float:
    """Returns a number with a point or an exponent as a float. Raises `ValueError` if it is too large for one."""
    if math.isinf(float(text)):
        raise ValueError(text)
    return float(text)


def integer(text: str) -> float:
    """Returns an integer of 64 bits without a sign as it is, and any other one as a float. Raises `ValueError` if it is
    too large for one."""
    return int(text) if text.isdigit() and int(text) < 2**64 else number(text)


def refused(text: str) -> float:
    """Raises `ValueError` for the constant `text`, such as NaN, which Python reads and JSON doesn't have."""
    raise ValueError(text)


def levels(value: object) -> int:
    """Returns how many levels of lists a value has. An object counts as a list, because it is read as `Members`. Raises
    `ValueError` for a string with half a surrogate pair."""
    if isinstance(value, str):
        value.encode()  # raises `UnicodeEncodeError`, a `ValueError`, for half a surrogate pair
    return 1 + max(map(levels, value), default=0) if isinstance(value, list) else 0


class Members(list[object]):
    """The keys and values of an object in a list, so that no value is lost if a key occurs twice."""

    def __init__(self, pairs: list[tuple[str, object]]) -> None:
        """Takes the members of an object as Python's JSON reader passes them."""
        super().__init__(part for pair in pairs for part in pair)
        self.last = dict(pairs)


def as_python_reads(line: bytes) -> bytes:
    """Reads a line with Python's JSON reader. Returns a compact object with those of its members whose values are no
    lists or objects. Returns `0` if the line isn't an object, or is nested deeper than the program allows."""
    try:
        value = json.loads(
            line.decode(), object_pairs_hook=Members, parse_float=number, parse_int=integer, parse_constant=refused
        )
        if not isinstance(value, Members) or levels(value) > 127:
            return b"0"  # The program refuses this as malformed, as it refuses the line.
    except ValueError:
        return b"0"
    plain = {key: part for key, part in value.last.items() if part is None or isinstance(part, (bool, int, str))}
    return json.dumps(plain, separators=(",", ":")).encode()


def play_lines(room: Path, lab: Path, lines: list[bytes]) -> tuple[bytes, bytes]:
    """Runs a script of these lines, and returns its replies and its journal. Fails if the program doesn't end well."""
    script, journal = room / "lines.script", room / "lines.journal"
    script.write_bytes(b"".join(line + b"\n" for line in lines))
    found = run(["script", str(lab), str(script), str(journal)], b"", {})
    if found.status != 0 or found.error:
        fail(f"another end of drawn lines: {found}")
    return found.out, journal.read_bytes()


def each_way(room: Path, lab: Path) -> tuple[int, int]:
    """Checks that random lines lead to the same replies and the same journal in each of three forms: as they are drawn,
    and as `with_array` and `as_python_reads` change them. Returns the number of requests and of events."""
    rng = Random(5)
    requests = events = 0
    greetings = [b'1 {"do":"hello","key":"chalk","name":"tess"}', b'2 {"do":"hello","key":"a-key","name":"ana"}']
    for _ in range(LINES // PART):
        drawn = [(rng.choice([b"1", b"1", b"2", b"3", b"4"]), drawn_line(rng)) for _ in range(PART)]
        plainly = play_lines(room, lab, greetings + [b"%s %s" % pair for pair in drawn])
        for way in (with_array, as_python_reads):
            again = play_lines(room, lab, greetings + [b"%s %s" % (one, way(line)) for one, line in drawn])
            if plainly != again:
                pairs = zip(plainly[0].splitlines(), again[0].splitlines(), greetings + [line for _, line in drawn])
                other = next((it for it in pairs if it[0] != it[1]), "the journal")
                fail(f"a line is answered otherwise {way.__name__}: {other}")
        requests += sum(b"malformed" not in reply for reply in plainly[0].splitlines()[len(greetings) :])
        events += plainly[1].count(b"\n")
    return requests, events


def work(room: Path) -> str:
    """Checks all rows and all random lines. Returns a line about them."""
    lab = built_in(room)
    wants(room, lab, ROWS)
    large = room / "many.toml"
    large.write_text(lab.read_text(encoding="ascii").replace("sessions = 4", f"sessions = {MANY}"), encoding="ascii")
    wants(room, large, ON_MANY)
    requests, events = each_way(room, lab)
    # Otherwise nearly all drawn lines would be malformed or nearly none, or too few would have an effect.
    if not (500 < requests < 3500 and 50 < events):
        fail(f"{requests} of {LINES} drawn lines are requests, with {events} events")
    ended = len(ROWS) + len(ON_MANY)
    return f"{ended} scripts end where they should, and {LINES} drawn lines are read alike in three ways"


if __name__ == "__main__":
    in_room(work)
