"""Random request lines: usual ones, correct ones in unusual spellings, and malformed ones."""
import json
from random import Random
from typing import Any

ODD_NUMBERS = [
    "-0", "-1", "1.0", "1e0", "1E400", "18446744073709551615", "18446744073709551616", "9" * 40, "01", "+1", "NaN",
    "0x1", "",
]
VALUES = ["null", "true", "false", '"1"', "[]", "{}", "[1]", '""']
ODD_VALUES = [*VALUES, '"\\ud800"', '"\\udc00\\ud800"', '"\\ud83d\\ude00"', '"\x01"', "tru", "-"]
ODD_LINES = [
    b"", b" ", b"[1]", b"1", b"null", b'"do"', b"{}", b"{", b"}", b'{"do":"dance"}', b'{"do":1}', b'{"do":"bye"}x',
    b'{"do":"bye",}', b"\xff", b'{"do":"bye","x":"\xc3\xa4"}', b'{"do":"bye","x":"\xc3"}',
    b'{"do":"bye","x":"\xed\xa0\x80"}', b'\xef\xbb\xbf{"do":"bye"}', b'{"do":"bye"}\r', b'\t{ "do" : "bye" } ',
    b'{"do":"bye"\x0b}', b'{"do":"by\\u0065"}', b'{"d\\u006f":"bye"}', b'{"do":"bye","do":"close"}',
    b'{"do":"close","do":"bye"}', b'{"DO":"bye"}', b"{'do':'bye'}", b'{"do":"bye"}{"do":"bye"}', b'{"do":"bye"/**/}',
    b"[" * 128, b'{"do":"bye","x":1e309}', b'{"do":"bye","x":' + b"[" * 126 + b"]" * 126 + b"}",
    b'{"do":"bye","x":' + b"[" * 127 + b"]" * 127 + b"}", b'{"do":"bye","x":"' + b"[" * 200 + b'"}',
    b'{"do":"bye","x":' + b"9" * 400 + b"}", b'{"do":"bye"}' + b" " * 4084, b"[" * 4096,
]


def escaped(rng: Random, text: str) -> str:
    """Returns a text as a JSON string in which each letter may be escaped."""
    letters = (f"\\u{ord(letter):04x}" if rng.random() < 0.3 else json.dumps(letter)[1:-1] for letter in text)
    return '"' + "".join(letters) + '"'


def written(rng: Random, value: Any) -> str:
    """Returns a value as JSON. Each letter of its strings may be escaped."""
    return escaped(rng, value) if isinstance(value, str) else json.dumps(value)


def spelled(rng: Random, request: dict[str, Any]) -> bytes:
    """Returns a line for a request. In one of six cases each, the keys have another order and an unknown one is added,
    or some letters are escaped, or a key is doubled. The line may also have spaces. The request stays the same, since
    the last value of a doubled key counts."""
    items = [[json.dumps(key), json.dumps(value)] for key, value in request.items()]
    kind = rng.randrange(6)
    if kind == 0:
        rng.shuffle(items)
        items.append(['"colour"', rng.choice(['{"do":"bye"}', "1.5", "[null,-1,1e3]", '"\\u00e4"', '"\u00e4"'])])
    if kind == 1:
        items = [[escaped(rng, key), written(rng, value)] for key, value in request.items()]
    if kind == 2:
        doubled = rng.choice(items)[0]
        items.insert(0, [doubled, rng.choice(VALUES)])
    space = rng.choice(["", "", "", " ", "\t", " \r"])
    text = ",".join(f"{space}{key}{space}:{space}{value}{space}" for key, value in items)
    return f"{space}{{{text}}}{space}".encode()


def hurt(rng: Random, line: bytes) -> bytes:
    """Returns a line with one byte changed, added or left out."""
    at = rng.randrange(len(line))
    byte = bytes([rng.choice(b'"{}[]:,0-9.eE\\ux /\x00\xff') if rng.random() < 0.7 else rng.randrange(256)])
    kind = rng.randrange(3)
    return (line[:at] + (b"" if kind == 0 else byte) + line[at + (kind != 2) :]).replace(b"\n", b" ")


def odd(rng: Random, request: dict[str, Any]) -> bytes:
    """Returns a line that is malformed or looks so: one of ODD_LINES, or a request with a changed byte, without one of
    its keys, or with an odd value for this key."""
    kind = rng.randrange(4)
    if kind == 0:
        return rng.choice(ODD_LINES)
    if kind == 1:
        return hurt(rng, spelled(rng, request))
    without = dict(request)
    key = rng.choice(list(request))
    del without[key]
    if kind == 2:
        return json.dumps(without).encode()
    value = rng.choice(ODD_NUMBERS + ODD_VALUES)
    return f'{json.dumps(without)[:-1]}{"," if without else ""}"{key}":{value}}}'.encode()
