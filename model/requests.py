"""Requests: which lines are requests, and their values."""
import json
import math
import re
from collections.abc import Iterable
from dataclasses import dataclass
from typing import Any, NoReturn

from model.world import RULES, Move

GREATEST = 2**64 - 1
DEEPEST = 127
STRING = re.compile(r'"(?:[^"\\]|\\.)*"')


@dataclass(frozen=True)
class Request:
    """The word of a request, and the values of its keys. The other values are never read."""

    do: str
    name: str = ""
    key: str = ""
    node: int = 0
    at: int = 0
    move: Move = Move("update")
    p: int | None = None
    m: bool = False
    a: int = 0
    b: int = 0


class Malformed(ValueError):
    """Raised if a line isn't a request."""


def no_constant(word: str) -> NoReturn:
    """Raises `Malformed` for NaN and the infinities, which Python reads and JSON doesn't have."""
    raise Malformed(word)


def finite(text: str) -> float:
    """Returns the value of `text`, a number with a point or an exponent. Raises `Malformed` if it is beyond the greatest double."""
    value = float(text)
    if not math.isfinite(value):
        raise Malformed("a number out of range")
    return value


def integer(text: str) -> float | int:
    """Returns the value of an integer, as an `int` from 0 to 2^64 - 1, and otherwise as a `float`. Raises `Malformed` beyond the greatest double."""
    value = finite(text)
    return int(text) if not text.startswith("-") and int(text) <= GREATEST else value  # No key of a request may have a float.


def check_letters(value: Any) -> None:
    """Raises `Malformed` if a string, or one in a list, contains half of a surrogate pair. Objects were checked before, by `members`."""
    if isinstance(value, str) and any("\ud800" <= letter <= "\udfff" for letter in value):
        raise Malformed("a lone surrogate")
    if isinstance(value, list):
        for item in value:
            check_letters(item)


def members(items: Iterable[tuple[str, Any]]) -> dict[str, Any]:
    """Returns an object's members from its keys and values. If a key occurs twice, the last value counts. Raises
    `Malformed` if a string in them contains half of a surrogate pair."""
    found = {}
    for key, value in items:
        check_letters(key)
        check_letters(value)
        found[key] = value
    return found


def depth(text: str) -> int:
    """Returns how deep the brackets in a JSON text are nested."""
    deepest = now = 0
    for letter in STRING.sub("", text):
        now += (letter in "[{") - (letter in "]}")
        deepest = max(deepest, now)
    return deepest


def document(line: bytes) -> dict[str, Any]:
    """Returns the object in a line of strict JSON. Raises `Malformed` or another `ValueError` for any other line."""
    text = line.decode("utf-8")
    if depth(text) > DEEPEST:
        raise Malformed("nested too deep")
    value = json.loads(text, parse_int=integer, parse_float=finite, parse_constant=no_constant, object_pairs_hook=members)
    if not isinstance(value, dict):
        raise Malformed("no object")
    return value


def named(value: dict[str, Any], key: str, *kinds: type) -> Any:
    """Returns the value of a key in an object. Raises `Malformed` if the key is missing or its value has none of these types."""
    if key not in value or type(value[key]) not in kinds:
        raise Malformed(key)
    return value[key]


def move_of(value: dict[str, Any]) -> Move:
    """Returns the rule of the move that `value` requests, with the partner if the rule is a marriage. Raises `Malformed` if they have another form."""
    rule = named(value, "rule", str)
    if rule not in RULES:
        raise Malformed("rule")
    return Move(rule, named(value, "with", int)) if rule == "marriage" else Move(rule)


def request_of(value: dict[str, Any]) -> Request:
    """Returns the request in an object. Raises `Malformed` if the object has another form."""
    do = named(value, "do", str)
    if do == "hello":
        return Request(do, name=named(value, "name", str), key=named(value, "key", str))
    if do in ("see", "look", "release"):
        return Request(do, node=named(value, "node", int))
    if do == "move":
        return Request(do, node=named(value, "node", int), at=named(value, "at", int), move=move_of(value))
    if do == "fault":
        p = named(value, "p", int, type(None))
        return Request(do, node=named(value, "node", int), p=p, m=named(value, "m", bool))
    if do in ("link", "cut"):
        return Request(do, a=named(value, "a", int), b=named(value, "b", int))
    if do in ("bye", "close", "report"):
        return Request(do)
    raise Malformed("do")


def read_request(line: bytes) -> Request | None:
    """Returns the request in a line, or None if it is malformed."""
    try:
        return request_of(document(line))
    except (ValueError, RecursionError):
        return None
