#!/usr/bin/env python3
"""The whole protocol for a student's or a teacher's program, in one file without other libraries.

    with Client.from_slip("gus.slip") as me:
        look = me.look(4)
        print(me.move(look) if look.rule and not look.chosen else look.at)

By hand: each line that you type is sent, and the reply is printed.
    python3 client.py SLIP [--log FILE]         says hello by the slip in a file; - is the slip in the environment variable CENDUWA_SLIP
    python3 client.py PORT NAME KEYFILE         the same by port, name and key; KEYFILE - is the key in the environment variable CENDUWA_KEY
    python3 client.py PORT                      says no hello: type it yourself
    python3 client.py --tunnel SLIP [PORT]      opens a port of this machine that leads through the slip's door, for any program
Exit status: 0 class over, 1 wrong command line, 2 wrong name or key, 3 wrong node or line, 4 no server, 5 no seat, 6 nothing granted, 7 connection lost
"""
from __future__ import annotations

import difflib
import hashlib
import json
import os
import re
import socket
import sys
import time
from collections.abc import Callable, Iterable
from dataclasses import dataclass
from pathlib import Path
from typing import Any, Literal

Rule = Literal["update", "marriage", "seduction", "abandonment"]
KEY, SLIP = "CENDUWA_KEY", "CENDUWA_SLIP"  # environment variables; other users can't read them
MOST, DEEPEST, DEEP, GREETING, NEXT_LINE = 4096, 127, "values are nested deeper than 127 levels", 10, 600  # of a line; seconds to a hello, and to a next line
LAST = {  # what a class's server says last when it ends a connection, in words
    "late": "no hello was granted within ten seconds, or no line came within ten minutes",
    "long": f"a line had more than {MOST} bytes",
    "over": "the class is over",
}
LOST, LOST_SO = 7, "the connection was lost: start again"
STOPS = {  # why a program stops, with its exit status; 0 means the run's end, 1 a wrong command line, 4 no server
    "unknown": (2, "name and key don't match: take both from your slip"),
    "not-owner": (3, "a node isn't yours: take the nodes from your slip"),
    "hidden": (3, "a node isn't shown to you: take the nodes from your slip"),
    "not-teacher": (3, "only the teacher may do this"),
    "malformed": (3, "the server couldn't read a line as a request: correct the program"),
    "busy": (5, "all seats were taken for a minute: try again later"),
    **dict.fromkeys(("full", "journal"), (6, "nothing is granted any longer: tell your teacher")),
}
NODE, OPTIONS, TOLD, PASSING = "a whole number", ("--log", "--tunnel"), "; --help prints what to type", ("busy", "memory")
KEYS: dict[str, dict[str, str]] = {  # the keys of each request, with the kind of each value
    "hello": {"name": "a string", "key": "a string"}, "bye": {}, "see": {"node": NODE}, "look": {"node": NODE},
    "move": {"node": NODE, "at": NODE, "rule": "a rule"}, "close": {}, "report": {}, "release": {"node": NODE},
    "fault": {"node": NODE, "p": "a whole number or null", "m": "true or false"}, "link": {"a": NODE, "b": NODE}, "cut": {"a": NODE, "b": NODE},
}
RULES = ("update", "marriage", "seduction", "abandonment")
INSTEAD = {"none": "null", "nil": "null", "null": "null", "undefined": "null", "true": "true", "yes": "true", "false": "false", "no": "false"}


class Denied(Exception):
    """A denied line: the clause, a condition of the protocol, that failed: its number, its name for programs (also as `word`), and its text for people.
    After `stale`, `at` is the number of the present configuration, and otherwise None."""

    def __init__(self, clause: int, name: str, text: str, at: int | None = None) -> None:
        super().__init__(f"{name}: {text}")
        self.clause, self.name, self.word, self.text, self.at = clause, name, name, text, at


class Refused(Exception):
    """A refused line. `word` says why: `malformed`, `full`, `journal`, `memory`, or `busy` (no seat was free, or a newcomer needed this one)."""

    def __init__(self, word: str) -> None:
        super().__init__("busy: all seats are taken; try again later" if word == "busy" else word)
        self.word = word


class Malformed(Refused):
    """A line that the server would refuse, and that wasn't sent. Its text says why."""

    def __init__(self, why: str) -> None:
        super().__init__("malformed")
        self.args, self.why = (f"malformed, and not sent: {why}",), why


class Closed(Exception):
    """The connection has ended, or an answer didn't come in time."""


class Over(Closed):
    """The server has closed the connection because the class is over."""


class Silent(Closed):
    """The server has closed the connection without giving a reason, or a reply didn't come in time."""


class NoServer(Closed):
    """No program listens at the port, or one that isn't a server of a class."""


class NoDoor(NoServer):
    """The certificate of the door at an address isn't the one that the slip names."""


class NoSlip(Exception):
    """A slip, or another argument of the command line, that can't be used. The text says why."""


class NotReply(Closed):
    """A line that isn't a reply of the server."""


class Moving(Exception):
    """The nodes couldn't be read in one configuration, because steps were closed in between."""


@dataclass(frozen=True)
class Near:
    """A node and its registers."""
    node: int
    p: int | None
    m: bool


@dataclass(frozen=True)
class See(Near):
    """A node and its registers, and the number of the present configuration."""
    at: int


@dataclass(frozen=True)
class Look(See):
    """The values that a node may read, its enabled rule, and the rule of its chosen move, one that was granted and waits for the close."""
    rule: Rule | None
    chosen: Rule | None
    near: tuple[Near, ...]


@dataclass(frozen=True)
class Move:
    """A granted move: the number `at` of the configuration in which it was asked for, the number `place` of its event, its node and its rule."""
    at: int
    place: int
    node: int
    rule: Rule

    def __str__(self) -> str:
        """Returns the move as a line for people."""
        return f"node {self.node}: {self.rule} granted in configuration {self.at}, as event {self.place}"


@dataclass(frozen=True)
class Close:
    """A closed step: the number `at` of the configuration after it, the number `place` of its event, and the nodes that moved."""
    at: int
    place: int
    moved: tuple[int, ...]


@dataclass(frozen=True)
class Edit:
    """The effect of a fault, link, cut or release."""
    at: int  # the number of the configuration after it
    place: int  # the number of its event
    dropped: int  # how many chosen moves it dropped; one for a release


@dataclass(frozen=True)
class Report:
    """The state of the matching in the configuration `at`. It is stable if no node is privileged."""
    at: int
    stable: bool
    pairs: tuple[tuple[int, int], ...]
    free: tuple[int, ...]  # the nodes that are in no pair
    privileged: tuple[tuple[int, str], ...]  # the nodes at which a rule can be applied, each with the rule
    open: tuple[tuple[int, int, int, str], ...]  # the links between two free nodes, each with a privileged node and its rule


@dataclass(frozen=True)
class Slip:
    """A student's slip: a file with one value per line. A *door* is a TLS address for other machines. It needs the network's name and a fingerprint."""
    port: int
    name: str
    key: str
    nodes: tuple[int, ...]
    door: str = ""  # HOST:PORT, or empty if the slip has no door
    network: str = ""
    fingerprint: str = ""  # the SHA-256 of the door's certificate

    @staticmethod
    def read(path: str | Path) -> Slip:
        """Returns the slip in a file, or for `-` that in the environment variable CENDUWA_SLIP. Raises NoSlip if it can't be read or isn't a slip."""
        lines = [line.split(None, 1) for line in text_of(path, SLIP).splitlines() if not line.startswith("#")]
        it = {words[0]: words[1].strip() for words in lines if len(words) == 2}
        if missing := [word for word in ("port", "name", "key") if word not in it]:
            raise NoSlip(f"{path}: there is no line `{missing[0]} ..`, so this isn't a slip")
        door, network, fingerprint = (it.get(word, "") for word in ("door", "network", "fingerprint"))
        if door and not (door_of(door) and network and re.fullmatch("[0-9a-f]{64}", fingerprint)):
            raise NoSlip(f"{path}: a slip with a door also needs a line `network ..`, and a line `fingerprint ..` with 64 hexadecimal digits "
                         "(0-9, a-f, without colons). Copy the slip from your teacher again")
        return Slip(port_of(it["port"]), it["name"], it["key"], nodes_of(it.get("nodes", "")), door, network, fingerprint)

    @staticmethod
    def of(words: list[str]) -> tuple[Slip, list[str]]:
        """Returns a slip by the arguments SLIP, or PORT NAME KEYFILE and perhaps NODE,.., and the arguments after these. Raises NoSlip if they are wrong."""
        if words and not words[0].isdecimal():
            return Slip.read(words[0]), words[1:]
        if len(words) < 3:
            raise NoSlip(f"write the arguments SLIP, or PORT NAME KEYFILE NODE,..{TOLD}")
        nodes = words[3:4] if words[3:4] and re.fullmatch(r"[\d,]*", words[3]) else []
        return Slip(port_of(words[0]), words[1], key_of(words[2]), nodes_of(*nodes)), words[3 + len(nodes):]


def text_of(path: str | Path, variable: str = "") -> str:
    """Returns the text of a file, or for `-` the value of the environment variable `variable`, if one is named. Raises NoSlip if the text can't be read."""
    if variable and str(path) == "-":
        if variable not in os.environ:
            raise NoSlip(f"the environment variable {variable} isn't set")
        return os.environ[variable]
    try:
        return Path(path).read_text(encoding="utf-8-sig")
    except (OSError, UnicodeDecodeError) as error:
        raise NoSlip(f"{path}: {getattr(error, 'strerror', None) or error}") from None


def key_of(word: str) -> str:
    """Returns the key in the file `word`, which is a slip or has only the key, or for `-` the value of CENDUWA_KEY. Raises NoSlip if it can't be read."""
    text = text_of(word, KEY)
    found = word != "-" and re.search(r"^key\s+(.+)$", text, re.MULTILINE)
    return found[1] if found else text if word == "-" else text.strip()


def port_of(word: str) -> int:
    """Returns the port that an argument names. Raises NoSlip if it isn't a port's number."""
    if not (word.isascii() and word.isdecimal() and 1 <= int(word) <= 65535):
        raise NoSlip(f"{word} isn't a port: write a number from 1 to 65535")
    return int(word)


def door_of(word: str) -> tuple[str, int]:
    """Returns the host and the port in `word`, the address of a door such as `class.example:4700`. Raises NoSlip if it isn't one."""
    host, _, port = word.rpartition(":")
    if not re.fullmatch(r"[A-Za-z0-9.-]+|\[[0-9A-Fa-f:.]+\]", host):
        raise NoSlip(f"{word} isn't the address of a door: write HOST:PORT")
    return host.strip("[]"), port_of(port)


def nodes_of(word: str = "") -> tuple[int, ...]:
    """Returns the nodes in an argument, separated by commas or spaces. Raises NoSlip for anything else."""
    words = word.replace(",", " ").split()
    if not all(node.isascii() and node.isdecimal() for node in words):
        raise NoSlip(f"nodes {word}: write numbers with commas between them, such as 5,6")
    return tuple(map(int, words))


def require_certificate(certificate: bytes | None, slip: Slip) -> None:
    """Raises NoDoor if the certificate doesn't have the slip's fingerprint."""
    if hashlib.sha256(certificate or b"").hexdigest() != slip.fingerprint:
        raise NoDoor(f"the door at {slip.door} has another certificate than your slip names, so nothing was sent")


def tls() -> Any:
    """Returns the TLS settings for a door. Only the fingerprint identifies it, so no authority is asked."""
    import ssl
    it = ssl.SSLContext(ssl.PROTOCOL_TLS_CLIENT)
    it.check_hostname, it.verify_mode = False, ssl.CERT_NONE
    return it


def connect(port: int, limit: float, slip: Slip | None = None, host: str = "127.0.0.1") -> socket.socket:
    """Returns a connection to a port of `host`, or through a slip's door if any, within `limit` seconds. Raises NoServer, NoDoor, or Refused (a full door)."""
    it: Any = None
    try:
        if slip is None or not slip.door:
            return socket.create_connection((host, port), timeout=limit)
        it = socket.create_connection(door_of(slip.door), timeout=limit)
        it = tls().wrap_socket(it, server_hostname=slip.network)
        require_certificate(it.getpeercert(True), slip)
        return it  # type: ignore[no-any-return]
    except (OSError, NoDoor) as error:
        if it is not None:
            it.close()
            if isinstance(error, ConnectionError) or type(error).__name__ in ("SSLEOFError", "SSLZeroReturnError"):  # by name: `ssl` isn't imported.
                raise Refused("busy") from None  # A full door accepts a connection, and closes it at once.
        where = f"door at {slip.door}" if slip and slip.door else f"server at port {port}"
        raise error if isinstance(error, NoDoor) else NoServer(f"no {where}: {error}") from None


class Client:
    """A connection after its hello. Not for several threads at once. All requests, such as `look`, raise the errors of `ask`."""

    def __init__(self, port: int, name: str, key: str, host: str = "127.0.0.1", limit: float = 30.0, connection: socket.socket | None = None) -> None:
        """Says hello by name and key on `connection`, or a new one to `port` of `host`. A reply may take `limit` seconds. Raises Closed, Denied or Refused."""
        self.name, self.port, self.limit, self._rest, self._ended = name, port, limit, b"", False
        self._socket = connection or connect(port, limit, host=host)
        try:
            self.ask(do="hello", name=name, key=key)
        except BaseException as error:
            self._socket.close()
            raise no_server(port, error) or error from None

    @staticmethod
    def from_slip(path: str | Path, limit: float = 30.0) -> Client:
        """Returns a connection by the slip in a file, after its hello. A reply may take `limit` seconds. Raises NoSlip, Closed, Denied or Refused."""
        return Client.of(Slip.read(path), limit)

    @staticmethod
    def of(slip: Slip, limit: float = 30.0) -> Client:
        """Returns a connection by a slip, after its hello. A reply may take `limit` seconds. Raises Closed, Denied or Refused."""
        return Client(slip.port, slip.name, slip.key, limit=limit, connection=connect(slip.port, limit, slip))

    def own_port(self) -> int:
        """Returns the local port of the connection."""
        return int(self._socket.getsockname()[1])

    def hang_up(self) -> None:
        """Closes the connection without a bye."""
        self._ended = True
        self._socket.close()

    def __enter__(self) -> Client:
        return self

    def __exit__(self, kind: type[BaseException] | None, *error: object) -> None:
        """Closes the connection. First says bye if the `with` block ended without an error. If the bye is refused or the connection is lost, raises nothing."""
        try:
            if kind is None and not self._ended:
                self.bye()
        except (Closed, Refused):
            pass
        finally:
            self.hang_up()

    def _line(self) -> bytes:
        """Returns the next line from the server. Raises Silent if the connection has ended or the line doesn't come in time."""
        end = time.monotonic() + self.limit
        while b"\n" not in self._rest:
            try:
                self._socket.settimeout(max(end - time.monotonic(), 0.001))
                more = self._socket.recv(65536)
            except OSError as error:
                self._socket.close()
                raise Silent(f"no answer in {self.limit:g} seconds" if isinstance(error, TimeoutError) else str(error)) from None
            if not more:
                raise Silent("the server has closed the connection")
            self._rest += more
        line, self._rest = self._rest.split(b"\n", 1)
        return line

    def ask(self, **request: object) -> dict[str, Any]:
        """Sends a request, and returns its reply. Raises Malformed, and sends nothing, if the request is wrong, and Denied, Refused or Closed if it fails."""
        if self._ended:
            raise Closed("this connection has ended: make another Client, which says hello again")
        line = line_of(request)
        try:
            self._socket.settimeout(self.limit)
            self._socket.sendall(line + b"\n")
        except OSError:
            pass  # What the server wrote before it hung up is read all the same.
        reply = reply_of(self._line())
        if "deny" in reply:
            raise Denied(reply["clause"], reply["deny"], reply["text"], reply.get("at"))
        if reply.get("refuse") in LAST:
            raise (Over if reply["refuse"] == "over" else Closed)(LAST[reply["refuse"]])
        if "refuse" in reply:
            raise Refused(reply["refuse"])
        return reply

    def see(self, node: int) -> See:
        """Returns the registers of one of your nodes or a neighbour, or for a teacher of any node. Raises Denied for other nodes."""
        it = self.ask(do="see", node=node)
        return See(it["node"], it["p"], it["m"], it["at"])

    def look(self, node: int) -> Look:
        """Returns the values that one of your nodes, or for a teacher any node, may read. Raises Denied for other nodes."""
        it = self.ask(do="look", node=node)
        near = tuple(Near(each["node"], each["p"], each["m"]) for each in it["near"])
        return Look(it["node"], it["p"], it["m"], it["at"], it["rule"], it["chosen"], near)

    def snapshot(self, nodes: Iterable[int], tries: int = 20) -> dict[int, Look]:
        """Returns looks at several nodes in one configuration. Looks at all again if a step was closed in between. Raises Moving after `tries` attempts."""
        wanted = list(nodes)
        for _ in range(tries):
            looks = {node: self.look(node) for node in wanted}
            if len({look.at for look in looks.values()}) <= 1:
                return looks
        raise Moving(f"in {tries} attempts the configuration changed between two looks: try again")

    def move(self, look: Look, rule: Rule | None = None, partner: int | None = None) -> Move:
        """Asks for a move by `rule`, or if it is None by the look's rule, and returns the granted move. A marriage is with `partner`, or if that is None with
        the highest node that points here. Raises Malformed, and asks for nothing, if both rules are None, or if a marriage has neither node."""
        if rule is None and look.rule is None:
            raise Malformed(f"the look at node {look.node} shows no rule: ask for no move there, or name a rule")
        request: dict[str, object] = {"do": "move", "node": look.node, "at": look.at, "rule": rule or look.rule}
        if request["rule"] == "marriage":
            suitors = [near.node for near in look.near if near.p == look.node]
            if partner is None and not suitors:
                raise Malformed(f"no neighbour of node {look.node} points at it: a marriage needs such a partner")
            request["with"] = partner if partner is not None else max(suitors)
        it = self.ask(**request)
        return Move(it["at"], it["place"], it["node"], it["rule"])

    def bye(self) -> None:
        """Says bye, and closes the connection."""
        self.ask(do="bye")
        self.hang_up()

    def close(self) -> Close:
        """Closes the step, which applies all chosen moves at once, for a teacher. Returns which nodes moved."""
        it = self.ask(do="close")
        return Close(it["at"], it["place"], tuple(it["moved"]))

    def fault(self, node: int, p: int | None, m: bool) -> Edit:
        """Sets the registers p and m of a node, for a teacher, and returns what that did."""
        return self._edit(do="fault", node=node, p=p, m=m)

    def link(self, a: int, b: int) -> Edit:
        """Adds the link between the nodes a and b, for a teacher, and returns what that did."""
        return self._edit(do="link", a=a, b=b)

    def cut(self, a: int, b: int) -> Edit:
        """Removes the link between the nodes a and b, for a teacher, and returns what that did."""
        return self._edit(do="cut", a=a, b=b)

    def release(self, node: int) -> Edit:
        """Drops the chosen move of a node, for a teacher, and returns what that did."""
        return self._edit(do="release", node=node)

    def _edit(self, **request: object) -> Edit:
        """Asks for a fault, a link, a cut or a release, and returns what it did. The reply to a release doesn't say that it dropped one move."""
        it = self.ask(**request)
        return Edit(it["at"], it["place"], it.get("dropped", 1))

    def report(self) -> Report:
        """Returns the state of the matching, for a teacher."""
        it = self.ask(do="report")
        lists: dict[str, Any] = {word: tuple(tuple(each) for each in it[word]) for word in ("pairs", "privileged", "open")}
        return Report(it["at"], it["stable"], lists["pairs"], tuple(it["free"]), lists["privileged"], lists["open"])


def no_server(port: int, error: BaseException) -> NoServer | None:
    """Returns the error to raise if a hello failed by `error` because no server of a class is at the port, or None if it failed for another reason."""
    if isinstance(error, NotReply):
        return NoServer(f"another program uses port {port}: it answers {error}")
    return NoServer(f"no server at port {port} answers a hello: {error}") if isinstance(error, Silent) else None


def line_of(request: dict[str, object]) -> bytes:
    """Returns the line of a request. Raises Malformed if the server would refuse it."""
    try:
        line = json.dumps(request)
    except (TypeError, ValueError) as error:
        raise Malformed(str(error)) from None
    if why := wrong(line):
        raise Malformed(f"{why}: {line}")
    return line.encode()


def reply_of(line: bytes) -> dict[str, Any]:
    """Returns the reply in a line. Raises NotReply if it isn't one."""
    try:
        reply = json.loads(line)
    except ValueError:
        reply = None
    if not isinstance(reply, dict) or not reply.keys() & {"ok", "deny", "refuse"}:
        raise NotReply(repr(line[:60].decode(errors="replace")))
    return reply


def stop(error: Exception) -> tuple[int, str]:
    """Returns the exit status and the message with which a program stops because of this error."""
    if isinstance(error, Denied | Refused) and error.word in STOPS:
        status, sentence = STOPS[error.word]
        return status, str(error) if isinstance(error, Malformed) else sentence
    if isinstance(error, NoSlip):
        return 1, str(error)
    if isinstance(error, NoServer):
        return 4, f"{error}; ask your teacher for {'a new slip' if isinstance(error, NoDoor) else 'the port'}"
    if isinstance(error, Over):
        return 0, "the run is over"
    return (LOST, f"{LOST_SO} ({error})") if isinstance(error, Closed) else (3, str(error))


def goes_on(error: Denied | Refused) -> bool:
    """Returns whether a correct bot may get this error too. Then the bot looks again, and otherwise it stops."""
    return error.word not in STOPS


def enter(slip: Slip, patience: float = 60.0) -> Client:
    """Returns a connection by a slip, after its hello. Retries for `patience` seconds if no seat or memory is free. Raises Closed, Denied or Refused."""
    end = time.monotonic() + patience
    while True:
        try:
            return Client.of(slip)
        except Refused as refused:
            if refused.word not in PASSING or time.monotonic() >= end:
                raise
        time.sleep(1)


def again(slip: Slip, lost: Closed | Refused, patience: float = 60.0) -> Client:
    """Returns a new connection by a slip after the error `lost` ended one. Tries each second while no server, seat or memory is available, and raises `lost`
    after `patience` seconds. Raises any denial, any other refusal, and the end of the class, at once."""
    end = time.monotonic() + patience
    while not isinstance(lost, Over) and time.monotonic() < end:
        time.sleep(1)
        try:
            return Client.of(slip)
        except (Closed, Refused) as error:
            if isinstance(error, Over | NoDoor) or isinstance(error, Refused) and error.word not in PASSING:
                raise
    raise lost


def run(program: Callable[[list[str]], None], usage: str) -> None:
    """Calls `program` with the arguments, or exits with `usage` for none or --help. Exits with a line and a status after Denied, Refused, Closed or NoSlip."""
    words = sys.argv[1:]
    if not words or words[0] in ("-h", "--help"):
        sys.exit(usage)
    try:
        program(words)
    except (Denied, Refused, Closed, NoSlip) as error:
        status, sentence = stop(error)
        print(f"{Path(sys.argv[0]).name}: {sentence}", file=sys.stderr)
        sys.exit(status)
    except BrokenPipeError:  # Nobody reads what it prints. Python writes the rest at the exit, and that mustn't fail again.
        os.dup2(os.open(os.devnull, os.O_WRONLY), sys.stdout.fileno())
        sys.exit(141)
    except KeyboardInterrupt:
        sys.exit(130)


def is_a(kind: str, value: object) -> bool:
    """Returns whether a value in a request has that kind, which is one of the texts in KEYS."""
    number = type(value) is int and 0 <= value < 2**64
    return {NODE: number, "a whole number or null": number or value is None, "a string": isinstance(value, str),
            "true or false": isinstance(value, bool), "a rule": value in RULES}[kind]


def kind_in_words(value: object) -> str:
    """Returns a text with the kind of a value, for a message about a wrong kind. A number out of range is named as such."""
    kinds = {bool: "true or false", str: "a string", type(None): "null", dict: "an object", list: "a list", float: "a number with a point or exponent"}
    return NODE if is_a(NODE, value) else kinds.get(type(value), "a number out of range")


def wrong(line: str) -> str | None:
    """Returns what is wrong with a line as a request, or None if nothing is. A key that occurs twice is wrong too."""
    if len(sent(line)) > MOST:
        return f"the line has more than {MOST} bytes: the server closes the connection"
    if line.startswith("\ufeff"):
        return "the line begins with a byte order mark: leave it out"
    if "\n" in line or "\r" in line:
        return "there are several lines: a request is one line"
    if foreign := re.search("[\ud800-\udfff]", line):
        return f"the line isn't UTF-8 at byte {len(sent(line[:foreign.start()])) + 1}"
    doubled, strange = list[str](), list[str]()

    def noting_doubled(pairs: list[tuple[str, Any]]) -> dict[str, Any]:
        """Returns a dict of the keys and values in `pairs`. If a key occurs twice, keeps the last value, and adds the key to `doubled`."""
        names = [name for name, _ in pairs]
        doubled.extend(name for name in names if names.count(name) > 1)
        return dict(pairs)

    try:
        asked = json.loads(line, object_pairs_hook=noting_doubled, parse_int=whole, parse_constant=strange.append)
    except json.JSONDecodeError as error:
        if error.pos >= len(line.rstrip()) and line.strip():
            return "the line isn't JSON: the object isn't closed by } at the end of the line"
        return f"the line isn't JSON at byte {len(sent(line[:error.pos])) + 1}{hint_for_json(line, error)}"
    except RecursionError:
        return DEEP
    if strange:
        return f"the line isn't JSON: JSON has no number {strange[0]}"
    return wrong_value(asked) or wrong_keys(asked) or (f"the key {doubled[0]} occurs twice, and only the last value counts" if doubled else None)


def hint_for_json(line: str, error: json.JSONDecodeError) -> str:
    """Returns a hint how to correct a line that isn't JSON, in parentheses, or an empty text if none is known. `error` is that of the JSON reader."""
    rest, before = line[error.pos:], line[:error.pos].rstrip()
    word = (re.match(r"\w*", rest) or [""])[0]
    rows = (
        (not before and rest[:1] != "'", 'a request is an object, such as {"do":"bye"}'),
        (rest[:1] == "'", "write double quotes"),
        (rest[:1] in tuple("\u201c\u201d\u201e\u00ab\u00bb"), "write straight double quotes"),
        (rest[:1] in ("#", "/"), "JSON has no comments"),
        (before.endswith(",") and rest[:1] in ("}", ",", "]"), "leave out the comma before this byte"),
        (error.msg.startswith("Unterminated"), "the text that begins there has no closing double quote"),
        (error.msg.startswith("Extra"), "leave out what follows the object"),
        (word.lower() in INSTEAD and before.endswith(":"), f"write {INSTEAD.get(word.lower())}"),
        (before.endswith("0") and word[:1].isdecimal(), f"write {word.lstrip('0') or '0'}, without a zero before it"),
        (before.endswith("0") and word[:1] == "x", "write the number in decimal digits"),
        (rest[:1] == "+", f"write {rest[1:].rstrip('} ')}, without a sign"),
        (before.endswith('"') and word[:1].isalpha(), "a double quote is missing before this byte"),
        (word[:1].isalpha(), f'write "{word}", in double quotes'),
        (rest[:1] == "=", "write : between key and value"),
        ("':' delimiter" in error.msg, "write : after the key"),
        ("',' delimiter" in error.msg, "write a comma before this byte"),
        ("control character" in error.msg, "a text has no control characters: write \\t for a tab"),
    )
    return next((f" ({text})" for holds, text in rows if holds), "")


def meant(word: str, known: Iterable[str]) -> str:
    """Returns the word of `known` that is most similar to `word`, as a question in parentheses, or an empty text if none is similar."""
    found = difflib.get_close_matches(word.lower(), list(known), 1, 0.6)
    return f" (did you mean {found[0]}?)" if found else ""


def hint_for_value(kind: str, value: object) -> str:
    """Returns a correction of a value that has the wrong kind, in parentheses, or an empty text if none is known."""
    text = value.strip() if isinstance(value, str) else ""
    if isinstance(value, list) and len(value) == 1 and is_a(kind, value[0]):
        return f" (write {json.dumps(value[0])}, without brackets)"
    if kind == "a rule":
        return meant(text, RULES)
    if "number" in kind and isinstance(value, float) and value.is_integer():
        return f" (write {int(value)}, without a point)"
    word = text if kind == NODE else INSTEAD.get(text.lower(), text)
    if "number" in kind and word.isascii() and word.isdecimal() or word in ("null", "true", "false"):
        return f" (write {word}, without quotes)"
    if kind == "true or false" and value in (0, 1):
        return f" (write {str(value == 1).lower()})"
    return f' (write "{value}", in double quotes)' if kind == "a string" and is_a(NODE, value) else ""


def hint_for_key(key: str, asked: dict[str, Any]) -> str:
    """Returns a hint, in parentheses or empty, about the missing key `key` of `asked`: the key that was perhaps written instead, or what `with` means."""
    if key == "do" and (word := next((each for each in asked if each in KEYS), None)):
        return f' (write {{"do":"{word}"}} for {word})'
    near = next((each for each in asked if each not in ("do", key) and (each.lower() == key or meant(each, [key]))), None)
    return f" (you wrote {near})" if near else " (it names the neighbour that points at the node)" if key == "with" else ""


def sent(line: str) -> bytes:
    """Returns the bytes to send for a line. Bytes that weren't UTF-8 when the line was read are restored."""
    return line.encode(errors="surrogateescape")


def whole(text: str) -> int | float:
    """Returns the integer in a text. Returns -1 if it has a sign, because it is out of range then, and infinity if it is too large for a double."""
    return -1 if text.startswith("-") else int(text) if float(text) < float("inf") else float("inf")


def wrong_value(value: object, deep: int = 1) -> str | None:
    """Returns what is wrong with a value under any key, or None: half a surrogate pair, infinity, or more than DEEPEST levels. `deep` is its own level."""
    if isinstance(value, str) and any("\ud800" <= char <= "\udfff" for char in value):
        return "a text has only half of a surrogate pair"
    if isinstance(value, float) and abs(value) == float("inf"):
        return "a number is too large"
    if not isinstance(value, dict | list):
        return None
    if deep > DEEPEST:
        return DEEP
    each = [*value, *value.values()] if isinstance(value, dict) else value
    return next((found for it in each if (found := wrong_value(it, deep + 1))), None)


def wrong_keys(asked: object) -> str | None:
    """Returns what is wrong with a request's keys or with the kinds of their values, or None if nothing is. `asked` may be any JSON value."""
    if not isinstance(asked, dict):
        return f"the line is {kind_in_words(asked)}, not an object"
    if "do" not in asked:
        return f'the key "do" is missing{hint_for_key("do", asked)}'
    word = asked["do"]
    if not isinstance(word, str) or word not in KEYS:
        return f"there is no request {json.dumps(word)}{meant(word, KEYS) if isinstance(word, str) else ''}"
    keys = KEYS[word] | ({"with": NODE} if asked.get("rule") == "marriage" and word == "move" else {})
    for key, kind in keys.items():
        if key not in asked:
            return f'the key "{key}" is missing{hint_for_key(key, asked)}'
        if not is_a(kind, asked[key]):
            it = f'"{asked[key]}"' if kind == "a rule" and isinstance(asked[key], str) else kind_in_words(asked[key])
            return f"{key} is {it}, not {'one of ' + ', '.join(RULES) if kind == 'a rule' else kind}{hint_for_value(kind, asked[key])}"
    return None


class ByHand:
    """A conversation with a server in which each line is typed."""

    def __init__(self, slip: Slip | None, port: int, log: Path | None, limit: float = 30.0) -> None:
        """Connects by `slip` and says its hello, or if it is None only connects to `port`, within `limit` seconds. All lines are
        appended to the file `log`, if any. Raises NoServer, NoDoor or Refused if it can't connect, and NotReply or NoServer if another program answers."""
        self.log, self.port, self.since, self.greeted, self.ended = log, port, time.monotonic(), False, False
        self.connection = connect(port, limit, slip)
        self.answers = self.connection.makefile("rb")
        if slip is not None:
            self.send(json.dumps({"do": "hello", "name": slip.name, "key": slip.key}), typed=False)
        self.connection.settimeout(None)

    def keep(self, line: str) -> None:
        """Appends a line to the log, if there is one. If that fails, prints a note and stops logging."""
        try:
            if self.log is not None:
                with self.log.open("a", encoding="utf-8", errors="surrogateescape") as it:
                    it.write(f"{time.strftime('%H:%M:%S')} {line}\n")
        except OSError as error:
            self.note(f"{self.log}: {error.strerror}, so no more lines are logged")
            self.log = None

    def note(self, text: str) -> None:
        """Prints a note of the client to standard error."""
        print(f"client: {text}", file=sys.stderr, flush=True)

    def send(self, line: str, typed: bool = True) -> None:
        """Sends a line, prints the reply, and sets `ended` at the connection's end. First prints what is wrong with a line if it was `typed`. Logs no key.
        Raises NotReply or NoServer if another program seems to be at the port."""
        if typed and (note := wrong(line)):
            self.note(note)
            self.keep(f"! {note}")
        self.keep("> " + re.sub(r'("key" *: *)"[^"]*"', r'\1".."', line))
        waited, self.since = time.monotonic() - self.since, time.monotonic()
        try:
            self.connection.sendall(sent(line) + b"\n")
            answer = self.answers.readline().decode(errors="replace").rstrip("\n")
        except OSError:
            answer = ""
        if why := self.why(line, answer, waited):
            answer = f"the server has closed the connection: {why}"
        print(answer, flush=True)
        self.keep(f"< {answer}")
        self.ended = '"ok":"bye"' in answer or "closed the connection" in answer or '"refuse":"busy"' in answer
        self.greeted = self.greeted or '"ok":"hello"' in answer

    def why(self, line: str, answer: str, waited: float) -> str | None:
        """Returns why the connection ended, or None if it continues or the reply itself says it, as `bye` and `busy` do. `answer` is the reply to `line`, or
        empty, and `waited` are the seconds since the line before. Raises NotReply or NoServer if another program seems to be at the port."""
        try:
            if answer:
                return LAST.get(reply_of(answer.encode()).get("refuse", ""))
        except NotReply as error:
            other = None if self.greeted else no_server(self.port, error)
            raise other or error from None
        if len(sent(line)) > MOST:
            return LAST["long"]
        if not self.greeted and waited < GREETING:
            raise NoServer(f"no server at port {self.port} answers a hello")
        if not self.greeted:
            return "no hello was granted within ten seconds"
        return "no line came for ten minutes" if waited >= NEXT_LINE else "the class is over, or the connection was lost"


async def carry(reader: Any, writer: Any) -> None:
    """Copies bytes from a stream reader to a stream writer until the reader is at its end."""
    while more := await reader.read(65536):
        writer.write(more)
        await writer.drain()


async def tunnel(slip: Slip, port: int) -> None:
    """Forwards each connection to a local port through the slip's door. Raises NoSlip if the port can't be used, and NoServer, NoDoor or Refused if the
    door can't."""
    import asyncio

    async def lead(reader: Any, writer: Any) -> None:
        """Forwards a program's connection, `reader` and `writer`. After the program ends its side, waits up to five seconds for the last replies.
        Prints an error line if the door can't be reached or has another certificate."""
        try:
            far, near = await asyncio.open_connection(*door_of(slip.door), ssl=tls(), server_hostname=slip.network)
            require_certificate(near.get_extra_info("ssl_object").getpeercert(True), slip)
            both = asyncio.ensure_future(carry(reader, near)), asyncio.ensure_future(carry(far, writer))
            await asyncio.wait(both, return_when=asyncio.FIRST_COMPLETED)
            await asyncio.wait(both[1:], timeout=5.0)
            await asyncio.gather(*(it for it in both if it.cancel() or it.done()), return_exceptions=True)  # Cancels what still runs, and waits for both.
            near.close()
        except (OSError, NoDoor) as error:
            print(f"client: can't connect through the door at {slip.door}: {error}", file=sys.stderr, flush=True)
        writer.close()

    connect(port, 30.0, slip).close()  # Fails at once if the door can't be reached.
    try:
        server = await asyncio.start_server(lead, "127.0.0.1", port)
    except OSError as error:
        raise NoSlip(f"port {port} of this machine can't be used: {error.strerror}; --tunnel SLIP PORT uses another port") from None
    print(f"port {port} of this machine leads through the door at {slip.door} to the network {slip.network}; Ctrl-C closes the tunnel", flush=True)
    await server.serve_forever()


def by_hand(words: list[str]) -> None:
    """Does what the arguments ask: sends lines of input to a server, or opens a tunnel. Raises NoSlip for arguments that don't fit this file's usage."""
    if strange := [word for word in words if word.startswith("--") and word not in OPTIONS]:
        raise NoSlip(f"{strange[0]}: there is no such option{meant(strange[0], OPTIONS)}{TOLD}")
    if words[0] == "--tunnel":
        import asyncio
        far, rest = Slip.of(words[1:])
        if problem := "the slip has no line `door ..`: use ssh (docs/STUDENT.md)" if not far.door else "there are too many arguments" if len(rest) > 1 else "":
            raise NoSlip(f"--tunnel SLIP [PORT]: {problem}{TOLD}")
        return asyncio.run(tunnel(far, port_of(rest[0]) if rest else far.port))
    log = None
    if "--log" in words:
        index = words.index("--log")
        if index + 1 == len(words):
            raise NoSlip(f"--log needs the name of a file{TOLD}")
        log, words = Path(words[index + 1]), words[:index] + words[index + 2:]
    slip, surplus = (None, list[str]()) if len(words) == 1 and words[0].isdecimal() else Slip.of(words)
    if surplus:
        raise NoSlip(f"{surplus[0]}: this argument is one too many{TOLD}")
    talk = ByHand(slip, slip.port if slip else port_of(words[0]), log)
    for line in [] if talk.ended else open(0, encoding="utf-8", errors="surrogateescape", newline="\n", closefd=False):
        talk.send(line.rstrip("\r\n"))
        if talk.ended:
            break


if __name__ == "__main__":
    if sys.argv[1:2] in (["-h"], ["--help"]):
        print((__doc__ or "").strip())
    else:
        run(by_hand, (__doc__ or "").strip())
