"""Requests for pages at a door, the port at which students on other machines connect. Only the head of a request is
read, and a new head is written for the server of the page, which answers on this machine only."""
from __future__ import annotations

import re
from dataclasses import dataclass

from classroom.core.folders import Record

MOST_HEAD, MOST_BODY = 8192, 4096  # the most bytes of a request's head, and of its body
METHODS = ("GET", "POST")
KEPT = ("content-type", "accept", "accept-language")  # the headers of a request that are passed on to the page's server
TEXT = "text/plain; charset=utf-8"


class BadRequest(Exception):
    """A request that the door doesn't pass on to a page. The door answers it with a status and a line of text."""

    def __init__(self, status: str, text: str) -> None:
        """`status` is the HTTP status with its name, and `text` the line that the other end is shown."""
        super().__init__(text)
        self.status, self.text = status, text

    def answer(self) -> bytes:
        """Returns the bytes of the HTTP answer."""
        body = f"{self.text}\n".encode()
        head = [f"HTTP/1.0 {self.status}", f"Content-Type: {TEXT}", f"Content-Length: {len(body)}", "Cache-Control: no-store",
                "X-Content-Type-Options: nosniff", "Connection: close", "", ""]
        return "\r\n".join(head).encode() + body


class Redirect(BadRequest):
    """A request whose path lacks the slash at its end."""

    def __init__(self, path: str) -> None:
        """`path` is the path with the slash."""
        super().__init__("308 Permanent Redirect", path)

    def answer(self) -> bytes:
        """Returns the bytes of the HTTP answer, which names the path with the slash."""
        return f"HTTP/1.0 308 Permanent Redirect\r\nLocation: {self.text}\r\nContent-Length: 0\r\nConnection: close\r\n\r\n".encode()


@dataclass(frozen=True)
class RequestHead:
    """The head of a request: its method, its path, and its header fields by their names in lower case."""

    method: str
    path: str
    heads: dict[str, str]

    @staticmethod
    def read(head: bytes) -> RequestHead:
        """Returns the parsed head of a request. Raises `BadRequest` if the head can't be parsed, has a header twice,
        says that the body comes in chunks, or has another method than METHODS."""
        first, *rest = head.decode("latin-1").removesuffix("\r\n\r\n").split("\r\n")
        words = first.split(" ")
        if len(words) != 3 or not words[2].startswith("HTTP/1.") or not re.fullmatch(r"/[!-~]*", words[1]):
            raise BadRequest("400 Bad Request", "this isn't a well-formed HTTP request")
        pairs = [line.partition(":") for line in rest]
        if any(not colon or not re.fullmatch(r"[!#$%&'*+.^_`|~0-9A-Za-z-]+", name) for name, colon, _ in pairs):
            raise BadRequest("400 Bad Request", "this isn't a well-formed HTTP request")
        heads = {name.lower(): value.strip() for name, _, value in pairs}
        # The page's server could understand such a head in another way than the door.
        if len(heads) != len(pairs) or "transfer-encoding" in heads:
            raise BadRequest("400 Bad Request", "this isn't a well-formed HTTP request")
        if words[0] not in METHODS:
            raise BadRequest("405 Method Not Allowed", "the door accepts only requests by GET and POST")
        return RequestHead(words[0], words[1], heads)

    def body_size(self) -> int:
        """Returns the number of bytes that follow the head, its `Content-Length`, or 0 without this header. Raises
        `BadRequest` if it is more than MOST_BODY, or isn't a number of at most six digits."""
        size = self.heads.get("content-length", "0")
        if not re.fullmatch(r"\d{1,6}", size) or int(size) > MOST_BODY:
            raise BadRequest("413 Content Too Large", "this request is too large for the door")
        return int(size)

    def require_host(self, hosts: set[str], port: int) -> None:
        """Raises `BadRequest` unless the head names one of these hosts, with this port. Without this check, a page of
        another site could send requests to the door under a name of that site."""
        host = self.heads.get("host", "").lower()
        if host not in {f"{each.lower()}:{port}" for each in hosts}:
            raise BadRequest("421 Misdirected Request", f"this door doesn't have the address {host!r}. Open the address on your slip")

    def network(self) -> tuple[str, str]:
        """Returns the network's name, which is the first part of the path, and the path below it. Raises `BadRequest`
        if there is no such name, and `Redirect` if the slash after the name is missing."""
        found = re.fullmatch(r"/(?P<name>[a-z][a-z0-9-]*)(?P<below>/.*)?", self.path)
        if found is None:
            raise BadRequest("404 Not Found", "this address doesn't name a network of the class. Open the address on your slip")
        if found["below"] is None:
            raise Redirect(f"/{found['name']}/")
        return found["name"], found["below"]

    def head_for_page(self, port: int, path: str) -> bytes:
        """Returns the bytes of the head to send to the server of a page. `port` is that of the server, and `path` is
        the page's path there. Raises `BadRequest` if the body would be too large."""
        own = [f"{self.method} {path} HTTP/1.0", f"Host: 127.0.0.1:{port}", "Connection: close"]
        kept = [f"{name}: {self.heads[name]}" for name in KEPT if name in self.heads]
        size = [f"Content-Length: {self.body_size()}"] if self.method == "POST" else []
        return "\r\n".join([*own, *kept, *size, "", ""]).encode("latin-1")


def page_of(asked: RequestHead, path: str, record: Record) -> tuple[int, str]:
    """Returns the port of the page for which `asked`, the head of a request, asks, and the path there. `path` is the
    path below the network's name, and `record` has the ports of the network's pages. A path with `look` and the right
    token, the random text in that page's address, leads to the page to look at, and any other path to the page for
    playing by hand. No path leads to a page on which the teacher acts. Raises `BadRequest` if there is no such page."""
    looks = re.fullmatch(r"/look(?P<path>/(?P<token>[A-Za-z0-9_-]+)/[a-z]*)", path)
    if looks is not None:
        is_known = record.page is not None and record.looks and looks["token"] == record.looks
        if not is_known or asked.method != "GET" or record.page is None:
            raise BadRequest("404 Not Found", "there is no page at this address. Open the address on your slip")
        return record.page, looks["path"]
    if record.play is None:
        raise BadRequest("404 Not Found", "this class has no page for playing by hand. Ask your teacher")
    if re.fullmatch(r"/[A-Za-z0-9._-]*", path) is None:
        raise BadRequest("404 Not Found", "there is no page at this address. Open the address on your slip")
    return record.play, path
