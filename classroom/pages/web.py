"""The base of all servers of pages: limits on connections, a time limit for each request, and the headers of answers.
These servers answer on this machine only."""
from __future__ import annotations

import io
import socket
import sys
import threading
import time
import traceback
from collections.abc import Callable
from http.server import BaseHTTPRequestHandler, ThreadingHTTPServer
from typing import Any, TypeVar

from classroom.core.program import first_free

KEPT = 8192  # the most bytes of news that wait for a page
CONNECTIONS = 32  # the most connections at a time
BACKLOG = 128  # the most connections that wait to be accepted
ASKING = 5.0  # seconds in which a request has to be there
TAKING = 5.0  # seconds in which an answer has to be taken, and of news each piece
DIGITS = 6  # the most digits of a body's size
LONGEST = 300  # the most characters of an error that are printed
POLICY = "default-src 'none'; connect-src 'self'; base-uri 'none'; form-action 'none'; frame-ancestors 'none'"
Opened = TypeVar("Opened", bound="Web")


class Web(ThreadingHTTPServer):
    """A server of pages on 127.0.0.1, with a thread for each connection."""

    daemon_threads = True
    request_queue_size = BACKLOG

    def __init__(self, port: int, asked: type[PageRequest], title: str) -> None:
        """Listens at the port, but doesn't answer before `open`. `asked` is the class that handles a request, and
        `title` the pages' title. Raises `OSError` if the port is taken."""
        super().__init__(("127.0.0.1", port), asked)
        self.title = title
        self.tell: Callable[[str], None] = print
        self.free = threading.BoundedSemaphore(CONNECTIONS)
        self.is_open = False
        self.faults: set[tuple[str, str]] = set()  # the kinds of errors that were printed

    def open(self) -> None:
        """Starts to answer, in a thread of its own. Does nothing if the server answers already."""
        if self.is_open:
            return
        self.is_open = True
        threading.Thread(target=self.serve_forever, kwargs={"poll_interval": 0.1}, daemon=True).start()

    def close(self) -> None:
        """Stops answering, and closes the port. Connections that are open already aren't closed."""
        if self.is_open:
            self.shutdown()
        self.server_close()

    def process_request(self, request: Any, client_address: Any) -> None:
        """Serves the connection `request` in its own thread. Closes it if there are CONNECTIONS others already, or if
        no thread can be made."""
        if not self.free.acquire(blocking=False):
            return self.shutdown_request(request)
        try:
            super().process_request(request, client_address)
        except RuntimeError:
            self.free.release()
            self.shutdown_request(request)

    def process_request_thread(self, request: Any, client_address: Any) -> None:
        """Serves the connection `request` to its end."""
        try:
            super().process_request_thread(request, client_address)
        finally:
            self.free.release()

    def handle_error(self, request: Any, client_address: Any) -> None:
        """Prints a line about an error in `request`, but only one for each kind. If the page has only gone away, prints
        nothing."""
        error = sys.exc_info()[1]
        if error is None or isinstance(error, (ConnectionError, TimeoutError)):
            return
        last = traceback.extract_tb(error.__traceback__)[-1]
        kind = type(error).__name__, f"{last.filename}:{last.lineno}"
        if kind not in self.faults:
            self.faults.add(kind)
            self.tell(f"a page couldn't be shown, because of an error in its server: {type(error).__name__}: {error}"[:LONGEST])


class DeadlineReader(io.RawIOBase):
    """The input of a connection with a deadline. Reading after the deadline raises `TimeoutError`."""

    def __init__(self, connection: socket.socket, seconds: float) -> None:
        """Reads from `connection`, until `seconds` seconds from now at the latest."""
        super().__init__()
        self.connection, self.end = connection, time.monotonic() + seconds

    def readable(self) -> bool:
        """Returns true, as `io` asks of an input."""
        return True

    def readinto(self, buffer: Any) -> int:
        """Reads bytes into a buffer, and returns their number. Raises `TimeoutError` if none come before the
        deadline."""
        left = self.end - time.monotonic()
        if left <= 0:
            raise TimeoutError
        self.connection.settimeout(left)
        return self.connection.recv_into(buffer)


class PageRequest(BaseHTTPRequestHandler):
    """A request to a server of pages. Subclasses answer it."""

    def log_message(self, format: str, *words: Any) -> None:
        """Prints nothing, since a request may contain a secret."""

    def setup(self) -> None:
        """Limits the time for the request and the size of the send buffer. With a small buffer, a slow page gets the
        present state rather than old ones."""
        self.request.setsockopt(socket.SOL_SOCKET, socket.SO_SNDBUF, KEPT)
        super().setup()
        self.rfile = io.BufferedReader(DeadlineReader(self.connection, ASKING))

    def reject_foreign_host(self) -> bool:
        """Checks that the request names this machine and this port. If it names another host or another port, as
        through a tunnel, answers with status 421 and the correct address. Returns whether it did so."""
        port = self.connection.getsockname()[1]
        if self.headers.get("Host") in (f"127.0.0.1:{port}", f"localhost:{port}"):
            return False
        text = (f"The address of this page has to begin with http://127.0.0.1:{port}/. Open the address that the run printed. To open it on another "
                f"machine, first leave this command running there: ssh -N -L {port}:127.0.0.1:{port} NAME@HOST\n").encode()
        self.answer(421, "text/plain; charset=utf-8", text)
        return True

    def body(self, most: int) -> bytes | None:
        """Returns the body of a request, or None if it is larger than `most` bytes or its size isn't a number. Raises
        `TimeoutError` if the body doesn't come in time."""
        size = self.headers.get("Content-Length") or "0"
        if not (size.isascii() and size.isdecimal() and len(size) <= DIGITS and int(size) <= most):
            return None
        return self.rfile.read(int(size))

    def answer(self, status: int, kind: str = "", content: bytes = b"", policy: str = "") -> None:
        """Sends a complete answer: its status, its content type `kind`, its content, and the content policy `policy` in
        addition to the common one. Raises `TimeoutError` if the page doesn't take it in time."""
        end = time.monotonic() + TAKING
        self.send_head(status, kind, len(content), policy)
        self.connection.settimeout(max(end - time.monotonic(), 0.001))
        self.wfile.write(content)

    def send_head(self, status: int, kind: str = "", size: int | None = 0, policy: str = "") -> None:
        """Sends the status and the headers of an answer. `kind` is the type of its content, and `policy` is added to
        its Content-Security-Policy. If `size`, the size of the content, is None, the answer ends with the
        connection."""
        self.connection.settimeout(TAKING)
        self.send_response_only(status)
        for name, value in (("Cache-Control", "no-store"), ("Referrer-Policy", "no-referrer"),
                            ("X-Content-Type-Options", "nosniff"), ("Content-Security-Policy", "; ".join(filter(None, (POLICY, policy))))):
            self.send_header(name, value)
        if kind:
            self.send_header("Content-Type", kind)
        if size is not None:
            self.send_header("Content-Length", str(size))
        self.end_headers()


def at_free_port(port: int, make: Callable[[int], Opened]) -> Opened:
    """Returns the server that `make` returns for a port: this one, or the next free one. `make` raises `OSError` if the
    port is taken. Raises `Fault` if no port is free."""
    def at(number: int) -> Opened | None:
        """Returns the server at a port, or None if the port is taken."""
        try:
            return make(number)
        except OSError:
            return None

    return first_free(port, at, "for the page ")
