"""The port to which programs under test connect. The relay passes each line to a function that answers it, and counts
pauses, connections and mistakes.

The relay also imitates what a class's server does during a run: it turns newcomers away, ends with its class, or is
gone for a while. Each connection, a *caller*, has a number, by which the answering function identifies it.
"""
from __future__ import annotations

import errno
import selectors
import socket
import time
from collections import deque
from collections.abc import Callable

from classroom.core import limits

MOST_WAITING = 1 << 16  # bytes of unsent replies from which on no more lines of a caller are read
PAUSE = 2  # turns in a row without a line that count as a pause
# A function that returns the reply to a line, by the connection's number, the line, and whether it came after a pause.
Answer = Callable[[int, bytes, bool], bytes]
BUSY, OVER = b'{"refuse":"busy"}\n', b'{"refuse":"over"}\n'
MOST_CALLS = 1000  # connections whose times are kept
APART = 0.02  # seconds between two pieces of a reply that is sent in pieces


class Caller:
    """A connection, with its number, its incomplete line and the replies that aren't sent yet."""

    def __init__(self, its: socket.socket, number: int) -> None:
        """Begins without lines and replies. `its` is the connection's socket, and `number` the connection's number in
        the class."""
        self.socket, self.number = its, number
        self.rest, self.out = b"", b""
        self.is_leaving = False  # Whether the connection is closed as soon as its replies are sent.
        self.quiet = PAUSE + 1  # turns since its last line; its first line counts as one after a pause
        self.held = 0.0  # the time before which no more of a reply is sent


class Relay:
    """A listening socket and its connections. One thread serves all of them."""

    def __init__(self, answer: Answer, left: Callable[[int], None], numbers: range, port: int = 0) -> None:
        """Listens at a port, or at any free one if it is 0. `answer` returns the reply to a line of a connection. The
        third argument of `answer` says whether the line came after a pause. If `answer` returns no bytes, the
        connection is closed. `left` is called with the number of each connection that has ended. Connections get the
        numbers in `numbers`. Raises `OSError` if the port is taken, and `Fault` if the proved program isn't built,
        since it prints the limit of a line."""
        self.answer, self.left = answer, left
        self.free = list(numbers)
        self.longest = limits.allowed().line
        self.callers: list[Caller] = []
        self.came = 0  # the number of accepted connections
        self.calls: deque[float] = deque(maxlen=MOST_CALLS)  # the times of the last connections, accepted or not
        self.busy = False  # whether all new connections are answered `busy`
        self.piece = 0  # the most bytes of a reply that are sent at once; 0 is no limit
        self.overlong = False  # whether the part of a caller's line that had come without its newline was longer than the limit
        self.quits = 0  # the number of connections that the callers ended
        self.listener = socket.create_server(("127.0.0.1", port), backlog=32)
        self.listener.setblocking(False)
        self.port: int = self.listener.getsockname()[1]
        self.selector = selectors.DefaultSelector()
        self.selector.register(self.listener, selectors.EVENT_READ)

    def listen_at(self, listener: socket.socket) -> None:
        """Closes the present listening socket, and uses `listener` from now on."""
        self.selector.unregister(self.listener)
        self.listener.close()
        self.listener = listener
        self.listener.setblocking(False)
        self.selector.register(self.listener, selectors.EVENT_READ)

    def turn(self, seconds: float) -> None:
        """Accepts new connections, answers the lines that have come, and sends the replies that are due. If there are
        none of these, waits for the first, `seconds` at most. Counts a turn without a line for each caller that sends
        none."""
        for each in list(self.callers):
            each.quiet += 1
            if each.held:
                self.serve(each, 0)
        for key, events in self.selector.select(seconds):
            if key.fileobj is self.listener:
                self.accept()
                continue
            self.serve(key.data, events)

    def serve(self, caller: Caller, events: int) -> None:
        """Reads from a caller if `events` says that bytes have come, answers its lines, and sends its replies. Closes
        the connection on an error."""
        try:
            if events & selectors.EVENT_READ:
                self.read(caller)
            self.send_replies(caller)
        except OSError:
            self.hang_up(caller)

    def connections(self, seconds: float) -> int:
        """Returns how many connections came in the last `seconds`, including those that were turned away."""
        since = time.monotonic() - seconds
        return sum(when >= since for when in self.calls)

    def accept(self) -> None:
        """Accepts a connection if a number is free and the relay isn't `busy`. Otherwise sends the line `busy` and
        closes it. Does nothing if the connection has gone already."""
        try:
            its, _ = self.listener.accept()
        except OSError:
            return
        its.setblocking(False)
        self.calls.append(time.monotonic())
        if self.busy or not self.free:
            try:
                its.send(BUSY)
            except OSError:
                pass
            its.close()
            return
        caller = Caller(its, self.free.pop(0))
        self.callers.append(caller)
        self.came += 1
        self.selector.register(its, selectors.EVENT_READ, caller)

    def read(self, caller: Caller) -> None:
        """Reads from a caller, and answers its complete lines. Marks the caller as leaving after a bye, after a line
        that is too long, and at the end of its lines. Answers no line after the first two of these. Counts a bye and
        such an end in `quits`. Raises `OSError` if the connection is broken, or if `answer` returns no bytes."""
        more = caller.socket.recv(MOST_WAITING)
        *lines, caller.rest = (caller.rest + more).split(b"\n")
        for line in lines:
            if len(line) > self.longest or caller.is_leaving:
                caller.is_leaving = True
                return
            reply = self.answer(caller.number, line, caller.quiet > PAUSE)
            caller.quiet = 0
            if not reply:
                raise ConnectionError
            caller.out += reply + b"\n"
            caller.is_leaving = reply == b'{"ok":"bye"}'
            self.quits += caller.is_leaving
        has_quit, is_overlong = not more and not caller.is_leaving, len(caller.rest) > self.longest
        self.quits += has_quit
        self.overlong = self.overlong or is_overlong
        caller.is_leaving = caller.is_leaving or has_quit or is_overlong

    def send_replies(self, caller: Caller) -> None:
        """Sends as much of a caller's replies as its socket accepts, and chooses the events to wait for. If `piece`
        isn't 0, sends at most that many bytes, and the next ones APART seconds later. Closes the connection if the
        caller is leaving and has all its replies."""
        now = time.monotonic()
        if caller.out and now >= caller.held:
            try:
                caller.out = caller.out[caller.socket.send(caller.out[:self.piece or None]):]
            except BlockingIOError:
                pass
            caller.held = now + APART if self.piece and caller.out else 0.0
        if caller.is_leaving and not caller.out:
            self.hang_up(caller)
            return
        wants = selectors.EVENT_WRITE if caller.out and not caller.held else 0
        wants |= selectors.EVENT_READ if len(caller.out) < MOST_WAITING and not caller.is_leaving else 0
        self.selector.modify(caller.socket, wants, caller)

    def has_partial_line(self) -> bool:
        """Returns whether a caller has sent a part of a line without its newline. That is also the case if such a part
        was too long, so that its connection was closed."""
        return self.overlong or any(caller.rest for caller in self.callers)

    def hang_up(self, caller: Caller) -> None:
        """Closes a caller's connection, frees its number, and calls `left`."""
        self.selector.unregister(caller.socket)
        caller.socket.close()
        self.callers.remove(caller)
        self.free.append(caller.number)
        self.left(caller.number)

    def hang_up_all(self) -> None:
        """Closes all connections, and calls `left` for each."""
        for caller in list(self.callers):
            self.hang_up(caller)

    def end_all(self, last: bytes) -> None:
        """Sends the replies that are due and the line `last` on all connections, closes them, and calls `left` for
        each."""
        for caller in list(self.callers):
            try:
                caller.socket.send(caller.out + last)
            except OSError:
                pass
            self.hang_up(caller)

    def end_class(self) -> None:
        """Sends every caller the line that the class is over, closes all connections, and stops listening."""
        self.end_all(OVER)
        self.pause()

    def pause(self) -> None:
        """Stops listening, as if the server were gone. Doesn't close connections. `resume` listens again at the same
        port."""
        self.selector.unregister(self.listener)
        self.listener.shutdown(socket.SHUT_RDWR)  # The socket stops listening, but keeps the port.

    def resume(self) -> None:
        """Listens at the port again after `pause`. Raises `OSError` if another program has the port by now."""
        try:
            self.listener.bind(("127.0.0.1", self.port))
        except OSError as error:
            if error.errno != errno.EINVAL:  # EINVAL: the socket is still bound to the port.
                raise
        self.listener.listen(32)
        self.selector.register(self.listener, selectors.EVENT_READ)

    def close(self) -> None:
        """Closes the port and all connections. Doesn't call `left`."""
        for caller in list(self.callers):
            self.selector.unregister(caller.socket)
            caller.socket.close()
        self.callers.clear()
        self.selector.close()
        self.listener.close()
