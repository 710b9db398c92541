"""One connection at a door, from its TLS handshake to its end. The *door* is the port at which students on other
machines connect. The door forwards the bytes of a program to the students' port of a network, and a browser's request
to the server of a page. An *origin* is the address by which connections are counted."""
from __future__ import annotations

import asyncio
import socket
import ssl
from dataclasses import dataclass

from classroom.door.asking import MOST_HEAD, BadRequest, RequestHead, page_of
from classroom.door.bounds import Bounds, Handshake
from classroom.door.routes import Routes
from classroom.door.secured import CHUNK, TAKING, WAITING, Secured

HANDSHAKE = 5.0  # seconds in which a handshake has to be done
FIRST = 10.0  # seconds in which a first byte has to come, as at the students' port a hello
ASKING = 5.0  # seconds in which the head of a request has to be there, and its body
LATE = b'{"refuse":"late"}\n'  # the line with which the students' port refuses a late hello
BROKEN = (OSError, EOFError, TimeoutError, asyncio.LimitOverrunError)


@dataclass
class Door:
    """The objects that all connections of a door share, and its port. `hosts` are the names under which requests for
    pages may come."""

    routes: Routes
    bounds: Bounds
    context: ssl.SSLContext
    port: int
    hosts: set[str]


async def secure(sock: socket.socket, door: Door) -> Secured:
    """Returns the TLS connection on a socket of the door after its handshake. Raises one of the errors in BROKEN if the
    handshake fails or takes too long."""
    it = await Secured.over(sock, door.context)
    try:
        async with asyncio.timeout(HANDSHAKE):
            await it.shake_hands()
    except BROKEN:
        it.drop()
        raise
    return it


def shut_down(sock: socket.socket) -> None:
    """Shuts a socket down in both directions, so that no task waits for its bytes any longer."""
    try:
        sock.shutdown(socket.SHUT_RDWR)
    except OSError:  # It has ended.
        pass


async def secure_counted(sock: socket.socket, origin: str, door: Door) -> Secured | None:
    """Returns the TLS connection on a socket of the door after its handshake, which is counted for the address
    `origin`. Returns None if the handshake fails, takes too long, or is ended because there are too many."""
    task = asyncio.ensure_future(secure(sock, door))
    it = Handshake(origin, lambda: shut_down(sock))
    door.bounds.begin(it)
    try:
        return await task
    except BROKEN:
        return None
    finally:
        door.bounds.finish(it)


@dataclass
class Passing:
    """A TLS connection after its handshake, with the origin by which it is counted. Its methods raise one of the errors
    in BROKEN if a connection breaks or is too slow."""

    it: Secured
    origin: str
    door: Door

    async def wait_for_rate(self, count: int) -> None:
        """Counts `count` bytes of the connection, and waits as long as the rate limits require."""
        await self.door.bounds.wait_for_rate(self.origin, count)

    async def first_bytes(self) -> bytes:
        """Returns the first bytes of the connection. If none come in time, sends the line `late` and returns no
        bytes."""
        try:
            async with asyncio.timeout(FIRST):
                return await self.it.read()
        except TimeoutError:
            await self.it.send(LATE)
            return b""

    async def serve(self) -> None:
        """Forwards the connection until it ends. If its first byte is a capital letter, as in an HTTP method, forwards
        one request to the server of a page. Otherwise forwards all bytes to the students' port of the network that the
        handshake named. Ends if no byte comes in time, or if that network has no run."""
        first = await self.first_bytes()
        if not first:
            return
        await self.wait_for_rate(len(first))
        if b"A" <= first[:1] <= b"Z":
            try:
                await self.serve_page(first)
            except BadRequest as bad:
                await self.it.send(bad.answer())
            return
        record = self.door.routes.running(self.door.routes.named(self.it.network))
        if record is not None:
            await self.forward(record.port, first)

    async def serve_page(self, first: bytes) -> None:
        """Reads a request that begins with the bytes `first`, and forwards it to the server of its page. Raises
        `BadRequest` if there is no such page, and one of the errors in BROKEN if the request doesn't come in time."""
        async with asyncio.timeout(ASKING):
            head, rest = await self.read_head(first)
            asked = RequestHead.read(head)
            self.door.routes.reload()
            asked.require_host(self.door.hosts | self.door.routes.hosts() | {self.it.address}, self.door.port)
            name, path = asked.network()
            record = self.door.routes.running(name)
            if record is None:
                raise BadRequest("404 Not Found", f"the network {name} isn't running now. Ask your teacher, or open the address on your slip")
            port, below = page_of(asked, path, record)
            body = await self.read_body(rest, asked.body_size())
        await self.forward(port, asked.head_for_page(port, below) + body, is_one=True)

    async def read_head(self, first: bytes) -> tuple[bytes, bytes]:
        """Returns the head of a request that begins with the bytes `first`, and the bytes after the head that have come
        already. Raises `BadRequest` if the head is too large, and `EOFError` if it ends too early."""
        while b"\r\n\r\n" not in first and len(first) < MOST_HEAD:
            first += await self.read_more()
        head, end, rest = first.partition(b"\r\n\r\n")
        if not end or len(head) > MOST_HEAD:
            raise BadRequest("431 Request Header Fields Too Large", "this request is too large for the door")
        return head + end, rest

    async def read_body(self, rest: bytes, size: int) -> bytes:
        """Returns the `size` bytes after the head of a request. `rest` has those that have come already. Raises
        `EOFError` if the other end sends fewer."""
        while len(rest) < size:
            rest += await self.read_more()
        return rest[:size]

    async def read_more(self) -> bytes:
        """Returns the next bytes of an incomplete request. Raises `EOFError` if the other end sends no more."""
        more = await self.it.read()
        if not more:
            raise EOFError
        return more

    async def forward(self, port: int, first: bytes, is_one: bool = False) -> None:
        """Forwards bytes in both directions between the connection and a local port, until the port has sent all its
        answers. `first` has the bytes for the port that have come already. If `is_one` is set, forwards only these
        bytes as one request, and ends if the other end closes the connection. Also ends if one direction fails. Raises
        `OSError` if no connection to the port can be made, and `TimeoutError` if the port doesn't accept the first
        bytes in time."""
        far, near = await asyncio.open_connection("127.0.0.1", port, limit=CHUNK)
        near.transport.set_write_buffer_limits(WAITING)
        try:
            await self.send_to_port(near, first)
            asks = asyncio.ensure_future(self.until_gone() if is_one else self.forward_requests(near))
            answers = asyncio.ensure_future(self.forward_answers(far))
            await asyncio.wait((asks, answers), return_when=asyncio.FIRST_COMPLETED)
            if not is_one and asks.done() and asks.exception() is None:
                await asyncio.wait((answers,))
            for task in (asks, answers):
                task.cancel()
            await asyncio.gather(asks, answers, return_exceptions=True)
        finally:
            near.close()

    async def send_to_port(self, near: asyncio.StreamWriter, content: bytes) -> None:
        """Sends the bytes `content` to a local port by the stream `near`. Raises `TimeoutError` if the port doesn't
        accept them within TAKING seconds."""
        near.write(content)
        async with asyncio.timeout(TAKING):
            await near.drain()

    async def forward_requests(self, near: asyncio.StreamWriter) -> None:
        """Forwards all that the other end sends to a local port by the stream `near`, and then ends this direction."""
        while more := await self.it.read():
            await self.wait_for_rate(len(more))
            await self.send_to_port(near, more)
        near.write_eof()

    async def forward_answers(self, far: asyncio.StreamReader) -> None:
        """Forwards all that a local port sends by the stream `far` to the other end."""
        while more := await far.read(CHUNK):
            await self.wait_for_rate(len(more))
            await self.it.send(more)

    async def until_gone(self) -> None:
        """Waits until the other end closes the connection. Drops the bytes that it sends until then."""
        while more := await self.it.read():
            await self.wait_for_rate(len(more))


async def serve_connection(sock: socket.socket, origin: str, door: Door) -> None:
    """Serves the connection on a socket of the door to its end, with its handshake. `origin` is the address by which it
    is counted."""
    secured = await secure_counted(sock, origin, door)
    if secured is None:
        return
    passing = Passing(secured, origin, door)
    try:
        await passing.serve()
    except BROKEN:
        pass
    finally:
        await secured.end(passing.wait_for_rate)
