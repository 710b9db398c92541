"""A TLS connection whose two directions end separately. It is one of those that a *door* accepts, the TLS port at which
students on other machines connect.

asyncio's own TLS closes a connection as soon as the other end has announced that it sends nothing more. asyncio then
drops the bytes that weren't sent yet. Here the other end gets all of them.
"""
from __future__ import annotations

import asyncio
import socket
import ssl
from collections.abc import Awaitable, Callable

CHUNK, WAITING = 16384, 65536  # the most bytes that are read at once, and the most that wait to be taken
TAKING = 10.0  # seconds in which what is sent has to be taken
LEAVING = 5.0  # seconds in which the other end has to close a connection that is over


class Secured:
    """The server's side of a TLS connection."""

    def __init__(self, reader: asyncio.StreamReader, writer: asyncio.StreamWriter, context: ssl.SSLContext) -> None:
        """Begins a connection without its handshake. `reader` and `writer` carry the encrypted bytes, and `context` has
        the TLS settings."""
        self.reader, self.writer = reader, writer
        self.incoming, self.outgoing = ssl.MemoryBIO(), ssl.MemoryBIO()
        self.tls = context.wrap_bio(self.incoming, self.outgoing, server_side=True)

    @staticmethod
    async def over(sock: socket.socket, context: ssl.SSLContext) -> Secured:
        """Returns the TLS connection on an accepted socket, before its handshake. `context` has the door's
        certificate."""
        loop = asyncio.get_running_loop()
        reader = asyncio.StreamReader(CHUNK, loop)
        protocol = asyncio.StreamReaderProtocol(reader, loop=loop)
        transport, _ = await loop.connect_accepted_socket(lambda: protocol, sock)
        transport.set_write_buffer_limits(WAITING)
        return Secured(reader, asyncio.StreamWriter(transport, protocol, reader, loop), context)

    @property
    def network(self) -> str | None:
        """Returns the server name that the client sent in the handshake, or None if it sent none. The program of a student
        sends the name of its network there. Other clients may send any text, such as the door's host name."""
        return getattr(self.tls, "network", None)  # `serving.note_network` sets this attribute in the handshake.

    @property
    def address(self) -> str:
        """Returns the IP address of this machine at which the client came in."""
        return str(self.writer.get_extra_info("sockname")[0]).removeprefix("::ffff:")

    async def shake_hands(self) -> None:
        """Does the TLS handshake. Raises an `OSError` if it fails."""
        while True:
            try:
                self.tls.do_handshake()
                return
            except ssl.SSLWantReadError:
                pass
            finally:
                self.flush()  # If the handshake fails, this sends the alert that says why.
            await self.receive()

    async def receive(self) -> None:
        """Reads the next encrypted bytes from the network into the TLS object, or notes there that no more come."""
        content = await self.reader.read(CHUNK)
        if content:
            self.incoming.write(content)
        else:
            self.incoming.write_eof()

    def flush(self) -> None:
        """Writes the encrypted bytes that the TLS object has ready to the network."""
        if self.outgoing.pending:
            self.writer.write(self.outgoing.read())

    async def read(self) -> bytes:
        """Returns the next decrypted bytes, or no bytes after the client has ended its direction."""
        while True:
            try:
                return self.tls.read(CHUNK)
            except ssl.SSLWantReadError:
                self.flush()
                await self.receive()
            except (ssl.SSLZeroReturnError, ssl.SSLEOFError):
                return b""

    async def send(self, content: bytes) -> None:
        """Encrypts bytes and sends them. Raises `TimeoutError` if the client doesn't take them in time."""
        self.tls.write(content)
        self.flush()
        async with asyncio.timeout(TAKING):
            await self.writer.drain()

    async def end(self, passes: Callable[[int], Awaitable[None]]) -> None:
        """Announces to the client that nothing more is sent. Closes the connection when the client has closed it, or
        after LEAVING seconds. Drops the bytes that the client still sends, and awaits `passes` with their number, so
        that a rate limit can slow the client down."""
        try:
            self.tls.unwrap()
        except ssl.SSLError:  # The other end hasn't closed its side yet.
            pass
        try:
            self.flush()
            self.writer.write_eof()
            async with asyncio.timeout(LEAVING):
                while more := await self.reader.read(CHUNK):
                    await passes(len(more))
        except OSError:  # The connection is gone, or the time is over.
            pass
        self.writer.transport.abort()

    def drop(self) -> None:
        """Closes a connection whose handshake has failed, without TLS's own message about the end."""
        self.writer.close()
