"""The limits of a door, the port at which students on other machines connect. The limits are on the connections, the
TLS handshakes and the bytes per second, of each address and of all together.

The *origin* of a connection is the text by which it is counted: an IPv4 address, or the network of an IPv6 address.
"""
from __future__ import annotations

import asyncio
import ipaddress
import time
from collections import Counter
from collections.abc import Callable
from dataclasses import dataclass

CONNECTIONS, CONNECTIONS_EACH = 512, 256  # the most connections in all, and the most from one address
HANDSHAKES, HANDSHAKES_EACH = 256, 128
RATE, RATE_EACH = 16e6, 8e6  # bytes a second, both ways together
BURST = 2.0  # how many seconds' worth of the rate may come at once
PREFIX = 64  # the leading bits of an IPv6 address that count as one origin, since one person may have many such addresses


def origin(address: str) -> str:
    """Returns the origin of connections from an address. An IPv4 address that is written as an IPv6 address has the
    same origin as otherwise. A text that isn't an address is its own origin."""
    try:
        it = ipaddress.ip_address(address.partition("%")[0])
    except ValueError:
        return address
    if isinstance(it, ipaddress.IPv4Address):
        return str(it)
    return str(it.ipv4_mapped or ipaddress.ip_network((int(it), PREFIX), strict=False))


class Meter:
    """A rate limit for bytes. Up to BURST seconds of unused rate are saved."""

    def __init__(self, rate: float, now: Callable[[], float] = time.monotonic) -> None:
        """`rate` is the number of bytes per second, and `now` returns the time in seconds."""
        self.rate, self.now = rate, now
        self.left, self.at = rate * BURST, now()

    def spend(self, count: int) -> float:
        """Counts `count` bytes of traffic, also if they exceed the limit. Returns the seconds to wait before more bytes
        are passed on."""
        now = self.now()
        self.left = min(self.rate * BURST, self.left + (now - self.at) * self.rate) - count
        self.at = now
        return max(0.0, -self.left / self.rate)


@dataclass(eq=False)
class Handshake:
    """A handshake in progress, and the function that ends it."""

    origin: str
    end: Callable[[], None]


class Bounds:
    """The numbers of connections and handshakes, for each origin and in all."""

    def __init__(self) -> None:
        self.connections: Counter[str] = Counter()
        self.handshakes: list[Handshake] = []  # handshakes that aren't finished, the oldest first
        self.all = Meter(RATE)
        self.meters: dict[str, Meter] = {}

    def enter(self, origin: str) -> bool:
        """Counts a connection of an origin if the limits have room for it. Returns whether they have."""
        if self.connections.total() >= CONNECTIONS or self.connections[origin] >= CONNECTIONS_EACH:
            return False
        self.connections[origin] += 1
        self.meters.setdefault(origin, Meter(RATE_EACH))
        return True

    def leave(self, origin: str) -> None:
        """Stops counting a connection of an origin."""
        self.connections[origin] -= 1
        if not self.connections[origin]:
            del self.connections[origin], self.meters[origin]

    def begin(self, it: Handshake) -> None:
        """Adds a handshake that begins. If the handshake's origin has too many, ends the oldest one of that origin. If
        there are too many in all, ends the oldest one of the origin with the most."""
        counts = Counter(each.origin for each in self.handshakes)
        if counts[it.origin] >= HANDSHAKES_EACH:
            self.drop(it.origin)
        elif len(self.handshakes) >= HANDSHAKES:
            self.drop(max(counts, key=lambda each: counts[each]))
        self.handshakes.append(it)

    def drop(self, origin: str) -> None:
        """Ends the oldest handshake of an origin."""
        oldest = next(each for each in self.handshakes if each.origin == origin)
        self.handshakes.remove(oldest)
        oldest.end()

    def finish(self, it: Handshake) -> None:
        """Removes a handshake that is over, whether it succeeded or not."""
        if it in self.handshakes:
            self.handshakes.remove(it)

    async def wait_for_rate(self, origin: str, count: int) -> None:
        """Counts `count` bytes of an origin. Then waits as long as the origin's own rate limit and that of all origins
        together require."""
        wait = max(self.all.spend(count), self.meters[origin].spend(count))
        if wait > 0:
            await asyncio.sleep(wait)
