"""Bots with mistakes in their connections and at the end.

A method without a docstring replaces the method of `base.Bot` as the docstring of its class says.
"""
from __future__ import annotations

import socket
import time
from contextlib import suppress

from classroom.client import Client, Closed, Denied, Refused
from tests.classroom.wrong_bots.base import PAUSE, Bot


class EndsWhenStable(Bot):
    """Ends after four turns in which no rule is enabled at its nodes, and no move is chosen."""

    def loop(self) -> None:
        calm = 0
        while calm < 4:
            looks = [self.me.look(node) for node in self.slip.nodes]
            for look in looks:
                self.at(look)
            calm = calm + 1 if not any(self.rule(look) or look.chosen for look in looks) else 0
            time.sleep(PAUSE)
        raise SystemExit("all is done")


class EndsAfterThreeSeconds(Bot):
    """Ends when there was no new configuration for three seconds."""

    def loop(self) -> None:
        newest, since = -1, time.monotonic()
        while time.monotonic() - since < 3:
            for node in self.slip.nodes:
                look = self.me.look(node)
                self.at(look)
                newest, since = (look.at, time.monotonic()) if look.at > newest else (newest, since)
            time.sleep(PAUSE)
        raise SystemExit("nothing was new")


class EndsWhileAStepIsOpen(Bot):
    """Gives up when a granted move isn't applied within a second."""

    def loop(self) -> None:
        since: dict[int, float] = {}
        while True:
            for node in self.slip.nodes:
                look = self.me.look(node)
                self.at(look)
                since[node] = since.get(node, time.monotonic()) if look.chosen else time.monotonic()
                if time.monotonic() - since[node] > 1:
                    raise SystemExit("the step isn't closed")
            time.sleep(PAUSE)


class GivesUpWhenBusy(Bot):
    """Ends if no seat is free, with the error for that."""

    def enter(self) -> Client:
        return Client.of(self.slip)


class HammersWhenBusy(Bot):
    """Connects again at once if no seat is free."""

    def enter(self) -> Client:
        while True:
            with suppress(Refused):
                return Client.of(self.slip)


class NeverGreetsAgain(Bot):
    """Waits for ever if its connection was closed."""

    def again(self, lost: Closed | Refused) -> Client:
        while True:
            time.sleep(1)


class ForgetsTheHello(Bot):
    """Connects again, and goes on without a hello."""

    def again(self, lost: Closed | Refused) -> Client:
        time.sleep(0.5)
        self.me._socket = socket.create_connection(("127.0.0.1", self.slip.port))
        self.me._rest = b""
        return self.me


class GoesOnForEver(Bot):
    """Greets again and again, even if the class is over."""

    def again(self, lost: Closed | Refused) -> Client:
        while True:
            time.sleep(0.5)
            with suppress(Closed, Refused):
                return Client.of(self.slip)


class ConnectsForEachLook(Bot):
    """Opens a connection for each look."""

    def turn(self) -> None:
        for node in self.slip.nodes:
            self.me = Client.of(self.slip)
            self.at(self.me.look(node))
            self.me.bye()


class TakesAllSeats(Bot):
    """Opens connections until no seat is left, and then plays on the first one."""

    def loop(self) -> None:
        kept = []
        with suppress(Refused):
            while True:
                kept.append(Client.of(self.slip))
        super().loop()


class GreetsTwice(Bot):
    """Says hello before each turn, on the same connection."""

    def turn(self) -> None:
        with suppress(Denied):
            self.me.ask(do="hello", name=self.slip.name, key=self.slip.key)
        super().turn()


class Reads(Bot):
    """A bot that reads replies incorrectly. Each bot of this kind has its own `reading`."""

    def enter(self) -> Client:
        """Connects and greets. Returns a connection that reads incorrectly."""
        return self.reading(super().enter())

    def again(self, lost: Closed | Refused) -> Client:
        """Hangs up and connects again. Returns a connection that reads incorrectly."""
        self.me.hang_up()
        return self.reading(super().again(lost))

    def reading(self, it: Client) -> Client:
        """Makes the connection `it` read lines incorrectly, and returns it. Each bot of this kind does so in its own
        way."""
        raise NotImplementedError


class ReadsOnce(Reads):
    """Takes the bytes of one read for the whole reply."""

    def reading(self, it: Client) -> Client:
        def line() -> bytes:
            """Returns the bytes of one read, without a newline at their end. Raises `Closed` if the connection has
            ended."""
            more = it._socket.recv(65536)
            if not more:
                raise Closed("the connection has ended")
            return more.rstrip(b"\n")

        it.__dict__["_line"] = line
        return it


class ReadsAKilobyte(Reads):
    """Uses the first kilobyte of a reply, and drops the rest."""

    def reading(self, it: Client) -> Client:
        whole = it._line
        it.__dict__["_line"] = lambda: whole()[:1024]
        return it


class ForgetsTheNewline(Bot):
    """Sends its first look without a newline, and waits for the answer."""

    def turn(self) -> None:
        self.me._socket.sendall(b'{"do":"look","node":%d}' % self.slip.nodes[0])
        self.me.limit = 1000.0  # the seconds for which it waits
        self.me._line()


STAYING = (
    EndsWhenStable, EndsAfterThreeSeconds, EndsWhileAStepIsOpen, GivesUpWhenBusy, HammersWhenBusy, NeverGreetsAgain, ForgetsTheHello,
    GoesOnForEver, ConnectsForEachLook, TakesAllSeats, GreetsTwice, ReadsOnce, ReadsAKilobyte, ForgetsTheNewline,
)
