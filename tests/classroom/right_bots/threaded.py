#!/usr/bin/env python3
"""A correct bot with two threads, one that looks and one that asks, on one connection with a lock."""
from __future__ import annotations

import os
import queue
import threading
import sys
import time
from pathlib import Path

sys.path.append(str(Path(__file__).resolve().parents[3]))
from classroom.client import Client, Closed, Denied, Look, Refused, Slip, again, enter, stop  # noqa: E402


class Bot:
    """The data that both threads share."""

    def __init__(self, slip: Slip) -> None:
        """Connects and says hello, by a slip."""
        self.slip, self.lock = slip, threading.Lock()
        self.me: Client = enter(slip)
        self.looks: queue.Queue[Look] = queue.Queue()

    def looking(self) -> None:
        """Looks at each node, and queues the looks with an enabled rule. Waits until each queued look has been handled,
        and begins again."""
        while True:
            for node in self.slip.nodes:
                with self.lock:
                    look = self.me.look(node)
                if look.rule and not look.chosen:
                    self.looks.put(look)
            self.looks.join()
            time.sleep(0.05)

    def asking(self) -> None:
        """Asks for the move of each queued look. Raises a denial that shows a mistake."""
        while True:
            look = self.looks.get()
            try:
                with self.lock:
                    self.me.move(look)
            except Denied as denied:
                if denied.name not in ("stale", "chosen"):
                    raise
            finally:
                self.looks.task_done()

    def lasting(self, work: str) -> None:
        """Calls the method with the name `work` again and again. Ends the program when the class is over, or at a denial
        that shows a mistake. If the connection is lost, the first thread that notices it connects again."""
        try:
            while True:
                me = self.me
                try:
                    getattr(self, work)()
                except (Closed, Refused) as lost:
                    with self.lock:
                        # If the other thread has connected again already, its connection is kept.
                        self.me = self.me if self.me is not me else again(self.slip, lost)
        except (Closed, Denied, Refused) as error:
            os._exit(stop(error)[0])


if __name__ == "__main__":
    bot = Bot(Slip.read(sys.argv[1]))
    for work in ("looking", "asking"):
        threading.Thread(target=bot.lasting, args=(work,)).start()
