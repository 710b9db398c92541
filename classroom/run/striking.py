"""Closes the steps of a run at its desk, when its daemon decides so. The *daemon* also decides which of the chosen
moves, those that were granted, a close applies. The class *waits* for the nodes that could move and have no chosen
move."""
from __future__ import annotations

import random
import time

from classroom.client import Denied, Refused
from classroom.core.program import Fault
from classroom.run.adversary import Adversary
from classroom.run.closing import SECONDS, Closing
from classroom.run.daemons import Sight, applied
from classroom.run.desk import Desk

LOOKS = 5  # how often it checks whether moves were granted meanwhile


class Striker:
    """The part of a desk that closes steps when the desk's daemon decides so."""

    def __init__(self, seed: int = 1) -> None:
        """`seed` determines the random choices of daemons. The adversary assumes that a node chooses the highest of
        several possible partners (`max`), as a student's client does."""
        self.chance, self.adversary = random.Random(seed), Adversary(str(seed), max)
        self.how: Closing | None = None  # the desk's daemon when `strike` was last called
        self.closed = 0.0  # the time of the last close, or of the last change of the daemon

    def strike(self, desk: Desk) -> None:
        """Closes a step if the desk's daemon decides so, after releasing the chosen moves that the close mustn't apply.
        If no step is closed and no event has come for SECONDS, prints for whom the class waits, unless steps are closed
        by hand. If the search of the adversary fails, changes the daemon to when-idle. If the server refuses a request
        because nothing more is granted, ends the run. If the server is out of memory, closes no step, so that the next
        call tries again. Raises `Denied` if the server denies a request for an unexpected reason."""
        now = time.monotonic()
        if desk.closing != self.how:
            self.how, self.closed = desk.closing, now
        if desk.closing.kind in ("every", "when-idle"):
            self.close_by_clock(desk, now)
            return
        try:
            self.close_by_moves(desk, now)
        except Refused as refused:
            desk.note_refusal(refused)

    def close_by_moves(self, desk: Desk, now: float) -> None:
        """Closes a step at the time `now` if the daemon, one that chooses among the granted moves, decides so. If no
        step is closed and no event has come for SECONDS, prints for whom the class waits, unless steps are closed by
        hand. If the search of the adversary fails, prints that and changes the daemon to when-idle. Raises `Refused`,
        and closes no step, if the server refuses a request before the close. Raises `Denied` if the server denies one
        for an unexpected reason."""
        known = desk.known
        sight = Sight([node for node, _ in known.report.privileged], list(known.book.chosen), now - known.news_came, now - self.closed)
        try:
            rules = {node: rule for node, (_, rule) in known.book.chosen.items()}
            search = self.adversary.search_of(desk.closing, rules, desk.present_lab)
            nodes = applied(desk.closing, sight, self.chance, SECONDS, search)
        except Fault as fault:
            desk.tell(f"the daemon {desk.closing.spelled()} can't choose the moves to apply: {fault}")
            desk.close_by(f"when-idle:{SECONDS:g}")
            return
        if nodes:
            self.closed = now
            self.release_others(desk, set(nodes))
            desk.close()
        elif desk.closing.kind != "by-hand" and sight.idle >= SECONDS:
            desk.announcer.tell_waiting()

    def close_by_clock(self, desk: Desk, now: float) -> None:
        """Closes a step under a daemon that closes by time, if its time has come at the time `now`. If no move is
        chosen, the desk prints for whom the class waits."""
        seconds = desk.closing.value
        if now - self.closed >= seconds and not (desk.closing.kind == "when-idle" and now - desk.known.news_came < seconds):
            self.closed = now
            desk.close()

    def close(self) -> None:
        """Ends the program of the adversary, the daemon that searches."""
        self.adversary.close()

    def release_others(self, desk: Desk, but: set[int]) -> None:
        """Releases the chosen moves of all nodes that aren't in `but`, also those that are granted meanwhile. A move
        that is granted after the last check is applied too, since only the server could prevent that. Stops if the desk
        notices that nothing more is granted. Raises `Refused` if a release is refused, and `Denied` if one is denied
        for another reason than that no move is chosen."""
        for _ in range(LOOKS):
            others = sorted(desk.known.book.chosen.keys() - but)
            for node in others:
                try:
                    desk.client.release(node)
                except Denied as denied:
                    if denied.name != "not-chosen":
                        raise
            if not others or desk.announcer.over:
                return
            desk.read()
