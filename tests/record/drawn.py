"""Random runs with several seats, each with its record."""
from random import Random

from model import Lab
from tests.random.scripts import Drawing
from tests.record.recording import Recording

LINES = 60


def drawn_run(rng: Random, lab: Lab) -> Recording:
    """Returns a random run with at most `LINES` lines in up to four seats. Sessions may end without a bye, and others
    follow in the same seat. At the end, all sessions end. `rng` makes all random choices."""
    run = Recording(lab)
    drawing = Drawing(rng, lab)
    drawing.model = run.model
    seats = rng.sample(range(1, lab.sessions + 1), min(lab.sessions, 4))
    for _ in range(LINES):
        seat = rng.choice(seats)
        if rng.random() < 0.03:
            run.leave(seat)
        asked = drawing.drawn(seat)
        # A request with a newline would be more than one line.
        if b"\n" not in asked:
            run.answer(seat, asked)
    for seat in seats:
        run.leave(seat)
    return run
