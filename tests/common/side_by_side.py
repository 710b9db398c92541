"""Runs tests of a host (the server of a class) side by side, since most of them wait. Each has its own folder."""
import sys
import tempfile
import time
from collections.abc import Callable, Sequence
from concurrent.futures import ProcessPoolExecutor
from pathlib import Path

from tests.common.hosting import HOST
from tests.common.preload import fail

Test = Callable[[Path], None]


def run_test(test: Test) -> float:
    """Runs a test in a folder of its own. Returns the seconds that it took."""
    begun = time.monotonic()
    with tempfile.TemporaryDirectory() as room:
        test(Path(room))
    return time.monotonic() - begun


def try_all(of: str, tests: Sequence[Test]) -> None:
    """Runs these tests, four at a time. If the command line has arguments, runs only the tests whose names contain one
    of them. Prints a line that begins with the text `of`, with the number of the tests and their times. Exits with
    status 1 if a test fails, if there is no such test, or if the program isn't built. If there is no such test, prints
    no line that begins with `FAILED`, since `tools/plant` takes such a line for the failure of a test."""
    chosen = [test for test in tests if not sys.argv[1:] or any(word in test.__name__ for word in sys.argv[1:])]
    if not chosen:
        sys.exit(f"no test has {' or '.join(sys.argv[1:])} in its name. The tests are: {', '.join(test.__name__ for test in tests)}")
    if not HOST.is_file():
        fail("the program isn't built")
    begun = time.monotonic()
    with ProcessPoolExecutor(4) as pool:
        times = list(pool.map(run_test, chosen))
    slowest = max(zip(times, chosen, strict=True), key=lambda pair: pair[0])
    print(
        f"{of}: {len(chosen)} tests in {time.monotonic() - begun:.0f} seconds, "
        f"of which {slowest[1].__name__} took {slowest[0]:.0f}"
    )
