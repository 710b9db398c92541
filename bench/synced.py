"""Times events at the host, which syncs its journal after each line, and a student's requests meanwhile.

    python3 -B -m bench.synced [FOLDER]

The teacher cuts and links the same two nodes, each after the reply to the last. A student sees one node over and
over. The journal is in FOLDER, or else in the system's folder for temporary files.
"""
import re
import socket
import statistics
import subprocess
import sys
import tempfile
import threading
import time
from pathlib import Path

from bench.clients import BYE, HELLO, VIEW
from bench.common import HOST, built, built_in

EVENTS = 2000
ANA = b'{"do":"hello","name":"ana","key":"a-key"}\n'
ACTS = [b'{"a":1,"b":2,"do":"cut"}\n', b'{"a":1,"b":2,"do":"link"}\n']


def see_until(port: int, over: threading.Event, times: list[float]) -> None:
    """Sends requests to see a node, one after another, to the server at a port until `over` is set. Appends the seconds
    that each of them took to `times`."""
    with socket.create_connection(("127.0.0.1", port)) as it, it.makefile("rb") as replies:
        it.setsockopt(socket.IPPROTO_TCP, socket.TCP_NODELAY, 1)
        it.sendall(ANA)
        replies.readline()
        while not over.is_set():
            begun = time.perf_counter()
            it.sendall(VIEW)
            replies.readline()
            times.append(time.perf_counter() - begun)


def grant_all(desk: int) -> list[float]:
    """Sends the teacher's hello, EVENTS requests to cut or link two nodes, and a bye to the desk's port. Returns the
    seconds that each of these requests took."""
    times = []
    with socket.create_connection(("127.0.0.1", desk)) as it, it.makefile("rb") as replies:
        it.setsockopt(socket.IPPROTO_TCP, socket.TCP_NODELAY, 1)
        it.sendall(HELLO)
        replies.readline()
        for turn in range(EVENTS):
            begun = time.perf_counter()
            it.sendall(ACTS[turn % 2])
            replies.readline()
            times.append(time.perf_counter() - begun)
        it.sendall(BYE)
        replies.readline()
    return times


def median_and_99th(times: list[float]) -> str:
    """Returns a text with the median and the 99th percentile of some seconds, in microseconds."""
    return f"median {statistics.median(times) * 1e6:,.0f} us, 99th of a hundred {statistics.quantiles(times, n=100)[98] * 1e6:,.0f} us"


def main() -> None:
    """Starts the host. Times the requests of the teacher and of the student, which are sent at the same time, and
    prints both."""
    with tempfile.TemporaryDirectory(dir=sys.argv[1] if sys.argv[1:] else None) as folder:
        lab = Path(folder, "lab")
        lab.write_text(built_in(events=EVENTS), encoding="ascii")
        words: list[str | Path] = [built(HOST), "host", lab, "0", "0", Path(folder, "journal")]
        with subprocess.Popen(words, stdout=subprocess.PIPE) as server:
            assert server.stdout is not None
            port, desk = map(int, re.findall(rb"\d+", server.stdout.readline()))
            over, views = threading.Event(), list[float]()
            beside = threading.Thread(target=see_until, args=(port, over, views))
            beside.start()
            grants = grant_all(desk)
            over.set()
            beside.join()
            server.stdout.read()
    print(f"{EVENTS} grants, {EVENTS / sum(grants):,.0f} a second: {median_and_99th(grants)}; {len(views)} views: {median_and_99th(views)}")


if __name__ == "__main__":
    main()
