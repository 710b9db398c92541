"""Eight clients, each a process of its own, that send a server the same request over and over. The clients send
*bursts* of requests, each after the replies to the last one."""
import multiprocessing
import socket
import time
from multiprocessing.synchronize import Barrier
from typing import Optional

CONNECTIONS = 8
HELLO = b'{"do":"hello","name":"tess","key":"chalk"}\n'
VIEW = b'{"do":"see","node":2}\n'
BYE = b'{"do":"bye"}\n'


def free_port() -> int:
    """Returns a port that nobody listens at."""
    with socket.socket() as it:
        it.bind(("127.0.0.1", 0))
        port: int = it.getsockname()[1]
        return port


def ask(port: int, burst: int, bursts: int, begin: Barrier, results: "multiprocessing.Queue[set[bytes]]") -> None:
    """Greets at a port, waits at `begin` until all clients have greeted, and sends `bursts` bursts of `burst` requests.
    Puts the set of different replies into `results`, and says bye."""
    with socket.create_connection(("127.0.0.1", port)) as it, it.makefile("rb") as lines:
        it.setsockopt(socket.IPPROTO_TCP, socket.TCP_NODELAY, 1)
        it.sendall(HELLO)
        lines.readline()
        begin.wait()
        seen: set[bytes] = set()
        for _ in range(bursts):
            it.sendall(VIEW * burst)
            seen.update(lines.readline() for _ in range(burst))
        results.put(seen)
        it.sendall(BYE)
        lines.readline()


def time_clients(port: int, burst: int, bursts: int) -> tuple[float, Optional[bytes]]:
    """Runs all clients against the server at a port, each of which sends `bursts` bursts of `burst` requests. Returns
    the seconds from the first request to the last reply, and the reply that all requests got, or None if the replies
    differ."""
    begin = multiprocessing.Barrier(CONNECTIONS + 1)
    results: "multiprocessing.Queue[set[bytes]]" = multiprocessing.Queue()
    words = (port, burst, bursts, begin, results)
    clients = [multiprocessing.Process(target=ask, args=words) for _ in range(CONNECTIONS)]
    for client in clients:
        client.start()
    begin.wait()
    start = time.perf_counter()
    seen = set[bytes]().union(*(results.get() for _ in clients))
    taken = time.perf_counter() - start
    for client in clients:
        client.join()
    return taken, seen.pop() if len(seen) == 1 else None
