"""Runs of a use of the program in which one request for memory is refused, each in turn, and runs in which all requests
from that one on are refused. A *use* is a command with its arguments and its input."""
from collections.abc import Callable
from dataclasses import dataclass
from pathlib import Path

from tests.common.preload import PROGRAM, Ended, Preloaded, fail, good, run

OUT_OF_MEMORY = Ended(5, b"", b"out of memory\n")
MOST = 5000  # more requests for memory than any run makes


@dataclass(frozen=True)
class Tried:
    """The end of a run with refusals, and what is wrong with it."""

    ended: Ended
    fault: str  # a text about what is wrong, or an empty text
    memories: int  # the number of replies `{"refuse":"memory"}`


# A function that runs one use with the library that refuses memory, and with these environment variables.
Use = Callable[[dict[str, str]], Tried]


def memories(replies: list[bytes]) -> int:
    """Returns how many of these replies are the refusal `memory`."""
    return sum(reply.endswith(b'{"refuse":"memory"}\n') for reply in replies)


def done_line(audited: bytes) -> bytes:
    """Returns the expected last line of a server or a class, which has the numbers in the output of the audit of its
    journal. `audited` is this output."""
    return b"done:" + audited.split(b":", 1)[1].rsplit(b",", 1)[0] + b"\n"


def whole(words: list[str], given: bytes = b"", program: Path = PROGRAM) -> Use:
    """Returns the use with these arguments and this input. First runs it once without refusals, and fails if this run
    doesn't end well. Each run with refusals has to end and print like this one, or print only the error `out of
    memory`."""
    wanted = good(words, given, program)

    def run_command(variables: dict[str, str]) -> Tried:
        """Runs the command while `variables` make the library refuse memory. Returns its end and what is wrong."""
        ended = run(words, given, variables, program)
        fault = "" if ended in (OUT_OF_MEMORY, Ended(0, wanted, b"")) else "another end than a plain run's"
        return Tried(ended, fault, 0)

    return run_command


def refuse_all(name: str, use: Use, library: Preloaded) -> str:
    """Runs a use with each request for memory refused in turn, and then with all requests refused from each one on.
    Fails if something is wrong with a run, or if no request was refused. Returns a text with `name` and the numbers of
    refusals and of replies `memory`."""
    met, told = 0, 0
    # If one request is refused, it may be the reason for one reply `memory` at most.
    for variable, at_most in (("REFUSE", 1), ("REFUSE_FROM", MOST)):
        for nth in range(1, MOST):
            tried = use(library.variables({variable: str(nth)}))
            refused = library.counts()[1]
            fault = tried.fault or ("more than one reply says it" if tried.memories > at_most else "")
            if fault:
                fail(f"{name}, {variable}={nth}: {fault}: {tried.ended}")
            if refused == 0:
                break
            met += refused
            told += tried.memories
        else:
            fail(f"{name}: {MOST} requests for memory, and no end")
    if met == 0:
        fail(f"{name}: no refusal was met")
    return f"{name} {met} ({told} replies)"
