"""`./class grade`: tries each bot with many labs, daemons and seeds.

A *bot* is a student's program under test. A *case* is a lab, a daemon (which decides when a step ends and who moves)
and a seed. A bot is *kept apart* if it runs in namespaces of its own and sees few files (`classroom.bots.apart`).
"""
from __future__ import annotations

import argparse
import concurrent.futures
import os
import re
import signal
import tempfile
import threading
import time
from collections.abc import Iterator
from contextlib import contextmanager
from pathlib import Path

from classroom.bots import graded, parts, seen, suites
from classroom.bots.attempt import Limits, Seen
from classroom.bots.bots import Bot, namespaces_refusal
from classroom.bots.playing import OWN_RULE
from classroom.bots.suites import Case
from classroom.bots.trial import Result, try_bot
from classroom.core.counts import positive, seconds
from classroom.core.folders import new_folder
from classroom.core.printable import printable
from classroom.core.processes import end_at_once, end_strays, reap_orphans, run
from classroom.core.program import Fault, require_built
from classroom.core.statuses import FAILED, WARNED
from classroom.run.daemons import daemons

MOST_AT_ONCE = 16  # the most bots that run side by side
ROOMS: set[Path] = set()  # the folders of the running bots
LONG = 0.5  # seconds: if writing the results takes longer, they aren't written after each case, but again at the end
STDERR = 2  # the number of the file to which error lines are written
SPARING = 9  # after a slow write, the pause before the next one is this many times as long as the write


def add_words(words: argparse.ArgumentParser) -> None:
    """Adds the arguments of `grade` to its parser."""
    words.add_argument("bots", nargs="+", metavar="BOT",
                       help="a command, such as 'python3 bot.py'; the path of a slip is added to it. For bot.py, Bot.java and bot.js the name of the "
                            "file is enough")
    cases = words.add_mutually_exclusive_group()
    cases.add_argument("--suite", choices=sorted(suites.SUITES), default="small", help="a set of cases that comes with the release (small)")
    cases.add_argument("--labs", metavar="FOLDER", help="a folder of your own labs, in place of a suite")
    words.add_argument("--daemon", type=daemons, metavar="D,..", help="use these daemons in place of the suite's: central, synchronous, random:P, ..")
    words.add_argument("--seeds", type=positive, default=1, metavar="K", help="try each case with the seeds 1 to K (1)")
    words.add_argument("--timeout", type=seconds, default=20.0, metavar="SECONDS",
                       help="the time in which the class has to become stable, at the start and after each fault; also the processor time of "
                            "a bot (20)")
    words.add_argument("--memory", type=positive, default=512, metavar="MB",
                       help="the most memory for a bot and all processes that it starts (512)")
    words.add_argument("--at-once", type=positive, help="the number of cases that run at the same time")
    words.add_argument("--own-rule", action="store_true", help="hide the rule in the replies to looks, so that a bot has to find it by itself")
    words.add_argument("--show", action="append", default=[], metavar="FOLDER",
                       help="a folder that bots may read, in addition to their own folders and programs")
    words.add_argument("--not-apart", action="store_true", help="run bots one after another, as your user, so that they can read your files")
    words.add_argument("--into", default="grades", help="the folder for the records and pages of the cases (grades)")
    for form, what in (("json", "as a list of cases"), ("junit", "in JUnit's format"), ("gradescope", "in Gradescope's format")):
        words.add_argument(f"--{form}", metavar="FILE", help=f"write the results to this file, {what}")
    parts.add_words(words, "cases", "files of --json")
    words.set_defaults(work=grade)


def folder_of(top: Path, bot: Bot, case: Case) -> Path:
    """Returns the folder below `top` for the files of a bot in a case: one named after the case, in one named after the
    bot. In both names a hyphen replaces each group of special characters."""
    plain = [re.sub(r"[^A-Za-z0-9._:-]+", "-", word).strip(".-") or "bot" for word in (bot.name, case.name())]
    return top / plain[0] / plain[1]


@contextmanager
def own_room() -> Iterator[Path]:
    """Yields a new folder for a bot to work in. At the end, removes it with all that the bot made in it, at any depth.
    Follows no link."""
    folder = Path(tempfile.mkdtemp(prefix="bot-"))
    ROOMS.add(folder)
    try:
        yield folder
    finally:
        ROOMS.discard(folder)
        if folder.is_symlink():  # The bot may have replaced its folder by a link.
            folder.unlink()
        else:
            # The bot may have taken away the rights that are needed for removing its folders.
            for command in ("chmod", "-R", "u+rwx"), ("rm", "-rf"):
                run([*command, "--", folder])


def results_of(bots: list[Bot], cases: list[Case], words: argparse.Namespace, top: Path, stop: threading.Event,
               seen_by: dict[str, Seen] | None = None) -> Iterator[Result]:
    """Tries each bot in each case, and yields each result when its case ends. An interrupted case has no result.
    `words` are the options, `top` is the folder for the files of all cases, and `stop` is set by an interrupt.
    `seen_by` has the files that each bot sees, by the bot's name. If it is None, bots aren't kept apart, and one bot's
    cases begin only when those of the bot before it have ended."""
    limits = Limits(words.timeout, words.memory, words.own_rule)
    at_once = words.at_once or min(MOST_AT_ONCE, 3 * (os.cpu_count() or 1))

    def one(bot: Bot, case: Case) -> Result | None:
        """Returns the result of a bot in a case, or None after an interrupt. If the case can't be tried, the result is
        a failure with the reason."""
        if stop.is_set():
            return None
        why = "this case wasn't tried: "
        try:
            with own_room() as room:
                return try_bot(bot, case, limits, room, folder_of(top, bot, case), stop, seen_by[bot.name] if seen_by else None)
        except OSError as error:
            why += f"{error.filename or tempfile.gettempdir()}: {error.strerror}; name another folder for temporary files by the environment variable TMPDIR"
        except Exception as error:  # An error in one case must not lose the results of others.
            why += f"error of the program, {type(error).__name__}: {error}; report it to the developers"
        return Result(bot.name, case.lab, case.daemon.spelled(), case.seed, False, why)

    for group in [bots] if seen_by else [[bot] for bot in bots]:
        with concurrent.futures.ThreadPoolExecutor(at_once) as pool:
            going = [pool.submit(one, bot, case) for bot in group for case in cases]
            for each in concurrent.futures.as_completed(going):
                result = each.result()
                if result is not None:
                    yield result


def files_seen(bots: list[Bot], words: argparse.Namespace, top: Path) -> dict[str, Seen] | None:
    """Returns the files that each bot sees, by the bot's name. If bots can't be kept apart or `--not-apart` is set,
    prints a line and returns None. `top` is the folder for the files of this grade's cases, which bots don't see.
    Raises `Fault` if `--show` names a folder that can't be shown."""
    why = "--not-apart" if words.not_apart else namespaces_refusal()
    if why:
        print(f"class: bots aren't isolated ({printable(why)}): they run one after another, with your rights, and can read your files "
              "(see docs/COURSE.md)", flush=True)
        return None
    into = Path(words.into).resolve()
    more, temporary = [Path(each).resolve() for each in words.show], Path(tempfile.gettempdir())
    for folder in more:
        if not folder.exists():
            raise Fault(f"--show {folder}: there is no such folder")
        if seen.contains_any(folder, [temporary]):
            raise Fault(f"--show {folder}: this folder contains {temporary}, in which all bots have their folders; name a folder that doesn't contain "
                        f"{temporary}")
    found = {}
    for bot in bots:
        others = [other.words for other in bots if other is not bot]
        # The files of earlier grades are hidden too, unless the bot's own files are in the same folder.
        results = top.resolve() if seen.contains_any(into, seen.files_of(bot.words)) else into
        found[bot.name] = seen.shown(bot.words, more), seen.hidden(bot.words, others, results)
    return found


class Written:
    """The results so far, in the order of bots and cases, and the files that they are written to."""

    def __init__(self, words: argparse.Namespace, bots: list[Bot], cases: list[Case], results: list[Result]) -> None:
        """Begins with `results`, those of the bots that can't be run. Later results are added to this list, which is
        sorted by the order of `bots` and `cases`. Takes the names of the files from the options `words`."""
        self.files = {form: Path(getattr(words, form)) for form in graded.FORMS if getattr(words, form)}
        pairs = [(bot.name, case.name()) for bot in bots for case in cases]
        self.order = {pair: index for index, pair in enumerate(pairs)}
        self.results = results
        self.next = 0.0  # the time from which on the results are written again
        self.is_complete = False  # Whether the files have all results so far.

    def add(self, result: Result) -> None:
        """Adds a result, and writes the files anew. If writing takes long, writes them only now and then, so `write`
        has to be called at the end."""
        self.is_complete = False
        self.results.append(result)
        begun = time.monotonic()
        if begun >= self.next:
            self.write()
            taken = time.monotonic() - begun
            self.next = time.monotonic() + SPARING * taken * (taken > LONG)

    def write(self) -> list[str]:
        """Writes the files in all forms that were asked for. Returns an error line for each file that couldn't be
        written. An interrupt may come meanwhile, whose handler calls this method too."""
        # A list is empty while its method `sort` runs, so that the handler would write no results.
        self.results[:] = sorted(self.results, key=lambda result: self.order[result.bot, graded.case_name(result)])
        faults = []
        for form, file in self.files.items():
            try:
                graded.write(form, file, self.results)
            except Fault as fault:
                faults.append(f"{fault}; nothing was written to this file: make room on the disk, or name another file")
        self.is_complete = not faults
        return faults

    def complete(self) -> None:
        """Writes the files if they lack a result. Prints an error line for each file that couldn't be written. Can be
        called by the handler of a signal, in which `print` could fail."""
        for fault in self.write() if not self.is_complete else ():
            os.write(STDERR, f"class: {printable(fault)}\n".encode())


def print_and_write(found: Iterator[Result], written: Written) -> None:
    """Prints each result in `found` as it comes, adds it to `written`, and so writes the files with all results so far.
    The first time that the files of a case couldn't be kept, also prints why."""
    full = False
    for result in found:
        written.add(result)
        print(graded.result_line(result), flush=True)
        if result.unkept and not full:
            print(f"class: {printable(result.unkept)}; name another folder by --into", flush=True)
        full = full or bool(result.unkept)


def catch_interrupts(written: Written) -> threading.Event:
    """Makes this process catch interrupts, and returns an event that the first one sets. A second interrupt writes the
    results that the files of `written` lack, kills all bots at once, and ends this process. If writing takes too long,
    a third one ends this process without it."""
    # The caller may set `stop` too, so only `first` says whether an interrupt has come.
    stop, first, second = threading.Event(), threading.Event(), threading.Event()

    def interrupt(*_: object) -> None:
        """Sets the event, or ends this process at the second call and at each later one."""
        if not first.is_set():
            first.set()
            stop.set()
            return
        try:
            if not second.is_set():
                second.set()
                written.complete()
        finally:
            end_at_once(FAILED, list(ROOMS))

    for number in (signal.SIGINT, signal.SIGTERM, signal.SIGHUP):
        signal.signal(number, interrupt)
    return stop


def numbered(bots: list[Bot]) -> list[Bot]:
    """Returns the bots with different names: a name that an earlier bot has gets a number at its end."""
    names: dict[str, int] = {}
    found = []
    for bot in bots:
        names[bot.name] = names.get(bot.name, 0) + 1
        again = names[bot.name]
        found.append(bot if again == 1 else Bot(f"{bot.name} ({again})", bot.words, bot.fault))
    return found


def cases_of(words: argparse.Namespace) -> tuple[list[Case], list[str]]:
    """Returns the cases that the options name, and an error line for each lab that can't be used. Raises `Fault` if
    there is no case."""
    if words.labs:
        return suites.of_folder(Path(words.labs), words.daemon, words.seeds)
    return suites.of_suite(words.suite, words.daemon, words.seeds), []


def grade(words: argparse.Namespace) -> int:
    """Tries each bot in each case, prints the results, and writes them to the files that the options name. With
    `--merge` tries nothing, and joins the results of parts. Returns the exit status. Raises `Fault` if the proved
    program isn't built, the options can't be used, or the folder for the cases can't be made."""
    require_built()
    bots = numbered([Bot.of(word) for word in words.bots])
    cases, faults = cases_of(words)
    for fault in faults + [bot.fault for bot in bots if bot.fault]:
        print(f"class: {fault}", flush=True)
    if words.own_rule:
        print(f"class: {OWN_RULE}", flush=True)
    if words.merge:
        return parts.merge(words, [(bot.name, case.name()) for bot in bots for case in cases])
    cases = parts.of(cases, words.part)
    runnable = [bot for bot in bots if not bot.fault]
    top = new_folder(Path(words.into), Path("grade")) if runnable else Path()
    reap_orphans()
    seen_by = files_seen(runnable, words, top) if runnable else None
    results = [Result(bot.name, case.lab, case.daemon.spelled(), case.seed, False, bot.fault, started=False)
               for bot in bots for case in cases if bot.fault]
    written = Written(words, bots, cases, results)  # It adds each further result to `results`.
    stop = catch_interrupts(written)
    try:
        print_and_write(results_of(runnable, cases, words, top, stop, seen_by), written)
    finally:
        stop.set()
        unwritten = written.write()
    end_strays()
    print_end(results, top if runnable else None, unwritten)
    if len(results) < len(bots) * len(cases):
        print(f"interrupted: only {len(results)} of {len(bots) * len(cases)} cases were tried to their end")
        return FAILED
    if unwritten:
        return FAILED
    return 0 if not faults and all(result.passed for result in results) else WARNED


def print_end(results: list[Result], top: Path | None, unwritten: list[str]) -> None:
    """Prints the table of the results, the folder `top` with the files of the cases, if there is one, and the error
    lines in `unwritten`."""
    print(graded.table(results))
    if top is not None:
        print(f"records and pages of the cases: {top}")
    for fault in unwritten:
        print(f"class: {printable(fault)}")
