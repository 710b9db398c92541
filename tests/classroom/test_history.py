"""The record of a class: the lines that `run` prints from it, its counts in `mark`, and `./class history`, which
shows a student's lines.

The *record* has a file of entries for each *seat*, which serves one connection after another. An *entry* is a line with
its reply, or a mark, such as the end of a connection. Each entry has the number of events before it. The command
`verify` checks a record. A record is *whole* if no entry is missing.
"""
from __future__ import annotations

import csv
import io
import json
import os
import re
import shutil
import signal
import socket
import unittest
from pathlib import Path
from types import TracebackType

from classroom.core.lab import read
from classroom.core.program import Fault, host, host_call
from classroom.core.record import begun
from classroom.core.tally import DENIED as COLUMNS
from classroom.marks.vouched import entries_up_to
from tests.classroom.browser import browser, is_ready, shown, until
from tests.classroom.help import CYCLE, KEYS, Cycle, Going, call_class

MOVE = b'{"do":"move","node":4,"rule":"update","at":%d}\n'  # gus owns node 4
# A malformed line with control characters of a terminal, a byte that isn't UTF-8, and the key of gus.
EVIL = b'\x1b[2J\xff=1+1 {"key":"heron-31"}\n'
UNENDED = "the server is still running or was killed, so the last entries of this record may be missing; no student caused this"
UNKNOWN = '{"clause":2,"deny":"unknown","text":"name and key do not match"}'
STALE = '{"at":1,"clause":2,"deny":"stale","text":"this is not the current configuration"}'
GUARD = '{"clause":4,"deny":"guard","text":"the guard of this rule does not hold"}'
# The history of gus in the run that `disputed` makes, in three parts. SEAT stands for the number of a seat.
GUESSED = f"""\
  after 0 events, seat SEAT > {{"do":"hello","name":"gus","key":"***"}}
                   < {UNKNOWN}
  after 0 events, seat SEAT: this connection ended
"""
GREETED = """\
  after 0 events, seat SEAT > {"do":"hello","name":"gus","key":"***"}
                   < {"ok":"hello","who":"gus"}
  after 0 events, seat SEAT > {"do":"move","node":4,"rule":"update","at":0}
                   < {"at":0,"node":4,"ok":"move","place":1,"rule":"update"}
"""
DENIED = f"""\
  event 3: configuration 1: node 4 (gus): update, node 7 (jonas): abandonment
  after 3 events, seat SEAT > {{"do":"move","node":4,"rule":"update","at":0}}
                   < {STALE}
  after 3 events, seat SEAT > {{"do":"move","node":4,"rule":"update","at":1}}
                   < {GUARD}
  after 3 events, seat SEAT > \\x1b[2J\\xff=1+1 {{".. (16 more characters are hidden, since they may contain a key)
                   < {{"refuse":"malformed"}}
  after 3 events, seat SEAT: this connection ended
"""


class Raw:
    """A connection that sends any bytes as a line, even if they aren't a request."""

    def __init__(self, port: int, name: str = "", key: str = "") -> None:
        """Connects to a port, and says hello if there is a name. Without `key`, the hello has the key of this student
        of the cycle."""
        self.socket = socket.create_connection(("127.0.0.1", port))
        self.replies = self.socket.makefile("rb")
        if name:
            self.ask(hello(name, key or KEYS[name]))

    def ask(self, line: bytes) -> str:
        """Sends a line, and returns the reply without its newline."""
        self.socket.sendall(line)
        return self.replies.readline().decode("ascii").rstrip("\n")

    def __enter__(self) -> Raw:
        return self

    def __exit__(self, kind: type[BaseException] | None, error: BaseException | None, trace: TracebackType | None) -> None:
        self.replies.close()
        self.socket.close()


def hello(name: str, key: str) -> bytes:
    """Returns the line of a hello with this name and key."""
    return b'{"do":"hello","name":"%s","key":"%s"}\n' % (name.encode(), key.encode())


@unittest.skipUnless(host(), "not tried: no host is built")
class Disputed(Cycle):
    """A class in which gus claims that the server was wrong."""

    def disputed(self, stale: int = 1) -> Going:
        """Starts a run, and returns it while it is still going on. In this run somebody tries a wrong key for gus. Then
        gus and jonas move once, in the same step. After that gus is denied `stale` times as stale and once by the
        guard, sends a malformed line, and disconnects. Checks some of the desk's lines about this."""
        going = Going(self, CYCLE, "--close", "by-hand")
        with Raw(going.port) as wrong:
            self.assertEqual(wrong.ask(hello("gus", "heron-13")), UNKNOWN)
        going.until("^1 hello with a wrong key for gus$")
        with Raw(going.port, "gus") as gus, Raw(going.port, "jonas") as jonas:
            going.until_each("^connected: gus$", "^connected: jonas$")
            gus.ask(MOVE % 0)
            jonas.ask(b'{"do":"move","node":7,"rule":"abandonment","at":0}\n')
            going.type("close")
            going.until("^configuration 1: node 4 ")
            for _ in range(stale):
                self.assertEqual(gus.ask(MOVE % 0), STALE)
            if stale >= 20:
                going.until(r"^\d+ requests of gus since the last step were denied as `stale`$")
                going.type("who")
                going.until(r"^connected: gus, jonas \(2 of \d+ seats are taken\)$")
                going.until("^hellos with wrong keys: 1 for gus$")
                going.until(f"^since the last step: {stale} requests of gus denied as `stale`$")
            self.assertEqual(gus.ask(MOVE % 1), GUARD)
            self.assertEqual(gus.ask(EVIL), '{"refuse":"malformed"}')
        going.until_each("^disconnected: gus$", "^disconnected: jonas$")  # From then on the record doesn't grow.
        return going

    def end(self, going: Going) -> Path:
        """Ends the run, and returns its folder."""
        self.assertEqual(going.end(), 0, going.lines)
        return going.folder

    def seat(self, folder: Path) -> Path:
        """Returns the file of the seat that gus had, in the record of a folder."""
        return next(file for file in (folder / "record").glob("*.record") if b'"who":"gus"' in file.read_bytes())

    def history(self, folder: Path, *more: str | Path, name: str = "gus") -> str:
        """Runs `./class history` about a student of the run in a folder, with these options. Returns the output."""
        done = call_class("history", folder, name, *more)
        self.assertEqual((done.returncode, done.stderr), (0, ""))
        return done.stdout

    def wanted(self, folder: Path) -> str:
        """Returns the expected history of gus in a folder, whichever seats were free."""
        seat = self.seat(folder).name.partition(".")[0]
        other = next(file.name.partition(".")[0] for file in (folder / "record").glob("*.record") if b"heron-13" in file.read_bytes())
        guessed, greeted = GUESSED.replace("SEAT", other), GREETED.replace("SEAT", seat)
        # Both parts have the same number of events before them, so they are in the order of their seats.
        first = guessed + greeted if int(other) <= int(seat) else greeted + guessed
        return first + DENIED.replace("SEAT", seat)


class Told(Disputed):
    """The output during a class and after it."""

    def test_the_history_has_the_same_entries_during_the_run_and_after_it(self) -> None:
        """During the run the record isn't whole. The history of hana, who sent nothing, has only the step. That of the
        teacher has the close at the desk."""
        going = self.disputed()
        now = self.history(going.folder)
        verdict = host_call("verify", going.folder / "lab.toml", going.folder / "journal", going.folder / "record").output.partition("\n")[0]
        self.assertTrue(now.splitlines()[0].endswith(f"/record: {verdict}: {UNENDED}"), now)
        self.assertFalse(json.loads(call_class("mark", going.folder, "--json").stdout)["runs"][0]["whole"])
        folder = self.end(going)
        first, _, rest = self.history(folder).partition("\n")
        self.assertRegex(first, r"^.*/record: ok: \d+ sessions, \d+ lines, 3 events$")
        self.assertEqual(squeezed(rest), squeezed(self.wanted(folder)))
        self.assertEqual(squeezed(now.partition("\n")[2]), squeezed(self.wanted(folder)))
        other = self.history(folder, name="hana")
        self.assertEqual(other.splitlines()[1:], ["  event 3: configuration 1: node 4 (gus): update, node 7 (jonas): abandonment"])
        self.assertIn('> {"do": "close"}', self.history(folder, name="tess"))

    def test_a_connection_is_shown_as_open_and_after_a_crash_as_one_whose_rest_is_missing(self) -> None:
        going = Going(self, CYCLE, "--close", "by-hand")
        with Raw(going.port, "gus") as gus:
            gus.ask(MOVE % 0)
            going.until("^connected: gus$")
            now = self.history(going.folder)
            self.assertNotIn("ended\n", now)
            self.assertNotIn("isn't recorded", now)
            self.assertRegex(now, r"(?m)^  after 1 event, seat \d+: this connection is still open$")
            os.kill(going.server(), signal.SIGKILL)
            self.assertEqual(going.wait_for_end(), 4, going.lines)
        now = self.history(going.folder)
        self.assertNotIn("is still open", now)
        self.assertRegex(now, r"(?m)^  after 1 event, seat \d+: the rest of this connection isn't recorded$")

    def test_the_table_has_a_row_for_each_entry_and_each_step(self) -> None:
        """The first four rows are sorted, since their order depends on which seats were free."""
        folder = self.end(self.disputed())
        heads, *rows = csv.reader(io.StringIO(self.history(folder, "--csv")))
        self.assertEqual(heads, ["place", "seat", "session", "asked", "reply", "denied", "event"])
        self.assertEqual([row[0] for row in rows], ["0", "0", "0", "0", "3", "3", "3", "3", "3"])
        self.assertEqual(sorted(row[5] for row in rows[:4]), ["", "", "", "unknown"])
        self.assertEqual([row[5] for row in rows[4:]], ["", "stale", "guard", "malformed", ""])
        self.assertEqual((rows[5][4], rows[4][6]), (STALE, "configuration 1: node 4 (gus): update, node 7 (jonas): abandonment"))

    def test_equal_entries_have_a_row_each_in_the_table_and_are_counted_elsewhere(self) -> None:
        """With at least 20 stale denials, `disputed` also checks that the desk reports them."""
        folder = self.end(self.disputed(stale=40))
        self.assertEqual(self.history(folder, "--csv").count("this is not the current configuration"), 40)
        told = squeezed(self.history(folder))
        self.assertRegex(told, r'\n after 3 events, seat \d+, 40 times > {"do":"move","node":4,"rule":"update","at":0}\n < {"at":1,"clause":2,')
        page = self.room / "gus.html"
        self.history(folder, "-o", page)
        self.assertIn(", 40 times <code>", page.read_text(encoding="utf-8"))

    def test_only_the_teacher_can_read_the_record_and_no_output_contains_a_key(self) -> None:
        """No output contains an escape character either."""
        going = self.disputed()
        folder = self.end(going)
        record = folder / "record"
        self.assertEqual(record.stat().st_mode & 0o777, 0o700)
        self.assertEqual({file.stat().st_mode & 0o777 for file in record.iterdir()}, {0o600})
        page = self.room / "gus.html"
        told = [*going.lines, self.history(folder), self.history(folder, "--csv"), self.history(folder, "-o", page),
                page.read_text(encoding="utf-8"), call_class("mark", folder, "--json").stdout]
        told += [(folder / name).read_text(encoding="utf-8") for name in ("run.txt", "server.txt", "marks.txt", "marks.json", "run.html")]
        for key in (*KEYS.values(), read(CYCLE).teacher[1], "heron-13"):
            self.assertFalse([text for text in told if key in text], key)
        for text in told:
            self.assertNotIn("\x1b", text)

    def test_the_link_of_an_entry_moves_the_player_to_the_entry_s_place(self) -> None:
        """The list beside the player has the eight entries of gus and the step. The entry whose link is clicked came
        after three events."""
        folder = self.end(self.disputed())
        page = self.room / "gus.html"
        self.history(folder, "-o", page)
        driver = browser()
        driver.get(page.as_uri())
        until(driver, is_ready)
        self.assertEqual(shown(driver)[0]["place"], "0")
        entries = driver.find_elements("css selector", ".history li")
        self.assertEqual(len(entries), 9)
        denied = next(entry for entry in entries if "stale" in entry.text)
        self.assertIn('{"do":"move","node":4,"rule":"update","at":0}', denied.text)
        denied.find_element("css selector", "a").click()
        until(driver, lambda it: shown(it)[0]["place"] == "3")
        self.assertIn("\\x1b[2J", entries[-2].text)

    def test_a_name_that_isn_t_in_the_lab_and_a_folder_without_a_run_are_refused(self) -> None:
        folder = self.end(self.disputed())
        done = call_class("history", folder, "mallory")
        self.assertEqual((done.returncode, done.stdout), (1, ""))
        self.assertIn("this run has no student called mallory. Its students are: gus, hana, ines, jonas", done.stderr)
        self.assertEqual(call_class("history", self.room, "gus").returncode, 1)


class Verified(Disputed):
    """Records that were changed, and the verdicts on them."""

    def denied(self, folder: Path) -> tuple[dict[str, int | None], bool]:
        """Returns how many lines of gus `./class mark` counts as denied, by clause, and as malformed, for the run in a
        folder. Leaves out counts of zero. A count is None if it isn't known. Also returns whether the record is
        whole."""
        run = json.loads(call_class("mark", folder, "--json").stdout)["runs"][0]
        gus = run["students"]["gus"]
        return {column: gus[column] for column in COLUMNS if gus[column] != 0}, run["whole"]

    def test_marks_have_denials_only_if_there_is_a_record_that_verify_accepts(self) -> None:
        """Tries the record as the run left it, a record that says that entries are missing, one with a changed reply,
        and no record."""
        folder = self.end(self.disputed())
        self.assertEqual(self.denied(folder), ({"clause2": 1, "clause4": 1, "malformed": 1}, True))
        seat, record = self.seat(folder), folder / "record"
        before = seat.read_bytes()
        number = seat.name.partition(".")[0]
        self.assertRegex((folder / "marks.txt").read_text(encoding="utf-8"), r"(?m)^record: ok: \d+ sessions, \d+ lines, 3 events$")
        seat.write_bytes(before + f"{number} 3 !\n{number} 3 .\n".encode())
        done = call_class("mark", folder)
        self.assertEqual(done.returncode, 0)
        self.assertRegex(done.stdout, r"(?m)^record: ok: \d+ sessions, \d+ lines, 3 events, not whole$")
        self.assertEqual(self.denied(folder), ({"clause2": 1, "clause4": 1, "malformed": 1}, False))
        seat.write_bytes(before.replace(b'"clause":4,"deny":"guard"', b'"clause":3,"deny":"guard"'))
        for form in ("--csv", "--json", "--total"):
            done = call_class("mark", folder, form)
            self.assertEqual(done.returncode, 5)
            self.assertRegex(done.stderr, rf"record: verify: seat {number}, line \d+: not the reply of the rules at place 3\n$")
        self.assertEqual(self.denied(folder), (dict.fromkeys(COLUMNS), False))
        done = call_class("history", folder, "gus")
        self.assertEqual((done.returncode, done.stdout), (3, ""))
        self.assertIn("not the reply of the rules at place 3", done.stderr)
        shutil.rmtree(record)
        done = call_class("mark", folder)
        self.assertEqual(done.returncode, 0)
        self.assertIn("\nthis run has no record, so requests and denials aren't known\n", done.stdout)
        records = json.loads(call_class("mark", folder, "--json").stdout)["runs"][0]["records"]
        self.assertEqual(records, ["this run has no record, so requests and denials aren't known"])
        self.assertEqual(self.denied(folder), (dict.fromkeys(COLUMNS), False))
        self.assertEqual(call_class("history", folder, "gus").returncode, 1)

    def test_a_missing_grant_is_an_error_only_if_the_server_ended_as_it_should(self) -> None:
        """The server then printed `done: `. Otherwise the record may lack its last entries."""
        folder = self.end(self.disputed())
        seat = self.seat(folder)
        lines = seat.read_bytes().splitlines(keepends=True)
        at = next(at for at, line in enumerate(lines) if b'"place":1' in line)
        seat.write_bytes(b"".join(lines[:at - 1] + lines[at + 1:]))  # Without the request for the move and its reply.
        done = call_class("history", folder, "gus")
        self.assertEqual((done.returncode, done.stdout), (3, ""))
        self.assertIn("verify: place 1: granted in no record", done.stderr)
        output = folder / "server.txt"
        output.write_text(output.read_text(encoding="utf-8").partition("done: ")[0], encoding="utf-8")
        self.assertIn(f", not whole: {UNENDED}\n", self.history(folder))

    def test_after_a_crash_a_torn_entry_is_left_out_and_the_resumed_run_continues_the_record(self) -> None:
        """The record isn't whole, since the end of hana's connection is missing."""
        going = self.disputed()
        with Raw(going.port, "hana"):
            going.until("^connected: hana$")
            os.kill(going.server(), signal.SIGKILL)
            self.assertEqual(going.wait_for_end(), 4, going.lines)
        seat = self.seat(going.folder)
        whole = seat.read_bytes()
        with seat.open("ab") as it:
            it.write(b"9 3 > torn")
        self.assertEqual(squeezed(self.history(going.folder).partition("\n")[2]), squeezed(self.wanted(going.folder)))
        seat.write_bytes(whole)
        again = Going(self, None, "run", "--resume", going.folder, "--close", "by-hand")
        with Raw(again.port, "gus") as gus:
            again.until("^connected: gus$")
            self.assertEqual(gus.ask(MOVE % 0), STALE)
            again.type("who")
            again.until(r"^connected: gus \(1 of \d+ seats are taken\)$")
            again.until("^hellos with wrong keys: 1 for gus$")
        folder = self.end(again)
        told = self.history(folder)
        self.assertEqual(told.count(STALE), 2)
        self.assertIn("events, not whole\n", told)
        self.assertIn("the rest of this connection isn't recorded", self.history(folder, name="hana"))

    def test_after_a_change_of_a_key_the_history_and_the_marks_have_both_records(self) -> None:
        """With the changed lab the resumed run begins another record, and the first one is kept as `record.~1~`. The
        history hides the old key and the new one."""
        folder = self.end(self.disputed())
        # `./class key` also changes the lab's own file, which `run.json` names. It must not be the one in `examples/`.
        lab = self.file("lab.toml", CYCLE.read_text(encoding="utf-8"))
        record = json.loads((folder / "run.json").read_text(encoding="utf-8"))
        (folder / "run.json").write_text(json.dumps({**record, "lab": str(lab)}), encoding="utf-8")
        self.assertEqual(call_class("key", folder, "gus").returncode, 0)
        key = read(folder / "lab.toml").students["gus"]
        again = Going(self, None, "run", "--resume", folder, "--again", "--close", "by-hand")
        with Raw(again.port, "gus", key) as gus, Raw(again.port) as old:
            self.assertEqual(old.ask(hello("gus", KEYS["gus"])), UNKNOWN)
            self.assertEqual(gus.ask(b'{"do":"move","node":1,"rule":"update","at":%d, "note":"heron-31"}\n' % 1), GUARD)
            again.until("^connected: gus$")
        self.end(again)
        told = self.history(folder)
        self.assertRegex(told, r"^.*/record\.~1~: ok: \d+ sessions, \d+ lines, 3 events\n"
                               r".*/record: ok: \d+ sessions, \d+ lines, 3 events, begun after 3 events\n")
        # The keys of four hellos are hidden, and so is the old key in the note of the last move.
        self.assertEqual((told.count(GUARD), told.count(UNKNOWN), told.count("***")), (2, 2, 5))
        for hidden in (key, KEYS["gus"]):
            self.assertNotIn(hidden, told)
        self.assertIn("record.~1~: ok: ", (folder / "marks.txt").read_text(encoding="utf-8"))
        self.assertEqual(self.denied(folder), ({"clause2": 1, "clause4": 2, "malformed": 1}, True))

    def test_if_the_record_can_t_be_written_the_run_says_so_and_the_journal_stays_complete(self) -> None:
        """The limit of 64 KiB for each file stands for a full disk. Each request for a move in configuration 7, which
        doesn't exist, is denied. So only the record grows."""
        going = Going(self, CYCLE, "--close", "by-hand", before=("bash", "-c", 'trap "" XFSZ; ulimit -f 64; exec "$@"', "bash"))
        with Raw(going.port, "gus") as gus:
            going.until("^connected: gus$")
            for _ in range(500):
                self.assertIn('"deny":"stale"', gus.ask(MOVE % 7))
            going.until("^the further lines of this connection of gus aren't recorded: ")
        self.assertEqual(going.end(), 5, going.lines)
        self.assertIn("the record isn't complete, because not all of it could be written to the disk. The journal is complete", going.lines)
        self.assertIn("the run is ended", going.lines)
        self.assertRegex((going.folder / "marks.txt").read_text(encoding="utf-8"), r"(?m)^record: ok: .*, not whole$")
        self.assertEqual(self.check_complete(going.folder), 0)

    def test_an_emptied_record_is_shown_as_one_that_began_after_the_last_event(self) -> None:
        """`verify` can't refuse such a record, so the line about it has to say that three events came before."""
        folder = self.end(self.disputed())
        record = folder / "record"
        (record / "begun").write_text("3\n", encoding="ascii")
        for seat in record.glob("*.record"):
            seat.write_bytes(b"")
        wanted = "record: ok: 0 sessions, 0 lines, 3 events, begun after 3 events\n"
        self.assertTrue(self.history(folder).startswith(f"{folder}/{wanted}"))
        self.assertIn(f"\n{wanted}", call_class("mark", folder).stdout)

    def test_begun_returns_the_number_in_its_file_and_raises_a_fault_for_other_texts(self) -> None:
        for text, number in (("3\n", 3), ("0", 0), ("", None), ("x\n", None), ("-1\n", None)):
            self.file("begun", text)
            if number is None:
                self.assertRaises(Fault, begun, self.room)
            else:
                self.assertEqual(begun(self.room), number)

    def test_entries_up_to_keeps_complete_entries_up_to_a_number_of_events(self) -> None:
        """The three entries are a refusal before all events, a granted move that is event 1, and the end of the
        connection after event 2. Then the text is cut at each of its bytes."""
        whole = b'4 0 > x\n4 0 < {"refuse":"malformed"}\n4 0 > y\n4 0 < {"at":0,"ok":"move","place":1}\n4 2 .\n'
        ends = [0, whole.index(b"4 0 > y"), whole.index(b"4 2 ."), len(whole)]
        self.assertEqual([len(entries_up_to(whole, events)) for events in range(4)], [ends[1], ends[2], ends[3], ends[3]])
        for at in range(len(whole) + 1):
            self.assertEqual(len(entries_up_to(whole[:at], 9)), max(end for end in ends if end <= at))


def squeezed(text: str) -> str:
    """Returns a text in which each sequence of spaces is a single space."""
    return re.sub(r" +", " ", text)


if __name__ == "__main__":
    unittest.main()
