"""Slips, and the programs that read them: their error messages and statuses. A *slip* is the file of a student or
teacher with the server's port, the name, the key and the nodes. The programs are two example bots, in Python and Java,
the example of a teacher's program, and `client.py`, which sends lines that are typed by hand."""
from __future__ import annotations

import json
import os
import shutil
import socket
import subprocess
import sys
import threading
import time
import unittest
from pathlib import Path

from classroom.client import LAST, RULES, Client, NoServer, NoSlip, Slip, wrong
from classroom.core.answering import Answering
from classroom.core.lab import read
from classroom.core.program import host
from tests.classroom.help import CYCLE, EXAMPLES, KEYS, LIMIT, Cycle, Going, InRoom, call_class, no_server
from tests.common.limits import MOST

TOP = EXAMPLES.parent
BOT, TEACHER = (sys.executable, EXAMPLES / "bot.py"), (sys.executable, EXAMPLES / "teacher.py")
BY_HAND = (sys.executable, TOP / "classroom/client.py")
JAVA = ("java", EXAMPLES / "Bot.java")
BOTS = (BOT, JAVA) if shutil.which("java") else (BOT,)
Command = tuple[str | Path, ...]
LOOK = b'{"at":0,"chosen":null,"m":false,"near":[],"node":1,"ok":"look","p":null,"rule":"update"}'
# Values of an extra key that the server ignores. With one of STRANGE a line is malformed, and with one of PLAIN it
# isn't.
STRANGE = (
    "1e309", "-1e309", "9" * 309, '"\\ud800"', '"\\ud800\\ud800"', "NaN", "Infinity", "-Infinity", "[" * 127 + "]" * 127,
    '{"a":' * 127 + "1" + "}" * 127, '{"\\udc00":1}', '"\udcff"', '"\t"', "01", "+1", "1.", ".1", '"\\x"', "1,", "'a'",
)
PLAIN = ("1e308", "9" * 308, "1e-400", "-0", "-5", '"\\ud83d\\ude00"', "[" * 126 + "]" * 126, '{"a":' * 126 + "1" + "}" * 126, '"\x7f"', "0.1e1")
# Whole lines, of which 15 are malformed.
WHOLE = (
    '{"do":"see","node":-0}', '{"do":"see","node":1e0}', '{"do":"see","node":18446744073709551615}', '{"do":"see","node":18446744073709551616}',
    '{"do":"fault","node":1,"m":false}', '{"do":"fault","node":1,"p":false,"m":false}', '{"do":"move","node":1,"at":0,"rule":["update"]}',
    '{"do":["see"]}', '{"do":null}', "null", "{}", '{"do":"s\\u0065e","node":1}', '{"d\\u006f":"see","node":1}', '\t{"do":"bye"} ', '\xa0{"do":"bye"}',
    '{"do":"move","node":1,"at":0,"rule":"update","with":"x"}', '{"do":"hello","name":1,"key":"b"}', '{"do":"bye"}x', "", " ",
)


def call(*command: str | Path, typed: str = "", key: str | None = None, slip: str | None = None) -> subprocess.CompletedProcess[str]:
    """Runs a command with `typed` as its input to its end, with this key or slip in its environment, or without one.
    Returns its result."""
    given = {"CENDUWA_KEY": key, "CENDUWA_SLIP": slip}
    environment = {name: value for name, value in os.environ.items() if name not in given}
    environment |= {name: value for name, value in given.items() if value is not None}
    return subprocess.run(command, input=typed, capture_output=True, text=True, check=False, timeout=LIMIT, env=environment)


class Files(InRoom):
    """Slips as files, and what is wrong with lines."""

    def test_new_makes_a_slip_for_each_student_and_for_the_teacher(self) -> None:
        """Only the user who runs `new` can read these files. The slips for printing have the keys of the students, but
        not that of the teacher."""
        students = self.file("students", "Zoë Müller\nBen\nCyd\nDan\n")
        done = call_class("new", self.room / "lab.toml", "--students", students, "--groups", "2", "--family", "path", "--port", "5000")
        self.assertEqual(done.returncode, 0, done.stderr)
        found = {}
        for number in (1, 2):
            lab = read(self.room / f"lab-{number}.toml")
            folder = self.room / f"lab-{number}-slips"
            self.assertEqual(folder.stat().st_mode & 0o777, 0o700)
            self.assertEqual({file.stem for file in folder.iterdir()}, {*lab.students})
            for file in [*folder.iterdir(), self.room / f"lab-{number}-teacher.slip"]:
                self.assertEqual(file.stat().st_mode & 0o777, 0o600)
                found[file.stem] = Slip.read(file)
                # The labs have the ports 5000 and 5001.
                self.assertEqual((found[file.stem].port, found[file.stem].network), (4999 + number, f"lab-{number}"))
            for name, key in lab.students.items():
                self.assertEqual((found[name].name, found[name].key), (name, key))
                self.assertEqual(list(found[name].nodes), lab.nodes_of(name))
            self.assertEqual(found[f"lab-{number}-teacher"].key, lab.teacher[1])
            printed = (self.room / f"lab-{number}-slips.html").read_text(encoding="utf-8")
            self.assertNotIn(lab.teacher[1], printed)
            for name, key in lab.students.items():
                self.assertIn(f'<code class="key">{key}</code>', printed)
                self.assertIn(f"<code>python3 bot.py {name}.slip</code>", printed)

    def test_a_slip_is_read_from_a_file_or_from_arguments(self) -> None:
        """`Slip.of` also returns the arguments after those of the slip. If the file of a key is a slip, its key is
        taken. A file that isn't a slip is refused with a reason."""
        slip = self.file("ana.slip", "# Ana\nport 4711\nname ana\nkey a b\nnodes 1,4\n")
        self.assertEqual(Slip.read(slip), Slip(4711, "ana", "a b", (1, 4)))
        self.assertEqual(Slip.of([str(slip), "5"]), (Slip(4711, "ana", "a b", (1, 4)), ["5"]))
        key = self.file("key", "k-1\n")
        self.assertEqual(Slip.of(["80", "ben", str(key), "7,8", "5"]), (Slip(80, "ben", "k-1", (7, 8)), ["5"]))
        self.assertEqual(Slip.of(["80", "tess", str(slip)]), (Slip(80, "tess", "a b", ()), []))
        for content, error in (("port 4711\nname ana\n", "there is no line `key ..`"), ("port x\nname a\nkey b\n", "x isn't a port"),
                               ("port 1\nname a\nkey b\nnodes one\n", "nodes one: write numbers")):
            with self.assertRaisesRegex(NoSlip, error):
                Slip.read(self.file("bad.slip", content))
        with self.assertRaisesRegex(NoSlip, "No such file"):
            Slip.read(self.room / "none.slip")

    def test_wrong_returns_what_is_wrong_with_a_line_and_nothing_for_a_right_one(self) -> None:
        move = '{"do":"move","node":1,"at":0,"rule":"update"}'
        for line in (move, ' {"do" : "close"} ', '{"do":"move","node":2,"rule":"marriage","with":1,"at":4,"more":[]}',
                     '{"do":"fault","node":1,"p":null,"m":true}', '{"do":"hello","name":"a","key":"b"}'):
            self.assertIsNone(wrong(line), line)
        for line, what in (
            (move.replace(',"at":0', ""), 'the key "at" is missing'),
            (move.replace(":1", ':"1"'), "node is a string, not a whole number (write 1, without quotes)"),
            ("hello", 'the line isn\'t JSON at byte 1 (a request is an object, such as {"do":"bye"})'),
            ('{"é":1,}', "the line isn't JSON at byte 9 (leave out the comma before this byte)"),
            ('{"do":"lok"}', 'there is no request "lok" (did you mean look?)'),
            ("\ufeff" + move, "the line begins with a byte order mark: leave it out"), ('{"do":\n"close"}', "there are several lines: a request is one line"),
            ('{"do":"close"', "the line isn't JSON: the object isn't closed by } at the end of the line"),
            ("", 'the line isn\'t JSON at byte 1 (a request is an object, such as {"do":"bye"})'),
            ('{"node":1}', 'the key "do" is missing'), ("[1]", "the line is a list, not an object"),
            ('{"do":"see","do":"see","node":1}', "the key do occurs twice, and only the last value counts"),
            ('{"do":"see","node":true}', "node is true or false, not a whole number"),
            ('{"do":"see","node":1.0}', "node is a number with a point or exponent, not a whole number (write 1, without a point)"),
            ('{"do":"see","node":-1}', "node is a number out of range, not a whole number"),
            ('{"do":"see","node":18446744073709551616}', "node is a number out of range, not a whole number"),
            ('{"do":"hello","name":5,"key":"b"}', 'name is a whole number, not a string (write "5", in double quotes)'),
            ('{"do":"hello","name":-5,"key":"b"}', "name is a number out of range, not a string"),
            ('{"do":"hello","name":"a","key":18446744073709551615}', 'key is a whole number, not a string (write "18446744073709551615", in double quotes)'),
            ('{"do":"hello","name":"a","key":18446744073709551616}', "key is a number out of range, not a string"),
            ('{"do":"fault","node":1,"p":null,"m":1}', "m is a whole number, not true or false (write true)"),
            ('{"do":"move","node":1,"at":0,"rule":0}', f"rule is a whole number, not one of {', '.join(RULES)}"),
            ("5", "the line is a whole number, not an object"), ("-5", "the line is a number out of range, not an object"),
            ("18446744073709551616", "the line is a number out of range, not an object"), ("true", "the line is true or false, not an object"),
            ('{"do":"move","node":2,"rule":"marriage","at":4}', 'the key "with" is missing (it names the neighbour that points at the node)'),
            ('{"do":"move","node":2,"rule":"dance","at":4}', 'rule is "dance", not one of update, marriage, seduction, abandonment'),
            ('{"do":"bye"}'.ljust(MOST["line"] + 1), "the line has more than 4096 bytes: the server closes the connection"),
        ):
            self.assertEqual(wrong(line), what, line[:60])
        self.assertIsNone(wrong('{"do":"bye"}'.ljust(MOST["line"])))
        for value, what in (("1e309", "a number is too large"), ("NaN", "the line isn't JSON: JSON has no number NaN"),
                            ('"\\ud800"', "a text has only half of a surrogate pair"), ('"\udcff"', "the line isn't UTF-8 at byte 27"),
                            ("[" * 127 + "]" * 127, "values are nested deeper than 127 levels")):
            self.assertEqual(wrong(f'{{"do":"see","node":1,"x":{value}}}'), what)

    @unittest.skipUnless(host(), "not tried: no host is built")
    def test_the_lines_that_are_wrong_are_those_that_the_server_refuses(self) -> None:
        lines = [*WHOLE, *(f'{{"do":"see","node":1,"x":{value}}}' for value in (*STRANGE, *PLAIN))]
        program = Answering(read(CYCLE))
        self.addCleanup(program.close)
        replies = program.answers([(2, line.encode(errors="surrogateescape")) for line in lines])
        refused = {line for line, reply in zip(lines, replies, strict=True) if reply == b'{"refuse":"malformed"}'}
        self.assertEqual({line for line in lines if wrong(line)}, refused)
        self.assertEqual(len(refused), len(STRANGE) + 15)


class Fake(InRoom):
    """Programs that connect to a listener of the test instead of a server. It sends what a server may send, or what
    another program would send."""

    def serve_line(self, line: bytes, times: int = 1) -> int:
        """Listens at a free port, and sends `line` on each of `times` connections, one after another, before anything
        has come. Returns the port."""
        listener = socket.create_server(("127.0.0.1", 0))
        self.addCleanup(listener.close)

        def serve() -> None:
            """Accepts the connections one after another, sends the line on each, and waits for its end."""
            for _ in range(times):
                connection, _ = listener.accept()
                with connection:
                    connection.sendall(line)
                    connection.settimeout(LIMIT)
                    while connection.recv(4096):
                        pass

        threading.Thread(target=serve, daemon=True).start()
        port: int = listener.getsockname()[1]
        return port

    def slip(self, port: int) -> Path:
        """Writes a slip with that port, and returns its path."""
        return self.file(f"{port}.slip", f"port {port}\nname gus\nkey heron\nnodes 1\n")

    def serve_replies(self, *replies: bytes, then: tuple[bytes, ...] = ()) -> int:
        """Listens at a free port, answers each line of one connection with the next reply, and closes the connection
        after the last reply. `then` are the replies on a second connection. Returns the port."""
        listener = socket.create_server(("127.0.0.1", 0))
        self.addCleanup(listener.close)

        def serve() -> None:
            """Accepts one connection, or two if `then` isn't empty, and answers their lines."""
            for answers in (replies, then) if then else (replies,):
                connection, _ = listener.accept()
                with connection, connection.makefile("rb") as lines:
                    for reply in answers:
                        lines.readline()
                        connection.sendall(reply + b"\n")

        threading.Thread(target=serve, daemon=True).start()
        port: int = listener.getsockname()[1]
        return port

    def test_a_port_without_a_server_ends_a_program_with_status_4(self) -> None:
        """Nobody listens at the port, or another program sends its own line, closes the connection or stays silent."""
        none = self.enterContext(no_server())
        for command in (*BOTS, BY_HAND):
            said = call(*command, self.slip(none))
            self.assertEqual((said.returncode, said.stdout), (4, ""), said.stderr)
            self.assertRegex(said.stderr, rf"^\w+(\.py)?: no server at port {none}.*\n$")
        for command in (*BOTS, BY_HAND):
            port = self.serve_line(b"HTTP/1.1 400 Bad Request\r\n")
            said = call(*command, self.slip(port))
            self.assertEqual((said.returncode, said.stdout), (4, ""), said.stderr)
            self.assertRegex(said.stderr, rf"^\w+(\.py)?: another program uses port {port}.*\n$")
            said = call(*command, self.slip(self.serve_replies()))
            self.assertEqual((said.returncode, said.stdout), (4, ""), said.stderr)
            self.assertRegex(said.stderr, r"^\w+(\.py)?: no server .*answers a hello.*\n$")
        with self.assertRaises(NoServer):
            Client.from_slip(self.slip(self.serve_line(b"220 mail\r\n")))
        with self.assertRaisesRegex(NoServer, r"^no server at port \d+ answers a hello: no answer in 0.2 seconds$"):
            Client.from_slip(self.slip(self.serve_line(b"")), limit=0.2)

    def test_a_bot_asks_again_after_the_refusal_memory_and_ends_after_full(self) -> None:
        memory, full = b'{"refuse":"memory"}', b'{"refuse":"full"}'
        for command in BOTS:
            said = call(*command, self.slip(self.serve_replies(b'{"ok":"hello","who":"gus"}', memory, LOOK, memory, LOOK, full)))
            self.assertEqual(said.returncode, 6, said.stdout + said.stderr)
            self.assertRegex(said.stderr, r"^\w+(\.py)?: nothing is granted any longer: tell your teacher\n$")

    def test_a_bot_that_loses_its_seat_connects_again(self) -> None:
        """The refusal `busy` during a connection says that its seat was given to a new connection."""
        hello = b'{"ok":"hello","who":"gus"}'
        for command in BOTS:
            said = call(*command, self.slip(self.serve_replies(hello, LOOK, b'{"refuse":"busy"}', then=(hello, b'{"refuse":"over"}'))))
            self.assertEqual(said.returncode, 0, said.stdout + said.stderr)
            self.assertRegex(said.stderr, r"^\w+(\.py)?: the run is over\n$")

    def test_a_bot_whose_output_nobody_reads_ends_without_a_message(self) -> None:
        """The status is 141, as after the signal SIGPIPE (128 + 13)."""
        port = self.serve_replies(b'{"ok":"hello","who":"gus"}', LOOK, b'{"at":0,"node":1,"ok":"move","place":1,"rule":"update"}')
        ours, theirs = os.pipe()
        os.close(ours)
        said = subprocess.run([*BOT, self.slip(port)], stdout=theirs, stderr=subprocess.PIPE, check=False, timeout=LIMIT)
        os.close(theirs)
        self.assertEqual((said.returncode, said.stderr), (141, b""))

    def test_a_bot_that_comes_after_the_end_of_the_class_has_status_0(self) -> None:
        for command in BOTS:
            said = call(*command, self.slip(self.serve_line(b'{"refuse":"over"}\n')))
            self.assertEqual((said.returncode, said.stdout), (0, ""), said.stderr)
            self.assertRegex(said.stderr, r"^\w+(\.py)?: the run is over\n$")

    def test_the_client_by_hand_says_why_the_server_has_closed_the_connection(self) -> None:
        for word, why in LAST.items():
            said = call(*BY_HAND, self.slip(self.serve_line(b'{"refuse":"%s"}\n' % word.encode())), typed='{"do":"close"}\n')
            self.assertEqual((said.returncode, said.stdout), (0, f"the server has closed the connection: {why}\n"), said.stderr)

    def test_by_hand_only_a_line_of_more_than_4096_bytes_is_the_reason_for_a_closed_connection(self) -> None:
        """The server closes the connection after the hello, and says no reason."""
        for size, why, note in ((MOST["line"], "the class is over, or the connection was lost", ""),
                                (MOST["line"] + 1, LAST["long"], "client: the line has more than 4096 bytes: the server closes the connection\n")):
            slip = self.slip(self.serve_replies(b'{"ok":"hello","who":"gus"}'))
            said = call(*BY_HAND, slip, typed='{"do":"bye"}'.ljust(size) + "\n")
            self.assertEqual(said.stdout.splitlines()[1:], [f"the server has closed the connection: {why}"])
            self.assertEqual((said.returncode, said.stderr), (0, note))

    def test_a_bot_with_a_time_limit_gives_up_sooner_if_no_seat_is_free(self) -> None:
        """There are nine answers only, so a bot that tried for a minute would hang. The message is the usual one."""
        said = call(*BOT, self.slip(self.serve_line(b'{"refuse":"busy"}\n', 9)), "0.5")
        self.assertEqual((said.returncode, said.stdout), (5, ""))
        self.assertEqual(said.stderr, "bot.py: all seats were taken for a minute: try again later\n")

    def test_a_bot_gives_up_after_a_minute_in_which_no_seat_is_free(self) -> None:
        slip = self.slip(self.serve_line(b'{"refuse":"busy"}\n', 1000))
        begun = time.monotonic()
        bots = [subprocess.Popen([*command, slip], stdout=subprocess.PIPE, stderr=subprocess.PIPE, text=True) for command in BOTS]
        for bot in bots:
            out, error = bot.communicate(timeout=LIMIT)
            self.assertEqual((bot.returncode, out), (5, ""), error)
            self.assertRegex(error, r"^\w+(\.py)?: all seats were taken for a minute: try again later\n$")
            self.assertGreater(time.monotonic() - begun, 59)

    def test_a_file_that_is_no_slip_is_a_wrong_command_line(self) -> None:
        for command in (*BOTS, TEACHER, BY_HAND):
            wrong_words: tuple[str | Path, ...] = ("none.slip", "4711", self.file("bad.slip", "no slip\n"))
            for more in wrong_words:
                if command is BY_HAND and more == "4711":
                    continue  # By hand, a port alone is enough: the hello is typed too.
                self.check_wrong(*command, more)

    def test_bad_slips_and_bad_arguments_after_a_slip_are_a_wrong_command_line(self) -> None:
        slip, lab = self.slip(1), self.file("no.toml", "node = 1\n")
        far = self.file("far.slip", "port 70000\nname gus\nkey heron\nnodes 1\n")
        keyless = self.file("keyless.slip", "port 1\nname gus\nnodes 1\n")
        for command in BOTS:
            for more in (("soon",), ("5", "6")):
                self.check_wrong(*command, slip, *more)
            for given in (far, keyless):
                self.check_wrong(*command, given)
        for word in ("nan", "-1"):
            self.check_wrong(*BOT, slip, word)
        for file in (self.room / "none.toml", lab):
            self.check_wrong(*TEACHER, slip, file)
        for rest in (("--log",), ("soon",)):
            self.check_wrong(*BY_HAND, slip, *rest)

    def check_wrong(self, *command: str | Path) -> None:
        """Runs a command to its end, and checks that it prints one line of error and has the status 1, that of a wrong
        command line."""
        said = call(*command)
        self.assertEqual((said.returncode, said.stdout), (1, ""), (command, said.stderr))
        self.assertEqual(said.stderr.count("\n"), 1, said.stderr)
        self.assertNotIn("Traceback", said.stderr)


class Talking(Cycle):
    """Programs that connect to the server of a run."""

    def edited(self, slip: Path, name: str, old: str, new: str) -> Path:
        """Copies a slip to a file of this name, with `new` in place of `old`. Returns the path of the copy."""
        return self.file(name, slip.read_text(encoding="utf-8").replace(old, new))

    def test_a_bot_with_a_wrong_key_or_node_names_the_slip_as_the_remedy(self) -> None:
        """The status is 2 for the key, and 3 for the node."""
        going = Going(self, CYCLE, "--close", "by-hand")
        good = self.slip(going.port, "gus")
        for command in BOTS:
            said = call(*command, self.edited(good, "key.slip", KEYS["gus"], "another"))
            self.assertEqual(said.returncode, 2)
            self.assertRegex(said.stderr, r"^\w+(\.py)?: name and key don't match: take both from your slip\n$")
            said = call(*command, self.edited(good, "node.slip", "nodes 1", "nodes 2"))
            self.assertEqual(said.returncode, 3)
            self.assertRegex(said.stderr, r"^\w+(\.py)?: a node isn't yours: take the nodes from your slip\n$")

    def test_with_a_dash_for_its_file_the_key_is_taken_from_the_environment(self) -> None:
        """After the port, the name and the dash, a bot gets its nodes, here only 4. Then it may get the seconds after
        which it ends if nothing was new. The client by hand and the teacher's program need no nodes. Without the
        variable, the status is 1."""
        going = Going(self, CYCLE, "--close", "by-hand")
        words_of: tuple[str, ...] = (str(going.port), "gus", "-")
        said = call(*BOT, *words_of, "4", "0.5", key=KEYS["gus"])
        self.assertEqual((said.returncode, said.stderr), (0, ""))
        self.assertIn("node 4: update granted in configuration 0, as event 1", said.stdout)
        said = call(*BY_HAND, *words_of, typed='{"do":"bye"}\n', key=KEYS["gus"])
        self.assertEqual((said.returncode, said.stdout.splitlines()[0]), (0, '{"ok":"hello","who":"gus"}'))
        for command in BOTS:
            self.assertEqual(call(*command, *words_of, "4", key="another").returncode, 2)
            said = call(*command, *words_of, "4")
            self.assertEqual(said.returncode, 1)
            self.assertRegex(said.stderr, r"^\w+(\.py)?: the environment variable CENDUWA_KEY isn't set\n$")
        self.assertEqual(call(*TEACHER, *words_of, key="another").returncode, 2)

    def test_with_a_dash_for_its_file_the_slip_is_taken_from_the_environment(self) -> None:
        """After the dash, a bot may get the seconds after which it ends if nothing was new. The status is 1 if the
        variable isn't set, or if the slip in it has no line with nodes."""
        going = Going(self, CYCLE, "--close", "by-hand")
        slip = self.slip(going.port, "gus").read_text(encoding="utf-8")
        said = call(*BOT, "-", "0.5", slip=slip)
        self.assertEqual((said.returncode, said.stderr), (0, ""))
        self.assertIn("node 4: update granted in configuration 0, as event 1", said.stdout)
        said = call(*BY_HAND, "-", typed='{"do":"bye"}\n', slip=slip)
        self.assertEqual((said.returncode, said.stdout.splitlines()[0]), (0, '{"ok":"hello","who":"gus"}'))
        for command in BOTS:
            self.assertEqual(call(*command, "-", slip=slip.replace(KEYS["gus"], "another")).returncode, 2)
            for given, why in ((None, "the environment variable CENDUWA_SLIP isn't set"), (slip.partition("nodes")[0], "there are no nodes in -")):
                said = call(*command, "-", slip=given)
                self.assertEqual((said.returncode, said.stdout), (1, ""))
                self.assertRegex(said.stderr, rf"^\w+(\.py)?: {why}\n$")

    def test_bots_end_with_status_0_at_the_end_of_the_run(self) -> None:
        going = Going(self, CYCLE, "--close", "by-hand")
        slip = self.slip(going.port, "gus")
        bots = []
        for command in BOTS:  # One after another, since two connections of one name at the same time have one line.
            bots.append(subprocess.Popen([*command, slip], stdout=subprocess.DEVNULL, stderr=subprocess.PIPE, text=True))
            going.until("^connected: ")
        self.assertEqual(going.end(), 0, going.lines)
        for bot in bots:
            self.assertRegex(bot.communicate(timeout=LIMIT)[1], r"^\w+(\.py)?: the run is over\n$")
            self.assertEqual(bot.returncode, 0)

    def test_by_hand_each_line_gets_a_reply_and_a_wrong_one_also_a_note(self) -> None:
        """The log has all lines, but no key. It marks a sent line by `>`, a reply by `<`, and a note by `!`. Further
        conversations have a line that is too long, a log that can't be written, and a line that isn't UTF-8."""
        going = Going(self, CYCLE, "--close", "by-hand")
        log = self.room / "log"
        said = call(*BY_HAND, self.slip(going.port, "gus"), "--log", log, typed='{"do":"look"}\n{"do":"look","node":4}\n{"do":"bye"}\n')
        self.assertEqual(said.returncode, 0, said.stderr)
        replies = [json.loads(line) for line in said.stdout.splitlines()]
        # The first two replies are `{"ok":"hello","who":"gus"}` and `{"refuse":"malformed"}`.
        self.assertEqual([list(reply.values())[-1] for reply in replies[:2]], ["gus", "malformed"])
        self.assertEqual([reply["ok"] for reply in replies[2:]], ["look", "bye"])
        self.assertEqual(said.stderr, 'client: the key "node" is missing\n')
        kept = log.read_text(encoding="utf-8")
        self.assertNotIn(KEYS["gus"], kept)
        self.assertEqual([line.split(" ")[1] for line in kept.splitlines()], [">", "<", "!", ">", "<", ">", "<", ">", "<"])
        said = call(*BY_HAND, self.slip(going.port, "gus"), typed="x" * 5000 + "\n")
        self.assertIn("the server has closed the connection: a line had more than 4096 bytes", said.stdout)
        said = call(*BY_HAND, self.slip(going.port, "gus"), "--log", "/dev/full", typed='{"do":"bye"}\n')
        self.assertEqual((said.returncode, said.stdout.splitlines()[-1]), (0, '{"ok":"bye"}'))
        self.assertEqual(said.stderr, "client: /dev/full: No space left on device, so no more lines are logged\n")
        done = subprocess.run([*BY_HAND, self.slip(going.port, "gus")], input=b'{"do":"bye\xff"}\n{"do":"bye"}\n', capture_output=True,
                              check=False, timeout=LIMIT)
        self.assertEqual(done.stdout.splitlines()[1:], [b'{"refuse":"malformed"}', b'{"ok":"bye"}'])
        self.assertEqual((done.returncode, done.stderr), (0, b"client: the line isn't UTF-8 at byte 11\n"))


if __name__ == "__main__":
    unittest.main()
