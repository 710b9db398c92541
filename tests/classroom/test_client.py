"""`client.py` as a module, as a program and as a package: lines that it doesn't send, its errors, and the schemas of
requests and replies. The client of a student's program sends *lines* to the server, each a request in JSON."""
from __future__ import annotations

import base64
import hashlib
import json
import shutil
import socket
import subprocess
import sys
import threading
import unittest
import unittest.mock
import zipfile
from collections.abc import Callable, Iterator

from classroom.client import Client, Closed, Look, Malformed, Near, Refused, Slip, again, enter, line_of, wrong
from classroom.core.program import TOP
from tests.classroom import schemas
from tests.classroom.help import LIMIT, InRoom

# Lines as beginners write them, each with the client's answer.
HURT = (
    ("{'do':'look','node':4}",
     "the line isn't JSON at byte 2 (write double quotes)"),
    ('{"do":\'look\',"node":4}',
     "the line isn't JSON at byte 7 (write double quotes)"),
    ('{“do”:“look”,“node”:4}',
     "the line isn't JSON at byte 2 (write straight double quotes)"),
    ('{do:"look","node":4}',
     'the line isn\'t JSON at byte 2 (write "do", in double quotes)'),
    ('{"do":look,"node":4}',
     'the line isn\'t JSON at byte 7 (write "look", in double quotes)'),
    ('{"do":"look","node":4,}',
     "the line isn't JSON at byte 23 (leave out the comma before this byte)"),
    ('{"do":"look",,"node":4}',
     "the line isn't JSON at byte 14 (leave out the comma before this byte)"),
    ('{"do":"look" "node":4}',
     "the line isn't JSON at byte 14 (write a comma before this byte)"),
    ('{"do":"look","node" 4}',
     "the line isn't JSON at byte 21 (write : after the key)"),
    ('{"do"="look","node"=4}',
     "the line isn't JSON at byte 6 (write : between key and value)"),
    ('{"do":"look","node":4',
     "the line isn't JSON: the object isn't closed by } at the end of the line"),
    ('{"do":"look,"node":4}',
     "the line isn't JSON at byte 14 (a double quote is missing before this byte)"),
    ('{"do":"look","node":4}}',
     "the line isn't JSON at byte 23 (leave out what follows the object)"),
    ('{"do":"look","node":4} # mine',
     "the line isn't JSON at byte 24 (JSON has no comments)"),
    ('# a comment',
     'the line isn\'t JSON at byte 1 (a request is an object, such as {"do":"bye"})'),
    ('look 4',
     'the line isn\'t JSON at byte 1 (a request is an object, such as {"do":"bye"})'),
    ('',
     'the line isn\'t JSON at byte 1 (a request is an object, such as {"do":"bye"})'),
    ('{"do":"look","node":04}',
     "the line isn't JSON at byte 22 (write 4, without a zero before it)"),
    ('{"do":"look","node":+4}',
     "the line isn't JSON at byte 21 (write 4, without a sign)"),
    ('{"do":"look","node":0x4}',
     "the line isn't JSON at byte 22 (write the number in decimal digits)"),
    ('{"do":"look","node":4.0}',
     'node is a number with a point or exponent, not a whole number (write 4, without a point)'),
    ('{"do":"look","node":4.5}',
     'node is a number with a point or exponent, not a whole number'),
    ('{"do":"look","node":"4"}',
     'node is a string, not a whole number (write 4, without quotes)'),
    ('{"do":"look","node":[4]}',
     'node is a list, not a whole number (write 4, without brackets)'),
    ('{"do":"look","node":None}',
     "the line isn't JSON at byte 21 (write null)"),
    ('{"do":"look","nodes":4}',
     'the key "node" is missing (you wrote nodes)'),
    ('{"do":"look","Node":4}',
     'the key "node" is missing (you wrote Node)'),
    ('{"do":"loook","node":4}',
     'there is no request "loook" (did you mean look?)'),
    ('{"do":"LOOK","node":4}',
     'there is no request "LOOK" (did you mean look?)'),
    ('{"look":4}',
     'the key "do" is missing (write {"do":"look"} for look)'),
    ('{"Do":"look","node":4}',
     'the key "do" is missing (you wrote Do)'),
    ('{"do":"move","node":4,"at":0,"rule":"Update"}',
     'rule is "Update", not one of update, marriage, seduction, abandonment (did you mean update?)'),
    ('{"do":"move","node":4,"at":0,"rule":"marry","with":3}',
     'rule is "marry", not one of update, marriage, seduction, abandonment (did you mean marriage?)'),
    ('{"do":"move","node":4,"at":0,"rule":"seduce"}',
     'rule is "seduce", not one of update, marriage, seduction, abandonment (did you mean seduction?)'),
    ('{"do":"move","node":4,"at":0,"rule":"dance"}',
     'rule is "dance", not one of update, marriage, seduction, abandonment'),
    ('{"do":"move","node":4,"at":0,"rule":"marriage"}',
     'the key "with" is missing (it names the neighbour that points at the node)'),
    ('{"do":"move","node":4,"at":0,"rule":"marriage","With":3}',
     'the key "with" is missing (you wrote With)'),
    ('{"do":"move","node":4,"at":0,"rule":"marriage","with":"3"}',
     'with is a string, not a whole number (write 3, without quotes)'),
    ('{"do":"fault","node":4,"p":None,"m":true}',
     "the line isn't JSON at byte 28 (write null)"),
    ('{"do":"fault","node":4,"p":"null","m":true}',
     'p is a string, not a whole number or null (write null, without quotes)'),
    ('{"do":"fault","node":4,"p":null,"m":True}',
     "the line isn't JSON at byte 37 (write true)"),
    ('{"do":"fault","node":4,"p":null,"m":"false"}',
     'm is a string, not true or false (write false, without quotes)'),
    ('{"do":"fault","node":4,"p":null,"m":1}',
     'm is a whole number, not true or false (write true)'),
    ('{"do":"hello","name":4,"key":"k"}',
     'name is a whole number, not a string (write "4", in double quotes)'),
    ('{"do":"hello","name":"gus","keys":"k"}',
     'the key "key" is missing (you wrote keys)'),
    ('{"do":"link","from":1,"to":2}',
     'the key "a" is missing'),
    ('{"do":"look","node":NaN}',
     "the line isn't JSON: JSON has no number NaN"),
)

HINT = "; --help prints what to type"  # the end of an error line about the command line
# The reasons for which the server refuses a line although it fits the schema.
BEYOND = ("the line isn't UTF-8", "the line begins with a byte order mark", "a text has only half", "values are nested",
          "a number is too large", "out of range")


class Server:
    """A stand-in for a class's server. It serves a single connection, and `lines` has the lines that came."""

    def __init__(self, test: unittest.TestCase, *replies: bytes) -> None:
        """Listens at a free port, and answers the lines of one connection by these replies in turn. Then it closes the
        connection."""
        self.lines: list[bytes] = []
        self.listener = socket.create_server(("127.0.0.1", 0))
        self.listener.settimeout(LIMIT)
        test.addCleanup(self.listener.close)
        self.port: int = self.listener.getsockname()[1]
        threading.Thread(target=self.answer, args=(replies,), daemon=True).start()

    def answer(self, replies: tuple[bytes, ...]) -> None:
        """Waits for a connection, and answers its first lines by these replies."""
        its, _ = self.listener.accept()
        with its, its.makefile("rb") as lines:
            for reply in replies:
                self.lines.append(lines.readline())
                its.sendall(reply + b"\n")


def scripts() -> Iterator[tuple[bytes, dict[str, object]]]:
    """Yields each request in the scripts of `examples/` and `tests/scripts/`, with the values of its reply. In these
    files, the number of a connection is before each request and reply."""
    for folder in ("tests/scripts", "examples"):
        for script in sorted((TOP / folder).glob("*.script")):
            for line, reply in zip(script.read_bytes().split(b"\n"), script.with_suffix(".out").read_bytes().splitlines()):
                yield line.partition(b" ")[2], json.loads(reply.partition(b" ")[2])


class Hurt(unittest.TestCase):
    """Lines that aren't requests."""

    def test_for_each_wrong_line_of_beginners_the_client_says_how_to_mend_it(self) -> None:
        self.assertEqual(len(HURT), 47)  # so that no row of the table is lost
        for line, told in HURT:
            self.assertEqual(wrong(line), told, line)


class Before(unittest.TestCase):
    """Errors that the client finds before it sends."""

    def test_a_line_that_is_no_request_isnt_sent(self) -> None:
        """Nor is a move for a look that shows no rule, or a marriage if no neighbour points at the node."""
        server = Server(self, b'{"ok":"hello","who":"gus"}', b'{"ok":"bye"}')
        me = Client(server.port, "gus", "k")
        rows: tuple[tuple[dict[str, object], str], ...] = (
            ({"do": "look", "node": "4"}, "node is a string, not a whole number (write 4, without quotes)"),
            ({"do": "loook", "node": 4}, 'there is no request "loook" (did you mean look?)'), ({"do": "see", "node": {4}}, "Object of type set"),
        )
        for request, why in rows:
            with self.assertRaises(Malformed) as malformed:
                me.ask(**request)
            self.assertEqual(malformed.exception.word, "malformed")
            self.assertIn(f"malformed, and not sent: {why}", str(malformed.exception))
        look = Look(4, None, False, 0, None, None, (Near(3, None, False),))
        with self.assertRaisesRegex(Malformed, "the look at node 4 shows no rule: ask for no move there, or name a rule"):
            me.move(look)
        with self.assertRaisesRegex(Malformed, "no neighbour of node 4 points at it"):
            me.move(look, "marriage")
        me.bye()
        self.assertEqual([json.loads(line)["do"] for line in server.lines], ["hello", "bye"])

    def test_after_bye_the_connection_is_closed(self) -> None:
        with Client(Server(self, b'{"ok":"hello","who":"gus"}', b'{"ok":"bye"}').port, "gus", "k") as me:
            me.bye()
            for _ in range(2):
                with self.assertRaisesRegex(Closed, "this connection has ended: make another Client"):
                    me.look(4)

    def test_a_hello_that_is_refused_as_memory_or_busy_is_sent_again(self) -> None:
        """This holds for the first hello of a client and for one after a lost connection. Any other refusal is
        raised."""
        slip = Slip(1, "gus", "heron", (4,))
        greetings: tuple[Callable[[], object], ...] = (lambda: enter(slip), lambda: again(slip, Closed("lost")))
        for greets in greetings:
            # The stand-in for connecting and greeting fails twice. Without `sleep`, the client doesn't wait in between.
            came = unittest.mock.Mock(side_effect=[Refused("memory"), Refused("busy"), "greeted"])
            with unittest.mock.patch.object(Client, "of", came), unittest.mock.patch("time.sleep"):
                self.assertEqual(greets(), "greeted")
            with unittest.mock.patch.object(Client, "of", side_effect=Refused("journal")), unittest.mock.patch("time.sleep"):
                self.assertRaisesRegex(Refused, "journal", greets)

    def test_a_right_request_is_written_as_a_line_of_json(self) -> None:
        self.assertEqual(line_of({"do": "look", "node": 4}), b'{"do": "look", "node": 4}')


class CommandLine(InRoom):
    """`client.py` as a program."""

    def called(self, *given: str) -> tuple[int, str, str]:
        """Runs `client.py` with these arguments. Returns the status, the output and the standard error."""
        done = subprocess.run([sys.executable, TOP / "classroom/client.py", *given], capture_output=True, text=True, check=False, timeout=LIMIT)
        return done.returncode, done.stdout, done.stderr

    def test_help_is_printed_for_help_and_without_arguments(self) -> None:
        """Without arguments, it is an error, so the text is printed on the standard error."""
        status, told, error = self.called("--help")
        self.assertEqual((status, error), (0, ""))
        for word in ("SLIP", "PORT NAME KEYFILE", "--log FILE", "--tunnel SLIP", "CENDUWA_SLIP", "Exit status: 0 "):
            self.assertIn(word, told)
        self.assertEqual((self.called("-h"), self.called()), ((0, told, ""), (1, "", told)))

    def test_for_wrong_arguments_one_line_says_what_is_wrong(self) -> None:
        slip = str(self.file("gus.slip", "port 4711\nname gus\nkey heron-31\n"))
        for given, why in (
            (["--lgo"], "--lgo: there is no such option (did you mean --log?)" + HINT),
            ([slip, "--verbose"], "--verbose: there is no such option" + HINT),
            ([slip, "--log"], "--log needs the name of a file" + HINT),
            ([slip, "again"], "again: this argument is one too many" + HINT),
            (["4711", "gus"], "write the arguments SLIP, or PORT NAME KEYFILE NODE,.." + HINT),
            (["--tunnel", slip], "--tunnel SLIP [PORT]: the slip has no line `door ..`: use ssh (docs/STUDENT.md)" + HINT),
            (["none.slip"], "none.slip: No such file or directory"), (["0", "gus", slip], "0 isn't a port: write a number from 1 to 65535"),
        ):
            self.assertEqual(self.called(*given), (1, "", f"client.py: {why}\n"), given)


class Installed(InRoom):
    """The package `classroom-client/`, which Python's installer pip can install."""

    def setUp(self) -> None:
        """Copies the package's folder, and puts the client into the copy, as a release has it."""
        super().setUp()
        self.source = self.room / "classroom-client"
        shutil.copytree(TOP / "classroom-client", self.source, ignore=shutil.ignore_patterns("__pycache__"))
        shutil.copy(TOP / "classroom/client.py", self.source)

    def test_a_wheel_is_the_client_with_its_metadata(self) -> None:
        """A wheel is the archive that pip installs. Its file RECORD lists all files with their hashes and sizes, last
        RECORD itself without them."""
        call = [sys.executable, "-B", "-c", "import building; print(building.build_wheel('.'))"]
        name = subprocess.run(call, cwd=self.source, capture_output=True, text=True, check=True).stdout.strip()
        with zipfile.ZipFile(self.source / name) as wheel:
            files = {each: wheel.read(each) for each in wheel.namelist()}
        self.assertEqual(files["client.py"], (TOP / "classroom/client.py").read_bytes())
        info = name.partition("-py3")[0] + ".dist-info/"
        version = (TOP / "VERSION").read_text(encoding="ascii").strip()
        self.assertIn(f"\nVersion: {version}\n", files[info + "METADATA"].decode())
        rows = [row.split(",") for row in files[info + "RECORD"].decode().splitlines()]
        self.assertEqual({row[0] for row in rows}, {*files})
        for file, digest, size in rows[:-1]:
            wanted = base64.urlsafe_b64encode(hashlib.sha256(files[file]).digest()).decode().rstrip("=")
            self.assertEqual((digest, size), (f"sha256={wanted}", str(len(files[file]))))

    def test_in_a_clone_the_wheel_is_made_with_the_client_of_the_folder_classroom(self) -> None:
        """There the client isn't in the package's folder, but in the folder `classroom` beside it."""
        (self.room / "classroom").mkdir()
        shutil.move(self.source / "client.py", self.room / "classroom/client.py")
        self.test_a_wheel_is_the_client_with_its_metadata()

    def test_pip_installs_it_without_a_network(self) -> None:
        pip = [sys.executable, "-m", "pip"]
        if subprocess.run([*pip, "--version"], capture_output=True, check=False).returncode:
            self.skipTest("not tried: no pip for this Python (Debian's python3-pip)")
        done = subprocess.run([*pip, "install", "--no-index", "--target", self.room / "lib", self.source], capture_output=True, text=True, check=False)
        self.assertEqual(done.returncode, 0, done.stdout + done.stderr)
        call = [sys.executable, "-c", "from client import Client; import client; print(client.__file__)"]
        found = subprocess.run(call, cwd=self.room, env={"PYTHONPATH": str(self.room / "lib")}, capture_output=True, text=True, check=False)
        self.assertEqual((found.stdout, found.stderr), (f"{self.room}/lib/client.py\n", ""))


class Schemas(unittest.TestCase):
    """`docs/requests.schema.json` and `docs/replies.schema.json`."""

    def test_a_request_of_the_scripts_fits_the_schema_unless_the_server_refuses_it_as_malformed(self) -> None:
        """The server also refuses some lines that fit, for reasons that no schema can express. Each reply fits its
        schema."""
        requests, replies, count = schemas.read("requests"), schemas.read("replies"), 0
        for line, reply in scripts():
            count += 1
            self.assertTrue(schemas.fits(reply, replies, replies), reply)
            try:
                is_request = schemas.fits(json.loads(line), requests, requests)
            except ValueError:
                is_request = False
            if is_request and reply.get("refuse") == "malformed":
                why = wrong(line.decode(errors="surrogateescape")) or ""
                self.assertTrue(any(each in why for each in BEYOND), line[:80])
            else:
                self.assertEqual(is_request, reply.get("refuse") != "malformed", line[:80])
        self.assertGreater(count, 1000)

    def test_wrong_lines_and_replies_do_not_fit_the_schemas(self) -> None:
        requests, replies = schemas.read("requests"), schemas.read("replies")
        for line, _ in HURT:
            try:
                self.assertFalse(schemas.fits(json.loads(line), requests, requests), line)
            except ValueError:  # The line isn't JSON.
                continue
        for reply in ('{"ok":"hello"}', '{"ok":"bye","who":"a"}', '{"at":1,"clause":3,"deny":"stale","text":"t"}', '{"refuse":"late","ok":"bye"}',
                      '{"at":0,"m":1,"node":2,"ok":"see","p":null}', '{"at":0,"m":true,"node":0,"ok":"see","p":null}'):
            self.assertFalse(schemas.fits(json.loads(reply), replies, replies), reply)


if __name__ == "__main__":
    unittest.main()
