"""The door by itself, with stand-ins for the servers of classes and of pages: what it forwards, and what it rejects.

The *door* is a TLS port for students on other machines. Clients name their network by the server name of the TLS
handshake, and browsers by the path of a page. A network has the page *to play*, on which students play by hand, and the
page for the projector. The latter has two addresses, each with a random token: one *to look at*, and one *to act*, at
which the teacher can give commands. A *slip* is a file with what a student's program needs to connect.
"""
from __future__ import annotations

import contextlib
import http.client
import json
import os
import socket
import ssl
import subprocess
import sys
import threading
import time
import unittest
from collections.abc import Callable, Iterator
from contextlib import contextmanager
from functools import partial
from http.server import BaseHTTPRequestHandler, ThreadingHTTPServer
from pathlib import Path
from unittest import mock

from classroom.client import Client, Closed, NoDoor, NoServer, NoSlip, Over, Refused, Slip
from classroom.core.folders import Process, Record
from classroom.core.program import Fault
from classroom.door import bounds, certificate, opening, routes
from classroom.door.asking import BadRequest, RequestHead
from classroom.door.bounds import Bounds, Handshake, Meter, origin
from classroom.door.opening import Place
from tests.classroom.help import EXAMPLES, LIMIT, InRoom

CLIENT = EXAMPLES.parent / "classroom/client.py"


class Lines:
    """A stand-in for a network's server. It answers each request with its own name and the request's word, and hangs up
    after `bye`. `taken` has all lines that came."""

    def __init__(self, name: str, last: bytes = b"") -> None:
        """Listens at a free port. `name` is in each answer. If `last` isn't empty, each connection gets this line at
        once, and is closed."""
        self.name, self.last, self.taken = name, last, list[bytes]()
        self.listener = socket.create_server(("127.0.0.1", 0), backlog=1024)
        self.port: int = self.listener.getsockname()[1]
        threading.Thread(target=self.serve, daemon=True).start()

    def serve(self) -> None:
        """Serves connections until the listener is closed."""
        while True:
            try:
                connection, _ = self.listener.accept()
            except OSError:
                return
            threading.Thread(target=self.serve_connection, args=[connection], daemon=True).start()

    def serve_connection(self, connection: socket.socket) -> None:
        """Answers each line of a connection, and closes the connection after `bye` or after a line that isn't a
        request. If `last` isn't empty, only sends `last`, and closes the connection at once."""
        with connection, connection.makefile("rb") as lines:
            if self.last:
                connection.sendall(self.last)
                return
            for line in lines:
                self.taken.append(line)
                try:
                    word = json.loads(line)["do"]
                    connection.sendall(json.dumps({"ok": word, "by": self.name}).encode() + b"\n")
                except (ValueError, OSError):
                    return
                if word == "bye":
                    return


class Afterwards(Lines):
    """A stand-in that answers only after the client has ended its side of the connection."""

    def serve_connection(self, connection: socket.socket) -> None:
        """Reads all lines of a connection to its end. Then slowly sends all lines that have come so far, those of
        earlier connections too."""
        with connection, connection.makefile("rb") as lines:
            self.taken += lines.readlines()
            for line in self.taken:
                time.sleep(0.1)
                connection.sendall(line)


class Page(BaseHTTPRequestHandler):
    """A stand-in for the server of a page. It answers with the request that it got."""

    def log_message(self, *_: object) -> None:
        """Prints nothing."""

    def do_GET(self) -> None:
        """Answers with the method, path, headers and body of the request."""
        body = self.rfile.read(int(self.headers.get("Content-Length") or 0)).decode()
        told = json.dumps({"asked": f"{self.command} {self.path}", "heads": dict(self.headers), "body": body}).encode()
        self.send_response(200)
        self.send_header("Content-Length", str(len(told)))
        self.end_headers()
        self.wfile.write(told)

    do_POST = do_GET


class AtDoor(InRoom):
    """A door on this machine, with stand-ins for networks."""

    def setUp(self) -> None:
        """Makes a certificate (`known` is its fingerprint), opens a door, and waits until the door's process serves.
        The lines that the door prints are kept."""
        super().setUp()
        self.told: list[str] = []
        self.known = certificate.make_if_missing(self.room / "door.pem", "localhost")
        self.door = opening.open_door(Place("127.0.0.1", 0), self.room, self.room / "door.pem", self.told.append)
        self.addCleanup(self.end_door)
        self.wait(lambda: (kept := routes.DoorData.read(self.door.folder)) is not None and kept.process.lives())

    def end_door(self) -> None:
        """Closes the door, and kills its process."""
        self.door.close()
        self.door.child.kill()
        self.door.child.wait()

    def wait(self, until: Callable[[], object], seconds: float = LIMIT) -> None:
        """Waits until a function returns a true value. Fails after `seconds` seconds."""
        end = time.monotonic() + seconds
        while not until():
            self.assertLess(time.monotonic(), end)
            time.sleep(0.02)

    def network(self, name: str, students: int, page: int | None = None, play: int | None = None) -> Path:
        """Makes the door forward connections for the network `name` to the port `students` of this machine, and
        requests for its pages to `page` (for the projector) and `play`. Returns the folder of the network's run, which
        goes on as long as this test."""
        run = self.room / f"run-{name}"
        run.mkdir(exist_ok=True)
        routes.announce(self.door.folder, name, run, ["class.example"])
        self.record(run, students, page, play)
        return run

    def record(self, run: Path, students: int, page: int | None = None, play: int | None = None) -> None:
        """Writes the file `run.json` into the folder of a run. It has the port `students` of the network's server, and
        the ports of the page for the projector (`page`) and of the page to play (`play`), if there are such pages. The
        token of the page to look at is `look-token`."""
        me = Process.of(os.getpid())  # This process stands for the desk and the server, so that the run goes on.
        Record("lab.toml", students, 1, page, "by-hand", None, me, me, play, looks="look-token").write(run)

    def lines(self, name: str, last: bytes = b"") -> Lines:
        """Makes a network with the name `name` whose server is a `Lines` with this name and this last line, and returns
        that server."""
        it = Lines(name, last)
        self.addCleanup(it.listener.close)
        self.network(name, it.port)
        return it

    def slip(self, name: str, fingerprint: str = "") -> Slip:
        """Returns a slip that leads to the network with this name through the door. By default it has the fingerprint
        of the door's certificate."""
        return Slip(4711, "gus", "heron-31", (1,), f"127.0.0.1:{self.door.port}", name, fingerprint or self.known)

    def slip_file(self, slip: Slip) -> Path:
        """Writes a slip into a file, and returns its path."""
        path = self.room / "gus.slip"
        path.write_text(f"port {slip.port}\nname gus\nkey heron-31\nnodes 1\ndoor {slip.door}\nnetwork {slip.network}\n"
                        f"fingerprint {slip.fingerprint}\n", encoding="utf-8")
        return path

    def raw(self, name: str) -> ssl.SSLSocket:
        """Returns a TLS connection to the door after its handshake, with the server name `name`, or without one if that
        is empty."""
        context = ssl.SSLContext(ssl.PROTOCOL_TLS_CLIENT)
        context.check_hostname, context.verify_mode = False, ssl.CERT_NONE
        it = context.wrap_socket(socket.create_connection(("127.0.0.1", self.door.port), LIMIT), server_hostname=name or None)
        self.addCleanup(it.close)
        return it

    def half_close(self, name: str, lines: bytes) -> bytes:
        """Connects to a network through the door, sends lines, and ends its own side of TLS. Returns all bytes that
        come until the door ends the other side. Uses TLS in memory, since an `SSLSocket` that ends its own side waits
        for the end of the other side, and returns no more bytes."""
        context = ssl.SSLContext(ssl.PROTOCOL_TLS_CLIENT)
        context.check_hostname, context.verify_mode = False, ssl.CERT_NONE
        come, goes, got = ssl.MemoryBIO(), ssl.MemoryBIO(), b""
        it = context.wrap_bio(come, goes, server_hostname=name)
        with socket.create_connection(("127.0.0.1", self.door.port), LIMIT) as plain:
            def do(step: Callable[[], bytes | None]) -> bytes | None:
                """Does a step of TLS, and returns its result. Sends the bytes that the step makes, and receives bytes
                as long as the step needs more."""
                while True:
                    try:
                        return step()
                    except ssl.SSLWantReadError:
                        plain.sendall(goes.read())
                        come.write(plain.recv(4096))
                    finally:
                        plain.sendall(goes.read())

            do(it.do_handshake)
            # The bytes of the lines and of the end stay in `goes` until the next step sends them.
            it.write(lines)
            with contextlib.suppress(ssl.SSLError):
                it.unwrap()
            with contextlib.suppress(ssl.SSLZeroReturnError):
                while more := do(lambda: it.read(4096)):
                    got += more
        return got

    def asks(self, path: str, host: str = "", method: str = "GET", **more: str) -> tuple[int, bytes]:
        """Sends a request for a path to the door, whose header Host is `host`, or the door's own address if that is
        empty. `more` are further headers, and a POST has the body `told`. Returns the status and the body of the
        answer."""
        context = ssl.SSLContext(ssl.PROTOCOL_TLS_CLIENT)
        context.check_hostname, context.verify_mode = False, ssl.CERT_NONE
        it = http.client.HTTPSConnection("127.0.0.1", self.door.port, timeout=LIMIT, context=context)
        it.request(method, path, headers={"Host": host or f"127.0.0.1:{self.door.port}", **more}, body="told" if method == "POST" else None)
        answer = it.getresponse()
        return answer.status, answer.read()


class Bots(AtDoor):
    """Connections of clients that send lines."""

    def test_each_server_name_leads_to_its_network_and_others_to_none(self) -> None:
        for name in ("maths-1", "maths-2"):
            self.lines(name)
        for name in ("maths-1", "maths-2", "maths-1"):
            with Client.of(self.slip(name)) as me:
                self.assertEqual(me.ask(do="look", node=1), {"ok": "look", "by": name})
        for name in ("class.example", ""):  # the name of the door's host, as a browser sends it, and none
            it = self.raw(name)
            it.sendall(b'{"do":"look"}\n')
            self.assertEqual(it.recv(100), b"")

    def test_if_there_is_only_one_network_its_name_is_not_needed(self) -> None:
        self.lines("maths")
        for name in ("class.example", ""):
            it = self.raw(name)
            it.sendall(b'{"do":"bye"}\n')
            self.assertEqual(json.loads(it.makefile("rb").readline()), {"ok": "bye", "by": "maths"})

    def test_a_client_whose_network_has_not_begun_is_not_led_to_the_only_other_one(self) -> None:
        seen = self.lines("maths-1").taken
        with self.assertRaises(NoServer):
            Client.of(self.slip("maths-2"))
        self.assertEqual(seen, [])
        self.lines("maths-2")
        with Client.of(self.slip("maths-2")) as me:
            self.assertEqual(me.ask(do="look", node=1)["by"], "maths-2")

    def test_a_client_sends_nothing_to_a_door_with_another_certificate_than_its_slip_names(self) -> None:
        """This holds for the module, the client by hand and the tunnel. The network's server gets no line."""
        seen = self.lines("maths").taken
        other = self.slip("maths", "0" * 64)
        with self.assertRaisesRegex(NoDoor, "^the door at 127.0.0.1:.* has another certificate than your slip names, so nothing was sent$"):
            Client.of(other)
        for words in ([str(self.slip_file(other))], ["--tunnel", str(self.slip_file(other))]):
            done = subprocess.run([sys.executable, CLIENT, *words], capture_output=True, text=True, check=False, timeout=LIMIT, input="")
            self.assertEqual((done.returncode, done.stdout), (4, ""))
            self.assertRegex(done.stderr, "^client.py: the door at .* has another certificate .*; ask your teacher for a new slip\n$")
        self.assertEqual(seen, [])

    def test_the_server_s_last_line_reaches_the_client(self) -> None:
        """It comes in place of the reply to the hello, and the client raises the error for it."""
        for word, error in (("busy", Refused), ("over", Over), ("late", Closed)):
            self.lines("maths", b'{"refuse":"%s"}\n' % word.encode())
            with self.assertRaises(error):
                Client.of(self.slip("maths"))

    def test_a_client_that_has_ended_its_own_side_still_gets_the_replies(self) -> None:
        """The client ends its side of TLS, or only that of TCP. After the latter, only the first reply is checked. It
        is the first line, since the stand-in sends back what it got."""
        it = Afterwards("maths")
        self.addCleanup(it.listener.close)
        self.network("maths", it.port)
        lines = b'{"do":"see"}\n{"do":"look"}\n{"do":"bye"}\n'
        self.assertEqual(self.half_close("maths", lines), lines)
        plain = self.raw("maths")
        plain.sendall(lines)
        socket.socket.shutdown(plain, socket.SHUT_WR)  # This ends the side of TCP, and sends no byte of TLS.
        self.assertEqual(plain.makefile("rb").readline(), lines[:lines.index(b"\n") + 1])
        self.assertEqual(it.taken, 2 * lines.splitlines(keepends=True))

    def test_a_door_that_closes_a_connection_before_the_handshake_counts_as_busy(self) -> None:
        """A door does that if it has too many connections. The client raises `Refused`."""
        with socket.create_server(("127.0.0.1", 0)) as full:
            def turn_away(most: int) -> None:
                """Reads at most `most` bytes of a connection, and closes it. If some bytes weren't read, the client
                gets a reset."""
                connection, _ = full.accept()
                with connection:
                    connection.recv(most)

            for most in (65536, 1):
                threading.Thread(target=turn_away, args=[most], daemon=True).start()
                with self.assertRaisesRegex(Refused, "^busy: "):
                    Client.of(Slip(4711, "gus", "heron-31", (1,), f"127.0.0.1:{full.getsockname()[1]}", "maths", "0" * 64))

    def test_a_client_finds_no_server_until_its_network_has_one_again_at_another_port(self) -> None:
        """The door reads the new port from the file `run.json` in the run's folder."""
        first = self.lines("maths")
        with Client.of(self.slip("maths")):
            pass
        first.listener.shutdown(socket.SHUT_RDWR)
        first.listener.close()
        with self.assertRaises(NoServer):
            Client.of(self.slip("maths"))
        again = Lines("again")
        self.addCleanup(again.listener.close)
        self.record(self.room / "run-maths", again.port)
        with Client.of(self.slip("maths")) as me:
            self.assertEqual(me.ask(do="see", node=1)["by"], "again")

    def test_a_client_that_sends_nothing_gets_late_after_more_than_five_seconds(self) -> None:
        """The door waits ten seconds for a first byte. They may begin before the test's own count, so the test asks
        only for five."""
        self.lines("maths")
        it, begun = self.raw("maths"), time.monotonic()
        self.assertEqual(it.makefile("rb").readline(), b'{"refuse":"late"}\n')
        self.assertGreater(time.monotonic() - begun, 5)

    def test_a_door_whose_process_was_killed_is_opened_again(self) -> None:
        self.lines("maths")
        self.door.child.kill()
        self.wait(lambda: self.told != [])
        with Client.of(self.slip("maths")) as me:
            self.assertEqual(me.ask(do="see", node=1)["by"], "maths")
        self.assertRegex(self.told[0], "^the process of the door has ended unexpectedly, by the signal SIGKILL. The door is opened again$")

    def test_the_process_of_the_door_ends_by_itself_after_the_run_of_its_last_network(self) -> None:
        self.lines("maths")
        self.door.closes.set()  # so that the door isn't opened again when its process ends
        record = Record.read(self.room / "run-maths")
        assert record is not None
        # The process with this number has another start, so the one that the new record names counts as ended.
        gone = Process(record.run.number, "1")
        Record("lab.toml", record.port, 1, None, "by-hand", None, gone, gone).write(self.room / "run-maths")
        self.assertEqual(self.door.child.wait(LIMIT), 0)
        self.wait(lambda: self.door.listener.fileno() == -1)
        with self.assertRaises(NoServer):
            Client.of(self.slip("maths"))


class Restarts(InRoom):
    """A door whose process ends unexpectedly. It is restarted at most five times."""

    def check_lines(self, statuses: list[int], wanted: list[str], is_closing: bool = False) -> None:
        """Opens a door whose process ends with the first of these statuses, and with the next one after each restart.
        Checks that there are as many processes as statuses, and that the printed lines begin with the texts in
        `wanted`. At the end, the listening socket has to be closed. `is_closing` says whether the door is closed while
        the last process runs."""
        told: list[str] = []
        listener = socket.create_server(("127.0.0.1", 0))
        self.addCleanup(listener.close)
        children = [mock.Mock(returncode=status) for status in statuses]
        # The test itself calls `watch`, so that no thread runs.
        with mock.patch.object(opening.OpenDoor, "start_process", side_effect=children) as starts, mock.patch("threading.Thread"):
            door = opening.OpenDoor(self.room, listener, told.append)

            def wait(index: int) -> int:
                """Stands for the wait for the end of the process with this index. Returns the status of the process."""
                if is_closing and index == len(statuses) - 1:
                    door.closes.set()
                return statuses[index]

            for index, child in enumerate(children):
                child.wait.side_effect = partial(wait, index)
            door.watch()
        self.assertEqual((starts.call_count, listener.fileno()), (len(statuses), -1))
        self.assertEqual([line[:len(start)] for line, start in zip(told, wanted, strict=True)], wanted)

    def test_a_door_counts_as_ended_too_often_only_if_its_process_fails_once_more_after_five_restarts(self) -> None:
        """An end with status 0, and an end while the door is closed, are no failures."""
        again = ["the process of the door has ended unexpectedly, with status 3. The door is opened again"] * opening.TIMES
        failed = [3] * opening.TIMES
        self.check_lines([*failed, 3], [*again, "the process of the door has ended too often, so the door stays closed. "])
        self.check_lines([*failed, 0], again)
        self.check_lines([*failed, -15], again, is_closing=True)
        self.check_lines([0], [])


class Tunnels(AtDoor):
    """`client.py --tunnel SLIP [PORT]`: a port of this machine that leads through the door. With it, programs that
    don't support TLS can play."""

    @contextmanager
    def tunnel(self, slip: Path, *more: str) -> Iterator[str]:
        """Starts a tunnel with a slip and these further arguments. Yields the line that names its port, and kills the
        tunnel at the end."""
        with subprocess.Popen([sys.executable, CLIENT, "--tunnel", slip, *more], stdout=subprocess.PIPE, stderr=subprocess.PIPE, text=True) as it:
            try:
                assert it.stdout is not None
                yield it.stdout.readline()
            finally:
                it.kill()

    def test_a_program_connects_to_the_tunnel_as_to_a_server_on_its_own_machine(self) -> None:
        self.lines("maths")
        port = free_port()
        with self.tunnel(self.slip_file(self.slip("maths")), str(port)) as line:
            self.assertEqual(line, f"port {port} of this machine leads through the door at 127.0.0.1:{self.door.port} to the network maths; "
                                   "Ctrl-C closes the tunnel\n")
            with Client(port, "gus", "heron-31") as me:
                self.assertEqual(me.ask(do="look", node=1)["by"], "maths")
            with socket.create_connection(("127.0.0.1", port), LIMIT) as it:  # A client that ends its own side gets the replies.
                it.sendall(b'{"do":"see"}\n{"do":"bye"}\n')
                it.shutdown(socket.SHUT_WR)
                self.assertEqual([json.loads(line)["ok"] for line in it.makefile("rb")], ["see", "bye"])

    def test_for_wrong_arguments_a_taken_port_or_no_door_the_tunnel_prints_an_error_line(self) -> None:
        """The status is 1 for wrong arguments and for a taken port, and 4 if there is no door."""
        self.lines("maths")
        plain = self.room / "plain.slip"
        plain.write_text("port 4711\nname gus\nkey heron-31\n", encoding="utf-8")
        slip = self.slip_file(self.slip("maths"))
        wrong: tuple[tuple[str | Path, ...], ...] = ((plain,), (slip, "70000"), (slip, "1", "2"), ())
        for words in wrong:
            done = subprocess.run([sys.executable, CLIENT, "--tunnel", *words], capture_output=True, text=True, check=False, timeout=LIMIT)
            self.assertEqual((done.returncode, done.stdout, done.stderr.count("\n")), (1, "", 1), done.stderr)
        with socket.create_server(("127.0.0.1", 0)) as taken:
            done = subprocess.run([sys.executable, CLIENT, "--tunnel", slip, str(taken.getsockname()[1])], capture_output=True, text=True,
                                  check=False, timeout=LIMIT)
            self.assertEqual(done.returncode, 1)
            self.assertTrue(done.stderr.endswith("; --tunnel SLIP PORT uses another port\n"), done.stderr)
        far = Slip(4711, "gus", "k", (), f"127.0.0.1:{free_port()}", "maths", "0" * 64)
        done = subprocess.run([sys.executable, CLIENT, "--tunnel", self.slip_file(far)], capture_output=True, text=True,
                              check=False, timeout=LIMIT)
        self.assertEqual(done.returncode, 4)
        self.assertIn(f"no door at {far.door}", done.stderr)

    def test_a_slip_without_a_network_a_fingerprint_or_a_door_s_host_is_refused(self) -> None:
        text = self.slip_file(self.slip("maths")).read_text(encoding="utf-8")
        for old in ("network maths\n", f"fingerprint {self.known}\n", "127.0.0.1:"):
            (self.room / "bad.slip").write_text(text.replace(old, ""), encoding="utf-8")
            with self.assertRaises(NoSlip):
                Slip.read(self.room / "bad.slip")


class Pages(AtDoor):
    """Requests for pages."""

    def setUp(self) -> None:
        """Makes the network maths with stand-ins for its server, the page for the projector and the page to play."""
        super().setUp()
        ports = []
        for _ in range(2):
            it = ThreadingHTTPServer(("127.0.0.1", 0), Page)
            self.addCleanup(it.server_close)
            self.addCleanup(it.shutdown)
            threading.Thread(target=it.serve_forever, daemon=True).start()
            ports.append(it.server_port)
        self.page, self.play = ports
        self.bots = Lines("maths")
        self.addCleanup(self.bots.listener.close)
        self.network("maths", self.bots.port, self.page, self.play)

    def test_requests_below_the_network_s_name_are_forwarded_to_its_pages(self) -> None:
        """Only the headers that pages need are forwarded, and nothing reaches the network's server."""
        for path, asked, port in (("/maths/", "GET /", self.play), ("/maths/enter", "GET /enter", self.play),
                                  ("/maths/look/look-token/", "GET /look-token/", self.page),
                                  ("/maths/look/look-token/events", "GET /look-token/events", self.page)):
            status, body = self.asks(path, Cookie="a=b", Accept="text/html")
            told = json.loads(body)
            self.assertEqual((status, told["asked"]), (200, asked))
            self.assertEqual(told["heads"], {"Host": f"127.0.0.1:{port}", "Connection": "close", "accept": "text/html"})
        told = json.loads(self.asks("/maths/move", method="POST")[1])
        self.assertEqual((told["asked"], told["body"]), ("POST /move", "told"))
        self.assertEqual(self.bots.taken, [])

    def test_no_path_leads_to_the_page_to_act(self) -> None:
        """`look-token` is the last part of the address of the page to look at. Whoever knows it can't reach the page of
        the token `act-token`, from which a class is commanded, nor send a command."""
        for path in ("/maths/look/act-token/", "/maths/look/act-token/act", "/maths/look/look-token/../act-token/", "/maths/look/look-token%2f",
                     "/maths/look/", "/maths/act-token/act", "/maths/a/b", "/other/", "/", "/maths/look/look-token/events?x"):
            self.assertEqual(self.asks(path)[0], 404, path)
        self.assertEqual(self.asks("/maths/look/look-token/act", method="POST")[0], 404)

    def test_the_page_for_all_networks_can_be_looked_at_once_it_is_announced(self) -> None:
        """No path leads to its commands, no client is led to a network named `all`, and a damaged file of the
        announcement counts as none."""
        self.assertEqual(self.asks("/all/look/all-token/")[0], 404)
        routes.announce_all(self.door.folder, self.page, "all-token")
        for path in ("", "state", "events"):
            self.assertEqual(json.loads(self.asks(f"/all/look/all-token/{path}")[1])["asked"], f"GET /all-token/{path}")
        for path in ("/all/", "/all/look/other/", "/all/act-token/act"):
            self.assertEqual(self.asks(path)[0], 404, path)
        self.assertEqual(self.asks("/all/look/all-token/act", method="POST")[0], 404)
        it = self.raw("all")
        it.sendall(b'{"do":"see"}\n')
        self.assertEqual(it.recv(100), b"")
        (self.door.folder / routes.HALL).write_text('{"port": 99999, "looks": 1}', encoding="utf-8")
        self.assertEqual(self.asks("/all/look/all-token/")[0], 404)

    def test_a_request_for_an_unknown_host_or_another_port_is_refused(self) -> None:
        """The known hosts are those of this machine and those that the slips name. An empty one stands for the right
        address."""
        for host, status in ((f"class.example:{self.door.port}", 200), (f"localhost:{self.door.port}", 200), ("class.example", 421),
                             (f"evil.example:{self.door.port}", 421), ("127.0.0.1:1", 421), ("", 200)):
            self.assertEqual(self.asks("/maths/", host)[0], status, host)

    def test_a_request_of_a_wrong_form_or_size_is_answered_with_its_status(self) -> None:
        """The status is 400 for a wrong form, 405 for a method other than GET and POST, 431 for a head that is too
        long, and 413 for a body that is too long."""
        many = b"A: " + b"x" * 9000
        for text, status in ((b"GET / HTTP/1.1\r\nA b\r\n\r\n", b"400"), (b"GARBAGE\r\n\r\n", b"400"), (b"PUT / HTTP/1.1\r\n\r\n", b"405"),
                             (b"GET / HTTP/1.1\r\n" + many + b"\r\n\r\n", b"431"), (b"GET / HTTP/1.1\r\nHost: a\r\nHost: b\r\n\r\n", b"400"),
                             (b"GET /\x00 HTTP/1.1\r\n\r\n", b"400"), (b"POST /maths/move HTTP/1.1\r\nTransfer-Encoding: chunked\r\n\r\n", b"400")):
            it = self.raw("")
            it.sendall(text)
            self.assertEqual(it.makefile("rb").readline().split()[1], status, text[:40])
        large = self.asks("/maths/move", method="POST", **{"Content-Length": "5000"})
        self.assertEqual(large[0], 413)

    def test_a_second_request_on_a_connection_is_not_answered(self) -> None:
        """Only the first request of a connection is checked, so no other may reach a page."""
        one = f"GET /maths/ HTTP/1.1\r\nHost: 127.0.0.1:{self.door.port}\r\nConnection: keep-alive\r\n\r\n".encode()
        it = self.raw("")
        it.sendall(one + b"GET /act-token/ HTTP/1.1\r\nHost: 127.0.0.1:1\r\n\r\n")
        self.assertEqual(it.makefile("rb").read().count(b"HTTP/1."), 1)

    def test_an_address_without_its_last_slash_leads_to_the_one_with_it(self) -> None:
        it = self.raw("")
        it.sendall(f"GET /maths HTTP/1.1\r\nHost: 127.0.0.1:{self.door.port}\r\n\r\n".encode())
        self.assertIn(b"\r\nLocation: /maths/\r\n", it.makefile("rb").read())

    def test_if_a_run_has_no_pages_requests_for_them_get_404(self) -> None:
        self.record(self.room / "run-maths", self.bots.port)
        self.assertEqual(self.asks("/maths/"), (404, b"this class has no page for playing by hand. Ask your teacher\n"))
        self.assertEqual(self.asks("/maths/look/look-token/")[0], 404)
        self.assertEqual(self.bots.taken, [])

    def test_a_request_that_does_not_end_is_cut_off_after_some_seconds(self) -> None:
        """The door waits five seconds for the head of a request. They may begin before the test's own count, so the
        test asks only for two."""
        it = self.raw("")
        it.sendall(b"GET /maths/ HTTP/1.1\r\n")
        begun = time.monotonic()
        self.assertEqual(it.recv(100), b"")
        self.assertGreater(time.monotonic() - begun, 2)

    def test_a_client_may_send_lines_with_the_server_name_of_a_browser(self) -> None:
        """A browser sends the name of the door's host. If there is only one network, this name leads to it."""
        it = self.raw("localhost")
        it.sendall(b'{"do":"see"}\n')
        self.assertEqual(json.loads(it.makefile("rb").readline())["by"], "maths")


class Crowds(AtDoor):
    """Very many connections, none of which is correct, and a client that plays meanwhile."""

    def test_slow_handshakes_are_ended_and_meanwhile_a_client_can_connect(self) -> None:
        """The door has as many handshakes of this address as it allows at a time, and each is ended in the end."""
        self.lines("maths")
        slow = []
        for _ in range(bounds.HANDSHAKES_EACH):
            it = socket.create_connection(("127.0.0.1", self.door.port), LIMIT)
            it.sendall(b"\x16\x03\x01")  # The first bytes of a handshake.
            slow.append(it)
            self.addCleanup(it.close)
        for _ in range(5):
            with Client.of(self.slip("maths")) as me:
                me.ask(do="look", node=1)
        begun = time.monotonic()
        for it in slow:
            try:
                self.assertEqual(it.recv(1), b"")
            except ConnectionError:
                pass
        self.assertLess(time.monotonic() - begun, LIMIT)

    def test_a_thousand_wrong_connections_stop_neither_the_door_nor_a_client_for_ever(self) -> None:
        """They send nothing, garbage, parts of requests or handshakes, or lines without TLS. At the end the door's
        process has closed their sockets, and has printed no error."""
        self.lines("maths")
        crowd = []
        for number in range(1000):
            it = socket.create_connection(("127.0.0.1", self.door.port), LIMIT)
            crowd.append(it)
            self.addCleanup(it.close)
            try:
                it.sendall((b"", b"\x00" * 100, b"GET / HTTP/1.1\r\n\r\n", b"\x16\x03\x01\x02\x00\x01\x00\x01\xfc\x03\x03", b'{"do":"bye"}\n')[number % 5])
            except ConnectionError:
                pass
        end = time.monotonic() + LIMIT
        while True:  # While these connections are open, a client may be turned away, and connects again.
            try:
                with Client.of(self.slip("maths")) as me:
                    self.assertEqual(me.ask(do="look", node=1)["by"], "maths")
                break
            except (Refused, NoServer):
                self.assertLess(time.monotonic(), end)
        for it in crowd:
            try:
                while it.recv(4096):
                    pass
            except ConnectionError:
                pass
        files = Path(f"/proc/{self.door.child.pid}/fd")
        self.wait(lambda: len([*files.iterdir()]) < 40)  # A door has fewer open files than this if it has no connections.
        self.assertIsNone(self.door.child.poll())
        self.assertEqual((self.door.folder / "door.txt").read_text(encoding="utf-8"), "")


class Counts(unittest.TestCase):
    """The limits of a door by themselves, and the forms of its requests, addresses and names. The origin of a
    connection is the address by which it is counted."""

    def test_connections_are_limited_for_each_origin_and_in_all(self) -> None:
        """Nothing is kept about an origin without connections."""
        it = Bounds()
        with mock.patch.multiple(bounds, CONNECTIONS=5, CONNECTIONS_EACH=3):
            self.assertEqual([it.enter("a") for _ in range(4)], [True, True, True, False])
            self.assertEqual([it.enter(of) for of in "bbb"], [True, True, False])
            it.leave("a")
            self.assertTrue(it.enter("b"))
        for of in "aabbb":
            it.leave(of)
        self.assertEqual((it.connections, it.meters), ({}, {}))

    def test_one_handshake_too_many_ends_the_oldest_one_of_the_origin_with_the_most(self) -> None:
        """The limits are three for an origin and five in all."""
        it, ended = Bounds(), list[str]()

        def begin(name: str) -> None:
            """Begins a handshake. The handshake's origin is the first letter of its name, and its end is noted in
            `ended`."""
            it.begin(Handshake(name[0], lambda: ended.append(name)))

        with mock.patch.multiple(bounds, HANDSHAKES=5, HANDSHAKES_EACH=3):
            for name in ("b1", "a1", "a2", "a3", "a4"):
                begin(name)
            self.assertEqual(ended, ["a1"])
            begin("c1")
            begin("d1")
            self.assertEqual(ended, ["a1", "a2"])

    def test_bytes_beyond_the_rate_have_to_wait_and_two_seconds_of_the_rate_may_come_at_once(self) -> None:
        """The rate is a hundred bytes a second."""
        now = [0.0]
        it = Meter(100, lambda: now[0])
        self.assertEqual(it.spend(200), 0)
        self.assertEqual(it.spend(50), 0.5)
        now[0] = 1.0
        self.assertEqual(it.spend(50), 0)
        now[0] = 100.0
        self.assertEqual(it.spend(300), 1.0)

    def test_an_ipv4_address_is_an_origin_and_so_is_a_network_of_ipv6_addresses(self) -> None:
        for address, of in (("192.0.2.7", "192.0.2.7"), ("::ffff:192.0.2.7", "192.0.2.7"), ("2001:db8::7", "2001:db8::/64"),
                            ("2001:db8:0:0:9::1", "2001:db8::/64"), ("fe80::1%eth0", "fe80::/64"), ("?", "?")):
            self.assertEqual(origin(address), of)

    def test_a_page_gets_only_the_needed_headers_and_a_request_to_a_proxy_is_refused(self) -> None:
        asked = RequestHead.read(b"POST /maths/move HTTP/1.1\r\nHost: a\r\nContent-Length: 12\r\nX-Any: 1\r\n\r\n")
        self.assertEqual(asked.head_for_page(80, "/move"), b"POST /move HTTP/1.0\r\nHost: 127.0.0.1:80\r\nConnection: close\r\nContent-Length: 12\r\n\r\n")
        with self.assertRaises(BadRequest):
            RequestHead.read(b"GET http://a/ HTTP/1.1\r\n\r\n")

    def test_addresses_of_doors_are_read_as_they_are_written_and_names_of_labs_become_host_names(self) -> None:
        for word, place in (("4700", Place("", 4700)), ("class.example:4700", Place("class.example", 4700)), ("[::1]:4700", Place("::1", 4700))):
            self.assertEqual(Place.of(word), place)
            self.assertEqual(place.spelled().removeprefix(":"), word)
        for word in ("", "a", "a:b", "0", "a:70000", "::1:4700", "a b:1"):
            with self.assertRaises(Exception, msg=word):
                Place.of(word)
        for name, known in (("maths-2", "maths-2"), ("Mathe 2 (Zürich)", "mathe-2-zurich"), ("2026_a", "n-2026-a"), ("..", "n")):
            self.assertEqual(routes.network(Path(f"{name}.toml")), known)


class Certificates(InRoom):
    """The door's certificate."""

    def test_a_certificate_for_a_host_is_made_only_if_there_is_none(self) -> None:
        """Only its owner can read its file. The program openssl reads the same fingerprint and the host from it."""
        file = self.room / "door.pem"
        known = certificate.make_if_missing(file, "class.example")
        self.assertRegex(known, "^[0-9a-f]{64}$")
        self.assertEqual((file.stat().st_mode & 0o777, certificate.make_if_missing(file, "other.example")), (0o600, known))
        told = subprocess.run(["openssl", "x509", "-in", file, "-noout", "-fingerprint", "-sha256", "-ext", "subjectAltName"], capture_output=True,
                              text=True, check=True).stdout
        self.assertIn(known, told.replace(":", "").lower())
        self.assertIn("DNS:class.example", told)

    def test_without_openssl_or_with_a_damaged_file_or_a_wrong_host_name_there_is_no_certificate(self) -> None:
        why = "the door has no certificate yet, and the program openssl, which makes one, isn't installed"
        with mock.patch("shutil.which", return_value=None), self.assertRaisesRegex(Fault, why):
            certificate.make_if_missing(self.room / "door.pem", "class.example")
        for text in ("", "-----BEGIN CERTIFICATE-----\nAAA\n-----END CERTIFICATE-----\n"):
            with self.assertRaises(Fault):
                certificate.fingerprint(self.file("bad.pem", text))
        with self.assertRaises(Fault):
            certificate.context(self.room / "bad.pem")
        with self.assertRaisesRegex(Fault, "^this machine calls itself 'my_pc', but a certificate's name may contain only letters, digits, dots and hyphens"):
            certificate.make(self.room / "a.pem", "my_pc")

    def test_a_door_is_not_opened_at_a_port_that_is_taken(self) -> None:
        certificate.make_if_missing(self.room / "door.pem", "localhost")
        with socket.create_server(("127.0.0.1", 0)) as taken, self.assertRaisesRegex(Fault, "^the door can't be opened at 127.0.0.1:"):
            opening.open_door(Place("127.0.0.1", taken.getsockname()[1]), self.room, self.room / "door.pem", print)


def free_port() -> int:
    """Returns a port that is free at this moment."""
    with socket.create_server(("127.0.0.1", 0)) as it:
        port: int = it.getsockname()[1]
    return port


if __name__ == "__main__":
    unittest.main()
