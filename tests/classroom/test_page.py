"""The page of a running class, in a real browser. It has two addresses: one to look at, and one at which the teacher
can also act. Each has a random token in its path. The tests open the page to act, unless they say otherwise."""
from __future__ import annotations

import base64
import hashlib
import http.client
import json
import re
import socket
import unittest
from pathlib import Path
from typing import Any
from urllib.parse import urlsplit

from selenium.webdriver.common.keys import Keys

from classroom.client import Client
from classroom.core.journal import Event, in_words
from classroom.core.lab import read
from classroom.pages.frames import frames_of
from tests.classroom.browser import Shown, browser, expected, is_ready, pale, press, show_as, shown, until
from tests.classroom.help import EXAMPLES, Going, InRoom, a_port

CYCLE = EXAMPLES / "cycle.toml"


class Live(InRoom):
    """Runs of the cycle of `examples/`, in which the test plays students."""

    def setUp(self) -> None:
        """Opens the browser if this process has none yet, and reads the keys of the students."""
        super().setUp()
        self.driver: Any = browser()
        self.keys = read(CYCLE).students

    def begin(self, *more: str) -> None:
        """Starts a run with these options, whose steps are closed by hand, and opens its page. `looks` is the address
        to look at, and `address` the one to act at."""
        port = str(a_port())
        self.going = Going(self, CYCLE, "--close", "by-hand", "--page", port, *more)
        self.looks = self.going.until("^page for the projector http").removeprefix("page for the projector ")
        self.address = self.going.until("^page on which you can act http").removeprefix("page on which you can act ")
        self.open()

    def open(self) -> None:
        """Loads the page at `address` anew."""
        self.driver.get("about:blank")
        self.driver.get(self.address)
        until(self.driver, is_ready)

    def click(self, name: str) -> None:
        """Clicks on the element with this identifier."""
        self.driver.find_element("id", name).click()

    def click_node(self, node: int) -> None:
        """Clicks on a node of the drawing."""
        self.driver.find_element("css selector", f'#drawing .node[data-node="{node}"] .identifier').click()

    def fill_seconds(self, text: str) -> None:
        """Types a text into the field with the seconds between closes."""
        seconds = self.driver.find_element("id", "seconds")
        seconds.clear()
        seconds.send_keys(text)

    def close_by(self, button: str, seconds: str = "") -> None:
        """Chooses by a button when steps are closed, and waits until the page shows this. If `seconds` isn't empty,
        types it into the field for seconds before."""
        if seconds:
            self.fill_seconds(seconds)
        self.click(button)
        wanted = f"{button}:{seconds}" if seconds else button
        until(self.driver, lambda driver: driver.find_element("id", "closes").get_attribute("data-closing") == wanted)

    def sees(self, event: str) -> Shown:
        """Waits until `event`, in the words of the journal, is the newest event on the page. Returns the contents of
        the page: the values of the drawing, those of the nodes 1, 2 and so on, and the line about the event."""
        told = in_words(Event(0, 0, tuple(event.split(" "))))
        until(self.driver, lambda driver: shown(driver)[2].partition(": ")[2] == told)
        return shown(self.driver)

    def ask(self, verb: str, path: str, body: str | bytes | None = None, **head: str) -> tuple[int, bytes]:
        """Sends a request to the page's server, with this verb, path and body and the headers `head`. Returns the
        status and the bytes of the answer."""
        connection = http.client.HTTPConnection("127.0.0.1", urlsplit(self.address).port or 0, timeout=60)
        try:
            connection.request(verb, path, body, head)
            answer = connection.getresponse()
            return answer.status, answer.read()
        finally:
            connection.close()

    def end(self) -> Path:
        """Ends the run, and checks that the page shows the state after the last event of the journal. Returns the run's
        folder."""
        self.assertEqual(self.going.end(), 0, self.going.lines)
        until(self.driver, lambda driver: "over" in driver.find_element("id", "connection").text)
        last = shown(self.driver)
        folder = self.going.folder
        frame = list(frames_of(folder / "lab.toml", folder / "journal")[1])[-1]
        self.assertEqual(last, expected(frame.state, frame))
        self.assertTrue((folder / "run.html").is_file())
        return folder

    def student(self, name: str) -> Client:
        """Connects as the student with this name. Returns the connection, which is closed after the test."""
        client = Client(self.going.port, name, self.keys[name])
        self.addCleanup(client.__exit__, OSError, None, None)  # As after an error, so that no bye is sent.
        return client

    def test_the_page_shows_students_moves_and_the_teacher_closes_sets_links_cuts_and_releases_on_it(self) -> None:
        """The journal has the same events."""
        self.begin()
        self.assertEqual(shown(self.driver)[0], {"place": "0", "number": "0", "privileged": "3", "pairs": "0"})
        gus, ines, jonas = map(self.student, ("gus", "ines", "jonas"))
        gus.move(gus.look(4))
        self.assertEqual(self.sees("grant gus 4 update")[1][3]["chosen"], "update")  # Node 4 has the index 3.
        ines.move(ines.look(3))
        jonas.move(jonas.look(7))
        self.sees("grant jonas 7 abandonment")
        self.click("close")
        root, nodes, _ = self.sees("close")
        self.assertEqual((root["number"], nodes[6]["p"], nodes[6]["chosen"]), ("1", "", ""))
        self.click_node(5)
        self.assertEqual(self.driver.find_element("id", "p").get_property("value"), "6")
        self.driver.execute_script("document.getElementById('p').value = '4'; document.getElementById('m').value = 'true'")
        self.click("set")
        self.assertEqual(self.sees("fault 5 4 true")[1][4]["p"], "4")
        self.click("tool-link")
        for event in ("link 1 4", "cut 4 5"):
            for node in map(int, event.split(" ")[1:]):
                self.click_node(node)
            self.sees(event)
        hana = self.student("hana")
        hana.move(hana.look(5))
        self.assertEqual(self.sees("grant hana 5 update")[1][4]["chosen"], "update")
        self.click("tool-fault")
        self.click_node(5)
        self.click("release")
        self.assertEqual(self.sees("release 5")[1][4]["chosen"], "")
        lines = (self.end() / "journal").read_text(encoding="ascii").splitlines()
        kinds = [line.split(" ", 2)[2] for line in lines]
        self.assertEqual(kinds[3:7], ["close", "fault 5 4 true", "link 1 4", "cut 4 5"])
        self.assertEqual(kinds[-1], "release 5")

    def test_registers_can_be_set_by_keys_alone(self) -> None:
        """A script only gives the focus to node 2. The first time, its panel is opened and closed again."""
        self.begin()
        self.driver.execute_script("document.querySelector('#drawing .node[data-node=\"2\"]').focus()")
        press(self.driver, Keys.ENTER)
        self.assertFalse(self.driver.find_element("id", "panel").get_property("hidden"))
        press(self.driver, Keys.ESCAPE)
        self.assertTrue(self.driver.find_element("id", "panel").get_property("hidden"))
        self.driver.execute_script("document.querySelector('#drawing .node[data-node=\"2\"]').focus()")
        # Opens the panel with the focus at p, changes p, sets m to `true`, and presses the button after m.
        press(self.driver, " " + Keys.ARROW_UP + Keys.TAB + "t" + Keys.TAB + Keys.ENTER)
        until(self.driver, lambda driver: shown(driver)[0]["number"] == "1")
        self.assertEqual(shown(self.driver)[1][1]["m"], "true")
        self.end()

    def test_the_page_lets_steps_be_closed_at_intervals_and_a_frozen_picture_stays_the_same(self) -> None:
        """The page receives events while the picture is frozen, and shows them afterwards."""
        self.begin()
        self.close_by("every", "0.2")
        gus = self.student("gus")
        gus.move(gus.look(4))
        self.sees("close")
        self.close_by("by-hand")
        self.click("freeze")
        before = shown(self.driver)
        self.going.type("fault 1 7 true")
        self.going.until("fault at node 1: p 7, m true")
        until(self.driver, lambda driver: driver.execute_script("return live.row.number") == 2)
        self.assertEqual(shown(self.driver), before)
        self.click("freeze")
        self.assertEqual(shown(self.driver)[1][0]["p"], "7")
        self.end()

    def test_the_button_for_the_end_asks_a_question_and_only_the_second_answer_ends_the_run(self) -> None:
        """The first answer is that the run continues. The run ends even if it isn't stable."""
        self.begin()
        menu = self.driver.find_element("css selector", ".acts summary")
        for answer in ("go-on", "do-end"):
            if self.driver.find_element("css selector", ".acts details").get_attribute("open") is None:
                menu.click()
            self.click("end")
            until(self.driver, lambda driver: driver.find_element("id", "ask").is_displayed())
            self.click(answer)
            until(self.driver, lambda driver: not driver.find_element("id", "ask").is_displayed())
            if answer == "go-on":
                self.going.type("fault 1 2 true")
                self.sees("fault 1 2 true")
        self.assertEqual(self.going.wait_for_end(), 0, self.going.lines)

    def test_the_chart_has_a_bar_for_each_configuration(self) -> None:
        """A bar has the number of nodes that can move in this configuration, the number of chosen moves, and the kind
        of event that made the configuration. A page that is opened later has all bars too."""
        self.begin()
        gus = self.student("gus")
        gus.move(gus.look(4))
        self.sees("grant gus 4 update")
        self.going.type("close\nfault 1 2 true")
        self.sees("fault 1 2 true")
        bars = self.driver.execute_script("return live.bars.map(({number, moved, kind}) => [number, moved, kind])")
        self.assertEqual(bars, [[0, 1, ""], [1, 0, "close"], [2, 0, "fault"]])
        last = self.driver.execute_script("return [live.bars[2].can, live.state.privileged, live.bars[0].can]")
        self.assertEqual((last[0], last[2]), (last[1], 3))
        self.open()
        self.assertEqual(self.driver.execute_script("return live.bars.map(({number, moved, kind}) => [number, moved, kind])"), bars)
        self.end()

    def test_a_denied_command_is_reported_on_the_page(self) -> None:
        """No move is chosen, so the server denies the close as `empty`."""
        self.begin()
        self.click("close")
        until(self.driver, lambda driver: "the server denied this command: empty" in driver.find_element("id", "lines").text)
        self.end()

    def test_texts_have_enough_contrast_in_both_themes_also_on_disabled_buttons(self) -> None:
        """A denied command, a chosen move and an open panel put more texts on the page."""
        self.begin()
        self.addCleanup(show_as, self.driver)
        self.click("close")
        until(self.driver, lambda driver: "the server denied this command: empty" in driver.find_element("id", "lines").text)
        gus = self.student("gus")
        gus.move(gus.look(4))
        self.sees("grant gus 4 update")
        self.click_node(5)
        for theme in ("light", "dark"):
            show_as(self.driver, theme)
            for disabled in (False, True):
                self.driver.execute_script("for (const it of document.querySelectorAll('button')) it.disabled = arguments[0]", disabled)
                count, faint = pale(self.driver)
                self.assertGreater(count, 50)
                self.assertEqual(faint, [], (theme, disabled))
        self.driver.execute_script("for (const it of document.querySelectorAll('button')) it.disabled = false")
        self.end()

    def test_a_page_that_is_opened_later_or_in_a_second_window_shows_the_same_state(self) -> None:
        """Links that were made and cut meanwhile are drawn too."""
        self.begin()
        for event in ("link 1 3", "cut 1 2", "fault 3 1 true"):
            self.going.type(event)
            self.sees(event)
        first = shown(self.driver)
        self.driver.get("about:blank")
        self.going.type("cut 1 3")
        self.going.until("removed the link between 1 and 3")
        self.open()
        again = self.sees("cut 1 3")
        self.assertEqual((again[0]["place"], again[1][2]["p"]), ("4", ""))
        self.assertNotEqual(again, first)
        one = self.driver.current_window_handle
        self.driver.switch_to.new_window("window")
        self.open()
        self.going.type("link 1 5")
        self.sees("link 1 5")
        two, lines = shown(self.driver), self.drawn()
        self.driver.close()
        self.driver.switch_to.window(one)
        self.sees("link 1 5")
        self.assertEqual((shown(self.driver), self.drawn()), (two, lines))
        self.end()

    def drawn(self) -> list[str]:
        """Returns the path data of all drawn links, sorted."""
        found: list[str] = self.driver.execute_script(
            "return [...document.querySelectorAll('g.links path, g.open path')]"
            ".flatMap((path) => (path.getAttribute('d') || '').split('M')).sort()"
        )
        return found

    def test_a_page_that_reads_slowly_delays_nobody_and_gets_fewer_states(self) -> None:
        """Its connection has a small buffer, and reads nothing before all 60 configurations have been made. The last of
        them is among the states that it gets."""
        self.begin()
        parts = urlsplit(self.address)
        with socket.socket() as slow:
            slow.setsockopt(socket.SOL_SOCKET, socket.SO_RCVBUF, 4096)
            slow.connect(("127.0.0.1", parts.port))
            slow.sendall(f"GET {parts.path}events HTTP/1.0\r\nHost: {parts.netloc}\r\n\r\n".encode())
            self.going.type("\n".join(["cut 1 2", "link 1 2"] * 30))
            self.going.until("^configuration 60: added the link between 1 and 2")
            until(self.driver, lambda driver: shown(driver)[0]["number"] == "60")
            pieces = 0
            for line in slow.makefile("rb"):
                pieces += line.startswith(b"data: ")
                if b'"number": 60,' in line:
                    break
            self.assertLess(pieces, 60)
        self.end()

    def test_requests_without_the_token_from_other_hosts_or_with_unknown_lines_do_nothing(self) -> None:
        """The status is 404 for a wrong path, and 421 for another host or port. For a line that the page may not send
        it is 400, and for one that is too long 404."""
        self.begin()
        parts = urlsplit(self.address)
        token, host = parts.path.strip("/"), parts.netloc
        for path in ("/", "", f"/{token}", f"/{token[:-1]}/", f"/{token}x/", "/events", "/x/events", f"/{token}/lab.toml",
                     f"/{token}/../{token}/", f"/{token}/journal"):
            self.assertEqual(self.ask("GET", path or "/", Host=host), (404, b""), path)
        for elsewhere in ("page.example", f"page.example:{parts.port}", "127.0.0.1:1", "127.0.0.1", ""):
            for verb, path in (("GET", parts.path), ("GET", "/"), ("POST", f"{parts.path}act")):
                status, text = self.ask(verb, path, "close" if verb == "POST" else None, Host=elsewhere)
                self.assertEqual(status, 421, elsewhere)
                self.assertIn(f"ssh -N -L {parts.port}:127.0.0.1:{parts.port} ".encode(), text)
                self.assertNotIn(token.encode(), text)
        self.assertEqual(self.ask("POST", "/act", "close", Host=host), (404, b""))
        self.assertEqual(self.ask("POST", "/x/act", "fault 1 2 true", Host=host), (404, b""))
        for words, wanted in (*((words, 400) for words in ("ends", "who", "key gus", "daemon synchronous", "dance", "report", "close\nend", "")),
                              ("é" * 200, 404)):
            self.assertEqual(self.ask("POST", f"{parts.path}act", words.encode("utf-8"), Host=host)[0], wanted, words)
        self.assertEqual(self.end().joinpath("journal").read_bytes(), b"")

    def test_neither_the_page_nor_its_events_contain_a_key_or_the_token_to_act(self) -> None:
        """The page to look at doesn't contain this token either."""
        self.begin()
        parts = urlsplit(self.address)
        status, page = self.ask("GET", parts.path, Host=parts.netloc)
        self.assertEqual(status, 200)
        with socket.create_connection(("127.0.0.1", parts.port or 0)) as news:
            news.sendall(f"GET {parts.path}events HTTP/1.0\r\nHost: {parts.netloc}\r\n\r\n".encode())
            told_lines = news.makefile("rb")
            self.going.type("fault 1 2 true")
            lines = b""
            while b"fault 1 2 true" not in lines:
                lines += told_lines.readline()
        message = json.loads(next(line for line in lines.split(b"\n") if line.startswith(b"data: ")).removeprefix(b"data: "))
        self.assertTrue(message["begin"])
        for key in (*self.keys.values(), read(CYCLE).teacher[1], parts.path.strip("/")):
            self.assertNotIn(key.encode(), page + lines)
        looks = self.ask("GET", urlsplit(self.looks).path, Host=parts.netloc)[1]
        self.assertNotIn(parts.path.strip("/").encode(), looks)
        self.end()

    def test_the_command_page_replaces_the_address_to_act_and_nobody_can_act_at_the_old_one(self) -> None:
        """Nobody can act at the address to look at. The file `run.txt` has only that address."""
        self.begin()
        parts, looks = urlsplit(self.address), urlsplit(self.looks)
        self.assertNotEqual(parts.path, looks.path)
        self.assertEqual(self.ask("POST", f"{looks.path}act", "fault 1 2 true", Host=parts.netloc)[0], 404)
        self.assertEqual(self.ask("POST", f"{parts.path}act", "fault 1 2 true", Host=parts.netloc)[0], 204)
        self.sees("fault 1 2 true")
        self.going.type("page")
        other = self.going.until("^page on which you can act http").removeprefix("page on which you can act ")
        until(self.driver, lambda driver: driver.find_element("id", "connection").text == "(no connection: this page may show an old state)")
        for verb, path in (("POST", f"{parts.path}act"), ("GET", parts.path), ("GET", f"{parts.path}events")):
            self.assertEqual(self.ask(verb, path, "cut 1 2" if verb == "POST" else None, Host=parts.netloc)[0], 404)
        self.address = other
        self.open()
        self.click_node(5)
        self.click("set")
        until(self.driver, lambda driver: "fault at node 5: " in shown(driver)[2])
        kept = (self.going.folder / "run.txt").read_text(encoding="utf-8")
        self.assertIn(self.looks, kept)
        for address in (other, parts.path, "page on which you can act"):
            self.assertNotIn(address, kept)
        self.end()

    def test_the_page_to_look_at_shows_events_but_has_no_means_to_act(self) -> None:
        """It has only the buttons to freeze the picture and to show it on the whole screen."""
        self.begin()
        self.address = self.looks
        self.open()
        for name in ("close", "every", "when-idle", "by-hand", "tools", "set", "end"):
            self.assertFalse(self.driver.find_element("id", name).is_displayed(), name)
        for name in ("freeze", "whole"):
            self.assertTrue(self.driver.find_element("id", name).is_displayed(), name)
        self.click_node(5)
        self.assertFalse(self.driver.find_element("id", "panel").is_displayed())
        self.assertEqual(self.driver.find_elements("css selector", "#drawing [role=button], #drawing [tabindex]"), [])
        self.going.type("fault 1 2 true")
        self.sees("fault 1 2 true")
        self.end()

    def test_the_page_lets_steps_be_closed_again_when_no_student_acts(self) -> None:
        """With `when-idle` a step is closed if no move has been asked for in the last 0.3 seconds."""
        self.begin()
        self.close_by("by-hand")
        self.close_by("when-idle", "0.3")
        gus = self.student("gus")
        gus.move(gus.look(4))
        self.sees("close")
        self.end()

    def test_the_headers_of_each_answer_forbid_caching_and_allow_only_the_page_s_own_style_and_script(self) -> None:
        """The content policy has the hashes of the style and the script that the answer contains."""
        self.begin()
        parts = urlsplit(self.address)
        for path, status in ((parts.path, 200), (urlsplit(self.looks).path, 200), ("/", 404)):
            connection = http.client.HTTPConnection("127.0.0.1", parts.port or 0, timeout=60)
            connection.request("GET", path, headers={"Host": parts.netloc})
            answer = connection.getresponse()
            content = answer.read().decode()
            connection.close()
            self.assertEqual(answer.status, status)
            head = {name: answer.headers[name] for name in ("Cache-Control", "Referrer-Policy", "X-Content-Type-Options")}
            self.assertEqual(head, {"Cache-Control": "no-store", "Referrer-Policy": "no-referrer", "X-Content-Type-Options": "nosniff"})
            policy = dict(rule.split(" ", 1) for rule in (answer.headers["Content-Security-Policy"] or "").split("; "))
            hashes = {f"{kind}-src": hashed(text) for kind in ("style", "script")
                      for text in re.findall(rf"<{kind}>(.*?)</{kind}>", content, re.DOTALL)}
            self.assertEqual(policy, {"default-src": "'none'", "connect-src": "'self'", "base-uri": "'none'", "form-action": "'none'",
                                      "frame-ancestors": "'none'", **hashes})
            self.assertEqual(len(hashes), 2 if status == 200 else 0)
        self.end()

    def test_the_page_and_the_page_of_the_ended_run_are_titled_with_the_lab_s_name_and_the_day(self) -> None:
        self.begin()
        day = self.going.folder.name[:10]
        self.assertEqual(self.driver.title, f"cycle, {day}")
        folder = self.end()
        self.assertIn(f"<title>cycle, {day}</title>", (folder / "run.html").read_text(encoding="utf-8"))


def hashed(text: str) -> str:
    """Returns the hash of a text in the form of a content policy."""
    return f"'sha256-{base64.b64encode(hashlib.sha256(text.encode()).digest()).decode()}'"


if __name__ == "__main__":
    unittest.main()
