"""The browser that all tests of a process share, and the contents of the page of a run. `Shown` has these contents: the
`data-` attributes of the drawing, those of each node, and the line about the event."""
from __future__ import annotations

import atexit
import subprocess
import sys
import tempfile
import time
import unittest
from functools import cache
from pathlib import Path
from typing import Any

from selenium import webdriver
from selenium.common.exceptions import SessionNotCreatedException, StaleElementReferenceException
from selenium.webdriver.chrome.options import Options
from selenium.webdriver.chrome.service import Service
from selenium.webdriver.common.action_chains import ActionChains
from selenium.webdriver.support.wait import WebDriverWait

from classroom.core.journal import in_words
from classroom.core.program import TOP
from classroom.pages.frames import Frame, State
from tests.classroom.contrast import LEAST, contrast
from tests.classroom.help import LIMIT

STARTS = 5  # how often a browser is started until one answers in time
Shown = tuple[dict[str, str], list[dict[str, str]], str]
ATTRIBUTES = """
const nodes = [...document.querySelectorAll('#drawing .node')].map((node) => ({...node.dataset}));
return [{...document.getElementById('drawing').dataset}, nodes, document.getElementById('event').textContent];
"""
# Calls back once no animation with an end runs, and two frames have been drawn since.
SETTLED = """
const [done] = arguments;
const isMoving = (one) => one.playState === 'running' && Number.isFinite(one.effect.getComputedTiming().endTime);
const look = () => requestAnimationFrame(document.getAnimations().some(isMoving) ? look : () => requestAnimationFrame(() => done()));
look();
"""


def started() -> Any:
    """Starts a browser without a window, and returns its driver. Raises `SessionNotCreatedException` if it fails to
    start STARTS times."""
    made: Any = Options  # Selenium's functions lack types, so its classes are called as `Any`.
    options = made()
    options.binary_location = "/usr/bin/chromium"
    # The tests may run as root, for whom the sandbox doesn't work, and on a system with a small /dev/shm.
    for word in ("--headless=new", "--no-sandbox", "--disable-dev-shm-usage", "--window-size=1300,900"):
        options.add_argument(word)
    service: Any = Service
    chrome: Any = webdriver.Chrome
    for _ in range(STARTS):
        try:
            return chrome(options=options, service=service("/usr/bin/chromedriver"))
        except SessionNotCreatedException as error:  # The driver waits only a minute, and other work may slow the browser down.
            late = error
    raise late


@cache
def browser() -> Any:
    """Returns the browser of this process. Starts one at the first call."""
    driver = started()
    atexit.register(driver.quit)
    return driver


def is_ready(driver: Any) -> bool:
    """Returns whether the page shows its drawing."""
    found: bool = driver.execute_script("return document.body !== null && document.body.dataset.ready === 'true'")
    return found


def until(driver: Any, holds: Any) -> None:
    """Waits until `holds`, a function of the driver, returns a true value. Fails after a time limit. If the page
    replaces an element that the function has found and not used yet, the function is called again."""
    wait: Any = WebDriverWait
    wait(driver, LIMIT, poll_frequency=0.05, ignored_exceptions=[StaleElementReferenceException]).until(holds)


def press(driver: Any, *keys: str) -> None:
    """Presses keys at the element with the focus."""
    chain: Any = ActionChains
    chain(driver).send_keys(*keys).perform()


def shown(driver: Any) -> Shown:
    """Returns the contents of the page, read from its elements."""
    root, nodes, line = driver.execute_script(ATTRIBUTES)
    return root, sorted(nodes, key=lambda node: int(node["node"])), line


def expected(state: State, frame: Frame) -> Shown:
    """Returns the contents that a page must show for a state of the run. `frame` has the event that led to it."""
    root = {
        "place": str(state.place), "number": str(state.number), "privileged": str(len(state.privileged)),
        "pairs": str(len(state.pairs)),
    }
    married = {node for pair in state.pairs for node in pair}
    nodes = [
        {
            "node": str(node), "p": "" if pointer is None else str(pointer), "m": str(state.ms[node]).lower(),
            "married": str(node in married).lower(), "rule": state.privileged.get(node, ""),
            "chosen": state.chosen.get(node, ""),
        }
        for node, pointer in state.pointers.items()
    ]
    line = "the beginning of the run" if frame.event is None else f"event {state.place}: {in_words(frame.event)}"
    return root, sorted(nodes, key=lambda node: int(node["node"])), line


# Returns each visible text with its colour and that of its background. On paper no background of HTML is printed. The
# background of a text in the drawing is the outline around its letters, except for a text in a disc or a frame. If an
# animation is changing a colour, the colour at its end counts.
TEXTS = """
const onPaper = arguments[0];
for (const change of document.getAnimations()) change.finish();
const colour = (text) => (text.match(/[\\d.]+/g) || []).map(Number);
const isSeen = ([, , , alpha]) => alpha === undefined || alpha > 0;
const paper = (element) => {
  for (let at = element; at && !onPaper; at = at.parentElement) {
    const found = colour(getComputedStyle(at).backgroundColor);
    if (isSeen(found)) return found;
  }
  return [255, 255, 255];
};
const behind = (element) => {
  const name = element.matches('.identifier') ? '.disc' : element.matches('.rule') ? 'rect' : null;
  const form = name && element.parentNode.querySelector(name);
  if (form && element.closest('svg')) return [colour(getComputedStyle(form).fill)];
  return [paper(element.closest('svg') ? element.closest('.stage, .chart') : element)];
};
const found = [];
for (const element of document.querySelectorAll('body *')) {
  const own = [...element.childNodes].some((node) => node.nodeType === 3 && node.data.trim());
  const style = getComputedStyle(element);
  if (!own && !element.matches('select, input[type="number"]')) continue;
  if (!element.getClientRects().length || style.visibility !== 'visible' || element.matches('title, script')) continue;
  const front = colour(element.closest('svg') ? style.fill : style.color);
  for (const back of behind(element)) found.push([element.textContent.trim(), front.slice(0, 3), back.slice(0, 3)]);
}
return found;
"""


def show_as(driver: Any, theme: str = "light", media: str = "") -> None:
    """Emulates the theme `light` or `dark`, and the medium `screen` or `print`. An empty text in `media` stands for the
    usual medium."""
    setting = {"media": media, "features": [{"name": "prefers-color-scheme", "value": theme}]}
    driver.execute_cdp_cmd("Emulation.setEmulatedMedia", setting)


def settle(driver: Any) -> None:
    """Waits until no animation that ends is running, and then until the page has drawn two frames. By then the page's
    functions that observe sizes have been called."""
    driver.execute_async_script(SETTLED)


def pale(driver: Any, on_paper: bool = False) -> tuple[int, list[tuple[str, float]]]:
    """Returns the number of texts on a page, and the texts with a contrast below 4.5 to 1, each with its contrast.
    `on_paper` says whether the page is shown as on paper."""
    texts = driver.execute_script(TEXTS, on_paper)
    measured = [(text, contrast(front, back)) for text, front, back in texts]
    return len(measured), [(text, ratio) for text, ratio in measured if ratio < LEAST]


class Played(unittest.TestCase):
    """Tests that open the pages of runs."""

    def setUp(self) -> None:
        """Opens the browser if this process has none yet, and makes the test's folder."""
        self.driver: Any = browser()
        room = tempfile.TemporaryDirectory()
        self.addCleanup(room.cleanup)
        self.room = Path(room.name)

    def call(self, *words: str | Path) -> subprocess.CompletedProcess[str]:
        """Runs `./class` with these arguments to its end. Returns its result."""
        return subprocess.run([sys.executable, TOP / "class", *words], capture_output=True, text=True, check=False)

    def page(self, lab: Path, journal: Path) -> Path:
        """Makes the page of the run with this lab and this journal by `./class play`, and returns its file."""
        output = self.room / f"{journal.stem}.html"
        done = self.call("play", lab, journal, "-o", output)
        self.assertEqual((done.returncode, done.stderr), (0, ""))
        return output

    def open(self, page: Path, fragment: str = "") -> float:
        """Opens the file of a page, with a fragment after its address. Returns the seconds until the page shows its
        drawing."""
        start = time.monotonic()
        self.driver.get("about:blank")  # If only the fragment were new, the browser wouldn't load the page again.
        self.driver.get(page.as_uri() + fragment)
        until(self.driver, is_ready)
        return time.monotonic() - start

    def press(self, key: str) -> None:
        """Presses a key on the page."""
        press(self.driver, key)
