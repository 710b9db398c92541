"""The man pages are those of the commands, `man` prints no warning about them, and bash completes the subcommands of
`mml`."""
from __future__ import annotations

import os
import subprocess
import unittest

from tests.documents.manuals import TOP, pages

LIMIT = 300
# Reads the completion, and prints what it offers for a command line of `./mml` whose words are the arguments. The last
# word is the one that is being typed.
COMPLETE = """
source operate/mml.bash
COMP_WORDS=(./mml "$@") COMP_CWORD=$#
_mml_words ./mml "${!#}"
printf '%s\\n' "${COMPREPLY[@]}"
"""


class Manuals(unittest.TestCase):
    """The man pages mml(1) and class(1) in the folder `operate/`."""

    def test_the_pages_are_those_that_the_help_texts_make(self) -> None:
        """If this fails, the command in the message writes both pages anew."""
        for page, text in pages().items():
            self.assertEqual(page.read_text(encoding="ascii"), text, f"{page.name}: python3 -B -m tests.documents.manuals")

    def test_man_shows_each_page_without_a_warning(self) -> None:
        """The limit of a thousand characters makes sure that `man` has read the page."""
        for page in pages():
            call = ["man", "--warnings", "-E", "UTF-8", "-l", "-Tutf8", "-Z", str(page)]
            environment = {**os.environ, "LC_ALL": "C.UTF-8", "MANROFFSEQ": "", "MANWIDTH": "80"}
            done = subprocess.run(call, stdin=subprocess.DEVNULL, capture_output=True, text=True, check=False, env=environment, timeout=LIMIT)
            self.assertEqual((done.returncode, done.stderr), (0, ""), page.name)
            self.assertGreater(len(done.stdout), 1000)

    def test_the_pages_have_the_commands_of_a_release(self) -> None:
        """`./mml build` isn't on the page, because a release builds nothing."""
        mml, classes = pages().values()
        for word in ("check", "script", "serve", "host", "resume", "verify", "tally", "answer", "audit"):
            self.assertIn(f"\nmml {word} \\fILAB\\fP", mml)
        for word in ("new", "run", "mark", "history", "grade"):
            self.assertIn(f'\n.SS "class {word}"\n', classes)
        self.assertNotIn("build", mml)


class Completed(unittest.TestCase):
    """The words that bash offers to complete a command line of `./mml`."""

    def completed(self, *typed: str) -> set[str]:
        """Returns what bash offers for the last of these words, if the words before it are typed already."""
        done = subprocess.run(["bash", "-c", COMPLETE, "bash", *typed], cwd=TOP, capture_output=True, text=True, check=True, timeout=LIMIT)
        self.assertEqual(done.stderr, "")
        return set(done.stdout.split())

    def test_commands_labs_and_folders_are_offered(self) -> None:
        """Bash offers commands as the first word, and labs or folders as the second one. For the arguments after a lab,
        the function in `operate/mml.bash` offers nothing, so Bash offers files."""
        self.assertEqual(self.completed("re"), {"resume"})
        self.assertLessEqual({"check", "script", "serve", "host", "verify", "tally", "answer", "audit", "--version"}, self.completed(""))
        self.assertEqual(self.completed("audit", "examples/cr"), {"examples/crowd.toml"})
        self.assertIn("examples", self.completed("check", "ex"))
        self.assertEqual(self.completed("audit", "examples/crowd.toml", ""), set())


if __name__ == "__main__":
    unittest.main()
