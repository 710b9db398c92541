"""Tests of the comparison of a command's output with the pages (`tests.documents.printed`). It accepts an output that
a page shows, and names a page that shows another one."""
from __future__ import annotations

import unittest

from tests.documents.printed import page_that_differs, pages, shown

PAGE = """
Here:

    $ ./mml check lab.toml
    ok: 6 nodes, 5 links, 1 students
    $ ./class run lab.toml
    port 4711, ...; folder runs/2026-11-24T1015-maths
    ...
    stable
    $ python3 client.py gus.slip
    {"ok":"hello","who":"gus"}

```text
    $ ./mml check lab.toml
    not read
```
"""
# The first line of the output of `./class run`, with another date than on the page.
RUN = "port 4711, for 15 students at once; folder runs/2027-01-02T0304-maths\n"


class Printed(unittest.TestCase):
    """The comparison of a page's blocks with kept outputs."""

    def page(self, command: str, output: str) -> str | None:
        """Returns the name of the test's only page if it shows another output of a command than this one, or None."""
        return page_that_differs(command, output, {"PAGE.md": PAGE})

    def test_the_commands_of_indented_blocks_are_found(self) -> None:
        self.assertEqual([command for command, _ in shown(PAGE)], ["./mml check lab.toml", "./class run lab.toml", "python3 client.py gus.slip"])

    def test_an_output_that_fits_the_page_is_accepted(self) -> None:
        """The date of a run's folder may differ, and a line `...` of the page stands for any number of lines. A command
        that isn't on the page may have any output."""
        self.assertIsNone(self.page("./mml check lab.toml", "ok: 6 nodes, 5 links, 1 students\n"))
        self.assertIsNone(self.page("./class run lab.toml", RUN + "stable\n"))
        self.assertIsNone(self.page("./class run lab.toml", RUN + "one\ntwo\nstable\n"))
        self.assertIsNone(self.page("./mml check other.toml", "anything\n"))

    def test_the_page_is_named_if_it_shows_another_output(self) -> None:
        for command, output in (("./mml check lab.toml", "ok: 7 nodes, 5 links, 1 students\n"),
                                ("./mml check lab.toml", "ok: 6 nodes, 5 links, 1 students\nmore\n"),
                                ("./mml check lab.toml", ""),
                                ("./class run lab.toml", RUN + "not stable\n"),
                                ("./class run lab.toml", RUN.replace("-maths", "-other") + "stable\n"),
                                ("./class run lab.toml", RUN.replace("4711, ", "4711 ") + "stable\n")):
            self.assertEqual(self.page(command, output), "PAGE.md", output)

    def test_outputs_are_found_on_the_documents(self) -> None:
        found = [page for page, text in pages().items() if any(lines for _, lines in shown(text))]
        self.assertLessEqual({"docs/STUDENT.md", "docs/SELF-STABILISATION.md"}, set(found))


if __name__ == "__main__":
    unittest.main()
