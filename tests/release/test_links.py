"""The links and pictures of a release's pages, without a built program: those of the files that `release` lists, and of
pages that the test writes."""
from __future__ import annotations

import contextlib
import io
import re
import shutil
import subprocess
import tempfile
import unittest
from pathlib import Path

from tests.release.links import missing
from tools.check.parts import TOP
from tools.links import main

# Prints the files that the script `release` lists in the array with this name, one on each line.
LISTED = """eval "$(sed -n "/^$1=(/,/^)/p" release)"; declare -n files="$1"; printf '%s\\n' "${files[@]}" """


class InFolder(unittest.TestCase):
    """Pages in a folder."""

    def setUp(self) -> None:
        """Makes the folder, which is removed at the end."""
        room = tempfile.TemporaryDirectory()
        self.addCleanup(room.cleanup)
        self.folder = Path(room.name) / "release"
        self.folder.mkdir()

    def call(self) -> tuple[int, str]:
        """Removes the links to missing files. Returns the status and the error lines."""
        with contextlib.redirect_stderr(io.StringIO()) as error:
            return main([str(self.folder)]), error.getvalue()


class Releases(InFolder):
    """The files of both archives."""

    def unpack(self, name: str) -> None:
        """Replaces the content of the folder by the files that the script `release` lists under this name."""
        shutil.rmtree(self.folder)
        self.folder.mkdir()
        listed = subprocess.run(["bash", "-c", LISTED, "bash", name], cwd=TOP, capture_output=True, text=True, check=True)
        for path in listed.stdout.splitlines():
            self.assertTrue((TOP / path).exists(), path)
            if (TOP / path).is_dir():
                shutil.copytree(TOP / path, self.folder / path, ignore=shutil.ignore_patterns("__pycache__"))
            else:
                (self.folder / path).parent.mkdir(exist_ok=True)
                shutil.copy(TOP / path, self.folder / path)

    def test_each_link_and_picture_of_an_archive_is_one_of_its_files(self) -> None:
        """The pages keep all their words when links to other files are removed."""
        for name in ("files", "for_students"):
            with self.subTest(name):
                self.unpack(name)
                before = {page: words_of(page) for page in self.folder.rglob("*.md")}
                self.assertEqual(self.call(), (0, ""))
                self.assertEqual(missing(self.folder), [])
                self.assertEqual({page: words_of(page) for page in self.folder.rglob("*.md")}, before)


class Pages(InFolder):
    """Pages with links of each kind."""

    def write(self, text: str) -> Path:
        """Writes a page beside a page and a picture that exist, and returns its path."""
        (self.folder / "docs").mkdir(exist_ok=True)
        for name in ("README.md", "docs/there.md", "docs/there.svg"):
            (self.folder / name).write_text("", encoding="utf-8")
        page = self.folder / "docs/page.md"
        page.write_text(text, encoding="utf-8")
        return page

    def test_only_links_to_missing_files_are_removed_and_their_texts_stay(self) -> None:
        for before, after in (
            ("[none](none.md), [`none`](../none/README.md#words) and [there](there.md#words)", "none, `none` and [there](there.md#words)"),
            ("[top](../README.md), [site](https://example.org/none.md) and [here](#words)", None), ("![a picture](there.svg)", None),
            ("```text\n[none](none.md)\n```\n", None),
        ):
            page = self.write(before)
            self.assertEqual(self.call(), (0, ""))
            self.assertEqual(page.read_text(encoding="utf-8"), after or before)

    def test_a_missing_picture_is_an_error_and_nothing_is_changed(self) -> None:
        text = "![a picture](none.svg) and [none](none.md)"
        page = self.write(text)
        self.assertEqual(self.call(), (1, "docs/page.md: there is no picture none.svg\n"))
        self.assertEqual(page.read_text(encoding="utf-8"), text)

    def test_the_check_of_a_release_finds_links_of_each_form(self) -> None:
        """A file outside of the release counts as missing."""
        (self.folder.parent / "outside.md").touch()
        self.write("[a](none.md#b), ![a](none.svg), [a](../../outside.md), [there](there.md), ![there](there.svg), [x](https://example.org), [y](#words)\n"
                   '[b]: other.md\n<img src="third.svg">')
        self.assertEqual(missing(self.folder), [f"docs/page.md: {it}" for it in ("none.md", "none.svg", "../../outside.md", "other.md", "third.svg")])


def words_of(page: Path) -> list[str]:
    """Returns the words of a page, without the targets of its links."""
    return re.findall(r"\w+", re.sub(r"\]\([^)\s]+\)", "", page.read_text(encoding="utf-8")))


if __name__ == "__main__":
    unittest.main()
