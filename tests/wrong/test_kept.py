"""Tests of what `tools/wrong` keeps. A *round* is a group of wrong bodies that one check of the prover tries. If all
its bodies are refused, the tool keeps a file whose name is a hash of everything that the check reads, the *name* of the
round. A later run doesn't try a round with a kept name again.

    python3 -B -m unittest tests.wrong.test_kept      a few seconds; needs neither the toolchain nor a library
"""
from __future__ import annotations

import os
import tempfile
import unittest
from collections.abc import Iterator
from contextlib import contextmanager
from pathlib import Path
from unittest.mock import patch

from tools.wrong import kept, trying
from tools.wrong.checks import Ended, Running
from tools.wrong.edits import Round, read_edits, rounds_of
from tools.wrong.judging import Judged
from tools.wrong.kept import Kept, folder_of_user, name_of
from tools.wrong.libraries import Tree, parse_uses
from tools.wrong.trying import Results, Tried, try_crate

EDIT = "# refused: f returns\nfile: src/lib.rt\nold: one\nnew: two\n"
USES = "lowest:\nbelow: lowest json\nabove: below\nbeside:\n"
FILES = {
    "kit/KIT-ID": "kit 1\n",
    "kit/bin/rattle": "prover 1\n",
    "kit/rlibs/std.rlib/format": "std 1\n",
    "kit/rlibs/json.rlib/format": "json 1\n",
    "crates/lowest/out/rlib/lowest.rlib/format": "lowest 1\nchecked 1\nsum 1\n",
    "crates/lowest/out/rlib/lowest.rlib/toolchain/checked.a": "statements 1\n",
    "crates/lowest/out/rlib/lowest.rlib/lang/antt/proofs/Lemmas.antt": "proof 1\n",
    "crates/below/out/rlib/below.rlib/format": "below 1\nchecked 1\nover lowest 1\nneeds std 1\nsum 1\n",
    "crates/below/out/rlib/below.rlib/interface/lang/src/lib.rt": "fn g();\n",
    "crates/beside/out/rlib/beside.rlib/format": "beside 1\n",
    "crates/above/src/lib.rt": "one\n",
    "crates/above/src/other.rt": "other\n",
    "crates/above/specs/Lib.antt": "specs\n",
    "crates/above/proofs/Lib.antt": "proofs\n",
    "crates/above/README.md": "text\n",
    "crates/above/wrong/it.edit": EDIT,
}
# All files on which a check of the crate `above` depends, and those on which it doesn't depend.
READ = [it for it in FILES if not it.startswith(("crates/beside", "crates/above/README")) and "lang/antt/proofs" not in it]
UNREAD = [it for it in FILES if it not in READ]


def write(top: Path, path: str, text: str) -> None:
    """Writes a file below the folder `top`, and makes its folder."""
    (top / path).parent.mkdir(parents=True, exist_ok=True)
    (top / path).write_text(text, encoding="utf-8")


@contextmanager
def tree() -> Iterator[Tree]:
    """Makes a temporary folder with a repository of four crates and a toolchain, and yields its tree."""
    with tempfile.TemporaryDirectory() as room:
        for path, text in FILES.items():
            write(Path(room), path, text)
        yield Tree(Path(room), Path(room) / "kit", parse_uses(USES))


def round_of(made: Tree) -> Round:
    """Returns the only round of the crate `above`."""
    folder = made.folder("above")
    return rounds_of(read_edits(folder)[0], folder)[0]


def name_in(made: Tree) -> str:
    """Returns the name of the only round of the crate `above`, from the files as they are now."""
    kept.hash_of.cache_clear()
    kept.hash_of_library.cache_clear()
    return name_of(made, "above", round_of(made))


class Names(unittest.TestCase):
    """The name of a round changes exactly if the result of the round can change."""

    def test_a_change_of_a_file_that_the_check_reads_changes_the_name(self) -> None:
        """The changes of `src/lib.rt` and of the edit are such that the edit can still be read."""
        for path in READ:
            with self.subTest(path), tree() as made:
                before = name_in(made)
                text = FILES[path]
                changed = text.replace("two", "three") if path.endswith(".edit") else text + "one more\n"
                write(made.top, path, changed if path != "crates/above/src/lib.rt" else "one \n")
                self.assertNotEqual(name_in(made), before)

    def test_a_change_of_another_file_does_not_change_the_name(self) -> None:
        for path in UNREAD:
            with self.subTest(path), tree() as made:
                before = name_in(made)
                write(made.top, path, "changed\n")
                self.assertEqual(name_in(made), before)

    def test_a_new_file_or_a_text_in_another_file_changes_the_name(self) -> None:
        """At last a text moves from one file to another, so that all files together have the same text as before."""
        with tree() as made:
            before = name_in(made)
            write(made.top, "crates/above/proofs/More.antt", "")
            more = name_in(made)
            self.assertNotEqual(more, before)
            write(made.top, "crates/above/src/other.rt", "")
            write(made.top, "crates/above/proofs/More.antt", "other\n")
            self.assertNotIn(name_in(made), (before, more))

    def test_the_hashes_of_whole_libraries_do_not_change_the_name(self) -> None:
        """These are the hashes in `format`, which change if a proof or a comment of a lower crate does. Another line of
        this file changes the name."""
        path = "crates/below/out/rlib/below.rlib/format"
        for old, is_read in (("over lowest 1", False), ("needs std 1", False), ("sum 1", False), ("checked 1", True), ("below 1", True)):
            with self.subTest(old), tree() as made:
                before = name_in(made)
                write(made.top, path, FILES[path].replace(old, old.replace("1", "2")))
                self.assertEqual(name_in(made) != before, is_read)

    def test_a_library_of_the_toolchain_counts_as_a_whole(self) -> None:
        with tree() as made:
            before = name_in(made)
            write(made.top, "kit/rlibs/std.rlib/format", "std 1\nsum 2\n")
            self.assertNotEqual(name_in(made), before)

    def test_a_line_that_is_only_a_comment_does_not_change_the_name(self) -> None:
        cases = (("src/other.rt", "other\n    /// A comment.\n// One more.\n"),
                 ("specs/Lib.antt", "-- A comment.\nspecs\n--\n"),
                 ("proofs/Lib.antt", "proofs\n  -- A comment."))
        for path, text in cases:
            with self.subTest(path), tree() as made:
                before = name_in(made)
                write(made.top, f"crates/above/{path}", text)
                self.assertEqual(name_in(made), before)

    def test_a_line_that_only_looks_like_a_comment_changes_the_name(self) -> None:
        """Such a line is part of a longer string, or of code, or its file has another kind of comments."""
        cases = (("src/other.rt", 'f("\n// one", \'"\')\n'),
                 ("src/other.rt", 'let a = r#"\n// one\n"#;\n'),
                 ("src/other.rt", "f() // one\n"),
                 ("specs/Lib.antt", "--one two\n"),
                 ("specs/Lib.antt", "// one\n"))
        for path, text in cases:
            with self.subTest(text), tree() as made:
                write(made.top, f"crates/above/{path}", text)
                before = name_in(made)
                write(made.top, f"crates/above/{path}", text.replace("one", "another"))
                self.assertNotEqual(name_in(made), before)

    def test_another_goal_of_an_edit_changes_the_name(self) -> None:
        with tree() as made:
            before = name_in(made)
            write(made.top, "crates/above/wrong/it.edit", EDIT.replace("returns", "ends"))
            self.assertNotEqual(name_in(made), before)

    def test_a_change_of_the_tool_changes_the_name(self) -> None:
        """Here the folder with the tool's sources is replaced by an empty one."""
        with tree() as made, tempfile.TemporaryDirectory() as other:
            before = name_in(made)
            with patch.object(kept, "HERE", Path(other)):
                self.assertNotEqual(name_in(made), before)


class Keeping(unittest.TestCase):
    """Which results are kept, and that a round whose result is kept isn't tried again."""

    def try_twice(self, found: Judged, folder: Path | None) -> tuple[Tried, Tried]:
        """Tries the crate `above` twice, keeping results in `folder`. A function stands in for the check, which is
        judged as `found`. Returns the results of both runs."""
        ended = Ended(1, "", 1.0)
        with tree() as made, patch.object(trying, "try_round", return_value=ended), patch.object(trying, "judge", return_value=found):
            kept.hash_of.cache_clear()
            kept.hash_of_library.cache_clear()
            results = Results(kept=Kept(folder))
            return try_crate(made, "above", Running(), results), try_crate(made, "above", Running(), results)

    def test_a_round_that_was_refused_is_not_tried_again(self) -> None:
        """Its wrong body is counted as refused in an earlier run. The folder for the results is made if necessary."""
        with tempfile.TemporaryDirectory() as room:
            first, second = self.try_twice(Judged(), Path(room) / "new/folder")
        self.assertEqual((first.checks, first.passed, first.known, first.failed), (1, 1, 0, 0))
        self.assertEqual((second.checks, second.passed, second.known, second.failed), (0, 1, 1, 0))
        self.assertEqual(second.line(with_times=False), "above: 1 wrong bodies refused, in 0 checks, 1 of them in an earlier run")

    def test_a_round_with_a_fault_is_tried_again(self) -> None:
        faults = (Judged(of_round=["an error of no goal"]), Judged(of_edit={"it.edit": ["f is still proved"]}))
        for found in faults:
            with self.subTest(found=found), tempfile.TemporaryDirectory() as room:
                _, second = self.try_twice(found, Path(room))
                self.assertEqual((second.checks, second.known), (1, 0))

    def test_without_a_folder_each_run_tries_everything(self) -> None:
        """The same holds if the folder can't be made."""
        with tempfile.NamedTemporaryFile() as file:
            for folder in (None, Path(file.name) / "below"):
                with self.subTest(folder=folder):
                    _, second = self.try_twice(Judged(), folder)
                    self.assertEqual((second.checks, second.passed, second.known), (1, 1, 0))

    def test_a_result_is_not_kept_if_a_file_changed_during_the_check(self) -> None:
        with tree() as made, tempfile.TemporaryDirectory() as room:
            def change(*_: object) -> Ended:
                """Changes a file of the crate, as somebody may do while a check runs. Returns the result of the
                check."""
                write(made.top, "crates/above/src/other.rt", "changed\n")
                return Ended(1, "", 1.0)

            with patch.object(trying, "try_round", side_effect=change), patch.object(trying, "judge", return_value=Judged()):
                tried = try_crate(made, "above", Running(), Results(kept=Kept(Path(room))))
            self.assertEqual((tried.passed, [*Path(room).iterdir()]), (1, []))

    def test_a_result_is_not_kept_if_a_library_changed_during_the_check(self) -> None:
        """The library is that of a lower crate, and another run builds it anew, with other statements."""
        library = "crates/below/out/rlib/below.rlib"
        with tree() as made, tempfile.TemporaryDirectory() as room:
            def change(*_: object) -> Ended:
                """Changes the library. Returns the result of the check."""
                write(made.top, f"{library}/interface/lang/src/lib.rt", "fn h();\n")
                write(made.top, f"{library}/format", FILES[f"{library}/format"].replace("sum 1", "sum 2"))
                return Ended(1, "", 1.0)

            with patch.object(trying, "try_round", side_effect=change), patch.object(trying, "judge", return_value=Judged()):
                tried = try_crate(made, "above", Running(), Results(kept=Kept(Path(room))))
            self.assertEqual((tried.passed, [*Path(room).iterdir()]), (1, []))

    def test_the_oldest_results_are_removed_if_there_are_too_many(self) -> None:
        with tempfile.TemporaryDirectory() as room, patch.object(kept, "MOST_FILES", 3):
            for number in range(5):
                Kept(Path(room)).keep(f"name{number}")
                os.utime(Path(room) / f"name{number}", (number, number))
            Kept(Path(room)).keep("name5")
            self.assertEqual(sorted(it.name for it in Path(room).iterdir()), ["name3", "name4", "name5"])

    def test_the_folder_is_in_the_cache_of_the_user(self) -> None:
        """This cache is the folder in the variable XDG_CACHE_HOME if it is an absolute path, and otherwise `.cache` in
        the home folder."""
        for base, expected in (("/somewhere", Path("/somewhere")), ("", Path.home() / ".cache"), ("relative", Path.home() / ".cache")):
            with self.subTest(base=base), patch.dict(os.environ, {"XDG_CACHE_HOME": base}):
                self.assertEqual(folder_of_user(), expected / "cenduwa/wrong")


if __name__ == "__main__":
    unittest.main()
