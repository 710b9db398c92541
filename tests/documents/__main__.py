"""Checks the documents: that each link, file, name and contract in them is there, and each command is run.

    python3 -B -m tests.documents             prints what is missing; its status is 1 if something is
    python3 -B -m tests.documents --words     prints the number of words of each page
    python3 -B -m tests.documents PAGE..      prints the commands of these pages, one per line, each once

A name in backquotes that is spelled like one of a program has to occur in a source, word by word. The name of a law has
to be a public function of a module `laws`. A word in capitals is a placeholder. A path in `src/`, `specs/`, `proofs/`
or `wrong/` on a crate's page has to exist in that crate.

Each name in a column `Contract` has to be declared as a function, a type, a clause or a definition. On a crate's page
the crate has to declare or cite it. Each command block of the pages in USED is run by a test, unless it is marked: `sh
not run`, or `text` for an example of an output. `docs/crates.svg` has to be the drawing of `crates.txt` by
`tests.documents.crates`. Each number, status or limit in `tests.documents.numbers` has to be that of its source.
`tests.documents.style` counts phrases that are hard to read and sentences of more than 30 words.

There is no limit on words: a page that is too long is split, or cut if it repeats itself.
"""
from __future__ import annotations

import re
import subprocess
import sys
from collections.abc import Iterable, Iterator
from pathlib import Path

from tests.documents import crates, numbers, style

TOP = Path(__file__).resolve().parents[2]
FENCE = re.compile(r"^```.*?^```$", re.MULTILINE | re.DOTALL)
ENDINGS = "antt c conf css edit html js md out py rt script service sh svg toml txt".split()
# Names that no source has: those of the toolchain, the system and the C library, and of files that are made.
ELSEWHERE = set(Path(__file__).with_name("elsewhere.txt").read_text(encoding="utf-8").split())

# The pages that show how the program is used. `tests/pages/pages` runs their blocks without a mark. RUN_BY has the test
# that runs the blocks of a page with a mark. RUN_BEFORE has, for the beginning of a command, a test and its text.
USED = ("README.md", "docs/STUDENT.md", "docs/SELF-STABILISATION.md", "docs/TEACHER.md", "docs/COURSE.md", "docs/TRUST.md", "docs/OPERATE.md")
RUN_BY = {("docs/OPERATE.md", "sh"): "tests/pages/operate", ("docs/STUDENT.md", "python"): "tests/pages/pages"}
RUN_BEFORE = {
    "tar ": ("tests/release/run", "tar -xzf $release.tar.gz"),
    "./try": ("tests/program/launchers", '"$work/try") < examples/first-look.script'),
    "./mml build": ("tests/program/launchers", '"the build, once more" build'),
    "./check": ("tests/check/test_check.py", 'self.check("quick")'),
}
MARKS = ("sh not run", "text")


def not_ignored() -> list[str]:
    """Returns the paths of the repository's files: those that are committed, and new ones that git doesn't ignore.
    Leaves out files that were removed."""
    listed = subprocess.run(["git", "ls-files", "-co", "--exclude-standard"], cwd=TOP, capture_output=True, text=True, check=True)
    return [path for path in listed.stdout.splitlines() if (TOP / path).exists()]


def is_page(path: str) -> bool:
    """Returns whether a file is one of the documents."""
    return path.endswith(".md")


def words_of(files: list[str]) -> set[str]:
    """Returns all words in these files and in their paths. Leaves out the contents of pages and of the files in
    `tests/documents/`."""
    found = set()
    for path in files:
        found |= set(re.findall(r"\w+", path))
        if not is_page(path) and not path.startswith("tests/documents/"):
            found |= set(re.findall(r"\w+", (TOP / path).read_text(encoding="utf-8", errors="replace")))
    return found


def laws_of(files: list[str]) -> set[str]:
    """Returns the names of all laws, the public functions of modules `laws`, among these files."""
    texts = [(TOP / path).read_text(encoding="utf-8") for path in files if re.fullmatch(r"crates/\w+/src/laws(/\w+)?\.rt", path)]
    return {name for text in texts for name in re.findall(r"pub fn (\w+)", text)}


def declared_in(text: str) -> set[str]:
    """Returns the names that the text of a source declares: functions, types, clauses and definitions, and `From<NAME>`
    for each implementation of `From`."""
    names = set(re.findall(r"\b(?:fn|struct|enum|trait|type|const|ensures|requires) (\w+)", text))
    # A definition of `specs/` begins a line, after words such as `pub` or none.
    names |= set(re.findall(r"^(?:[a-z]+ )*([A-Za-z_]\w*)(?: |$)", text, re.MULTILINE))
    return names | {f"From<{name}>" for name in re.findall(r"impl.* From<(\w+)", text)}


def sources_of(files: list[str]) -> dict[str, str]:
    """Returns for each crate the text of all its files in `src/` and `specs/`."""
    texts: dict[str, str] = {}
    for path in files:
        found = re.match(r"crates/(\w+)/(src|specs)/", path)
        if found:
            texts[found[1]] = texts.get(found[1], "") + (TOP / path).read_text(encoding="utf-8") + "\n"
    return texts


def contracts_of(page: str) -> Iterator[str]:
    """Yields each name in backquotes in the last column of those tables of a page whose last head is `Contract`."""
    inside = False
    for line in (TOP / page).read_text(encoding="utf-8").splitlines():
        cells = [cell.strip() for cell in line.strip().strip("|").split("|")] if line.startswith("|") else []
        inside = bool(cells) and (inside or cells[-1] == "Contract")
        if inside:
            yield from re.findall(r"`([^`]+)`", cells[-1])


def missing_contracts(page: str, texts: dict[str, str], declared: set[str], laws: set[str]) -> Iterator[str]:
    """Yields the contracts on a page that aren't in `declared` or, if they are laws, in `laws`. Also yields those that
    the page of a crate names but the crate doesn't cite. `texts` has the sources of each crate."""
    crate = re.fullmatch(r"crates/(\w+)/README\.md", page)
    for name in contracts_of(page):
        parts = [name] if name.startswith("From<") else name.split("::")
        near = crate is None or all(re.search(rf"\b{re.escape(part)}\b", texts[crate[1]]) for part in parts if "<" not in part)
        known = parts[-1] in laws if "laws" in parts else all(part in declared for part in parts)
        if not near or not known:
            yield name


def has_placeholder(text: str) -> bool:
    """Returns whether a text has a word in capitals that the reader has to replace, as in `NAME.script`. The names of
    pages such as README.md don't count."""
    return bool(re.search(r"(?<![A-Z])[A-Z]{3,}(?![A-Z]*\.md)", text))


def is_missing_path(page: str, text: str, files: list[str], folders: set[str]) -> bool:
    """Returns whether no file and no folder of the repository has a path that ends like this text. On the page of a
    crate, a path that begins with a crate's folder, such as `src/`, has to be in this crate. Returns False for absolute
    paths, paths with placeholders, and those in ELSEWHERE."""
    path = text.rstrip("/").removeprefix("./")
    if path.startswith("/") or has_placeholder(path) or path in ELSEWHERE:
        return False
    near = str((Path(page).parent / path))
    if re.match(r"crates/\w+/", page) and re.match(r"(src|specs|proofs|wrong)/", path):
        return near not in files and near not in folders
    return not any(it in (path, near) or it.endswith("/" + path) for it in (*files, *folders))


def is_missing_name(text: str, words: set[str], laws: set[str]) -> bool:
    """Returns whether the name `text` on a page has a word that isn't in `words`, those of all sources, or is that of a
    law that isn't in `laws`. Names in ELSEWHERE are never missing."""
    if text in ELSEWHERE:
        return False
    parts = re.findall(r"\w+", text)
    if "laws" in parts[:-1]:
        return parts[-1] not in laws
    return any(part not in words and part not in ELSEWHERE for part in parts)


def missing_on(page: str, files: list[str], folders: set[str], words: set[str], laws: set[str]) -> Iterator[str]:
    """Yields all links, paths and names on a page that stand for nothing. `files` and `folders` are those of the
    repository, `words` the words of all sources, and `laws` the names of all laws."""
    text = FENCE.sub("", (TOP / page).read_text(encoding="utf-8"))
    for target in re.findall(r"\]\(([^)\s]+)\)", text):
        if not re.match(r"[a-z]+:|#", target) and not (TOP / Path(page).parent / target.split("#")[0]).exists():
            yield target
    for quoted in re.findall(r"`([^`\n]+)`", text):
        is_path = "/" in quoted or quoted.rsplit(".", 1)[-1] in ENDINGS
        if re.fullmatch(r"[\w./-]+", quoted) and is_path:
            if is_missing_path(page, quoted, files, folders):
                yield quoted
        elif re.fullmatch(r"[A-Za-z_]\w*(::\w+)*(\(\))?", quoted) and is_missing_name(quoted, words, laws):
            yield quoted


def is_command(line: str) -> bool:
    """Returns whether a line of a code block is a command."""
    return bool(re.match(r"(\./|\.ci/|python3 |tar |ssh |java |mkdir |sha256sum |sed |cmp |cat )", line.strip().removeprefix("$ ")))


def commands_of(page: str) -> Iterator[str]:
    """Yields the commands in a page's code blocks."""
    lines = (TOP / page).read_text(encoding="utf-8").splitlines()
    for line in lines:
        if (line.startswith("    ") or line.startswith("./")) and is_command(line):
            yield line.strip().removeprefix("$ ")


def blocks_of(page: str) -> Iterator[tuple[str | None, list[str]]]:
    """Yields the code blocks of a page, each with its mark (None if it is indented) and its lines."""
    text = (TOP / page).read_text(encoding="utf-8")
    for mark, block in re.findall(r"^```(.*)\n((?:.*\n)*?)```$", text, re.MULTILINE):
        yield mark, block.splitlines()
    for block in re.findall(r"(?:^    .*\n)+", FENCE.sub("", text), re.MULTILINE):
        yield None, [line[4:] for line in block.splitlines()]


def is_run(page: str, mark: str | None, lines: list[str], texts: dict[str, str], data: set[str]) -> bool:
    """Returns whether a test runs a code block of a page, or the block needs no test. A block needs none if its mark is
    in MARKS, or if it has no command and all its lines are in `data`, the lines of `examples/`. `mark` and `lines` are
    those of the block, and `texts` has the sources of the tests that run blocks."""
    if mark is not None:
        return mark in MARKS or (page, mark) in RUN_BY and page in texts[RUN_BY[page, mark]]
    commands = [line.removeprefix("$ ") for line in lines if is_command(line)]
    if not commands:
        return all(line in data for line in lines)
    pages = texts["tests/pages/pages"]
    # The first case in this script that does nothing and has a comment. It lists the commands that the script doesn't
    # run. So another test has to run them.
    found = re.search(r"^ *(\S.*)\) ;; #", pages, re.MULTILINE)
    passed_over = found[1].replace('"', "").replace("*", "").split(" | ") if found else []
    skipped = [start for line in commands for start in passed_over if line.startswith(start)]
    return page in pages and all(start in RUN_BEFORE and RUN_BEFORE[start][1] in texts[RUN_BEFORE[start][0]] for start in skipped)


def unrun_blocks(page: str, files: list[str]) -> list[str]:
    """Returns the first line of each code block of a page that no test runs and that isn't marked. `files` are those of
    the repository."""
    run = {*RUN_BY.values(), *(path for path, _ in RUN_BEFORE.values()), "tests/pages/pages"}
    texts = {path: (TOP / path).read_text(encoding="utf-8") for path in run}
    examples = [path for path in files if path.startswith("examples/")]
    data = {line for path in examples for line in (TOP / path).read_text(encoding="utf-8").splitlines()}
    return [lines[0] for mark, lines in blocks_of(page) if not is_run(page, mark, lines, texts, data)]


def counted(pages: Iterable[str]) -> dict[str, int]:
    """Returns the number of words on each of these pages, without code blocks."""
    texts = {page: re.sub(r"^    .*$", "", FENCE.sub("", (TOP / page).read_text(encoding="utf-8")), flags=re.MULTILINE) for page in pages}
    return {page: sum(bool(re.search(r"\w", word)) for word in text.split()) for page, text in texts.items()}


def main() -> None:
    """Checks the documents, counts words, or prints the commands of pages, as the arguments say. Exits with status 1 if
    something is missing or wrong."""
    counts = counted(path for path in not_ignored() if is_page(path) and path != "CHANGELOG.md")
    total = sum(counts.values())
    if sys.argv[1:] == ["--words"]:
        print("\n".join(f"{counts[page]:6} {page}" for page in sorted(counts)))
        print(f"{total:6} in all")
        return
    if sys.argv[1:]:
        print("\n".join(dict.fromkeys(command for page in sys.argv[1:] for command in commands_of(page))))
        return
    files = not_ignored()
    folders = {str(parent) for path in files for parent in Path(path).parents}
    words, laws, texts = words_of(files), laws_of(files), sources_of(files)
    declared: set[str] = set().union(*map(declared_in, texts.values()))
    pages = [path for path in files if is_page(path)]
    missing = [f"not there: {page}: {name}" for page in pages for name in dict.fromkeys(missing_on(page, files, folders, words, laws))]
    missing += [f"no contract: {page}: {name}" for page in pages for name in missing_contracts(page, texts, declared, laws)]
    missing += [f"no test runs it: {page}: {line}" for page in USED for line in unrun_blocks(page, files)]
    missing += crates.faults() + numbers.faults() + style.faults(files)
    for line in missing:
        print(f"FAILED: {line}")
    if missing:
        sys.exit(1)
    print(f"documents: {len(pages)} pages, {total} words; each link, file, name and contract is there, and each command is run")


if __name__ == "__main__":
    main()
