"""The bodies of a crate's functions, as lines of its files, without contracts, definitions and tests."""
from __future__ import annotations

import re
from collections.abc import Iterator
from dataclasses import dataclass
from pathlib import Path

FUNCTION = re.compile(r"(?P<indent> *)(?:pub(?:\(\w+\))? )?(?:const )?fn (?P<name>\w+)")
IMPL = re.compile(r"impl(?:<.*?>)? (?P<what>.*) \{")
GENERICS = re.compile(r"<[^<>]*>")


@dataclass(frozen=True)
class Body:
    """The body of a function: its file, the function's path below its crate, and its lines, counted from 0. `end` is
    the line of the closing brace."""

    file: str
    function: str
    first: int
    end: int


def module_of(file: str) -> str:
    """Returns the path of the module in a source file below its crate, followed by `::`. Returns an empty text for the
    crate's root."""
    path = file.removeprefix("src/").removesuffix(".rt")
    return "" if path in ("lib", "main") else path.replace("/", "::") + "::"


def type_of(what: str) -> str:
    """Returns the prover's name of the `impl` with the header `what`, which comes without the word `impl`. This name is
    that of the type, followed by that of the trait if there is one: `LinesRead` for `io::Read for &mut Lines<T>`."""
    while GENERICS.search(what):
        what = GENERICS.sub("", what)
    first, _, second = what.partition(" for ")
    names = [part.strip().split("::")[-1].lstrip("&").split(" ")[-1] for part in (second, first) if part]
    return "".join(names)


def header_end(lines: list[str], start: int, indent: str) -> int | None:
    """Returns the number of the line with the brace that opens the body of a function. The function's header begins at
    the line `start`, after the spaces in `indent`. Returns None if the function has no body."""
    if lines[start].endswith("{"):
        return start
    # The next line that isn't indented further is the one with the brace, or shows that there is no body. But a line `)`
    # without a brace only ends the arguments, and the contract follows.
    for number in range(start + 1, len(lines)):
        line = lines[number]
        if line.strip() and not line.startswith(indent + " "):
            if line == indent + "{" or line.startswith(indent + ")") and line.endswith(" {"):
                return number
            if not line.startswith(indent + ")"):
                return None
    return None


def impl_header(lines: list[str], start: int) -> str:
    """Returns the header of the `impl` that begins at the line `start`, in one line."""
    header = lines[start]
    for line in lines[start + 1 :]:
        if header.endswith("{"):
            break
        # If a list of type parameters is on lines of its own, no space follows `<`, and no comma is before `>`.
        header += line.strip() if header.endswith("<") else f" {line.strip()}"
    return header.replace(", >", ">")


def bodies_of_file(file: str, lines: list[str]) -> Iterator[Body]:
    """Yields the bodies of the functions in a file with these lines. Leaves out tests."""
    owner, number = "", 0  # the name of the `impl` around the line, followed by `::`, and the number of the line
    while number < len(lines):
        line = lines[number]
        if line.startswith("impl"):
            found = IMPL.match(impl_header(lines, number))
            owner = type_of(found["what"]) + "::" if found else ""
        elif line.startswith("}"):
            owner = ""
        elif (found := FUNCTION.match(line)) and (brace := header_end(lines, number, found["indent"])) is not None:
            end = next((at for at in range(brace + 1, len(lines)) if lines[at] == found["indent"] + "}"), brace)
            if lines[number - 1].strip() != "#[test]":
                yield Body(file, f"{module_of(file)}{owner}{found['name']}", brace + 1, end)
            number = max(number, end)  # functions in this body are passed over
        number += 1


def bodies_of(folder: Path) -> list[Body]:
    """Returns the bodies of the functions in a crate's folder, file by file. Leaves out tests."""
    found: list[Body] = []
    for path in sorted((folder / "src").rglob("*.rt")):
        file = path.relative_to(folder).as_posix()
        found += bodies_of_file(file, path.read_text(encoding="utf-8").splitlines())
    return found
