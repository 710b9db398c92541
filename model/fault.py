"""The errors that end a call of the model, and reading files."""
from pathlib import Path


class Fault(Exception):
    """An error that ends a call: the line to print, the exit status, and the output before the line."""

    def __init__(self, line: str, status: int, out: bytes = b"") -> None:
        """`line` is the error line, `status` the exit status, and `out` has the bytes that are written to standard output before the line."""
        super().__init__(line)
        self.line, self.status, self.out = line, status, out


def read_file(file: Path, what: str, most: int) -> bytes:
    """Returns the bytes of a file. Raises `Fault` if the file can't be read or has more than `most` bytes. `what` names the file's kind in the error."""
    try:
        with file.open("rb") as it:
            content = it.read(most + 1)
    except (OSError, ValueError):  # A path with a null character is a `ValueError`.
        raise Fault(f"read fault: {what}", 4) from None
    if len(content) > most:
        raise Fault(f"read fault: {what}", 4)
    return content
