"""Checks that README.md names the toolchain of this check, and no other logic.

    python3 -B -m tools.check.kit

The *logic* is the part of the toolchain's version that says which proofs it accepts.
"""
from __future__ import annotations

import re
import subprocess
import sys

from tools.check.parts import TOP

NAMED = re.compile(r"^It is proved with (`.*`)\.$", re.MULTILINE)
# A version of the toolchain in README.md, with its logic.
KIT = re.compile(r"`([^`]+ logic ([0-9a-f]+))`")


def fault(readme: str, version: str) -> str:
    """Returns what is wrong with the versions of the toolchain in `readme`, the text of README.md, or an empty text if
    nothing is. All must be of one logic, and one of them must be `version`, that of the toolchain here."""
    lines = NAMED.findall(readme)
    named = KIT.findall(lines[0]) if len(lines) == 1 else []
    if not named:
        return "README.md needs exactly one line of the form: It is proved with `VERSION logic NUMBER`."
    if len({logic for _, logic in named}) > 1:
        return f"README.md names toolchains of different logics: {lines[0]}"
    return "" if version in [kit for kit, _ in named] else f"README.md names {' and '.join(kit for kit, _ in named)}, and rt is {version}"


def main() -> None:
    """Compares README.md with the version of the toolchain. Exits with status 1 if they differ."""
    version = subprocess.run(["rt", "version"], capture_output=True, text=True, check=True).stdout.strip()
    wrong = fault((TOP / "README.md").read_text(encoding="utf-8"), version)
    if wrong:
        sys.exit(f"FAILED: {wrong}")
    print(f"1 toolchain, as README.md names it: {version}")


if __name__ == "__main__":
    main()
