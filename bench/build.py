"""Builds the program by hand from Debian's packages alone, without a network, as bench/typed/out/typed.

    python3 -B -m bench.build

Debian's own wrapper of cargo says where its packages lie. The compiler is Debian's too, unless the environment's
CARGO names another cargo. All that a build leaves is in bench/typed/out.
"""
import os
import shutil
import subprocess
from pathlib import Path

from bench.common import TOP, Words, refuse

FOLDER = TOP / "bench/typed"
OUT = FOLDER / "out"
WRAPPER = Path("/usr/share/cargo/bin/cargo")


def variables() -> dict[str, str]:
    """Returns the environment for Debian's wrapper of cargo. The wrapper works only if CARGO_HOME ends in
    `debian/cargo_home`."""
    home = OUT / "debian/cargo_home"
    flags = {name: "" for name in ("CFLAGS", "CXXFLAGS", "CPPFLAGS", "LDFLAGS")}
    target = {"DEB_HOST_GNU_TYPE": "x86_64-linux-gnu", "DEB_HOST_RUST_TYPE": "x86_64-unknown-linux-gnu"}
    return {**os.environ, **flags, **target, "DEB_CARGO_CRATE": "typed_0.1.0", "CARGO_HOME": str(home)}


def main() -> None:
    """Copies the sources, since cargo writes beside them, and builds the copy. Exits with an error line if Debian's
    wrapper of cargo isn't installed. Raises `CalledProcessError` if the build fails."""
    if not WRAPPER.exists():
        refuse("Debian's cargo isn't installed; bench/README.md says what to install")
    environment = variables()
    cargo = os.environ.get("CARGO") or "/usr/bin/cargo"
    if "CARGO" not in os.environ:
        environment["RUSTC"] = "/usr/bin/rustc"
    source = OUT / "source"
    shutil.rmtree(source, ignore_errors=True)
    shutil.copytree(FOLDER, source, ignore=shutil.ignore_patterns("out"))
    prepare: Words = [WRAPPER, "prepare-debian", OUT / "packages", "--link-from-system"]
    build: Words = [cargo, "build", "--release", "--offline", "--target-dir", OUT / "target"]
    for call in prepare, build:
        subprocess.run(call, cwd=source, env=environment, check=True)
    shutil.copy2(OUT / "target/release/typed", OUT / "typed")


if __name__ == "__main__":
    main()
