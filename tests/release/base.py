"""Lists the files of installed Debian packages and of all packages that they depend on, separated by zero bytes:

    python3 tests/release/base.py [PACKAGE..] | tar --null --no-recursion -T - -cf - ..

Without arguments lists those of a base system: all essential or required packages. Documentation and translations
are left out.
"""
import re
import sys
from pathlib import Path

DPKG = Path("/var/lib/dpkg")
LEFT_OUT = re.compile(r"/usr/share/(doc|doc-base|man|info|locale|i18n|lintian|bash-completion|zoneinfo)(/|$)")


def installed() -> dict[str, dict[str, str]]:
    """Returns the fields of each installed package, by its name."""
    packages: dict[str, dict[str, str]] = {}
    for text in (DPKG / "status").read_text(encoding="utf-8").split("\n\n"):
        fields = dict(line.split(": ", 1) for line in text.splitlines() if re.match(r"[A-Za-z-]+: ", line))
        if fields.get("Status") == "install ok installed":
            packages[fields["Package"]] = fields
    return packages


def names(field: str) -> list[str]:
    """Returns the packages in a dependency field, with all alternatives."""
    return [name for name in re.findall(r"(?:^|[,|])\s*([a-z0-9][a-z0-9+.-]*)", field)]


def closure(wanted: list[str], packages: dict[str, dict[str, str]]) -> set[str]:
    """Returns these packages and all installed packages that they depend on."""
    providers: dict[str, list[str]] = {}
    for name, fields in packages.items():
        for provided in [name, *names(fields.get("Provides", ""))]:
            providers.setdefault(provided, []).append(name)
    found, rest = set[str](), list(wanted)
    while rest:
        for name in providers.get(rest.pop(), []):
            if name not in found:
                found.add(name)
                fields = packages[name]
                rest += names(fields.get("Depends", "")) + names(fields.get("Pre-Depends", ""))
    return found


def files(name: str, packages: dict[str, dict[str, str]]) -> list[str]:
    """Returns the paths of the files of the package `name`."""
    lists = [DPKG / "info" / f"{name}.list", DPKG / "info" / f"{name}:{packages[name]['Architecture']}.list"]
    return next(path for path in lists if path.exists()).read_text(encoding="utf-8").splitlines()


def main() -> None:
    """Prints the paths of the files on standard output, and the names of the packages on standard error. Exits with an
    error if a package isn't installed."""
    packages = installed()
    base = [name for name, it in packages.items() if it.get("Essential") == "yes" or it.get("Priority") == "required"]
    wanted = sys.argv[1:] or base
    missing = [name for name in wanted if name not in packages]
    if missing:
        sys.exit(f"base.py: not installed: {' '.join(missing)}")
    seen = set[str]()
    for name in sorted(closure(wanted, packages)):
        print(name, file=sys.stderr)
        for path in files(name, packages):
            if path not in seen and not LEFT_OUT.match(path) and (Path(path).exists() or Path(path).is_symlink()):
                seen.add(path)
                sys.stdout.write(path.lstrip("/") + "\0" if path != "/." else "")


main()
