"""Builds the wheel that pip installs: client.py with the metadata of pyproject.toml. Needs no other package."""
from __future__ import annotations

import base64
import hashlib
import re
import zipfile
from pathlib import Path

HERE = Path(__file__).parent
TAG = "py3-none-any"
# In an archive the client is beside this file. In a clone it is in the folder `classroom`.
CLIENTS = (HERE / "client.py", HERE.parent / "classroom/client.py")


def metadata() -> dict[str, str]:
    """Returns those values of pyproject.toml that are strings, by their keys."""
    return dict(re.findall(r'(?m)^([a-z-]+) = "(.*)"$', (HERE / "pyproject.toml").read_text(encoding="utf-8")))


def build_wheel(wheel_directory: str, config_settings: object = None, metadata_directory: object = None) -> str:
    """Writes the wheel into the folder `wheel_directory`, as pip asks of a build backend. Returns its file name. The
    other two parameters are pip's, and aren't used."""
    values = metadata()
    name = f"{values['name'].replace('-', '_')}-{values['version']}"
    head = f"Metadata-Version: 2.1\nName: {values['name']}\nVersion: {values['version']}\nSummary: {values['description']}\n"
    files = {
        "client.py": next(path for path in CLIENTS if path.is_file()).read_bytes(),
        f"{name}.dist-info/METADATA": f"{head}License: MIT\nRequires-Python: {values['requires-python']}\n".encode(),
        f"{name}.dist-info/WHEEL": f"Wheel-Version: 1.0\nGenerator: cenduwa\nRoot-Is-Purelib: true\nTag: {TAG}\n".encode(),
    }
    rows = [f"{file},sha256={digest(content)},{len(content)}" for file, content in files.items()]
    record = f"{name}.dist-info/RECORD"
    with zipfile.ZipFile(Path(wheel_directory, f"{name}-{TAG}.whl"), "w", zipfile.ZIP_DEFLATED) as wheel:
        for file, content in (files | {record: "\n".join([*rows, f"{record},,", ""]).encode()}).items():
            # A ZipInfo has a fixed date, so the same files always make the same wheel.
            wheel.writestr(zipfile.ZipInfo(file), content, zipfile.ZIP_DEFLATED)
    return f"{name}-{TAG}.whl"


def digest(content: bytes) -> str:
    """Returns the SHA-256 of a file's content, in the form that a wheel's RECORD has."""
    return base64.urlsafe_b64encode(hashlib.sha256(content).digest()).decode().rstrip("=")
