"""The certificate of a door, the TLS port for students on other machines. `openssl` makes the certificate if there is
none. Slips, the files with a student's data, identify it by its fingerprint."""
from __future__ import annotations

import hashlib
import ipaddress
import os
import re
import shutil
import ssl
import tempfile
from pathlib import Path

from classroom.core.lab import write_new
from classroom.core.processes import run
from classroom.core.program import Fault
from classroom.core.statuses import FAILED

FILE = "door.pem"  # the name of the certificate's file in the folder of the labs
DAYS = 730
BLOCK = re.compile(r"-----BEGIN CERTIFICATE-----.*?-----END CERTIFICATE-----", re.DOTALL)


def beside(lab: Path) -> Path:
    """Returns the path of the certificate beside a lab, which all labs of the folder share."""
    return lab.with_name(FILE)


def subject(name: str) -> str:
    """Returns a host's name or address as an entry of a certificate's list of names."""
    try:
        return f"IP:{ipaddress.ip_address(name)}"
    except ValueError:
        return f"DNS:{name}"


def refusal_of(name: str) -> str:
    """Returns why a certificate can't have the name of this machine, or an empty text if it can. Only this machine's
    own name can be refused, since a name or an address in an argument is checked when the argument is read."""
    if re.fullmatch(r"[A-Za-z0-9.:-]+", name):
        return ""
    return (f"this machine calls itself {name!r}, but a certificate's name may contain only letters, digits, dots and hyphens. "
            "Write another name or the address of this machine: --door ADDRESS:PORT")


def make_if_missing(file: Path, name: str) -> str:
    """Makes a certificate for a host's name if the file doesn't exist. Returns the fingerprint of the file's
    certificate. Raises `Fault` if the certificate can't be made or read."""
    if not os.path.lexists(file):
        make(file, name)
    return fingerprint(file)


def make(file: Path, name: str) -> None:
    """Makes a file with a new key and a certificate for a host's name. Only its owner can read the file. Raises `Fault`
    if a certificate can't have this name, if `openssl` is missing or fails, or if the file exists already or can't be
    written."""
    if shutil.which("openssl") is None:
        raise Fault(f"{file}: the door has no certificate yet, and the program openssl, which makes one, isn't installed. Install it, or name a file with "
                    "a key and its certificate by --certificate FILE", FAILED)
    if why := refusal_of(name):
        raise Fault(why)
    with tempfile.TemporaryDirectory() as room:
        key, made = Path(room, "key"), Path(room, "certificate")
        done = run(["openssl", "req", "-x509", "-newkey", "ec", "-pkeyopt", "ec_paramgen_curve:prime256v1", "-nodes", "-days", str(DAYS),
                    "-subj", "/CN=Cenduwa", "-addext", f"subjectAltName={subject(name)}", "-keyout", key, "-out", made])
        if done.returncode != 0:
            raise Fault(f"{file}: openssl couldn't make a certificate. It printed: {done.stderr.decode(errors='replace').strip() or 'nothing'}", FAILED)
        write_new(file, key.read_text(encoding="ascii") + made.read_text(encoding="ascii"))


def fingerprint(file: Path) -> str:
    """Returns the SHA-256 of the first certificate in a file, as 64 hexadecimal digits. Raises `Fault` if the file has
    none, or if one of the two can't be read."""
    try:
        found = BLOCK.search(file.read_text(encoding="utf-8", errors="replace"))
    except OSError as error:
        raise Fault(f"{file}: {error.strerror}", FAILED) from None
    if found is None:
        raise Fault(f"{file}: there is no certificate in this file. Name a file with a key and its certificate by --certificate FILE", FAILED)
    try:
        return hashlib.sha256(ssl.PEM_cert_to_DER_cert(found[0])).hexdigest()
    except ValueError as error:
        raise Fault(f"{file}: the certificate in this file can't be read: {error}. Name another file by --certificate FILE", FAILED) from None


def context(file: Path) -> ssl.SSLContext:
    """Returns the TLS settings of a door with the key and the certificate in a file. Raises `Fault` if the file lacks
    one of them or can't be read, or if the two don't fit each other."""
    it = ssl.SSLContext(ssl.PROTOCOL_TLS_SERVER)
    it.minimum_version = ssl.TLSVersion.TLSv1_2
    it.options |= ssl.OP_NO_RENEGOTIATION | ssl.OP_NO_COMPRESSION
    setattr(it, "num_tickets", 0)  # Clients don't resume TLS sessions. So the server sends no tickets for that.
    try:
        it.load_cert_chain(file)
    except (OSError, ValueError) as error:
        raise Fault(f"{file}: this file has no key, or one that doesn't fit its certificate: {error}. "
                    "Name another file by --certificate FILE", FAILED) from None
    return it
