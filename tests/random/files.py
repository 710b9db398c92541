"""A lab and a script in a folder, and the results of the program and the model for them."""
from pathlib import Path

from tests.common.preload import Ended
from tests.common.second import agreed, agreed_script


class Files:
    """A lab and a script in a folder. All results are checked to be the same for the program and the model."""

    def __init__(self, what: str, room: Path, lab: str, script: bytes) -> None:
        """Writes the lab and the script into the folder `room`. `what` names them in errors."""
        self.what = what
        self.lab, self.script, self.journal = room / "drawn.toml", room / "drawn.script", room / "drawn.journal"
        self.lab.write_text(lab, encoding="ascii")
        self.script.write_bytes(script)
        self.journal.write_bytes(b"")

    def played(self) -> Ended:
        """Returns the result of the script, which writes its journal."""
        return agreed_script(self.what, self.lab, self.script, self.journal)

    def audited(self, journal: bytes) -> Ended:
        """Returns the result of the audit of a journal."""
        self.journal.write_bytes(journal)
        return agreed(f"{self.what}, the journal {journal!r}", "audit", self.lab, self.journal)
