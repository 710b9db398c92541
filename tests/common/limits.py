"""The limits as the requirement has them: what `mml limits` has to print. Tests take each limit from here."""

LIMITS = {
    "nodes": (256, "count"), "identifier": (65535, "number"), "students": (256, "count"), "owners": (2, "count"),
    "sessions": (16, "count"), "events": (100_000, "count"), "name": (32, "characters"), "key": (64, "characters"),
    "line": (4096, "bytes"), "lab": (1_048_576, "bytes"), "journal": (16_777_216, "bytes"), "entry": (8_388_608, "bytes"),
    "seat-written": (1_072_693_248, "bytes"), "seat-read": (1_073_741_824, "bytes"),
    "greeting": (10, "seconds"), "desk-greeting": (5, "seconds"), "next-line": (600, "seconds"), "write": (10, "seconds"),
}
# The numbers alone, and the text that `mml limits` prints.
MOST = {name: most for name, (most, _) in LIMITS.items()}
TEXT = "".join(f"{name} {most} {unit}\n" for name, (most, unit) in LIMITS.items())
