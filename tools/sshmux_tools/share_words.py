"""Which host and FOLDER the words of share-host name, without the modules that read them all."""

import getopt
import os

LETTERS = "vhF:o:L:R:D:"
NAMES = [
    "own", "front", "background", "help", "idle=", "connections=", "tidy", "log=", "permit-open=",
    "permit-listen=", "permit-session=", "permit-here=", "door=", "at=", "group=",
]  # fmt: skip


def host_and_folder(words: list[str]) -> tuple[str, str]:
    """Nothing stands for what isn't named, or can't be read, which others tell."""
    try:
        _, rest = getopt.gnu_getopt(words, LETTERS, NAMES)
    except getopt.GetoptError:
        return "", ""
    if not 1 <= len(rest) <= 3:
        return "", ""
    return rest[0], os.path.abspath(rest[-1]) if len(rest) > 1 else ""
