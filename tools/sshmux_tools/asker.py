"""The ssh in whose configuration a program runs, as the command of a Match exec."""

from __future__ import annotations

import contextlib
import os

from sshmux_tools.ssh_words import BadWords, Command

# The command is run by a shell, which may stay between.
STEPS = 3


def words_of(pid: int) -> list[str]:
    with contextlib.suppress(OSError):
        with open(f"/proc/{pid}/cmdline", "rb") as file:
            return [os.fsdecode(word) for word in file.read().split(b"\0")[:-1]]
    return []


def is_ssh(pid: int, words: list[str]) -> bool:
    """By its first word, or by its file, which may have another name on the path."""
    with contextlib.suppress(OSError):
        if os.path.basename(os.readlink(f"/proc/{pid}/exe")) == "ssh":
            return True
    return bool(words) and os.path.basename(words[0]) == "ssh"


def parent_of(pid: int) -> int:
    with contextlib.suppress(OSError, IndexError, ValueError):
        with open(f"/proc/{pid}/stat", encoding="utf-8", errors="replace") as file:
            return int(file.read().rpartition(")")[2].split()[1])
    return 0


class Asker:
    """Who asks: an ssh with its words, our own program, or neither, as where a person does."""

    def __init__(self) -> None:
        self.command: Command | None = None
        self.is_ssh_mux = False
        pid = os.getppid()
        for _ in range(STEPS):
            words = words_of(pid)
            if str(pid) == os.environ.get("SSHMUX_PID"):
                self.is_ssh_mux = True
                return
            if is_ssh(pid, words):
                with contextlib.suppress(BadWords):
                    self.command = Command(words[1:])
                return
            pid = parent_of(pid)

    def wants_session(self) -> bool:
        """Our program lists, or asks a master something: it wants none."""
        if self.command is None:
            return not self.is_ssh_mux
        return self.command.wants_shared_session()
