"""Who is at FRONT, and the log: one line for each request, refusal and end of a session.

A line is `plain-front: DATE TIME PROGRAM PID of PARENT PID, uid N: WHAT: OUTCOME`, and that of a door
has its name behind the first word.
"""

from __future__ import annotations

import collections
import contextlib
import dataclasses
import os
import sys
import time

from sshmux_tools.texts import printable


# How many refusals ssh-mux-status shows.
LAST_REFUSALS = 10


@dataclasses.dataclass(frozen=True)
class Process:
    """A process at the other side of a socket, by the kernel's word at one moment."""

    pid: int
    uid: int
    name: str

    @classmethod
    def find(cls, pid: int, uid: int) -> Process:
        own, parent = program_of(pid)
        name = f"{own} {pid}"
        if parent:
            name += f" of {program_of(parent)[0]} {parent}"
        return cls(pid, uid, name)

    def __str__(self) -> str:
        return f"{self.name}, uid {self.uid}"


def program_of(pid: int) -> tuple[str, int]:
    """A process's command, and the process that started it; 0 where that isn't told."""
    try:
        with open(f"/proc/{pid}/stat", "rb") as stream:
            data = stream.read()
    except OSError:
        return "process", 0
    name, _, fields = data.partition(b"(")[2].rpartition(b")")
    return printable(name), int(fields.split()[1])


def stamp(seconds: float) -> str:
    """A moment, as the log and ssh-mux-status write it."""
    return time.strftime("%Y-%m-%d %H:%M:%S", time.localtime(seconds))


class Journal:
    """The log, in a file or on standard error, and the last refusals."""

    def __init__(self, path: str | None, door: str | None = None) -> None:
        """Raises OSError where the file can't be opened."""
        self.name = os.path.basename(sys.argv[0]) + (f" {door}" if door else "")
        self.stream = sys.stderr
        if path is not None:
            opened = os.open(path, os.O_WRONLY | os.O_APPEND | os.O_CREAT | os.O_CLOEXEC, 0o600)
            self.stream = open(opened, "w", encoding="utf-8", errors="replace")
        self.refusals: collections.deque[str] = collections.deque(maxlen=LAST_REFUSALS)

    def note(self, who: object, what: str, outcome: str) -> None:
        self.write(f"{who}: {what}: {outcome}")

    def refused(self, who: object, what: str, why: str) -> None:
        self.refusals.append(self.write(f"{who}: {what}: refused: {why}"))

    def write(self, text: str) -> str:
        """Writes a line, which it returns. What servers and clients say does nothing to it."""
        shown = "".join(c if c.isprintable() else repr(c)[1:-1] for c in text)
        line = f"{stamp(time.time())} {shown}"
        # The terminal or the file of the one who started this may be gone, or the disk be full.
        with contextlib.suppress(OSError, ValueError):
            print(f"{self.name}: {line}", file=self.stream, flush=True)
        return line
