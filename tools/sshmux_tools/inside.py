"""Who is in at a master, as the kernel tells it."""

import contextlib
import os
import pathlib

# The states of sockets in /proc/net: of the flags of a Unix socket, that of a listener; and of TCP,
# a connection that stands.
LISTENS, ESTABLISHED = "00010000", "01"


def sockets_of(pid: int) -> set[str]:
    """The sockets that a process has open, by their number."""
    found = set()
    with contextlib.suppress(OSError):
        for entry in pathlib.Path(f"/proc/{pid}/fd").iterdir():
            # Some may be closed meanwhile.
            with contextlib.suppress(OSError):
                target = os.readlink(entry)
                if target.startswith("socket:["):
                    found.add(target[8:-1])
    return found


def unix_sockets() -> list[tuple[str, str, bool]]:
    """The number, name and state of each that has a name."""
    with contextlib.suppress(OSError):
        text = pathlib.Path("/proc/net/unix").read_text(errors="surrogateescape")
        rows = (line.split(None, 7) for line in text.splitlines()[1:])
        return [(row[6], row[7], row[3] == LISTENS) for row in rows if len(row) == 8]
    return []


def relayed() -> set[str]:
    """The numbers of the TCP connections that stand."""
    found = set()
    for name in ("tcp", "tcp6"):
        with contextlib.suppress(OSError):
            lines = pathlib.Path(f"/proc/net/{name}").read_text().splitlines()[1:]
            rows = (line.split() for line in lines)
            found |= {row[9] for row in rows if len(row) > 9 and row[3] == ESTABLISHED}
    return found


class Inside:
    """The clients of a process that listens at a Unix socket: a connection has the name to which
    its listener was bound. What goes through forwardings of the process counts, too."""

    def __init__(self, pid: int) -> None:
        self.pid = pid
        own = sockets_of(pid)
        names = (name for number, name, listens in unix_sockets() if listens and number in own)
        # None where /proc doesn't tell it.
        self.name: str | None = next(names, None)

    def count(self) -> int:
        clients = sum(name == self.name and not listens for _, name, listens in unix_sockets())
        return clients + len(sockets_of(self.pid) & relayed())
