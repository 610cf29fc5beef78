"""The shares that run, and which of them serves USER@HOST:PORT.

A share is a running share-host with its master. It works in a FOLDER that its user names, and there
in a subfolder of its own, whose name is a number:

    FOLDER/N/control      the master's control socket, for clients in proxy mode
    FOLDER/N/front        the front's, for plain clients, if there is a front
    FOLDER/N/openssh      the one of OpenSSH's master, if the share started it there
    FOLDER/N/door.NAME    the folder of a door's sockets (share_doors.py)
    FOLDER/N/lock         locked as long as the share-host runs
    FOLDER/N/state        the State of the share, as JSON

FOLDER/control, FOLDER/front and FOLDER/USER@HOST:PORT, which is the front's, too, are symbolic links
into the subfolder of the share that takes clients. Another subfolder is that of a share whose
clients come to their end, where its lock is held, and else one that a killed share-host left behind.

The registry is the folder `running` in ~/.ssh/ssh-mux, or in SSHMUX_FOLDER where that is set. Each
entry is a symbolic link from USER@HOST:PORT to a FOLDER; share-host makes it when its clients can
come, and takes it away at its end. One that was killed leaves it, so an entry counts only where
somebody serves FOLDER/control. Of two shares of one name in two folders the first has the entry,
and at its end the other one takes it.

    for name, folder in running().items():      # those that are served
        for share in shares_in(folder):         # the one that takes clients, and older ones
            share.state.since, share.state.transport, share.takes_clients, ...
    find("ann@host:22")                         # the FOLDER, or None
"""

from __future__ import annotations

import contextlib
import dataclasses
import fcntl
import hashlib
import json
import os
from collections.abc import Iterator

from sshmux_tools.control_socket import is_served
from sshmux_tools.folders import make_folder, open_lock, remove_link, set_link, target_of
from sshmux_tools.permissions import Lists
from sshmux_tools.ssh_settings import Settings, home

# The name of a file has at most 255 bytes.
LONGEST_ENTRY = 255
# A path of a Unix socket has at most 107 bytes; the sockets of a folder need some of them.
LONGEST_FOLDER = 78


@dataclasses.dataclass
class Process:
    """A process that a share-host started. The moment of its start tells it from a later one of the
    same number."""

    name: str
    pid: int
    start: str

    @classmethod
    def of(cls, name: str, pid: int) -> Process:
        return cls(name, pid, start_of(pid))

    def runs(self) -> bool:
        return self.start != "" and start_of(self.pid) == self.start


@dataclasses.dataclass(kw_only=True)
class DoorState(Lists):
    """What a share-host says of a door."""

    name: str
    control: str  # its control socket, and that of its front
    front: str
    group: str | None = None
    forwardings: list[list[str]] = dataclasses.field(default_factory=list)


@dataclasses.dataclass(kw_only=True)
class State(Lists):
    """What a share-host says of itself."""

    name: str  # USER@HOST:PORT
    host: str  # as it was given
    pid: int  # of share-host
    since: float  # seconds since 1970
    transport: str  # "own" or "openssh"
    openssh: str = ""  # the control socket of OpenSSH's master
    ends_openssh: bool = False  # the share ends OpenSSH's master at its own end
    idle: float | None = None
    forwardings: list[list[str]] = dataclasses.field(default_factory=list)  # ["-L", "8080:..."]
    doors: list[DoorState] = dataclasses.field(default_factory=list)
    processes: list[Process] = dataclasses.field(default_factory=list)

    def write(self, path: str) -> None:
        beside = f"{path}.{os.getpid()}"
        with open(beside, "w", encoding="utf-8", errors="surrogateescape") as file:
            json.dump(dataclasses.asdict(self), file, indent=1)
        os.rename(beside, path)

    @classmethod
    def read(cls, path: str) -> State | None:
        """None where there is none that can be read."""
        try:
            with open(path, encoding="utf-8", errors="surrogateescape") as file:
                fields = json.load(file)
            processes = [Process(**process) for process in fields.pop("processes")]
            doors = [DoorState(**door) for door in fields.pop("doors", [])]
            return cls(**fields, doors=doors, processes=processes)
        except (OSError, ValueError, TypeError, KeyError, AttributeError):
            return None


@dataclasses.dataclass
class Share:
    """A subfolder of a FOLDER."""

    folder: str  # FOLDER
    number: str
    state: State | None
    runs: bool  # its share-host does
    takes_clients: bool  # FOLDER/control leads to it

    @property
    def path(self) -> str:
        return f"{self.folder}/{self.number}"

    def doors(self) -> list[DoorState]:
        return self.state.doors if self.state else []

    def fronts(self) -> list[str]:
        """The sockets of its fronts, its own first."""
        return [f"{self.path}/front", *(door.front for door in self.doors())]


def start_of(pid: int) -> str:
    """When a process started, in the kernel's count; nothing for one that has ended."""
    with contextlib.suppress(OSError, IndexError):
        with open(f"/proc/{pid}/stat", encoding="utf-8", errors="replace") as file:
            # The name of the program may have blanks and brackets.
            fields = file.read().rpartition(")")[2].split()
        if fields[0] not in ("Z", "X"):
            return fields[19]
    return ""


def top() -> str:
    """The folder in which masters have their places where nobody names another one."""
    return os.environ.get("SSHMUX_FOLDER") or f"{home()}/.ssh/ssh-mux"


def name_of(settings: Settings) -> str:
    return f"{settings.user}@{settings.host}:{settings.port}"


def entry_of(name: str) -> str:
    """A name as a name of a file."""
    entry = name.replace("%", "%25").replace("/", "%2F")
    if len(os.fsencode(entry)) <= LONGEST_ENTRY:
        return entry
    return hashlib.sha256(os.fsencode(name)).hexdigest()


def place_of(name: str) -> str:
    """The FOLDER for this name, where nobody names another one."""
    place = f"{top()}/{entry_of(name)}"
    if len(os.fsencode(place)) <= LONGEST_FOLDER:
        return place
    return f"{top()}/{hashlib.sha256(os.fsencode(name)).hexdigest()[:16]}"


def registry() -> str:
    return f"{top()}/running"


def entries() -> dict[str, str]:
    """Each entry with its FOLDER, whether or not it is served."""
    found = {}
    with contextlib.suppress(OSError):
        for entry in sorted(os.listdir(registry())):
            if (folder := target_of(f"{registry()}/{entry}")) is not None:
                found[entry] = folder
    return found


def running() -> dict[str, str]:
    """Each entry that is served, with its FOLDER."""
    return {e: folder for e, folder in entries().items() if is_served(f"{folder}/control")}


def find(name: str) -> str | None:
    """The FOLDER whose master serves this name."""
    folder = target_of(f"{registry()}/{entry_of(name)}")
    return folder if folder and is_served(f"{folder}/control") else None


def register(name: str, folder: str) -> str:
    """Enters a FOLDER, unless another one that is served has this name; the one that has it."""
    make_folder(top())
    make_folder(registry())
    other = find(name)
    if other is not None and os.path.realpath(other) != os.path.realpath(folder):
        return other
    set_link(folder, f"{registry()}/{entry_of(name)}")
    return folder


def is_entered(name: str) -> bool:
    """Whether a FOLDER has this name, served or not."""
    return os.path.lexists(f"{registry()}/{entry_of(name)}")


def unregister(name: str, folder: str) -> None:
    remove_link(f"{registry()}/{entry_of(name)}", folder)


def number_in(folder: str) -> str | None:
    """The subfolder to which FOLDER/control leads."""
    target = target_of(f"{folder}/control")
    number = target.removesuffix("/control") if target else ""
    return number if number.isdigit() else None


def is_held(lock: str) -> bool:
    """Whether a process holds a lock. One that isn't there is held by nobody."""
    if not os.path.exists(lock):
        return False
    mine = open_lock(lock)
    try:
        # Several may look at once.
        fcntl.flock(mine, fcntl.LOCK_SH | fcntl.LOCK_NB)
        return False
    except BlockingIOError:
        return True
    finally:
        os.close(mine)


def shares_in(folder: str) -> Iterator[Share]:
    """The shares of a FOLDER, the newest one first."""
    current = number_in(folder)
    numbers = []
    with contextlib.suppress(OSError):
        numbers = [name for name in os.listdir(folder) if name.isdigit()]
    for number in sorted(numbers, key=lambda it: (it != current, -int(it))):
        state = State.read(f"{folder}/{number}/state")
        runs = is_held(f"{folder}/{number}/lock")
        yield Share(folder, number, state, runs, number == current)
