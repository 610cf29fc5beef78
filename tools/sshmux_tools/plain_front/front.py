"""The listener at FRONT, who is in, and the master at CONTROL."""

from __future__ import annotations

import contextlib
import dataclasses
import os
import resource
import selectors
import signal
import socket
import sys
import time
from collections.abc import Callable
from typing import Any, NoReturn

from sshmux_tools.plain_front.caller import Caller
from sshmux_tools.plain_front.channel import Session
from sshmux_tools.plain_front.errand import Errand
from sshmux_tools.plain_front.forwardings import Forwardings
from sshmux_tools.plain_front.journal import Journal, Process
from sshmux_tools.plain_front.lists import Lists
from sshmux_tools.plain_front.masters import Master, groups_of, peer_of
from sshmux_tools.protocol import Mux, is_hello, uint32
from sshmux_tools.streams import Loop
from sshmux_tools.texts import reason

# So many clients are let in, or as many as there are descriptors for, and more wait: each has up to
# seven here. Some are left for what isn't a client's.
MOST_CLIENTS, EACH_CLIENT, OTHERS = 512, 7, 128

# How long to wait for a master's hello, and before the next try where the machine is out of means.
HELLO_SECONDS = 10
PAUSE_SECONDS = 0.1

# How long a master may take for its last answer.
LAST_SECONDS = 5

# The command that was called: ssh-mux-front where it is installed.
NAME = os.path.basename(sys.argv[0]) or "plain-front"

ENDING_SIGNALS = (signal.SIGHUP, signal.SIGINT, signal.SIGTERM)


def fail(text: str) -> NoReturn:
    # The terminal of the one who started this may be gone.
    with contextlib.suppress(OSError, ValueError):
        print(f"{NAME}: {text}", file=sys.stderr, flush=True)
    sys.exit(1)


def handle(number: int, handler: Callable[[int, object], None]) -> None:
    """Handles a signal, unless whoever started this wants it ignored, as nohup does."""
    if signal.getsignal(number) != signal.SIG_IGN:
        signal.signal(number, handler)


def most_clients() -> int:
    descriptors, _ = resource.getrlimit(resource.RLIMIT_NOFILE)
    if descriptors == resource.RLIM_INFINITY:
        return MOST_CLIENTS
    return max(1, min(MOST_CLIENTS, (descriptors - OTHERS) // EACH_CLIENT))


@dataclasses.dataclass(frozen=True)
class Options:
    """What a front is told when it is started."""

    control: str
    path: str
    log: str | None = None
    tidy: bool = False
    # Further masters of the host, and how one is started where nobody answers.
    more: list[str] = dataclasses.field(default_factory=list)
    command: list[str] | None = None
    permit_open: list[str] = dataclasses.field(default_factory=list)
    permit_listen: list[str] = dataclasses.field(default_factory=list)
    permit_here: list[str] = dataclasses.field(default_factory=list)
    # The name of a door, whose clients aren't its owner, and the group that is let in beside him.
    door: str | None = None
    group: int | None = None


class Front:
    """The listener at FRONT, and who is in."""

    def __init__(self, options: Options) -> None:
        self.options, self.control, self.path = options, options.control, options.path
        self.is_door = options.door is not None
        try:
            self.journal = Journal(options.log, options.door)
        except OSError as error:
            fail(f"cannot write {options.log}: {reason(error)}")
        self.loop = Loop()
        more = [Master(self.loop, control, options.command) for control in options.more]
        # One that is gone for good won't be missed twice.
        self.masters = [Master(self.loop, self.control, on_gone=self.stop_listening), *more]
        self.callers: set[Caller] = set()
        # Requests that a master hasn't answered yet: it would miss them if this ended.
        self.errands: set[Errand] = set()
        self.forwardings = Forwardings(self)
        self.lists = Lists(
            options.permit_open, options.permit_listen, options.permit_here, self.is_door
        )
        self.most_clients = most_clients()
        self.accepted = 0
        self.began = time.time()
        # The status with which it ends, and that at its end.
        self.final_status = 0
        self.status: int | None = None
        self.listener: socket.socket | None = None
        self.identity: tuple[int, int] | None = None
        self.signals = socket.socketpair()

    def masters_in_order(self) -> list[Master]:
        """Those that may have room first: another is started before a full one is asked again."""
        return sorted(self.masters, key=Master.is_full)

    def watch_master(self) -> None:
        """Looks whether a master is at CONTROL, and has the loop see its end.

        Its process is looked at, since a client that only waits would take a place of another one.
        """
        try:
            stream = self.masters[0].connect()
            with stream:
                stream.settimeout(HELLO_SECONDS)
                hello = stream.recv(12, socket.MSG_WAITALL)
        except OSError as error:
            fail(f"no master at {self.control}: {reason(error)}")
        if not is_hello(hello[4:]):
            fail(f"no master at {self.control}: it lets nobody in, or says another hello")
        # A master that put itself into the background after it began to listen isn't seen.
        with contextlib.suppress(OSError):
            process = os.pidfd_open(self.masters[0].pid)
            self.loop.watch(process, selectors.EVENT_READ, lambda _: self.on_master_end(process))

    def on_master_end(self, process: int) -> None:
        """Its forwardings have ended with it."""
        self.loop.forget(process)
        self.forwardings.own.finish()
        self.forwardings.opened.clear()
        self.stop_listening()

    def watch_signals(self) -> None:
        told, tells = self.signals
        tells.setblocking(False)
        signal.set_wakeup_fd(tells.fileno(), warn_on_full_buffer=False)
        for number in (signal.SIGWINCH, *ENDING_SIGNALS):
            handle(number, lambda _number, _frame: None)

        def on_signals(_events: int) -> None:
            for number in set(told.recv(1024)):
                self.on_signal(number)

        self.loop.watch(told.fileno(), selectors.EVENT_READ, on_signals)

    def on_signal(self, number: int) -> None:
        if number != signal.SIGWINCH:
            self.final_status = 128 + number
            self.end_all()
            return
        for caller in list(self.callers):
            if isinstance(caller.channel, Session):
                caller.channel.on_resize()

    def listen(self) -> None:
        """Makes FRONT, which only this user can reach, and the group that is let in. The path
        appears once it listens."""
        self.listener, name = socket.socket(socket.AF_UNIX), f"{self.path}.{os.getpid()}"
        group = self.options.group
        mask = os.umask(0o177 if group is None else 0o117)
        try:
            self.listener.bind(name)
            try:
                if group is not None:
                    os.chown(name, -1, group, follow_symlinks=False)
                self.listener.listen(64)
                self.identity = identity(name)
                # Unlike a renaming this fails where something stands there already.
                os.link(name, self.path)
            finally:
                os.unlink(name)
        except OSError as error:
            fail(f"cannot make {self.path}: {reason(error)}")
        finally:
            os.umask(mask)
        self.listener.setblocking(False)
        self.update()

    def update(self) -> None:
        """Lets clients in while there is room. It ends with the last one if no more can come."""
        if self.listener is not None:
            reads = selectors.EVENT_READ if len(self.callers) < self.most_clients else 0
            self.loop.watch(self.listener.fileno(), reads, self.on_caller)
        elif self.forwardings.own.count_relays():
            return
        elif not self.callers and not self.errands:
            self.status = self.final_status
        elif not self.callers:
            self.loop.call_later(LAST_SECONDS, self.end_anyway)

    def end_anyway(self) -> None:
        """Some master doesn't answer."""
        self.status = self.final_status

    def on_caller(self, _events: int) -> None:
        if self.listener is None:
            return
        try:
            stream, _ = self.listener.accept()
        except BlockingIOError:
            return
        except OSError as error:
            self.journal.write(f"cannot accept at {self.path}: {reason(error)}")
            # It stays there, and the next one that leaves makes room for it.
            if self.callers:
                self.loop.forget(self.listener.fileno())
            else:
                time.sleep(PAUSE_SECONDS)
            return
        pid, user, group = peer_of(stream)
        process = Process.find(pid, user)
        if not self.is_owner(user) and not self.admits(stream, group):
            self.journal.refused(process, f"entry at {self.path}", "another user's")
            stream.close()
            return
        self.accepted += 1
        self.callers.add(Caller(self, stream, self.accepted % (1 << 31), process))
        self.update()

    def admits(self, stream: socket.socket, group: int) -> bool:
        """Whether another user may come in: by a group of the process that connected."""
        wanted = self.options.group
        return wanted is not None and (wanted == group or wanted in groups_of(stream))

    @staticmethod
    def is_owner(user: int) -> bool:
        """Whether the front is this user's, or he is root."""
        return user in (0, os.geteuid())

    def has_our_rights(self, user: int) -> bool:
        """Whether a caller may all that this program may."""
        return not self.is_door and self.is_owner(user)

    def stop_listening(self) -> None:
        if self.listener is not None:
            with contextlib.suppress(OSError):
                if identity(self.path) == self.identity:
                    os.unlink(self.path)
            self.loop.forget(self.listener.fileno())
            self.listener.close()
            self.listener = None
            self.update()

    def end_all(self, asker: Caller | None = None) -> None:
        """Ends every session; the one that asked for it still gets its answer."""
        self.forwardings.own.finish()
        self.stop_listening()
        for caller in list(self.callers):
            if caller is asker:
                caller.wire.close_when_sent()
            else:
                caller.wire.close()

    def state(self) -> dict[str, Any]:
        """What ssh-mux-status shows."""
        callers = sorted(self.callers, key=lambda caller: caller.number)
        return {
            "pid": os.getpid(),
            "began": self.began,
            "masters": [master.state() for master in self.masters if master.is_there()],
            "callers": [caller.state() for caller in callers if caller.is_shown()],
            "relays": self.forwardings.own.count_relays(),
            "forwardings": self.forwardings.state(),
            "refusals": list(self.journal.refusals),
        }

    def serve(self) -> int:
        while self.status is None:
            self.loop.turn()
        self.forwardings.own.finish()
        for master in self.masters:
            master.finish()
        return self.status


def identity(path: str) -> tuple[int, int]:
    found = os.lstat(path)
    return found.st_dev, found.st_ino
