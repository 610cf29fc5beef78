"""The masters of the host: the one at CONTROL, and those to which sessions go that it has no room
for."""

from __future__ import annotations

import errno
import os
import selectors
import socket
import struct
import subprocess
import time
import weakref
from collections.abc import Callable
from typing import Any

from sshmux_tools.inside import sockets_of, unix_sockets
from sshmux_tools.streams import Loop
from sshmux_tools.texts import reason

# How often it is looked whether one that was started answers, and how long its end may take.
LOOK_SECONDS, END_SECONDS = 0.05, 10
# After a start that failed no other one is tried for so long: each may be a login.
RETRY_SECONDS = 10

# The option of a socket for the further groups of its other side, and how many are read at most.
SO_PEERGROUPS, MOST_GROUPS = 59, 256

# Nobody listens at the path.
IS_GONE = (errno.ENOENT, errno.ECONNREFUSED)


def peer_of(stream: socket.socket) -> tuple[int, int, int]:
    """Process, user and group of the other side."""
    data = stream.getsockopt(socket.SOL_SOCKET, socket.SO_PEERCRED, 12)
    pid, user, group = struct.unpack("3i", data)
    return pid, user, group


def groups_of(stream: socket.socket) -> tuple[int, ...]:
    """The further groups of the other side; none where it has too many to be told."""
    try:
        data = stream.getsockopt(socket.SOL_SOCKET, SO_PEERGROUPS, 4 * MOST_GROUPS)
    except OSError:
        return ()
    return struct.unpack(f"{len(data) // 4}I", data)


def clients_of(pid: int) -> int | None:
    """The connections to the socket at which that process listens, with those that still wait to be
    accepted: each has the name to which the listener was bound. None where /proc doesn't tell."""
    own, sockets = sockets_of(pid), unix_sockets()
    name = next((name for number, name, listens in sockets if listens and number in own), None)
    if name is None:
        return None
    return sum(other == name and not listens for _, other, listens in sockets)


class Master:
    """A master, which is started where nobody answers and there is a command for it.

    The command gets the folder of the control socket as its last word.
    """

    def __init__(
        self,
        loop: Loop,
        control: str,
        command: list[str] | None = None,
        on_gone: Callable[[], None] = lambda: None,
    ) -> None:
        """`on_gone` is called whenever nobody listens at the path."""
        self.loop, self.control, self.command, self.on_gone = loop, control, command, on_gone
        # The sessions of the front there, and how many they were when the server had no room for
        # one more.
        self.sessions = 0
        self.most: int | None = None
        self.pid = 0
        # The connections to it, some of which may be closed.
        self.links: weakref.WeakSet[socket.socket] = weakref.WeakSet()
        self.process: subprocess.Popen[bytes] | None = None
        # Why the last start failed, and until when none is tried again.
        self.failure, self.failed_until = "", 0.0
        self.waiting: list[tuple[Callable[[socket.socket], None], Callable[[str], None]]] = []

    def connect(self) -> socket.socket:
        """A connection to it. Raises OSError."""
        stream = socket.socket(socket.AF_UNIX)
        try:
            # A master that is too busy to accept must not hold up the others' sessions.
            stream.setblocking(False)
            stream.connect(self.control)
        except OSError as error:
            stream.close()
            if error.errno in IS_GONE:
                self.on_gone()
            raise
        self.links.add(stream)
        self.pid = peer_of(stream)[0]
        return stream

    def reach(
        self, on_stream: Callable[[socket.socket], None], on_failed: Callable[[str], None]
    ) -> None:
        """Calls one of the two, once: with a connection, or with why there is none."""
        try:
            stream = self.connect()
        except OSError as error:
            if self.command is None or error.errno not in IS_GONE:
                on_failed(f"no master at {self.control}: {reason(error)}")
                return
            if time.monotonic() < self.failed_until:
                on_failed(self.failure)
                return
            self.waiting.append((on_stream, on_failed))
            if self.process is None:
                self.start(self.command)
            return
        on_stream(stream)

    # Starting one.

    def start(self, command: list[str]) -> None:
        try:
            words = [*command, os.path.dirname(self.control)]
            self.process = subprocess.Popen(words, stdin=subprocess.DEVNULL)
        except OSError as error:
            self.fail_waiting(f"{command[0]}: {reason(error)}")
            return
        end = os.pidfd_open(self.process.pid)
        self.loop.watch(end, selectors.EVENT_READ, lambda _: self.on_end(end))
        self.loop.call_later(LOOK_SECONDS, self.look)

    def look(self) -> None:
        """Whether it answers by now."""
        if not self.waiting:
            return
        try:
            first = self.connect()
        except OSError:
            self.loop.call_later(LOOK_SECONDS, self.look)
            return
        (on_stream, _), *others = self.waiting
        self.waiting.clear()
        on_stream(first)
        for on_other, on_failed in others:
            self.reach(on_other, on_failed)

    def on_end(self, end: int) -> None:
        self.loop.forget(end)
        os.close(end)
        if self.process is not None:
            status = self.process.wait()
            self.process = None
            if self.waiting:
                self.fail_waiting(f"no further connection comes up: status {status}")

    def fail_waiting(self, text: str) -> None:
        self.failure, self.failed_until = text, time.monotonic() + RETRY_SECONDS
        waiting, self.waiting = self.waiting, []
        for _, on_failed in waiting:
            on_failed(text)

    def finish(self) -> None:
        """Ends what was started here."""
        if self.process is None:
            return
        self.process.terminate()
        try:
            self.process.wait(END_SECONDS)
        except subprocess.TimeoutExpired:
            self.process.kill()
            self.process.wait()

    # Its sessions.

    def is_full(self) -> bool:
        return self.most is not None and self.sessions >= self.most

    def begin_session(self) -> None:
        self.sessions += 1
        if self.most is not None and self.sessions > self.most:
            self.most = None

    def end_session(self) -> None:
        self.sessions -= 1

    def has_no_room(self) -> None:
        """The server refused one more session."""
        self.most = self.sessions

    def state(self) -> dict[str, Any]:
        """What ssh-mux-status shows of it."""
        inside = clients_of(self.pid) if self.pid else None
        own = sum(link.fileno() >= 0 for link in self.links)
        return {
            "control": self.control,
            "sessions": self.sessions,
            "most": self.most,
            # Those that aren't the front's.
            "inside": None if inside is None else max(0, inside - own),
            "is_there": self.is_there(),
        }

    def is_there(self) -> bool:
        return os.path.lexists(self.control)
