"""The descriptors that callers pass, and the ways between them and a channel."""

from __future__ import annotations

import contextlib
import fcntl
import os
import selectors
import socket
import stat
from typing import TYPE_CHECKING

from sshmux_tools.streams import Loop


if TYPE_CHECKING:
    from sshmux_tools.plain_front.channel import Channel


class Descriptor:
    """A caller's descriptor, which is read and written without waiting.

    Its open file is the caller's, too: O_NONBLOCK would hold for whoever has it, and would stay if
    this program were killed. So a pipe or a terminal is opened anew, a socket is told with each
    call not to wait, and a file never waits. Only where opening it isn't permitted, as with another
    user's terminal after su, O_NONBLOCK is set, and put back at the end, as OpenSSH's master does.

    What is opened anew is opened by this program's rights: a caller with fewer could have it read
    or write what he himself may not. So one of his isn't.
    """

    def __init__(self, fileno: int, has_our_rights: bool = True) -> None:
        self.fileno = fileno
        self.flags_before: int | None = None
        self.stream: socket.socket | None = None
        mode = os.fstat(fileno).st_mode
        if stat.S_ISSOCK(mode):
            self.stream = socket.socket(fileno=fileno)
        elif stat.S_ISFIFO(mode) or stat.S_ISCHR(mode):
            self.open_anew(has_our_rights)

    def open_anew(self, has_our_rights: bool) -> None:
        flags = fcntl.fcntl(self.fileno, fcntl.F_GETFL)
        try:
            if not has_our_rights:
                raise PermissionError
            # Opened by its name this one makes another pair of terminals.
            if os.fstat(self.fileno).st_rdev == os.makedev(5, 2):
                raise OSError("the master's side of a terminal")
            # Without O_NOCTTY the terminal would become this program's.
            access = flags & os.O_ACCMODE | os.O_NONBLOCK | os.O_NOCTTY
            anew = os.open(f"/proc/self/fd/{self.fileno}", access)
            os.close(self.fileno)
            self.fileno = anew
        except OSError:
            if not flags & os.O_NONBLOCK:
                self.flags_before = flags
                self.set_flags(flags | os.O_NONBLOCK)

    def set_flags(self, flags: int) -> None:
        # A descriptor that refuses this can't be read or written either.
        with contextlib.suppress(OSError):
            fcntl.fcntl(self.fileno, fcntl.F_SETFL, flags)

    def read(self, count: int) -> bytes:
        if self.stream is not None:
            return self.stream.recv(count, socket.MSG_DONTWAIT)
        return os.read(self.fileno, count)

    def write(self, data: bytearray) -> int:
        if self.stream is not None:
            return self.stream.send(data, socket.MSG_DONTWAIT)
        return os.write(self.fileno, data)

    def close(self) -> None:
        if self.flags_before is not None:
            self.set_flags(self.flags_before)
        if self.stream is not None:
            self.stream.close()
        else:
            os.close(self.fileno)


class SocketSide(Descriptor):
    """One direction of a socket of the front's own. Its end is told to the other side."""

    def __init__(self, stream: socket.socket, is_for_writing: bool) -> None:
        super().__init__(os.dup(stream.fileno()))
        self.is_for_writing = is_for_writing

    def close(self) -> None:
        if self.is_for_writing and self.stream is not None:
            with contextlib.suppress(OSError):
                self.stream.shutdown(socket.SHUT_WR)
        super().close()


class Source:
    """A descriptor whose bytes go to a channel, read only as far as the channel has room."""

    def __init__(self, loop: Loop, descriptor: Descriptor, channel: Channel) -> None:
        self.loop, self.descriptor, self.channel = loop, descriptor, channel
        self.is_open = True

    def update(self) -> None:
        if self.is_open:
            reads = selectors.EVENT_READ if self.channel.room() else 0
            self.loop.watch(self.descriptor.fileno, reads, self.on_ready)

    def on_ready(self, _events: int) -> None:
        room = self.channel.room()
        if not room:
            self.update()
            return
        try:
            data = self.descriptor.read(room)
        except BlockingIOError:
            return
        except OSError:
            # A terminal that hung up, or a descriptor that is only for writing.
            data = b""
        if data:
            self.channel.take_input(data)
        else:
            self.close()
            self.channel.end_input()

    def close(self) -> None:
        if self.is_open:
            self.is_open = False
            self.loop.forget(self.descriptor.fileno)
            self.descriptor.close()


class Sink:
    """A descriptor that gets what a channel heard, as far as it takes it."""

    def __init__(self, loop: Loop, descriptor: Descriptor, channel: Channel) -> None:
        self.loop, self.descriptor, self.channel = loop, descriptor, channel
        self.waiting = bytearray()
        self.is_open, self.is_finished = True, False

    def put(self, data: bytes) -> None:
        if self.is_open and not self.is_finished:
            self.waiting += data
            self.write()
        else:
            # Nobody reads it any more, and the rest has to come all the same.
            self.channel.count_taken(len(data))

    def finish(self) -> None:
        """Closes it once it has taken all."""
        self.is_finished = True
        if not self.waiting and self.is_open:
            self.close()

    def on_ready(self, _events: int) -> None:
        self.write()

    def write(self) -> None:
        before = len(self.waiting)
        try:
            while self.waiting:
                del self.waiting[: self.descriptor.write(self.waiting)]
        except BlockingIOError:
            pass
        except OSError:
            self.waiting.clear()
            self.close()
            self.channel.on_output_lost(self)
        self.channel.count_taken(before - len(self.waiting))
        if self.is_open:
            writes = selectors.EVENT_WRITE if self.waiting else 0
            self.loop.watch(self.descriptor.fileno, writes, self.on_ready)
            if self.is_finished:
                self.finish()

    def close(self) -> None:
        if self.is_open:
            self.is_open = False
            self.loop.forget(self.descriptor.fileno)
            self.descriptor.close()
            self.channel.on_sink_closed()


class EscapeFilter:
    """What is typed behind a newline and the escape character: `~.` ends the session, as in ssh."""

    def __init__(self, character: int) -> None:
        self.character, self.at_line_start, self.is_escaped = character, True, False

    def take(self, data: bytes) -> tuple[bytes, bool]:
        """What is left to be said, and whether the session is to end."""
        left = bytearray()
        for byte in data:
            if self.is_escaped:
                self.is_escaped = False
                if byte == ord("."):
                    return bytes(left), True
                if byte != self.character:
                    left.append(self.character)
            elif byte == self.character and self.at_line_start:
                self.is_escaped = True
                continue
            left.append(byte)
            self.at_line_start = byte in b"\r\n"
        return bytes(left), False
