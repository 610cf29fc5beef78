"""The loop, and the streams that it serves."""

from __future__ import annotations

import collections
import heapq
import itertools
import os
import selectors
import socket
import time
from collections.abc import Callable
from typing import Any

from sshmux_tools.protocol import LONGEST_FRAME, Unreadable, string

# As much as a packet of OpenSSH's takes. Data is read and said in such pieces.
PIECE = 32_768


class Loop:
    """Waits for descriptors. A file can be a caller's, and of the selectors epoll takes none."""

    def __init__(self) -> None:
        self.selector = selectors.PollSelector()
        # What is to be called, by the moment, and in order where that is the same.
        self.timers: list[tuple[float, int, Callable[[], None]]] = []
        self.timer_numbers = itertools.count()

    def call_later(self, seconds: float, callback: Callable[[], None]) -> None:
        timer = (time.monotonic() + seconds, next(self.timer_numbers), callback)
        heapq.heappush(self.timers, timer)

    def call_due(self) -> None:
        now = time.monotonic()
        while self.timers and self.timers[0][0] <= now:
            heapq.heappop(self.timers)[2]()

    def watch(self, fileno: int, events: int, on_ready: Callable[[int], None]) -> None:
        key = self.selector.get_map().get(fileno)
        if key is None and events:
            self.selector.register(fileno, events, on_ready)
        elif key is not None and not events:
            self.selector.unregister(fileno)
        elif key is not None and (key.events, key.data) != (events, on_ready):
            self.selector.modify(fileno, events, on_ready)

    def forget(self, fileno: int) -> None:
        self.watch(fileno, 0, lambda _: None)

    def has_any(self) -> bool:
        """Whether it waits for any descriptor."""
        return bool(self.selector.get_map())

    def turn(self, seconds: float | None = None) -> None:
        """Waits for what is ready, a timer, or so many seconds, and calls who is concerned."""
        if self.timers:
            until_timer = max(0.0, self.timers[0][0] - time.monotonic())
            seconds = until_timer if seconds is None else min(seconds, until_timer)
        for ready, events in self.selector.select(seconds):
            # What was ready may have been closed since by another, and the number be in use again.
            key = self.selector.get_map().get(ready.fd)
            if key is not None and key.data == ready.data:
                key.data(events)
        self.call_due()


class Stream:
    """A socket that never blocks, with what was read and isn't taken, and what waits for it."""

    # While so much waits for it, no more is read that would have to be written to it.
    MOST_WAITING = 1 << 20

    def __init__(self, loop: Loop, connection: socket.socket) -> None:
        connection.setblocking(False)
        self.loop, self.connection = loop, connection
        self.incoming, self.outgoing = bytearray(), bytearray()
        # Nothing more comes from it; nothing more can be written to it.
        self.has_ended = self.is_deaf = False
        self.watched = 0

    def came(self) -> bytes:
        return self.connection.recv(2 * PIECE)

    def receive(self) -> None:
        try:
            more = self.came()
        except BlockingIOError:
            return
        except OSError:
            # One that is left with bytes unread is reset.
            more = b""
        if more:
            self.incoming += more
        else:
            self.has_ended = True

    def say(self, data: bytes | memoryview) -> None:
        """Writes it, or lets wait what the socket doesn't take."""
        taken = 0 if self.outgoing else self.taken_of(data)
        if not self.is_deaf:
            self.outgoing += data[taken:]

    def write(self) -> None:
        """Writes as much of what waits as the socket takes."""
        del self.outgoing[: self.taken_of(self.outgoing)]

    def taken_of(self, data: bytes | bytearray | memoryview) -> int:
        if not data or self.is_deaf:
            return 0
        try:
            return self.connection.send(data)
        except BlockingIOError:
            return 0
        except OSError:
            # What the other side said before it went is still to be read.
            self.become_deaf()
            return 0

    def become_deaf(self) -> None:
        self.is_deaf = True
        self.outgoing.clear()

    def is_full(self) -> bool:
        return len(self.outgoing) >= self.MOST_WAITING

    def end_writing(self) -> None:
        """Tells the other side that nothing more comes."""
        if not self.is_deaf:
            self.is_deaf = True
            try:
                self.connection.shutdown(socket.SHUT_WR)
            except OSError:
                pass

    def watch(self, wants_more: bool) -> None:
        """Waits for bytes where more are wanted, and for room where something waits."""
        events = selectors.EVENT_READ if wants_more and not self.has_ended else 0
        events |= selectors.EVENT_WRITE if self.outgoing else 0
        if events != self.watched:
            self.loop.watch(self.connection.fileno(), events, self.on_ready)
            self.watched = events

    def on_ready(self, events: int) -> None:
        if events & selectors.EVENT_WRITE:
            self.write()
        if events & selectors.EVENT_READ:
            self.receive()


class Wire(Stream):
    """A stream of frames, each of which is handed on once all of it is there."""

    MOST_WAITING = 8 * PIECE

    def __init__(
        self,
        loop: Loop,
        connection: socket.socket,
        on_frame: Callable[[bytes], None],
        on_end: Callable[[], None],
    ) -> None:
        super().__init__(loop, connection)
        self.on_frame, self.on_end = on_frame, on_end
        self.on_room: Callable[[], None] = lambda: None
        self.is_open, self.is_closing = True, False
        self.update()

    def send(self, *parts: bytes) -> None:
        if self.is_open and not self.is_deaf:
            self.outgoing += string(b"".join(parts))
            self.write()

    def has_room(self) -> bool:
        return not self.is_full()

    def close(self) -> None:
        """Closes it, which its owner is told once, whoever ended it."""
        if self.is_open:
            self.is_open = False
            self.loop.forget(self.connection.fileno())
            self.connection.close()
            self.on_end()

    def close_when_sent(self) -> None:
        self.is_closing = True
        self.update()

    def wants_to_read(self) -> bool:
        return not self.is_closing

    def update(self) -> None:
        if self.is_closing and not self.outgoing:
            self.close()
        if self.is_open:
            self.watch(self.wants_to_read())

    def write(self) -> None:
        had_room = self.has_room()
        super().write()
        self.update()
        if self.is_open and not had_room and self.has_room():
            self.on_room()

    def receive(self) -> None:
        # What was written before may have closed it.
        if not self.is_open:
            return
        super().receive()
        if self.has_ended:
            self.close()
            return
        try:
            while self.is_open and not self.is_closing and self.deliver():
                pass
        except Unreadable:
            self.close()

    def deliver(self) -> bool:
        """Hands on the next frame, if all of it is there."""
        if len(self.incoming) < 4:
            return False
        length = int.from_bytes(self.incoming[:4], "big")
        if length > LONGEST_FRAME:
            raise Unreadable("a frame is too long")
        if len(self.incoming) < 4 + length:
            return False
        body = bytes(self.incoming[4 : 4 + length])
        del self.incoming[: 4 + length]
        self.on_frame(body)
        return True


class PassingWire(Wire):
    """A wire whose other side passes descriptors, each with a byte of its own behind a frame."""

    MOST_DESCRIPTORS = 3

    def __init__(self, *words: Any) -> None:
        self.descriptors: collections.deque[int] = collections.deque()
        self.expected = 0
        self.on_descriptors: Callable[[list[int]], None] = lambda _: None
        super().__init__(*words)

    def expect(self, count: int, then: Callable[[list[int]], None]) -> None:
        self.expected, self.on_descriptors = count, then

    def wants_to_read(self) -> bool:
        # One that doesn't read its answers isn't heard either.
        return super().wants_to_read() and self.has_room()

    def came(self) -> bytes:
        found = socket.recv_fds(self.connection, 2 * PIECE, self.MOST_DESCRIPTORS)
        self.descriptors.extend(found[1])
        if len(self.descriptors) > self.MOST_DESCRIPTORS:
            return b""
        return found[0]

    def deliver(self) -> bool:
        if not self.expected:
            return super().deliver()
        if len(self.incoming) < self.expected:
            return False
        if len(self.descriptors) < self.expected:
            raise Unreadable("a descriptor is missing")
        del self.incoming[: self.expected]
        passed = [self.descriptors.popleft() for _ in range(self.expected)]
        self.expected = 0
        self.on_descriptors(passed)
        return True

    def close(self) -> None:
        while self.descriptors:
            os.close(self.descriptors.popleft())
        super().close()
