"""A client of a master in proxy mode, and the channels that it has."""

from __future__ import annotations

import collections
import enum
import socket
from collections.abc import Callable
from typing import Protocol

from sshmux_tools.protocol import HELLO, Fields, Message, Mux, Unreadable, global_request, is_hello
from sshmux_tools.protocol import uint32
from sshmux_tools.streams import Loop, Wire


LOST = "the master lets nobody in, or has ended"


class Phase(enum.Enum):
    GREETING = enum.auto()
    ASKING_FOR_PROXY = enum.auto()
    READY = enum.auto()
    OVER = enum.auto()


class OneChannel(Protocol):
    """What a client wants of its channels."""

    def on_message(self, message: int, fields: Fields) -> None: ...
    def on_room(self) -> None: ...
    def on_lost(self) -> None: ...


class ProxyClient:
    """A client at a control socket.

    `on_ready` is called once proxy mode is granted, and `on_lost`, with a text, if that fails or
    the connection ends before its owner closes it. `on_open` gets the server's own opens.
    """

    def __init__(
        self,
        loop: Loop,
        stream: socket.socket,
        on_ready: Callable[[], None],
        on_lost: Callable[[str], None],
        on_open: Callable[[Fields], None] = lambda _: None,
    ) -> None:
        self.on_ready, self.on_lost, self.on_open = on_ready, on_lost, on_open
        self.phase = Phase.GREETING
        self.channels: dict[int, OneChannel] = {}
        # Who waits for the replies to global requests, in the order of the requests.
        self.asked: collections.deque[Callable[[Fields | None], None]] = collections.deque()
        self.wire = Wire(loop, stream, self.on_frame, self.on_wire_end)
        self.wire.on_room = self.on_room
        self.wire.send(HELLO)

    def add(self, channel: OneChannel) -> int:
        """Takes a channel in, and returns the number that it has on this side."""
        number = next(n for n in range(len(self.channels) + 1) if n not in self.channels)
        self.channels[number] = channel
        return number

    def remove(self, number: int) -> None:
        self.channels.pop(number, None)

    def send(self, *parts: bytes) -> None:
        padding_length = b"\0"
        self.wire.send(padding_length, *parts)

    def ask(self, name: bytes, data: bytes, on_reply: Callable[[Fields | None], None]) -> None:
        """A global request. The reply gets what the success says, or None where it is refused."""
        self.asked.append(on_reply)
        self.send(global_request(name, data))

    def has_room(self) -> bool:
        return self.wire.has_room()

    def on_room(self) -> None:
        for channel in list(self.channels.values()):
            channel.on_room()

    def on_frame(self, body: bytes) -> None:
        fields = Fields(body)
        if self.phase is Phase.GREETING:
            if not is_hello(body):
                raise Unreadable("no hello of this version")
            self.phase = Phase.ASKING_FOR_PROXY
            self.wire.send(uint32(Mux.PROXY, 0))
        elif self.phase is Phase.ASKING_FOR_PROXY:
            if fields.uint32() != Mux.S_PROXY:
                fields.uint32()
                self.lose(f"the master refuses proxy mode: {fields.text()}")
                return
            self.phase = Phase.READY
            self.on_ready()
        elif self.phase is Phase.READY:
            if fields.byte() != 0:
                raise Unreadable("a frame with padding")
            self.on_message(fields.byte(), fields)

    def on_message(self, message: int, fields: Fields) -> None:
        if message == Message.CHANNEL_OPEN:
            self.on_open(fields)
        elif message in (Message.REQUEST_SUCCESS, Message.REQUEST_FAILURE):
            if self.asked:
                self.asked.popleft()(fields if message == Message.REQUEST_SUCCESS else None)
        elif message > Message.CHANNEL_OPEN:
            channel = self.channels.get(fields.uint32())
            if channel is not None:
                channel.on_message(message, fields)

    def lose(self, text: str) -> None:
        self.phase = Phase.OVER
        self.wire.close_when_sent()
        for channel in list(self.channels.values()):
            channel.on_lost()
        self.on_lost(text)

    def on_wire_end(self) -> None:
        if self.phase is not Phase.OVER:
            self.lose(LOST)

    def leave(self) -> None:
        """Its owner wants it no more: what is sent already still goes."""
        self.phase = Phase.OVER
        self.wire.close_when_sent()
