"""Requests that a master answers outside of proxy mode, each by a client of its own there."""

from __future__ import annotations

import contextlib
import dataclasses
import socket
from collections.abc import Callable
from typing import TYPE_CHECKING

from sshmux_tools.plain_front.proxy_client import LOST
from sshmux_tools.protocol import HELLO, Fields, Mux, Unreadable, is_hello
from sshmux_tools.streams import Wire
from sshmux_tools.texts import reason

if TYPE_CHECKING:
    from sshmux_tools.plain_front.front import Front


@dataclasses.dataclass(frozen=True)
class Reply:
    """What a master answered, or why it didn't."""

    is_granted: bool
    # The port that the server chose.
    port: int | None = None
    why: str = ""
    # Whether the master itself refused it, by a text that says nothing of the cause.
    is_refused: bool = False

    @classmethod
    def read(cls, fields: Fields) -> Reply:
        kind, _request = fields.uint32(), fields.uint32()
        if kind == Mux.S_OK:
            return cls(True)
        if kind == Mux.S_REMOTE_PORT:
            return cls(True, port=fields.uint32())
        return cls(False, why=fields.text(), is_refused=True)


class Errand:
    """A client of a master that has one request."""

    def __init__(
        self, front: Front, stream: socket.socket, body: bytes, on_reply: Callable[[Reply], None]
    ) -> None:
        self.front = front
        front.errands.add(self)
        self.on_reply, self.has_greeted, self.is_answered = on_reply, False, False
        self.wire = Wire(front.loop, stream, self.on_frame, self.on_end)
        self.wire.send(HELLO)
        self.wire.send(body)

    def on_frame(self, body: bytes) -> None:
        if not self.has_greeted:
            if not is_hello(body):
                raise Unreadable("no hello of this version")
            self.has_greeted = True
            return
        reply = Reply.read(Fields(body))
        self.is_answered = True
        self.wire.close_when_sent()
        self.on_reply(reply)

    def on_end(self) -> None:
        if not self.is_answered:
            self.is_answered = True
            self.on_reply(Reply(False, why=LOST))
        self.front.errands.discard(self)
        self.front.update()


def ask(front: Front, body: bytes, on_reply: Callable[[Reply], None]) -> None:
    """Asks the first master. The reply comes once, also where no master is reached."""
    try:
        stream = front.masters[0].connect()
    except OSError as error:
        on_reply(Reply(False, why=f"no master at {front.control}: {reason(error)}"))
        return
    Errand(front, stream, body, on_reply)


def tell_others(front: Front, body: bytes) -> None:
    """Says a request to the further masters that run and weren't started here."""
    for master in front.masters[1:]:
        with contextlib.suppress(OSError):
            if master.process is None:
                Errand(front, master.connect(), body, lambda _: None)
