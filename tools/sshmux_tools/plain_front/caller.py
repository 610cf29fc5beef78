"""Clients at FRONT, and what they ask for."""

from __future__ import annotations

import json
import os
import socket
import time
from collections.abc import Callable
from typing import TYPE_CHECKING, Any

from sshmux_tools.plain_front.channel import CallerChannel, Session, StdioForward
from sshmux_tools.plain_front.errand import Reply, ask, tell_others
from sshmux_tools.plain_front.journal import Process
from sshmux_tools.plain_front.requests import ForwardRequest, Forwarding, SessionRequest
from sshmux_tools.protocol import HELLO, Fields, Mux, Unreadable, is_hello, string, uint32
from sshmux_tools.streams import PassingWire

if TYPE_CHECKING:
    from sshmux_tools.plain_front.front import Front

NAMES = {Mux.TERMINATE: "exit", Mux.STOP_LISTENING: "stop"}


class Caller:
    """A client at FRONT."""

    def __init__(self, front: Front, stream: socket.socket, number: int, process: Process) -> None:
        self.front, self.number, self.process, self.began = front, number, process, time.time()
        self.has_greeted = False
        self.channel: CallerChannel | None = None
        self.wire: PassingWire = PassingWire(front.loop, stream, self.on_frame, self.on_end)
        self.wire.send(HELLO)

    def reply(self, message: Mux, number: int, *parts: bytes) -> None:
        self.wire.send(uint32(message, number), *parts)

    def note(self, what: str, outcome: str) -> None:
        self.front.journal.note(self.process, what, outcome)

    def refuse(self, request: int, what: str, why: str) -> None:
        self.front.journal.refused(self.process, what, why)
        self.reply(Mux.S_FAILURE, request, string(why.encode()))

    def on_frame(self, body: bytes) -> None:
        if not self.has_greeted:
            if not is_hello(body):
                raise Unreadable("no hello of this version")
            self.has_greeted = True
            return
        fields = Fields(body)
        kind, request = fields.uint32(), fields.uint32()
        if kind == Mux.ALIVE_CHECK:
            self.reply(Mux.S_ALIVE, request, uint32(os.getpid()))
        elif kind == Mux.NEW_SESSION:
            session = SessionRequest.read(fields)
            self.expect_descriptors(
                3, request, lambda passed: Session(self.front, self, request, passed, session)
            )
        elif kind == Mux.NEW_STDIO_FWD:
            end = ForwardRequest.read(fields)
            self.expect_descriptors(
                2, request, lambda passed: StdioForward(self.front, self, request, passed, end)
            )
        elif kind == Mux.OPEN_FWD:
            self.front.forwardings.open(self, request, Forwarding.read(fields))
        elif kind == Mux.CLOSE_FWD:
            self.front.forwardings.cancel(self, request, Forwarding.read(fields))
        elif kind in (Mux.STOP_LISTENING, Mux.TERMINATE):
            self.hand_on(Mux(kind), request)
        elif kind == Mux.STATUS:
            state = json.dumps(self.front.state()).encode()
            self.reply(Mux.S_STATUS, request, string(state))
        elif kind == Mux.END_CALLER:
            self.end_other(request, fields.uint32())
        elif kind == Mux.PROXY:
            self.refuse(request, "proxy mode", f"proxy mode is served at {self.front.control}")
        else:
            self.refuse(request, f"request {kind:#x}", "unsupported request")

    def hand_on(self, kind: Mux, request: int) -> None:
        """Asks the master to end, or to let nobody in any more."""
        name = NAMES[kind]

        def on_reply(reply: Reply) -> None:
            if not reply.is_granted:
                self.refuse(request, name, reply.why)
                return
            self.note(name, "granted")
            tell_others(self.front, uint32(kind, request))
            # The path is gone before the caller is told, so that the next one doesn't find it.
            self.front.stop_listening()
            self.reply(Mux.S_OK, request)
            if kind == Mux.TERMINATE:
                self.front.end_all(self)

        ask(self.front, uint32(kind, request), on_reply)

    def end_other(self, request: int, pid: int) -> None:
        """Ends a client here, for ssh-mux-status of the front's owner."""
        name = f"end of {pid}"
        if not self.front.is_owner(self.process.uid):
            self.refuse(request, name, "only the owner of this front ends a client")
            return
        others = [caller for caller in self.front.callers if caller.process.pid == pid]
        if not others:
            self.refuse(request, name, f"process {pid} isn't a client here")
            return
        self.note(name, "granted")
        for caller in others:
            caller.wire.close()
        self.reply(Mux.S_OK, request)

    def expect_descriptors(
        self, count: int, request: int, make: Callable[[list[int]], CallerChannel]
    ) -> None:
        def on_descriptors(passed: list[int]) -> None:
            if self.channel is None:
                self.channel = make(passed)
                self.channel.begin()
                return
            for descriptor in passed:
                os.close(descriptor)
            self.refuse(request, "session", "a client has one session here")

        self.wire.expect(count, on_descriptors)

    def is_shown(self) -> bool:
        """Whether it is here for more than to ask something."""
        return self.channel is not None

    def state(self) -> dict[str, Any]:
        """What ssh-mux-status shows of it."""
        name = "" if self.channel is None else self.channel.name
        process = self.process
        return {
            "pid": process.pid, "uid": process.uid, "name": process.name, "began": self.began,
            "what": name,
        }  # fmt: skip

    def on_end(self) -> None:
        self.front.callers.discard(self)
        if self.channel is not None:
            self.channel.abandon()
        self.front.forwardings.on_caller_end(self)
        self.front.update()
