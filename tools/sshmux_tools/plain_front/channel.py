"""Channels to the server: sessions, and the connections of `ssh -W`."""

from __future__ import annotations

import collections
import enum
import os
import socket
import time
from collections.abc import Callable
from typing import TYPE_CHECKING

from sshmux_tools.plain_front.masters import Master
from sshmux_tools.plain_front.proxy_client import ProxyClient
from sshmux_tools.plain_front.relay import Descriptor, EscapeFilter, Sink, Source
from sshmux_tools.plain_front.requests import ForwardRequest, SessionRequest
from sshmux_tools.plain_front.terminal import terminal_modes, terminal_size
from sshmux_tools.protocol import NO_ESCAPE, PORT_OF_PATH, Fields, Message, Mux, string, uint32
from sshmux_tools.streams import PIECE, Loop
from sshmux_tools.texts import printable

if TYPE_CHECKING:
    from sshmux_tools.plain_front.caller import Caller
    from sshmux_tools.plain_front.front import Front

# What the server may say ahead of a slow reader, for each channel, and from how many taken bytes on
# it is told of them. The window is that of OpenSSH's own sessions.
WINDOW = 64 * PIECE
ADJUST_FROM = 4 * PIECE

# Why a server refuses a session that it has no room for: sshd says the first one beyond its
# MaxSessions.
NO_ROOM = (2, 4)


class Phase(enum.Enum):
    """A channel isn't asked for yet, is asked for, is confirmed, or is closed."""

    NEW = enum.auto()
    OPENING = enum.auto()
    OPEN = enum.auto()
    OVER = enum.auto()


class Channel:
    """A channel to the server, between descriptors of this machine and a client at a master."""

    def __init__(self, loop: Loop) -> None:
        self.loop = loop
        self.phase = Phase.NEW
        self.link: ProxyClient | None = None
        self.number = self.peer = self.peer_room = self.peer_packet = 0
        self.taken = 0
        self.has_heard_eof = self.has_said_close = False
        self.source: Source | None = None
        self.sinks: list[Sink] = []
        self.handlers: dict[int, Callable[[Fields], None]] = {
            Message.CHANNEL_OPEN_CONFIRMATION: self.on_confirmation,
            Message.CHANNEL_OPEN_FAILURE: self.on_open_failure,
            Message.CHANNEL_WINDOW_ADJUST: self.on_window_adjust,
            Message.CHANNEL_DATA: self.on_data,
            Message.CHANNEL_EXTENDED_DATA: self.on_extended_data,
            Message.CHANNEL_EOF: self.on_eof,
            Message.CHANNEL_CLOSE: self.on_close,
            Message.CHANNEL_REQUEST: self.on_request,
            Message.CHANNEL_SUCCESS: self.on_success,
            Message.CHANNEL_FAILURE: self.on_failure,
        }

    def join(self, link: ProxyClient) -> None:
        """Becomes a channel of that client's."""
        self.link, self.number = link, link.add(self)

    def take_descriptors(self, source: Descriptor, *sinks: Descriptor) -> None:
        """Takes where its bytes come from, and where they go to."""
        self.source = Source(self.loop, source, self)
        self.sinks = [Sink(self.loop, sink, self) for sink in sinks]

    # What the kinds of channels differ in.

    def opening(self) -> tuple[bytes, bytes]:
        """Type and data of the message that opens it."""
        raise NotImplementedError

    def on_opened(self) -> None:
        """It is confirmed."""

    def refuse(self, code: int, text: str) -> None:
        """It doesn't come up."""
        raise NotImplementedError

    def on_lost(self) -> None:
        """Its client has no connection any more."""
        raise NotImplementedError

    def leave_link(self) -> None:
        """It says no more."""
        raise NotImplementedError

    def on_extended_data(self, fields: Fields) -> None:
        fields.uint32()
        self.count_taken(len(fields.string()))

    def on_request(self, fields: Fields) -> None:
        fields.string()
        if fields.byte():
            self.say(Message.CHANNEL_FAILURE)

    def on_success(self, _fields: Fields) -> None:
        """A request was granted."""

    def on_failure(self, _fields: Fields) -> None:
        """A request was refused."""

    def on_output_lost(self, sink: Sink) -> None:
        """Nobody reads it any more."""

    def on_sink_closed(self) -> None:
        """One of the sinks wrote all, or failed."""

    # What goes up.

    def ask_for_it(self) -> None:
        """Sends the message that opens it."""
        self.phase = Phase.OPENING
        kind, data = self.opening()
        numbers = uint32(self.number, WINDOW, PIECE)
        assert self.link is not None
        self.link.send(bytes([Message.CHANNEL_OPEN]) + string(kind) + numbers + data)

    def say(self, message: Message, *parts: bytes) -> None:
        """Says something to the server's end of the channel."""
        if self.phase is Phase.OPEN and not self.has_said_close and self.link is not None:
            self.link.send(bytes([message]) + uint32(self.peer), *parts)

    def room(self) -> int:
        """How many bytes may be read for the server."""
        if self.phase is not Phase.OPEN or self.link is None or not self.link.has_room():
            return 0
        return min(self.peer_room, self.peer_packet, PIECE)

    def on_room(self) -> None:
        if self.source is not None:
            self.source.update()

    def take_input(self, data: bytes) -> None:
        self.peer_room -= len(data)
        self.say(Message.CHANNEL_DATA, string(data))
        self.on_room()

    def end_input(self) -> None:
        self.say(Message.CHANNEL_EOF)

    def count_taken(self, count: int) -> None:
        """So many bytes were taken, or are lost: the server may say as many again."""
        self.taken += count
        if self.taken >= ADJUST_FROM and not self.has_heard_eof:
            self.say(Message.CHANNEL_WINDOW_ADJUST, uint32(self.taken))
            self.taken = 0

    # What comes down.

    def on_message(self, message: int, fields: Fields) -> None:
        # The rest concerns no channel: what isn't answered by the master needs no answer.
        handler = self.handlers.get(message)
        if handler is not None:
            handler(fields)

    def on_confirmation(self, fields: Fields) -> None:
        self.peer, self.peer_room, self.peer_packet = (fields.uint32() for _ in range(3))
        self.phase = Phase.OPEN
        self.on_opened()
        self.on_room()

    def on_open_failure(self, fields: Fields) -> None:
        code, text = fields.uint32(), fields.text()
        self.refuse(code, text)

    def on_window_adjust(self, fields: Fields) -> None:
        self.peer_room += fields.uint32()
        self.on_room()

    def on_data(self, fields: Fields) -> None:
        self.sinks[0].put(fields.string())

    def on_eof(self, _fields: Fields) -> None:
        self.has_heard_eof = True
        for sink in self.sinks:
            sink.finish()

    def on_close(self, _fields: Fields) -> None:
        self.close()
        self.end()

    # How it ends.

    def close(self) -> None:
        self.say(Message.CHANNEL_CLOSE)
        self.has_said_close = True

    def end(self) -> None:
        """Nothing more is said or heard. What was heard is still written."""
        self.phase = Phase.OVER
        if self.source is not None:
            self.source.close()
        self.leave_link()
        for sink in self.sinks:
            sink.finish()
        self.on_sink_closed()

    def release(self) -> None:
        """Gives everything back, whatever is left to be written."""
        self.phase = Phase.OVER
        if self.source is not None:
            self.source.close()
        for sink in self.sinks:
            sink.close()
        self.leave_link()


class CallerChannel(Channel):
    """A channel of a caller at FRONT, by way of a client of its own at CONTROL."""

    def __init__(
        self, front: Front, caller: Caller, request: int, descriptors: list[int], name: str
    ) -> None:
        super().__init__(front.loop)
        self.front, self.caller, self.request, self.name = front, caller, request, name
        self.began = time.monotonic()
        self.master = front.masters[0]
        # The masters that weren't tried yet, and why the others refused.
        self.left: list[Master] = []
        self.reasons: list[str] = []
        is_ours = front.has_our_rights(caller.process.uid)
        source, *sinks = [Descriptor(descriptor, is_ours) for descriptor in descriptors]
        self.take_descriptors(source, *sinks)

    def begin(self) -> None:
        self.left = self.front.masters_in_order()
        self.try_next()

    def try_next(self, why: str = "") -> None:
        """Tries the next master. Where there is none, the caller is told why each refused."""
        self.reasons += [why] if why and why not in self.reasons else []
        if self.link is not None:
            self.link.leave()
        if not self.left:
            self.refuse(0, "; ".join(self.reasons))
            return
        self.master = self.left.pop(0)
        self.master.reach(self.on_reached, self.on_link_lost)

    def on_reached(self, stream: socket.socket) -> None:
        if self.phase is Phase.OVER:
            # The caller left while it was waited for.
            stream.close()
            return
        self.join(ProxyClient(self.loop, stream, self.ask_for_it, self.on_link_lost))

    def on_opened(self) -> None:
        over = "" if self.master is self.front.masters[0] else f" over {self.master.control}"
        self.caller.note(self.name, f"opened{over}")
        self.caller.reply(Mux.S_SESSION_OPENED, self.request, uint32(self.caller.number))

    def on_ended(self) -> None:
        """It was open, and is no more."""

    def outcome(self) -> str:
        """What the log says of its end."""
        return "closed"

    def refuse(self, code: int, text: str) -> None:
        self.caller.refuse(self.request, self.name, text)
        self.release()

    def end(self) -> None:
        self.note_end()
        super().end()

    def note_end(self) -> None:
        if self.phase is Phase.OPEN:
            seconds = time.monotonic() - self.began
            self.caller.note(self.name, f"{self.outcome()}, {seconds:.1f} s")
            self.on_ended()

    def on_lost(self) -> None:
        """The client says so itself, with a text."""

    def on_link_lost(self, text: str) -> None:
        if self.phase is Phase.OPEN:
            self.end()
        elif self.phase is not Phase.OVER:
            self.try_next(text)

    def on_sink_closed(self) -> None:
        if self.phase is Phase.OVER and not any(sink.is_open for sink in self.sinks):
            self.caller.wire.close_when_sent()

    def abandon(self) -> None:
        """Nobody wants it any more."""
        self.close()
        self.note_end()
        self.release()
        self.caller.wire.close_when_sent()

    def leave_link(self) -> None:
        # Its client has this channel alone.
        if self.link is not None:
            self.link.leave()


class StdioForward(CallerChannel):
    """A connection to a host or a path, as `ssh -W` and ProxyJump ask for it."""

    def __init__(
        self,
        front: Front,
        caller: Caller,
        request: int,
        descriptors: list[int],
        wanted: ForwardRequest,
    ) -> None:
        self.wanted = wanted
        super().__init__(front, caller, request, descriptors, f"stdio {wanted.end}")

    def opening(self) -> tuple[bytes, bytes]:
        return direct_opening(self.wanted.host, self.wanted.port)

    def refuse(self, code: int, text: str) -> None:
        # Of the refusals only the open's has a code.
        forbidden = self.front.lists.forbids_open(self.wanted.host, self.wanted.port)
        super().refuse(code, (forbidden or f"{self.wanted.end}: {text}") if code else text)

    def on_sink_closed(self) -> None:
        # An end of the data is the end of all, as in OpenSSH: the caller has the descriptor open,
        # too, so only if that ends, an ssh behind a jump sees that its server is gone.
        if self.phase is Phase.OPEN:
            self.close()
            self.end()
        super().on_sink_closed()


def direct_opening(host: bytes, port: int) -> tuple[bytes, bytes]:
    """What opens a channel to a host and port, or to a path."""
    if port == PORT_OF_PATH:
        return b"direct-streamlocal@openssh.com", string(host) + string(b"") + uint32(0)
    # The originator is that of OpenSSH where there is no connection whose other end could be told.
    return b"direct-tcpip", string(host) + uint32(port) + string(b"127.0.0.1") + uint32(65535)


class Session(CallerChannel):
    """A shell, a command or a subsystem."""

    def __init__(
        self,
        front: Front,
        caller: Caller,
        request: int,
        descriptors: list[int],
        wanted: SessionRequest,
    ) -> None:
        super().__init__(front, caller, request, descriptors, wanted.name)
        self.wanted = wanted
        self.exit = ""
        # Requests that are to be answered, in their order.
        self.asked: collections.deque[bytes] = collections.deque()
        self.size = self.modes = b""
        self.escapes: EscapeFilter | None = None
        if wanted.terminal:
            # The caller makes the terminal raw once it has the reply.
            self.modes = terminal_modes(self.terminal())
            if wanted.escape != NO_ESCAPE:
                self.escapes = EscapeFilter(wanted.escape & 0xFF)

    def terminal(self) -> int | None:
        """One of the caller's descriptors that is a terminal."""
        ends = (self.source, *self.sinks)
        numbers = [end.descriptor.fileno for end in ends if end is not None and end.is_open]
        return next((number for number in numbers if os.isatty(number)), None)

    def opening(self) -> tuple[bytes, bytes]:
        return b"session", b""

    def outcome(self) -> str:
        return self.exit or super().outcome()

    def on_ended(self) -> None:
        self.master.end_session()

    def on_open_failure(self, fields: Fields) -> None:
        code, text = fields.uint32(), fields.text()
        if code in NO_ROOM:
            self.master.has_no_room()
            self.try_next(f"the server has no room for one more session: {text}")
        else:
            self.refuse(code, text)

    def ask(self, name: bytes, *parts: bytes, wants_reply: bool = True) -> None:
        self.say(Message.CHANNEL_REQUEST, string(name), bytes([wants_reply]), *parts)
        if wants_reply:
            self.asked.append(name)

    def on_opened(self) -> None:
        super().on_opened()
        self.master.begin_session()
        wanted = self.wanted
        if wanted.x11:
            self.sinks[1].put(b"X11 forwarding request failed\r\n")
        if wanted.terminal:
            self.size = terminal_size(self.terminal())
            self.ask(b"pty-req", string(wanted.terminal_type), self.size, string(self.modes))
        for entry in wanted.environment:
            name, equals, value = entry.partition(b"=")
            if equals:
                self.ask(b"env", string(name), string(value), wants_reply=False)
        if not wanted.command:
            self.ask(b"shell")
        else:
            self.ask(b"subsystem" if wanted.subsystem else b"exec", string(wanted.command))

    def on_resize(self) -> None:
        if self.wanted.terminal and self.phase is Phase.OPEN:
            size = terminal_size(self.terminal())
            if size != self.size:
                self.size = size
                self.ask(b"window-change", size, wants_reply=False)

    def room(self) -> int:
        # An escape character that waits for the next one is still to be said.
        held = self.escapes is not None and self.escapes.is_escaped
        return max(0, super().room() - held)

    def take_input(self, data: bytes) -> None:
        left, is_ended = self.escapes.take(data) if self.escapes else (data, False)
        if left:
            super().take_input(left)
        if is_ended:
            self.abandon()

    def on_extended_data(self, fields: Fields) -> None:
        kind, data = fields.uint32(), fields.string()
        if kind == 1:
            self.sinks[1].put(data)
        else:
            self.count_taken(len(data))

    def on_request(self, fields: Fields) -> None:
        name, wants_reply = fields.string(), fields.byte()
        is_known = True
        if name == b"exit-status":
            if not self.exit:
                status = fields.uint32()
                self.exit = f"exit status {status}"
                self.caller.reply(Mux.S_EXIT_MESSAGE, self.caller.number, uint32(status))
        elif name == b"exit-signal":
            # A caller gets no status: its own is then 255.
            self.exit = self.exit or f"signal {printable(fields.string())}"
        elif name == b"eow@openssh.com":
            # The command reads no more, so nobody needs to type or to send for it.
            if self.source is not None:
                self.source.close()
        else:
            is_known = False
        if wants_reply:
            self.say(Message.CHANNEL_SUCCESS if is_known else Message.CHANNEL_FAILURE)

    def on_success(self, _fields: Fields) -> None:
        if self.asked:
            self.asked.popleft()

    def on_failure(self, _fields: Fields) -> None:
        if not self.asked:
            return
        name = self.asked.popleft()
        if name == b"pty-req":
            self.sinks[1].put(b"PTY allocation request failed\r\n")
            self.caller.reply(Mux.S_TTY_ALLOC_FAIL, self.caller.number)
            # The caller's terminal is as it was, and so are newlines.
            self.escapes = None
        else:
            self.sinks[1].put(name + b" request failed\r\n")
            self.close()
            self.end()

    def on_output_lost(self, sink: Sink) -> None:
        # So the command is told, at its next write, that nobody reads it: `yes | head -n 1` ends.
        if sink is self.sinks[0]:
            self.ask(b"eow@openssh.com", wants_reply=False)
