"""Channels between the server and sockets of this machine, of the front's own forwardings."""

from __future__ import annotations

import socket
from collections.abc import Callable

from sshmux_tools.plain_front.channel import WINDOW, Channel, Phase, direct_opening
from sshmux_tools.plain_front.connecting import Connecting
from sshmux_tools.plain_front.proxy_client import ProxyClient
from sshmux_tools.plain_front.relay import Sink, SocketSide
from sshmux_tools.plain_front.requests import Forwarding
from sshmux_tools.plain_front.socks import Dialog, Refused
from sshmux_tools.protocol import PORT_OF_PATH, Fields, Message, string, uint32
from sshmux_tools.streams import PIECE, Loop

CONNECT_FAILED = 2


class Relay(Channel):
    """A channel and a socket. `on_over` is called once both are done with."""

    def __init__(self, loop: Loop, link: ProxyClient, on_over: Callable[[Relay], None]) -> None:
        super().__init__(loop)
        self.on_over, self.is_over = on_over, False
        self.has_heard_close = False
        self.join(link)

    def take_stream(self, stream: socket.socket) -> None:
        with stream:
            self.take_descriptors(SocketSide(stream, False), SocketSide(stream, True))

    def end_input(self) -> None:
        super().end_input()
        self.finish_if_done()

    def on_sink_closed(self) -> None:
        self.finish_if_done()

    def finish_if_done(self) -> None:
        """Where nothing comes from either side any more, and all is written, it is over."""
        if self.phase is Phase.OPEN and self.source is not None and not self.source.is_open:
            if not any(sink.is_open for sink in self.sinks):
                self.close()
                self.end()

    def on_output_lost(self, sink: Sink) -> None:
        if self.phase is Phase.OPEN:
            self.close()
            self.end()

    def on_close(self, fields: Fields) -> None:
        self.has_heard_close = True
        super().on_close(fields)

    def on_lost(self) -> None:
        self.has_heard_close = True
        self.release()

    def leave_link(self) -> None:
        # The number stays in use until both sides have said that it is over.
        if self.is_over or (self.has_said_close and not self.has_heard_close):
            return
        self.is_over = True
        if self.link is not None:
            self.link.remove(self.number)
        self.on_over(self)


class LocalRelay(Relay):
    """A socket that came to a listener here."""

    def __init__(
        self,
        loop: Loop,
        link: ProxyClient,
        on_over: Callable[[Relay], None],
        stream: socket.socket,
        forwarding: Forwarding,
        on_refused: Callable[[str], None],
    ) -> None:
        super().__init__(loop, link, on_over)
        self.forwarding, self.on_refused = forwarding, on_refused
        self.take_stream(stream)
        self.ask_for_it()

    def opening(self) -> tuple[bytes, bytes]:
        return direct_opening(self.forwarding.connect_host, self.forwarding.connect_port)

    def refuse(self, code: int, text: str) -> None:
        self.on_refused(text)
        self.release()


class RemoteRelay(Relay):
    """A connection that came to a listener of the server's."""

    def __init__(
        self,
        loop: Loop,
        link: ProxyClient,
        on_over: Callable[[Relay], None],
        forwarding: Forwarding,
        opened: tuple[int, int, int],
        on_refused: Callable[[str], None],
    ) -> None:
        """`opened` are the server's number, its window and its longest message."""
        super().__init__(loop, link, on_over)
        self.forwarding, self.on_refused = forwarding, on_refused
        self.peer, self.peer_room, self.peer_packet = opened
        # With a dialog of SOCKS what comes before there is a connection.
        self.dialog = Dialog() if forwarding.is_dynamic else None
        self.early = bytearray()
        self.is_connecting = False
        if self.dialog is not None:
            self.confirm()
        else:
            self.connect(forwarding.connect_host, forwarding.connect_port)

    def connect(self, host: bytes, port: int) -> None:
        self.is_connecting = True
        Connecting(self.loop, host, port, self.on_connected, self.on_connect_failed)

    def confirm(self) -> None:
        self.phase = Phase.OPEN
        assert self.link is not None
        numbers = uint32(self.peer, self.number, WINDOW, PIECE)
        self.link.send(bytes([Message.CHANNEL_OPEN_CONFIRMATION]) + numbers)

    def on_connected(self, stream: socket.socket) -> None:
        if self.phase is Phase.OVER:
            stream.close()
            return
        if self.dialog is not None:
            self.say_data(self.dialog.reply(True))
            self.dialog = None
        else:
            self.confirm()
        self.take_stream(stream)
        early, self.early = bytes(self.early), bytearray()
        if early:
            self.sinks[0].put(early)
        if self.has_heard_eof:
            self.sinks[0].finish()
        self.on_room()

    def on_connect_failed(self, why: str) -> None:
        if self.phase is Phase.OVER:
            return
        self.on_refused(why)
        if self.dialog is not None:
            self.give_up(self.dialog.reply(False))
            return
        assert self.link is not None
        failure = uint32(self.peer, CONNECT_FAILED) + string(b"connect failed") + string(b"")
        self.link.send(bytes([Message.CHANNEL_OPEN_FAILURE]) + failure)
        self.release()

    # The dialog.

    def say_data(self, data: bytes) -> None:
        if data and len(data) <= min(self.peer_room, self.peer_packet):
            self.peer_room -= len(data)
            self.say(Message.CHANNEL_DATA, string(data))

    def give_up(self, reply: bytes) -> None:
        """The dialog comes to nothing."""
        self.say_data(reply)
        self.say(Message.CHANNEL_EOF)
        self.close()
        self.end()

    def on_data(self, fields: Fields) -> None:
        if self.sinks:
            super().on_data(fields)
            return
        data = fields.string()
        if self.dialog is None or self.is_connecting:
            self.early += data
            return
        self.count_taken(len(data))
        self.take_dialog(self.dialog, data)

    def take_dialog(self, dialog: Dialog, data: bytes) -> None:
        try:
            target = dialog.take(data)
        except Refused as refusal:
            self.give_up(dialog.said + refusal.reply)
            return
        self.say_data(dialog.said)
        dialog.said = b""
        if target is not None:
            # Those bytes count as taken already, and once more when the socket takes them.
            self.early += dialog.rest
            self.taken -= len(dialog.rest)
            self.connect(*target)

    def on_eof(self, fields: Fields) -> None:
        super().on_eof(fields)
        if self.dialog is not None and not self.is_connecting:
            self.close()
            self.end()


def opened_for(fields: Fields) -> tuple[bytes, tuple[int, int, int], tuple[bytes, int]]:
    """The type of a server's open, its numbers, and where the connection came to."""
    kind = fields.string()
    numbers = fields.uint32(), fields.uint32(), fields.uint32()
    if kind == b"forwarded-tcpip":
        return kind, numbers, (fields.string(), fields.uint32())
    if kind == b"forwarded-streamlocal@openssh.com":
        return kind, numbers, (fields.string(), PORT_OF_PATH)
    return kind, numbers, (b"", 0)
