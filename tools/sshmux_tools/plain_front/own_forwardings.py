"""Forwardings that the front serves by itself, as a client of the master in proxy mode: from and to
Unix sockets, and SOCKS for the server's side."""

from __future__ import annotations

import contextlib
import os
import selectors
import socket
from collections.abc import Callable
from typing import TYPE_CHECKING

from sshmux_tools.plain_front.errand import Reply
from sshmux_tools.plain_front.own_relay import LocalRelay, Relay, RemoteRelay, opened_for
from sshmux_tools.plain_front.proxy_client import LOST, Phase, ProxyClient
from sshmux_tools.plain_front.refusals import LOCAL_HOSTS, cannot_listen, why_not_listening
from sshmux_tools.plain_front.requests import Forwarding, Kind
from sshmux_tools.protocol import PORT_OF_PATH, Fields, Message, string, uint32
from sshmux_tools.texts import reason

if TYPE_CHECKING:
    from sshmux_tools.plain_front.front import Front

OnReply = Callable[[Reply], None]

PROHIBITED = 1
# How long nothing is accepted where the machine is out of means.
PAUSE_SECONDS = 1
# Of the global requests that are for a port and for a path.
PORT, PATH = b"tcpip-forward", b"streamlocal-forward@openssh.com"


class Listener:
    """A socket of this machine that listens for a forwarding."""

    def __init__(self, forwarding: Forwarding) -> None:
        """Raises OSError where it can't."""
        self.path: bytes | None = None
        self.identity = (0, 0)
        if forwarding.listen_port == PORT_OF_PATH:
            self.socket = socket.socket(socket.AF_UNIX)
            self.bind_path(forwarding.listen_host)
        else:
            host = LOCAL_HOSTS.get(forwarding.listen_host, forwarding.listen_host).decode()
            self.socket = socket.socket(socket.AF_INET6 if ":" in host else socket.AF_INET)
            self.bind_port(host, forwarding.listen_port)
        self.socket.setblocking(False)

    def bind_path(self, path: bytes) -> None:
        mask = os.umask(0o177)
        try:
            self.socket.bind(path)
            self.path, found = path, os.lstat(path)
            self.identity = found.st_dev, found.st_ino
            self.socket.listen(64)
        except OSError:
            self.close()
            raise
        finally:
            os.umask(mask)

    def bind_port(self, host: str, port: int) -> None:
        try:
            self.socket.setsockopt(socket.SOL_SOCKET, socket.SO_REUSEADDR, 1)
            self.socket.bind((host, port))
            self.socket.listen(64)
        except OSError:
            self.close()
            raise

    def close(self) -> None:
        """Also takes the path away, unless it is another one by now."""
        self.socket.close()
        if self.path is not None:
            with contextlib.suppress(OSError):
                found = os.lstat(self.path)
                if (found.st_dev, found.st_ino) == self.identity:
                    os.unlink(self.path)


class OwnForwardings:
    """The front's own forwardings, and its client at the first master, which is there while a
    server listens for them or a connection goes through them."""

    def __init__(self, front: Front) -> None:
        self.front = front
        self.link: ProxyClient | None = None
        # What is to be done once the client is ready, or is told why it won't be.
        self.waiting: list[tuple[Callable[[ProxyClient], None], Callable[[str], None]]] = []
        self.listeners: dict[Forwarding, Listener] = {}
        # Those that the server listens for, by the host and port, or the path, that it says.
        self.remote: dict[tuple[bytes, int], Forwarding] = {}
        self.asked = 0

    def open(self, forwarding: Forwarding, listen_host: bytes, on_reply: OnReply) -> None:
        """The host to listen on is the one that is sent to a server."""
        if forwarding.kind == Kind.REMOTE:
            self.open_remote(forwarding, listen_host, on_reply)
        else:
            on_reply(self.open_local(forwarding))

    def close(self, forwarding: Forwarding, on_reply: OnReply) -> None:
        if forwarding.kind == Kind.REMOTE:
            self.close_remote(forwarding, on_reply)
            return
        listener = self.listeners.pop(forwarding)
        self.front.loop.forget(listener.socket.fileno())
        listener.close()
        on_reply(Reply(True))

    def count_relays(self) -> int:
        """How many connections go through them."""
        return 0 if self.link is None else len(self.link.channels)

    def finish(self) -> None:
        """Ends all of them, and what goes through them."""
        self.front.forwardings.forget(list(self.listeners), "the front has ended it")
        for listener in self.listeners.values():
            self.front.loop.forget(listener.socket.fileno())
            listener.close()
        self.listeners.clear()
        if self.link is not None:
            self.link.wire.close()

    # Those that listen here.

    def open_local(self, forwarding: Forwarding) -> Reply:
        if forwarding.listen_port != PORT_OF_PATH:
            fault = cannot_listen(forwarding.listen_host, forwarding.listen_port)
            if fault is not None:
                return Reply(False, why=fault)
        try:
            listener = Listener(forwarding)
        except OSError as error:
            return Reply(False, why=why_not_listening(forwarding, error))
        self.listeners[forwarding] = listener
        self.watch(forwarding, listener)
        return Reply(True)

    def watch(self, forwarding: Forwarding, listener: Listener) -> None:
        """Accepts at a listener, unless it is closed by now."""
        if self.listeners.get(forwarding) is listener:
            number = listener.socket.fileno()
            self.front.loop.watch(
                number, selectors.EVENT_READ, lambda _: self.on_accept(forwarding, listener)
            )

    def on_accept(self, forwarding: Forwarding, listener: Listener) -> None:
        try:
            stream, _ = listener.socket.accept()
        except BlockingIOError:
            return
        except OSError as error:
            self.refused(forwarding.name, reason(error))
            # It stays there: who leaves gives back what is missing.
            self.front.loop.forget(listener.socket.fileno())
            self.front.loop.call_later(PAUSE_SECONDS, lambda: self.watch(forwarding, listener))
            return
        if stream.family != socket.AF_UNIX:
            with contextlib.suppress(OSError):
                stream.setsockopt(socket.IPPROTO_TCP, socket.TCP_NODELAY, 1)

        def on_refused(why: str) -> None:
            self.refused(forwarding.name, why)
            stream.close()

        def on_ready(link: ProxyClient) -> None:
            LocalRelay(self.front.loop, link, self.on_over, stream, forwarding, on_refused)

        self.when_ready(on_ready, on_refused)

    def refused(self, name: str, why: str) -> None:
        self.front.journal.refused("front", f"connection of {name}", why)

    # Those that the server listens for.

    def open_remote(self, forwarding: Forwarding, listen_host: bytes, on_reply: OnReply) -> None:
        def on_answer(fields: Fields | None) -> None:
            self.asked -= 1
            if fields is None:
                on_reply(Reply(False, is_refused=True))
                self.close_link_if_idle()
                return
            port = forwarding.listen_port
            chosen = fields.uint32() if port == 0 else None
            self.remote[listen_host, port if chosen is None else chosen] = forwarding
            on_reply(Reply(True, port=chosen))

        def on_ready(link: ProxyClient) -> None:
            self.asked += 1
            name, data = request_for(listen_host, forwarding.listen_port)
            link.ask(name, data, on_answer)

        self.when_ready(on_ready, lambda why: on_reply(Reply(False, why=why)))

    def close_remote(self, forwarding: Forwarding, on_reply: OnReply) -> None:
        key = next(key for key, it in self.remote.items() if it == forwarding)

        def on_answer(fields: Fields | None) -> None:
            self.asked -= 1
            if fields is not None:
                self.remote.pop(key, None)
            on_reply(Reply(fields is not None, why="the server still listens there"))
            self.close_link_if_idle()

        def on_ready(link: ProxyClient) -> None:
            self.asked += 1
            name, data = request_for(*key)
            link.ask(b"cancel-" + name, data, on_answer)

        self.when_ready(on_ready, lambda why: on_reply(Reply(False, why=why)))

    def on_open(self, fields: Fields) -> None:
        """The server has a connection for one of them."""
        _, opened, place = opened_for(fields)
        assert self.link is not None
        forwarding = self.remote.get(place)
        if forwarding is None:
            failure = uint32(opened[0], PROHIBITED) + string(b"not forwarded") + string(b"")
            self.link.send(bytes([Message.CHANNEL_OPEN_FAILURE]) + failure)
            return
        name = forwarding.name
        RemoteRelay(
            self.front.loop, self.link, self.on_over, forwarding, opened,
            lambda why: self.refused(name, why),
        )  # fmt: skip

    # The client.

    def when_ready(
        self, on_ready: Callable[[ProxyClient], None], on_failed: Callable[[str], None]
    ) -> None:
        if self.link is None:
            try:
                stream = self.front.masters[0].connect()
            except OSError as error:
                on_failed(f"no master at {self.front.control}: {reason(error)}")
                return
            self.link = ProxyClient(
                self.front.loop, stream, self.on_link_ready, self.on_link_lost, self.on_open
            )
        if self.link.phase is Phase.READY:
            on_ready(self.link)
        else:
            self.waiting.append((on_ready, on_failed))

    def on_link_ready(self) -> None:
        waiting, self.waiting = self.waiting, []
        for on_ready, on_failed in waiting:
            if self.link is not None:
                on_ready(self.link)
            else:
                on_failed(LOST)

    def on_link_lost(self, why: str) -> None:
        """The master has ended, or has dropped the client: nobody listens at the server."""
        lost, self.link = self.link, None
        waiting, self.waiting = self.waiting, []
        self.front.forwardings.forget(list(self.remote.values()), why)
        self.remote.clear()
        for _, on_failed in waiting:
            on_failed(why)
        while lost is not None and lost.asked:
            lost.asked.popleft()(None)
        self.front.update()

    def on_over(self, _relay: Relay) -> None:
        self.close_link_if_idle()
        self.front.update()

    def close_link_if_idle(self) -> None:
        if self.link is None or self.remote or self.asked or self.waiting:
            return
        if not self.link.channels:
            self.link.leave()
            self.link = None


def request_for(host: bytes, port: int) -> tuple[bytes, bytes]:
    """Name and data of the global request to listen there."""
    if port == PORT_OF_PATH:
        return PATH, string(host)
    return PORT, string(host) + uint32(port)
