"""Sockets of a check, all driven by one loop: no thread, and no process, for a connection.

A peer is one end of a TCP connection. What it is to say is queued, what it hears is kept, and so is
how it ended. A program that has to run meanwhile is run by the loop, too, so that nothing waits for
a check that waits.
"""

from __future__ import annotations

import contextlib
import errno
import os
import selectors
import socket
import struct
import subprocess
import tempfile
import time
from collections.abc import Callable, Sequence

import play
from play import Failed

# How much is read and written at once.
PIECE = 65_536

# What the system answers to a connect that isn't done yet.
UNDER_WAY = (0, errno.EINPROGRESS)

HERE = "127.0.0.1"


def ignore(_peer: Peer) -> None:
    """What is done where nothing is to be done."""


class Peer:
    """One end of a connection: what it is still to say, what it heard, and how it ended."""

    def __init__(self, loop: Loop, stream: socket.socket, connecting: bool = False) -> None:
        stream.setblocking(False)
        self.loop, self.stream, self.connecting = loop, stream, connecting
        # What is to be said, how much of its front was, and whether the end comes behind it.
        self.waiting, self.said, self.ending = bytearray(), 0, False
        self.heard = bytearray()
        # Whether it reads; whether the other side's end came; whether its own was said.
        self.reads, self.ended, self.shut = True, False, False
        # The fault that ended it, and whether its socket is closed.
        self.fault, self.closed = "", False
        self.on_data: Callable[[Peer], None] = ignore
        self.on_end: Callable[[Peer], None] = ignore
        loop.watch(self)

    @property
    def port(self) -> int:
        """The port of its own side."""
        port: int = self.stream.getsockname()[1]
        return port

    @property
    def over(self) -> bool:
        """Whether the other side said its end, or the connection failed."""
        return self.ended or bool(self.fault)

    def say(self, data: bytes) -> None:
        if not self.closed:
            self.waiting += data
            self.loop.watch(self)

    def end(self) -> None:
        """Says its end behind all that waits."""
        self.ending = True
        if not self.closed:
            self.loop.watch(self)

    def read(self, reads: bool) -> None:
        self.reads = reads
        if not self.closed:
            self.loop.watch(self)

    def close(self) -> None:
        if not self.closed:
            self.closed = True
            self.loop.forget(self)
            self.stream.close()

    def reset(self) -> None:
        """Breaks the connection off."""
        if not self.closed:
            self.stream.setsockopt(socket.SOL_SOCKET, socket.SO_LINGER, struct.pack("ii", 1, 0))
            self.close()

    # What the loop asks and calls.

    @property
    def events(self) -> int:
        wants = selectors.EVENT_READ if self.reads and not self.ended else 0
        if self.connecting or self.waiting or (self.ending and not self.shut):
            wants |= selectors.EVENT_WRITE
        return wants

    def ready(self, events: int) -> None:
        try:
            if self.connecting:
                self.finish_connect()
            if events & selectors.EVENT_WRITE and not self.connecting:
                self.write()
            if events & selectors.EVENT_READ:
                self.hear()
        except BlockingIOError:
            pass
        except OSError as why:
            self.fail(errno.errorcode.get(why.errno or 0, str(why)))
        if self.ended and self.shut:
            self.close()
        if not self.closed:
            self.loop.watch(self)

    def finish_connect(self) -> None:
        number = self.stream.getsockopt(socket.SOL_SOCKET, socket.SO_ERROR)
        if number:
            raise OSError(number, os.strerror(number))
        self.connecting = False

    def write(self) -> None:
        if self.waiting:
            count = self.stream.send(memoryview(self.waiting)[: 8 * PIECE])
            del self.waiting[:count]
            self.said += count
        if self.ending and not self.waiting and not self.shut:
            self.shut = True
            self.stream.shutdown(socket.SHUT_WR)

    def hear(self) -> None:
        data = self.stream.recv(4 * PIECE)
        if data:
            self.heard += data
            self.on_data(self)
        else:
            self.ended = True
            self.on_end(self)

    def fail(self, fault: str) -> None:
        self.fault = fault
        self.on_end(self)
        self.close()


class Listener:
    """Takes connections, and has each of them served."""

    def __init__(self, loop: Loop, serve: Callable[[Peer], None], stream: socket.socket) -> None:
        stream.setblocking(False)
        self.loop, self.serve, self.stream, self.closed = loop, serve, stream, False
        self.taken: list[Peer] = []
        loop.selector.register(stream, selectors.EVENT_READ, self)

    @property
    def port(self) -> int:
        port: int = self.stream.getsockname()[1]
        return port

    def ready(self, _events: int) -> None:
        with contextlib.suppress(BlockingIOError):
            peer = Peer(self.loop, self.stream.accept()[0])
            self.taken.append(peer)
            self.serve(peer)
            if not peer.closed:
                self.loop.watch(peer)

    def close(self) -> None:
        if not self.closed:
            self.closed = True
            self.loop.selector.unregister(self.stream)
            self.stream.close()


class Loop:
    """Drives all peers and listeners of a check."""

    def __init__(self) -> None:
        self.selector = selectors.DefaultSelector()
        self.peers: set[Peer] = set()
        self.listeners: list[Listener] = []

    def watch(self, peer: Peer) -> None:
        """Has the system tell what this peer waits for now."""
        self.peers.add(peer)
        known = peer.stream in self.selector.get_map()
        if not peer.events:
            if known:
                self.selector.unregister(peer.stream)
        elif known:
            if self.selector.get_key(peer.stream).events != peer.events:
                self.selector.modify(peer.stream, peer.events, peer)
        else:
            self.selector.register(peer.stream, peer.events, peer)

    def forget(self, peer: Peer) -> None:
        self.peers.discard(peer)
        # Whoever made its socket may have closed it before.
        with contextlib.suppress(KeyError, ValueError):
            self.selector.unregister(peer.stream)

    def listen(
        self,
        serve: Callable[[Peer], None] = ignore,
        host: str = HERE,
        port: int = 0,
        buffer: int = 0,
    ) -> Listener:
        """A listener, whose peers have a small buffer for what they read, if one is named."""
        family = socket.AF_INET6 if ":" in host else socket.AF_INET
        stream = socket.create_server((host, port), family=family, backlog=512)
        if buffer:
            stream.setsockopt(socket.SOL_SOCKET, socket.SO_RCVBUF, buffer)
        listener = Listener(self, serve, stream)
        self.listeners.append(listener)
        return listener

    def connect(self, port: int, host: str = HERE, buffer: int = 0) -> Peer:
        """A peer that connects there, with a small buffer for what it reads, if one is named."""
        stream = socket.socket(socket.AF_INET6 if ":" in host else socket.AF_INET)
        if buffer:
            stream.setsockopt(socket.SOL_SOCKET, socket.SO_RCVBUF, buffer)
        stream.setblocking(False)
        answer = stream.connect_ex((host, port))
        if answer not in UNDER_WAY:
            stream.close()
            raise Failed(f"{host} port {port}: {os.strerror(answer)}")
        return Peer(self, stream, connecting=True)

    def turn(self, seconds: float = 0.02) -> bool:
        """Does what is ready, or waits for so long: whether anything was."""
        ready = self.selector.select(seconds)
        for key, events in ready:
            # One that is done may have closed another.
            if not key.data.closed:
                key.data.ready(events)
        return bool(ready)

    def until(
        self, holds: Callable[[], object], what: str, seconds: float = play.RUN_SECONDS
    ) -> None:
        end = time.monotonic() + seconds
        while not holds():
            if time.monotonic() > end:
                raise Failed(f"{what}: not within {seconds} seconds")
            self.turn()

    def idle(self, seconds: float) -> None:
        """Goes on for so long."""
        end = time.monotonic() + seconds
        while (left := end - time.monotonic()) > 0:
            self.turn(left)

    def run(
        self, words: Sequence[str], seconds: float = play.RUN_SECONDS, **environment: str
    ) -> tuple[int, str, str]:
        """A program's status and what it wrote to both outputs; the loop goes on meanwhile."""
        with tempfile.TemporaryFile() as out, tempfile.TemporaryFile() as err:
            told = {**os.environ, **environment}
            with subprocess.Popen(
                words, env=told, stdin=subprocess.DEVNULL, stdout=out, stderr=err
            ) as process:
                try:
                    name = os.path.basename(words[0])
                    self.until(lambda: process.poll() is not None, f"{name} ends", seconds)
                finally:
                    play.end_process(process)
            said = []
            for file in (out, err):
                file.seek(0)
                said.append(file.read().decode(errors="replace"))
        return process.returncode, said[0], said[1]

    def close(self) -> None:
        for peer in list(self.peers):
            peer.close()
        for listener in self.listeners:
            listener.close()
        self.selector.close()


# How connections are served.


def give_back(peer: Peer) -> None:
    """Gives back what it gets, and its end behind that."""

    def on_data(peer: Peer) -> None:
        peer.say(bytes(peer.heard))
        peer.heard.clear()

    peer.on_data, peer.on_end = on_data, Peer.end


def answer_http(peer: Peer) -> None:
    """Answers one request with a line that names its path, and closes."""

    def on_data(peer: Peer) -> None:
        if b"\r\n\r\n" in peer.heard:
            path = bytes(peer.heard).split()[1]
            body = b"path " + path + b"\n"
            head = f"HTTP/1.1 200 OK\r\nConnection: close\r\nContent-Length: {len(body)}\r\n\r\n"
            peer.say(head.encode() + body)
            peer.end()

    peer.on_data = on_data
