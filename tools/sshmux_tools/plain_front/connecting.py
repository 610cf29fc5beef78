"""Connections from this machine, to a path, an address or a name, without waiting."""

from __future__ import annotations

import contextlib
import errno
import os
import re
import selectors
import socket
import subprocess
from collections.abc import Callable

from sshmux_tools.plain_front.refusals import version_of
from sshmux_tools.protocol import PORT_OF_PATH
from sshmux_tools.streams import Loop
from sshmux_tools.texts import printable, reason

# How long a look-up may take.
LOOKUP_SECONDS = 10
# A name that is looked up, and isn't taken for an option.
NAME = re.compile(rb"[A-Za-z0-9._][A-Za-z0-9._-]{0,254}")

OnConnected = Callable[[socket.socket], None]
OnFailed = Callable[[str], None]


class Lookup:
    """The addresses of a name, as the system finds them: by a program, since it may take long."""

    def __init__(self, loop: Loop, name: bytes, on_done: Callable[[list[bytes]], None]) -> None:
        """Raises OSError where the program can't be run."""
        self.loop, self.on_done, self.found = loop, on_done, bytearray()
        words = [b"getent", b"ahosts", name]
        self.process = subprocess.Popen(
            words, stdin=subprocess.DEVNULL, stdout=subprocess.PIPE, stderr=subprocess.DEVNULL
        )
        assert self.process.stdout is not None
        self.output = self.process.stdout.fileno()
        loop.watch(self.output, selectors.EVENT_READ, self.on_ready)
        loop.call_later(LOOKUP_SECONDS, self.process.kill)

    def on_ready(self, _events: int) -> None:
        data = os.read(self.output, 65536)
        self.found += data
        if data:
            return
        self.loop.forget(self.output)
        # It has closed its output, and ends.
        with self.process:
            pass
        lines = [line.split() for line in bytes(self.found).splitlines()]
        self.on_done([line[0] for line in lines if line[1:2] == [b"STREAM"]])


class Connecting:
    """One connection that is made. One of the two is called, once, maybe before this returns."""

    def __init__(
        self, loop: Loop, host: bytes, port: int, on_connected: OnConnected, on_failed: OnFailed
    ) -> None:
        self.loop, self.host, self.port = loop, host, port
        self.on_connected, self.on_failed = on_connected, on_failed
        self.addresses: list[bytes] = []
        self.fault = f"{printable(host)} has no address"
        if port == PORT_OF_PATH or version_of(host) is not None:
            self.on_addresses([host])
        elif NAME.fullmatch(host):
            self.look_up()
        else:
            on_failed(f"{printable(host)} is no name")

    def look_up(self) -> None:
        try:
            Lookup(self.loop, self.host, self.on_addresses)
        except OSError as error:
            self.on_failed(f"getent: {reason(error)}")

    def on_addresses(self, addresses: list[bytes]) -> None:
        self.addresses = addresses
        self.try_next()

    def try_next(self) -> None:
        if not self.addresses:
            self.on_failed(self.fault)
            return
        address = self.addresses.pop(0)
        try:
            stream, place = self.socket_for(address)
        except OSError as error:
            self.fail_one(error)
            return
        try:
            stream.setblocking(False)
            stream.connect(place)
        except BlockingIOError as error:
            if error.errno != errno.EINPROGRESS:
                stream.close()
                self.fail_one(error)
                return
            self.loop.watch(
                stream.fileno(), selectors.EVENT_WRITE, lambda _: self.on_ready(stream)
            )
        except (OSError, ValueError) as error:
            stream.close()
            self.fail_one(error if isinstance(error, OSError) else OSError(str(error)))
        else:
            self.on_connected(stream)

    def socket_for(self, address: bytes) -> tuple[socket.socket, bytes | tuple[str, int]]:
        if self.port == PORT_OF_PATH:
            return socket.socket(socket.AF_UNIX), address
        family = socket.AF_INET6 if b":" in address else socket.AF_INET
        stream = socket.socket(family)
        with contextlib.suppress(OSError):
            stream.setsockopt(socket.IPPROTO_TCP, socket.TCP_NODELAY, 1)
        return stream, (address.decode(), self.port)

    def on_ready(self, stream: socket.socket) -> None:
        self.loop.forget(stream.fileno())
        number = stream.getsockopt(socket.SOL_SOCKET, socket.SO_ERROR)
        if number:
            stream.close()
            self.fail_one(OSError(number, os.strerror(number)))
        else:
            self.on_connected(stream)

    def fail_one(self, error: OSError) -> None:
        self.fault = reason(error)
        self.try_next()
