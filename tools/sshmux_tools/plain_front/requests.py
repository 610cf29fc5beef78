"""What a client of PROTOCOL.mux asks for, as the fields of its requests say it."""

from __future__ import annotations

import dataclasses
import enum

from sshmux_tools.protocol import PORT_OF_PATH, Fields, Mux, string, uint32
from sshmux_tools.texts import place, printable


def end_of(host: bytes, port: int) -> str:
    """A host and port, or a path, as a text."""
    return printable(host) if port == PORT_OF_PATH else place(host, port)


@dataclasses.dataclass(frozen=True)
class SessionRequest:
    terminal: bool
    x11: bool
    agent: bool
    subsystem: bool
    escape: int
    terminal_type: bytes
    command: bytes
    environment: list[bytes]

    @property
    def name(self) -> str:
        """What is asked, as the log says it."""
        if not self.command:
            return "session shell"
        return f"session {'subsystem' if self.subsystem else 'exec'} {printable(self.command)}"

    @classmethod
    def read(cls, fields: Fields) -> SessionRequest:
        _reserved = fields.string()
        terminal, x11, agent, subsystem = (fields.uint32() != 0 for _ in range(4))
        escape, terminal_type, command = fields.uint32(), fields.string(), fields.string()
        environment = []
        while fields.has_more():
            environment.append(fields.string())
        return cls(
            terminal, x11, agent, subsystem, escape, terminal_type, command, environment
        )


@dataclasses.dataclass(frozen=True)
class ForwardRequest:
    host: bytes
    port: int

    @property
    def end(self) -> str:
        return end_of(self.host, self.port)

    @classmethod
    def read(cls, fields: Fields) -> ForwardRequest:
        _reserved = fields.string()
        return cls(fields.string(), fields.uint32())


class Kind(enum.IntEnum):
    """The kinds of forwardings."""

    LOCAL = 1
    REMOTE = 2
    DYNAMIC = 3


LETTERS = {Kind.LOCAL: "-L", Kind.REMOTE: "-R", Kind.DYNAMIC: "-D"}


@dataclasses.dataclass(frozen=True)
class Forwarding:
    """What OPEN_FWD and CLOSE_FWD ask for: a kind, where to listen, and where to connect."""

    kind: int
    listen_host: bytes
    listen_port: int
    connect_host: bytes
    connect_port: int

    @classmethod
    def read(cls, fields: Fields) -> Forwarding:
        kind = fields.uint32()
        listen = fields.string(), fields.uint32()
        return cls(kind, *listen, fields.string(), fields.uint32())

    def body(self, message: Mux, request: int) -> bytes:
        """The request for it."""
        listen = string(self.listen_host) + uint32(self.listen_port)
        connect = string(self.connect_host) + uint32(self.connect_port)
        return uint32(message, request, self.kind) + listen + connect

    @property
    def is_dynamic(self) -> bool:
        """Whether a SOCKS dialog says where to connect."""
        return self.kind == Kind.DYNAMIC or (self.kind == Kind.REMOTE and self.connect_port == 0)

    def goes_where(self, other: Forwarding) -> bool:
        """Whether one at the same place connects to the same end."""
        if self.is_dynamic or other.is_dynamic:
            return self.is_dynamic == other.is_dynamic
        ends = (self.connect_host, self.connect_port)
        return ends == (other.connect_host, other.connect_port)

    @property
    def has_path(self) -> bool:
        connects_to_path = not self.is_dynamic and self.connect_port == PORT_OF_PATH
        return self.listen_port == PORT_OF_PATH or connects_to_path

    @property
    def is_for_the_front(self) -> bool:
        """Whether the front serves it: the master has no paths, and no SOCKS for the server."""
        return self.has_path or (self.kind == Kind.REMOTE and self.is_dynamic)

    @property
    def listening(self) -> str:
        """Where it listens, as a text."""
        if not self.listen_host:
            return str(self.listen_port)
        return end_of(self.listen_host, self.listen_port)

    @property
    def connecting(self) -> str:
        return end_of(self.connect_host, self.connect_port)

    @property
    def name(self) -> str:
        """As the words of ssh say it."""
        letter = LETTERS.get(Kind(self.kind)) if self.kind in set(Kind) else None
        words = f"{letter or f'kind {self.kind}'} {self.listening}"
        return words if self.is_dynamic else f"{words}:{self.connecting}"
