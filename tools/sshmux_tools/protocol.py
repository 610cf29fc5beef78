"""The messages of PROTOCOL.mux and RFC 4254, the fields of which they are made, and their frames.

A frame is a length, in four bytes, and a body. In the control phase the body is a message of
PROTOCOL.mux; in proxy mode it is a byte padding length, which is 0, and a message of RFC 4254.
"""

from __future__ import annotations

import enum
import struct
from collections.abc import Iterator

MUX_VERSION = 4

# The length of a frame, in either framing; ssh-mux has the same bound.
LONGEST_FRAME = 262_144

KEEPALIVE = b"keepalive@openssh.com"

# What a client says for no escape character, and for a path in place of a host and port.
NO_ESCAPE = 0xFFFFFFFF
PORT_OF_PATH = 0xFFFFFFFE


class Mux(enum.IntEnum):
    """Messages of PROTOCOL.mux."""

    HELLO = 0x00000001
    NEW_SESSION = 0x10000002
    ALIVE_CHECK = 0x10000004
    TERMINATE = 0x10000005
    OPEN_FWD = 0x10000006
    CLOSE_FWD = 0x10000007
    NEW_STDIO_FWD = 0x10000008
    STOP_LISTENING = 0x10000009
    PROXY = 0x1000000F
    S_OK = 0x80000001
    S_FAILURE = 0x80000003
    S_EXIT_MESSAGE = 0x80000004
    S_ALIVE = 0x80000005
    S_SESSION_OPENED = 0x80000006
    S_REMOTE_PORT = 0x80000007
    S_TTY_ALLOC_FAIL = 0x80000008
    S_PROXY = 0x8000000F

    # Of the front alone, for ssh-mux-status: no number of OpenSSH's.
    STATUS = 0x1F000001
    END_CALLER = 0x1F000002
    S_STATUS = 0x8F000001


class Message(enum.IntEnum):
    """Messages of RFC 4254."""

    GLOBAL_REQUEST = 80
    REQUEST_SUCCESS = 81
    REQUEST_FAILURE = 82
    CHANNEL_OPEN = 90
    CHANNEL_OPEN_CONFIRMATION = 91
    CHANNEL_OPEN_FAILURE = 92
    CHANNEL_WINDOW_ADJUST = 93
    CHANNEL_DATA = 94
    CHANNEL_EXTENDED_DATA = 95
    CHANNEL_EOF = 96
    CHANNEL_CLOSE = 97
    CHANNEL_REQUEST = 98
    CHANNEL_SUCCESS = 99
    CHANNEL_FAILURE = 100


class Unreadable(Exception):
    """The other side of a stream said what can't be read, or what it may not say now."""


# Data types (RFC 4251, section 5).


def uint32(*numbers: int) -> bytes:
    """Numbers, each in four bytes."""
    return struct.pack(f">{len(numbers)}I", *numbers)


def string(data: bytes) -> bytes:
    """A string with its length before it."""
    return uint32(len(data)) + data


class Fields:
    """The fields of a message, one after another, from a place of it on."""

    def __init__(self, data: bytes | bytearray, at: int = 0) -> None:
        self.data, self.at = data, at

    def take(self, count: int) -> bytes:
        end = self.at + count
        if end > len(self.data):
            raise Unreadable("a message is cut short")
        taken, self.at = bytes(self.data[self.at : end]), end
        return taken

    def byte(self) -> int:
        return self.take(1)[0]

    def uint32(self) -> int:
        return int.from_bytes(self.take(4), "big")

    def string(self) -> bytes:
        return self.take(self.uint32())

    def text(self) -> str:
        return self.string().decode(errors="replace")

    def rest(self) -> bytes:
        return self.take(len(self.data) - self.at)

    def has_more(self) -> bool:
        return self.at < len(self.data)


# Frames of the control phase.


def control_frame(*numbers: int) -> bytes:
    """A message of PROTOCOL.mux whose fields are numbers."""
    return string(uint32(*numbers))


HELLO = uint32(Mux.HELLO, MUX_VERSION)


def is_hello(body: bytes) -> bool:
    """Whether it greets in this version; what extensions it names is of no concern."""
    return body[:8] == HELLO


# Frames of proxy mode.


def frame(payload: bytes) -> bytes:
    return struct.pack(">IB", len(payload) + 1, 0) + payload


# OpenSSH's client in proxy mode can't read a frame of length 2, so a success has four bytes that
# nobody looks at.
PADDED_SUCCESS = bytes([Message.REQUEST_SUCCESS, 0, 0, 0, 0])


def whole_payloads(data: bytes | bytearray) -> Iterator[tuple[int, int]]:
    """Where the payload of each frame that is there as a whole begins and ends."""
    at = 0
    while at + 4 <= len(data):
        length = int.from_bytes(data[at : at + 4], "big")
        if not 2 <= length <= LONGEST_FRAME:
            raise Unreadable(f"a frame of length {length}")
        end = at + 4 + length
        if end > len(data):
            return
        if data[at + 4]:
            raise Unreadable(f"a padding of length {data[at + 4]}")
        yield at + 5, end
        at = end


def global_request(name: bytes, data: bytes = b"") -> bytes:
    """A global request that wants a reply."""
    return bytes([Message.GLOBAL_REQUEST]) + string(name) + b"\1" + data


def wanted_request(payload: bytes | bytearray) -> bytes | None:
    """The name of a global request that wants a reply, which the byte behind the name says."""
    end = 5 + int.from_bytes(payload[1:5], "big")
    if payload[end : end + 1] in (b"", b"\0"):
        return None
    return bytes(payload[5:end])
