"""What clients, the master and the server send, as RFC 4254 and PROTOCOL.mux spell it, and how it is read."""

from __future__ import annotations

import struct
from typing import Any, NamedTuple

from play import (
    ADJUST, ASK_PATH, ASK_PORT, CANCEL_PATH, CANCEL_PORT, CONFIRMATION, CONNECT_FAILED, DATA, DEBUG,
    DIRECT_PATH, DIRECT_PORT, DISCONNECT, EXTENDED_DATA, FAILURE, FORWARDED_PATH, FORWARDED_PORT,
    GLOBAL_REQUEST, IGNORE, OPEN, OPEN_FAILURE, PROHIBITED, REQUEST, REQUEST_FAILURE,
    REQUEST_SUCCESS, SESSION, SHORTAGE, UNIMPLEMENTED, UNKNOWN_TYPE, text, u32,
)

# The limits of docs/SHARING.md.
LONGEST_FRAME = 262_144
LONGEST_NAME = 255

# What the master says where it fails an open. The rules name the last of these texts alone.
FAILED_OPENS = {
    PROHIBITED: b"not permitted",
    UNKNOWN_TYPE: b"unknown channel type",
    SHORTAGE: b"too many channels",
    CONNECT_FAILED: b"client is gone",
}
ASKS = {ASK_PORT: "port", ASK_PATH: "path"}
CANCELS = {CANCEL_PORT: "port", CANCEL_PATH: "path"}
CANCEL_OF = {kind: name for name, kind in CANCELS.items()}


class Unreadable(Exception):
    """A payload that is none of the known messages."""


class Fields:
    """The fields of a payload or of a control body, taken one by one."""

    def __init__(self, data: bytes) -> None:
        self.data, self.at = data, 0

    def take(self, count: int) -> bytes:
        if len(self.data) - self.at < count:
            raise Unreadable
        self.at += count
        return self.data[self.at - count : self.at]

    def byte(self) -> int:
        return self.take(1)[0]

    def number(self) -> int:
        number: int = struct.unpack(">I", self.take(4))[0]
        return number

    def text(self) -> bytes:
        return self.take(self.number())

    def rest(self) -> bytes:
        return self.take(len(self.data) - self.at)

    def end(self) -> None:
        if self.at != len(self.data):
            raise Unreadable


# Where a forwarding goes or comes from: "port", an address and a port; or "path" and a path.
Key = tuple[Any, ...]


class Message(NamedTuple):
    """What the model looks at in a payload; what a kind of message doesn't have is None."""

    kind: int
    recipient: Any = None
    sender: Any = None
    name: Any = None
    wants: bool | None = None
    key: Key | None = None
    window: Any = None
    longest: Any = None
    length: Any = None
    port: Any = None


PLAIN = {DISCONNECT, IGNORE, UNIMPLEMENTED, DEBUG}


def key_of_port(fields: Fields) -> Key:
    address = fields.text()
    return ("port", address, fields.number())


def read_global_request(fields: Fields) -> Message:
    name, wants, key = fields.text(), fields.byte() != 0, None
    kind = ASKS.get(name) or CANCELS.get(name)
    if kind == "port":
        key = key_of_port(fields)
    elif kind == "path":
        key = ("path", fields.text())
    else:
        fields.rest()
    return Message(GLOBAL_REQUEST, name=name, wants=wants, key=key)


def read_open(fields: Fields) -> Message:
    name, sender, window, longest = fields.text(), fields.number(), fields.number(), fields.number()
    key = None
    if name in (DIRECT_PORT, FORWARDED_PORT):
        key = key_of_port(fields)
        fields.text()
        fields.number()
    elif name in (DIRECT_PATH, FORWARDED_PATH):
        key = ("path", fields.text())
        fields.text()
        if name == DIRECT_PATH:
            fields.number()
    elif name != SESSION:
        fields.rest()
    return Message(OPEN, sender=sender, name=name, key=key, window=window, longest=longest)


def read_to_channel(kind: int, fields: Fields) -> Message:
    message = Message(kind, recipient=fields.number())
    if kind == CONFIRMATION:
        sender, window, longest = fields.number(), fields.number(), fields.number()
        fields.rest()
        return message._replace(sender=sender, window=window, longest=longest)
    if kind == OPEN_FAILURE:
        fields.number()
        fields.text()
        fields.text()
    elif kind == ADJUST:
        return message._replace(length=fields.number())
    elif kind == DATA:
        return message._replace(length=len(fields.text()))
    elif kind == EXTENDED_DATA:
        fields.number()
        return message._replace(length=len(fields.text()))
    elif kind == REQUEST:
        name, wants = fields.text(), fields.byte() != 0
        fields.rest()
        return message._replace(name=name, wants=wants)
    return message


def read_payload(payload: bytes) -> Message:
    fields = Fields(payload)
    kind = fields.byte()
    if kind in PLAIN:
        return Message(kind)
    if kind == GLOBAL_REQUEST:
        message = read_global_request(fields)
    elif kind == REQUEST_SUCCESS:
        rest = fields.rest()
        port = struct.unpack(">I", rest)[0] if len(rest) == 4 else None
        message = Message(kind, length=len(rest), port=port)
    elif kind == REQUEST_FAILURE:
        message = Message(kind)
    elif kind == OPEN:
        message = read_open(fields)
    elif CONFIRMATION <= kind <= FAILURE:
        message = read_to_channel(kind, fields)
    else:
        raise Unreadable
    fields.end()
    return message


def with_number(payload: bytes, at: int, number: int) -> bytes:
    """A payload with another number at a place."""
    return payload[:at] + u32(number) + payload[at + 4 :]


def sender_at(message: Message) -> int:
    """Where the sender's number stands in an open or a confirmation."""
    return 5 if message.kind == CONFIRMATION else 5 + len(message.name)


def open_failure(recipient: int, reason: int, why: bytes | None = None) -> bytes:
    said = text(FAILED_OPENS[reason] if why is None else why) + text(b"")
    return bytes([OPEN_FAILURE]) + u32(recipient) + u32(reason) + said


def cancel(key: Key) -> bytes:
    """The cancel of a forwarding that wants no reply."""
    where = text(key[1]) + (u32(key[2]) if key[0] == "port" else b"")
    return bytes([GLOBAL_REQUEST]) + text(CANCEL_OF[key[0]]) + b"\0" + where


# The rules.


class Framer:
    """Cuts a stream into frames, as soon as they stand; `taken` counts the bytes of these."""

    def __init__(self) -> None:
        self.bytes, self.taken = bytearray(), 0

    def next(self, proxy: bool) -> bytes | str | None:
        """A frame's body or payload, a fault's name, or None where more is wanted."""
        if len(self.bytes) < 4:
            return None
        (length,) = struct.unpack(">I", self.bytes[:4])
        if not (2 if proxy else 4) <= length <= LONGEST_FRAME:
            return self.fault(4)
        if proxy and len(self.bytes) > 4 and self.bytes[4]:
            return self.fault(5)
        if len(self.bytes) < 4 + length:
            return None
        frame = bytes(self.bytes[4 + proxy : 4 + length])
        del self.bytes[: 4 + length]
        self.taken += 4 + length
        return frame

    def fault(self, count: int) -> str:
        self.taken += count
        return "fault"


class Number:
    """A number that the program picks: known once it was read from what the server gets."""

    def __init__(self, held: list[Number]) -> None:
        self.value: Any = None
        self.held: list[Number] | None = held


# What goes to a stream: bytes, and numbers among them.
Parts = tuple[bytes | Number, ...]
