"""The dialog of a SOCKS client, of version 4, 4a or 5 without a password."""

from __future__ import annotations

import ipaddress

# How long a user or a host of version 4 may be.
LONGEST_TEXT = 255
CONNECT = 1
# Types of an address in version 5.
IPV4, NAME, IPV6 = 1, 3, 4


class Refused(Exception):
    """The dialog ends. The reply is for the client, and may be empty."""

    def __init__(self, reply: bytes) -> None:
        super().__init__()
        self.reply = reply


class Dialog:
    """What a client said, from its first byte on.

    `take` gets its bytes as they come. Once it returns a host and a port, `rest` has the bytes
    behind the dialog, and `reply` what says how the connection came out.
    """

    def __init__(self) -> None:
        self.data = bytearray()
        self.version = 0
        self.has_method = False
        # What is to be said before all else.
        self.said = b""

    @property
    def rest(self) -> bytes:
        return bytes(self.data)

    def take(self, data: bytes) -> tuple[bytes, int] | None:
        """Where the client wants to, or None where more has to come. Raises Refused."""
        self.data += data
        if not self.version:
            if not self.data:
                return None
            self.version = self.data[0]
        if self.version == 4:
            return self.take_version_4()
        if self.version == 5:
            if not self.has_method and not self.take_methods():
                return None
            return self.take_version_5()
        raise Refused(b"")

    def reply(self, is_connected: bool) -> bytes:
        if self.version == 4:
            return bytes([0, 0x5A if is_connected else 0x5B]) + bytes(6)
        return bytes([5, 0 if is_connected else 1, 0, IPV4]) + bytes(6)

    def refusal(self, code: int) -> Refused:
        return Refused(bytes([5, code, 0, IPV4]) + bytes(6))

    def take_version_4(self) -> tuple[bytes, int] | None:
        texts = bytes(self.data[8:]).split(b"\0")
        has_name = self.data[4:7] == bytes(3) and self.data[7:8] not in (b"", b"\0")
        count = 2 if has_name else 1
        if any(len(text) > LONGEST_TEXT for text in texts[:count]):
            raise Refused(self.reply(False))
        if len(self.data) < 8 or len(texts) <= count:
            return None
        port = int.from_bytes(self.data[2:4], "big")
        host = str(ipaddress.IPv4Address(bytes(self.data[4:8])))
        if self.data[1] != CONNECT or (has_name and not texts[1]):
            raise Refused(self.reply(False))
        del self.data[: 8 + sum(len(text) + 1 for text in texts[:count])]
        return texts[1] if has_name else host.encode(), port

    def take_methods(self) -> bool:
        """Whether the client has said its methods, of which one has to be that without any."""
        if len(self.data) < 2 or len(self.data) < 2 + self.data[1]:
            return False
        methods = self.data[2 : 2 + self.data[1]]
        del self.data[: 2 + self.data[1]]
        if 0 not in methods:
            raise Refused(b"\5\xff")
        self.said, self.has_method = b"\5\0", True
        return True

    def take_version_5(self) -> tuple[bytes, int] | None:
        if len(self.data) < 5:
            return None
        version, command, reserved, kind, length = self.data[:5]
        if (version, reserved) != (5, 0):
            raise self.refusal(1)
        if command != CONNECT:
            raise self.refusal(7)
        if kind not in (IPV4, NAME, IPV6):
            raise self.refusal(8)
        if kind == NAME and length == 0:
            raise self.refusal(1)
        begin, count = (5, length) if kind == NAME else (4, 4 if kind == IPV4 else 16)
        end = begin + count
        if len(self.data) < end + 2:
            return None
        address, port = bytes(self.data[begin:end]), int.from_bytes(self.data[end : end + 2], "big")
        del self.data[: end + 2]
        return address if kind == NAME else str(ipaddress.ip_address(address)).encode(), port
