"""The lines that tools/sshmux_tools/channel_log.py writes for the messages that pass a transport."""

from __future__ import annotations

import re
import unittest

from sshmux_tools.channel_log import ChannelLog
from sshmux_tools.protocol import string, uint32
from sshmux_tools.texts import LONGEST_TEXT, printable

STAMP = re.compile(r"^\d{4}-\d\d-\d\d \d\d:\d\d:\d\d (.*), \d+\.\d s$")


def opening(number: int, kind: bytes = b"session", rest: bytes = b"") -> bytes:
    return bytes([90]) + string(kind) + uint32(number, 1000, 1000) + rest


def end(host: bytes, port: int) -> bytes:
    return string(host) + uint32(port) + string(b"here") + uint32(1)


def confirmation(recipient: int, sender: int) -> bytes:
    return bytes([91]) + uint32(recipient, sender, 1000, 1000)


def failure(recipient: int, reason: int, text: bytes) -> bytes:
    return bytes([92]) + uint32(recipient, reason) + string(text) + string(b"")


def close(recipient: int) -> bytes:
    return bytes([97]) + uint32(recipient)


def request(recipient: int, name: bytes, rest: bytes = b"", wants: int = 1) -> bytes:
    return bytes([98]) + uint32(recipient) + string(name) + bytes([wants]) + rest


class ChannelLogTest(unittest.TestCase):
    def setUp(self) -> None:
        self.written: list[str] = []
        self.log = ChannelLog(self.written.append)

    def lines(self) -> list[str]:
        """What was written, without times."""
        found = []
        for line in self.written:
            stamped = STAMP.match(line)
            assert stamped is not None, line
            found.append(stamped[1])
        self.written.clear()
        return found

    def open_session(self, near: int = 3, far: int = 8) -> None:
        self.log.up(opening(near))
        self.log.down(confirmation(near, far))

    def test_a_command_and_its_status(self) -> None:
        self.open_session()
        self.log.up(request(8, b"pty-req", b"whatever"))
        self.log.up(request(8, b"exec", string(b"exit 7")))
        self.log.down(request(3, b"exit-status", uint32(7), 0))
        self.log.down(close(3))
        self.assertEqual(self.lines(), [])
        self.log.up(close(8))
        self.assertEqual(self.lines(), ["session exec exit 7: exit status 7"])

    def test_what_a_session_is_for(self) -> None:
        for name, rest, wanted in (
            (b"shell", b"", "session shell"), (b"env", b"", "session"),
            (b"subsystem", string(b"sftp"), "session subsystem sftp"),
            (b"exec", string(b"a\nb\x1b[2J"), "session exec a\\nb\\x1b[2J"),
        ):  # fmt: skip
            with self.subTest(name):
                self.open_session()
                self.log.up(request(8, name, rest))
                self.log.up(close(8))
                self.log.down(close(3))
                self.assertEqual(self.lines(), [f"{wanted}: closed by the client"])

    def test_the_first_purpose_counts(self) -> None:
        self.open_session()
        self.log.up(request(8, b"exec", string(b"one")))
        self.log.up(request(8, b"exec", string(b"two")))
        self.log.connection_ended()
        self.assertEqual(self.lines(), ["session exec one: cut off, since the connection ended"])

    def test_a_signal(self) -> None:
        self.open_session()
        rest = string(b"TERM") + b"\0" + string(b"") + string(b"")
        self.log.down(request(3, b"exit-signal", rest, 0))
        self.log.connection_ended()
        self.assertEqual(self.lines(), ["session: signal TERM"])

    def test_where_opens_want_to(self) -> None:
        for kind, rest, wanted in (
            (b"direct-tcpip", end(b"db", 5432), "direct-tcpip db:5432"),
            (b"direct-tcpip", end(b"::1", 22), "direct-tcpip [::1]:22"),
            (b"direct-tcpip", end(b"a\0b", 0xFFFFFFFF), "direct-tcpip a\\x00b:4294967295"),
            (b"forwarded-tcpip", end(b"", 80), "forwarded-tcpip :80"),
            (b"direct-streamlocal@openssh.com", string(b"/run/s"),
             "direct-streamlocal@openssh.com /run/s"),
            (b"x11", end(b"here", 6000), "x11"), (b"", b"", ""), (b"a b", b"", "a b"),
        ):  # fmt: skip
            with self.subTest(wanted):
                self.log.up(opening(3, kind, rest))
                self.log.down(failure(3, 1, b"no"))
                self.assertEqual(self.lines(), [f"{wanted}: refused by the server (1): no"])

    def test_the_server_s_opens(self) -> None:
        self.log.down(opening(8, b"forwarded-tcpip", end(b"localhost", 80)))
        self.log.up(failure(8, 2, b"connect failed"))
        self.log.down(opening(8, b"forwarded-tcpip", end(b"localhost", 80)))
        self.log.up(confirmation(8, 3))
        self.log.up(close(8))
        self.log.down(close(3))
        name = "forwarded-tcpip localhost:80"
        refused = f"{name}: refused by the client (2): connect failed"
        self.assertEqual(self.lines(), [refused, f"{name}: closed by the client"])

    def test_who_closes_first(self) -> None:
        self.open_session()
        self.log.down(close(3))
        self.log.down(close(3))
        self.assertEqual(self.lines(), [])
        self.log.up(close(8))
        self.assertEqual(self.lines(), ["session: closed by the server"])

    def test_a_number_that_is_used_again(self) -> None:
        self.open_session(3, 8)
        self.log.up(close(8))
        self.log.up(opening(3, b"direct-tcpip", end(b"db", 1)))
        # The first one's close comes when its number is another's already: that one isn't over.
        self.log.down(confirmation(3, 9))
        self.log.connection_ended()
        self.assertIn("direct-tcpip db:1: cut off, since the connection ended", self.lines())

    def test_the_same_numbers_on_both_sides(self) -> None:
        self.open_session(5, 5)
        self.log.down(opening(6, b"forwarded-tcpip", end(b"", 1)))
        self.log.up(close(5))
        self.log.down(close(5))
        self.assertEqual(self.lines(), ["session: closed by the client"])
        self.log.connection_ended()
        self.assertEqual(len(self.lines()), 1)

    def test_what_cannot_be_read_or_is_of_no_channel(self) -> None:
        self.open_session()
        for payload in (
            bytes([90]), opening(4)[:-1], bytes([91, 0]), request(8, b"exec")[:-1], bytes([97]),
            close(99), request(99, b"exec", string(b"x")), failure(99, 1, b""), confirmation(99, 1),
            bytes([94]) + uint32(8) + string(b"data"), request(8, b"exec", uint32(9)),
        ):  # fmt: skip
            with self.subTest(payload):
                self.log.up(payload)
                self.log.down(payload)
                self.assertEqual(self.written, [])

    def test_texts_of_the_other_side(self) -> None:
        for data, wanted in (
            (b"plain text", "plain text"), (b"\r\n\t\x07", "\\r\\n\\t\\x07"), (b"\xff", "\ufffd"),
            ("ä\u2028\u202e".encode(), "ä\\u2028\\u202e"), (b"\\n'\"", "\\n'\""), (b"", ""),
            (b"x" * LONGEST_TEXT, "x" * LONGEST_TEXT),
            (b"x" * (LONGEST_TEXT + 1), "x" * LONGEST_TEXT + "..."),
        ):  # fmt: skip
            with self.subTest(data):
                self.assertEqual(printable(data), wanted)


if __name__ == "__main__":
    unittest.main()
