"""What is left of typed bytes by the front's filter of escape characters."""

from __future__ import annotations

import itertools
import unittest

from sshmux_tools.plain_front.relay import EscapeFilter

TILDE = ord("~")


def filtered(pieces: list[bytes], character: int = TILDE) -> tuple[bytes, bool]:
    """What is left of all, until the session is to end."""
    escapes, left = EscapeFilter(character), b""
    for piece in pieces:
        more, is_ended = escapes.take(piece)
        left += more
        if is_ended:
            return left, True
    return left, False


def cuts_of(data: bytes) -> list[list[bytes]]:
    """Each way to cut a few bytes into pieces."""
    found = []
    for count in range(len(data)):
        for places in itertools.combinations(range(1, len(data)), count):
            ends = [0, *places, len(data)]
            found.append([data[a:b] for a, b in zip(ends, ends[1:])])
    return found


# What is typed, what is left of it, and whether it ends the session.
TYPED: tuple[tuple[bytes, bytes, bool], ...] = (
    (b"ls\n", b"ls\n", False),
    (b"~.", b"", True),
    (b"ls\r~.rest", b"ls\r", True),
    (b"a\n~.", b"a\n", True),
    (b"a~.b", b"a~.b", False),
    (b"~~.", b"~.", False),
    (b"~~~.", b"~~.", False),
    (b"\n~~\n~.", b"\n~\n", True),
    (b"~a.", b"~a.", False),
    (b"~\n~.", b"~\n", True),
    (b"~\r~~", b"~\r~", False),
    (b".\n.", b".\n.", False),
    (b"~", b"", False),
    (b"\0\xff~.", b"\0\xff~.", False),
)


class EscapeFilterTest(unittest.TestCase):
    def test_what_is_left_however_it_is_cut(self) -> None:
        for typed, left, is_ended in TYPED:
            for pieces in cuts_of(typed):
                with self.subTest(typed=typed, pieces=pieces):
                    self.assertEqual(filtered(pieces), (left, is_ended))

    def test_another_character(self) -> None:
        self.assertEqual(filtered([b"~.\n%."], ord("%")), (b"~.\n", True))

    def test_one_that_waits_is_told(self) -> None:
        escapes = EscapeFilter(TILDE)
        escapes.take(b"x\n~")
        self.assertTrue(escapes.is_escaped)
        escapes.take(b"x")
        self.assertFalse(escapes.is_escaped)


if __name__ == "__main__":
    unittest.main()
