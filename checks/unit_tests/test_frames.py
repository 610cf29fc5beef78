"""How the tools cut and write frames: of proxy mode, of the control phase, and the front's."""

from __future__ import annotations

import selectors
import socket
import struct
import unittest

from sshmux_tools import control_socket
from sshmux_tools.control_socket import Refused, read_control_frame
from sshmux_tools.plain_front.requests import Forwarding, SessionRequest
from sshmux_tools.protocol import LONGEST_FRAME, PADDED_SUCCESS, PORT_OF_PATH, Fields, Message, Mux
from sshmux_tools.protocol import Unreadable, control_frame, frame, string, uint32, wanted_request
from sshmux_tools.protocol import whole_payloads
from sshmux_tools.proxy_channels import ProxyChannels, close_of, refusal_of
from sshmux_tools.streams import Loop, Stream, Wire


def payloads(data: bytes) -> list[bytes]:
    return [data[begin:end] for begin, end in whole_payloads(data)]


def global_request(name: bytes, *rest: int) -> bytes:
    return bytes([Message.GLOBAL_REQUEST]) + string(name) + bytes(rest)


class ProxyFramesTest(unittest.TestCase):
    def test_a_frame_is_read_back(self) -> None:
        for payload in (b"x", b"\0", bytes(300), b"y" * (LONGEST_FRAME - 1)):
            with self.subTest(len(payload)):
                written = frame(payload)
                self.assertEqual(written[:5], struct.pack(">IB", len(payload) + 1, 0))
                self.assertEqual(payloads(written), [payload])

    def test_what_is_there_as_a_whole(self) -> None:
        data = frame(b"one") + frame(b"two")
        for count in range(len(data)):
            with self.subTest(count):
                self.assertEqual(payloads(data[:count]), [b"one"] if count >= 8 else [])
        self.assertEqual(payloads(data), [b"one", b"two"])

    def test_where_they_stand(self) -> None:
        self.assertEqual(list(whole_payloads(frame(b"one") + frame(b"four"))), [(5, 8), (13, 17)])

    def test_lengths_that_no_frame_has(self) -> None:
        for length in (0, 1, LONGEST_FRAME + 1, 0xFFFFFFFF):
            with self.subTest(length):
                with self.assertRaisesRegex(Unreadable, f"length {length}$"):
                    payloads(uint32(length) + b"\0" * 9)

    def test_a_padding(self) -> None:
        with self.assertRaisesRegex(Unreadable, "padding of length 7"):
            payloads(uint32(3) + b"\7ab")

    def test_a_bad_frame_behind_a_good_one(self) -> None:
        found = whole_payloads(frame(b"one") + uint32(1))
        self.assertEqual(next(found), (5, 8))
        self.assertRaises(Unreadable, next, found)

    def test_requests_that_want_a_reply(self) -> None:
        for request, wanted in (
            (global_request(b"keepalive@openssh.com", 1), b"keepalive@openssh.com"),
            (global_request(b"x", 7, 1, 2), b"x"), (global_request(b"", 255), b""),
            (global_request(b"x", 0), None), (global_request(b"x"), None),
            (bytes([80]) + uint32(99) + b"short", None), (bytes([80]), None),
        ):  # fmt: skip
            with self.subTest(request):
                self.assertEqual(wanted_request(request), wanted)

    def test_a_success_is_long_enough_for_openssh(self) -> None:
        self.assertGreater(struct.unpack_from(">I", frame(PADDED_SUCCESS))[0], 2)


class StreamTest(unittest.TestCase):
    def setUp(self) -> None:
        ours, self.theirs = socket.socketpair()
        self.loop = Loop()
        self.stream = Stream(self.loop, ours)
        for close in (ours.close, self.theirs.close, self.loop.selector.close):
            self.addCleanup(close)

    def test_what_comes_and_its_end(self) -> None:
        self.stream.receive()
        self.assertEqual((bytes(self.stream.incoming), self.stream.has_ended), (b"", False))
        self.theirs.sendall(b"one")
        self.stream.receive()
        self.theirs.close()
        self.stream.receive()
        self.assertEqual((bytes(self.stream.incoming), self.stream.has_ended), (b"one", True))

    def test_what_the_socket_does_not_take_waits(self) -> None:
        data = bytes(range(256)) * (Stream.MOST_WAITING // 128)
        self.stream.say(data)
        self.assertTrue(0 < len(self.stream.outgoing) < len(data))
        self.stream.say(b"end")
        came = b""
        while len(came) < len(data) + 3:
            came += self.theirs.recv(1 << 20)
            self.stream.write()
        self.assertEqual((came == data + b"end", len(self.stream.outgoing)), (True, 0))

    def test_it_is_full_from_the_bound_on(self) -> None:
        self.stream.outgoing += bytes(Stream.MOST_WAITING - 1)
        self.assertFalse(self.stream.is_full())
        self.stream.outgoing += b"x"
        self.assertTrue(self.stream.is_full())

    def test_behind_its_end_nothing_is_written(self) -> None:
        self.stream.end_writing()
        self.stream.say(b"late")
        self.assertEqual((self.theirs.recv(9), len(self.stream.outgoing)), (b"", 0))

    def test_a_reader_that_left(self) -> None:
        self.theirs.close()
        self.stream.say(b"one")
        self.stream.say(b"two")
        self.assertEqual((self.stream.is_deaf, len(self.stream.outgoing)), (True, 0))

    def test_what_is_waited_for(self) -> None:
        read, write = selectors.EVENT_READ, selectors.EVENT_WRITE
        for wants_more, waiting, ended, wanted in (
            (True, b"", False, read), (True, b"x", False, read | write),
            (False, b"x", False, write), (False, b"", False, 0), (True, b"", True, 0),
        ):  # fmt: skip
            self.stream.outgoing[:], self.stream.has_ended = waiting, ended
            self.stream.watch(wants_more)
            found = [key.events for key in self.loop.selector.get_map().values()]
            self.assertEqual(found, [wanted] if wanted else [])


class ControlFramesTest(unittest.TestCase):
    def setUp(self) -> None:
        self.ours, self.theirs = socket.socketpair()
        for it in (self.ours, self.theirs):
            it.settimeout(10)
            self.addCleanup(it.close)

    def test_a_frame_in_pieces(self) -> None:
        self.assertEqual(control_frame(1, 4), bytes.fromhex("000000080000000100000004"))
        for byte in control_frame(1, 4):
            self.theirs.sendall(bytes([byte]))
        self.assertEqual(read_control_frame(self.ours), uint32(1, 4))

    def test_lengths_that_no_frame_has(self) -> None:
        for length in (0, 3, LONGEST_FRAME + 1):
            self.theirs.sendall(uint32(length))
            with self.assertRaisesRegex(Refused, "as a control socket does"):
                read_control_frame(self.ours)

    def test_an_end_in_a_frame(self) -> None:
        self.theirs.sendall(uint32(8) + b"1234")
        self.theirs.close()
        with self.assertRaisesRegex(Refused, "ended the connection"):
            read_control_frame(self.ours)

    def test_a_greeting(self) -> None:
        for said, is_taken in (
            (control_frame(1, 4), True), (control_frame(1, 4, 7), True),
            (control_frame(1, 3), False), (control_frame(2, 4), False), (control_frame(1), False),
        ):  # fmt: skip
            with self.subTest(said):
                self.theirs.sendall(said)
                if is_taken:
                    control_socket.say_hello(self.ours)
                else:
                    self.assertRaises(Refused, control_socket.say_hello, self.ours)
                self.assertEqual(self.theirs.recv(99), control_frame(1, 4))

    def test_an_answer(self) -> None:
        self.theirs.sendall(control_frame(Mux.S_ALIVE, 0, 42) + control_frame(0x80000003, 0))
        found = control_socket.ask(self.ours, Mux.ALIVE_CHECK, Mux.S_ALIVE)
        self.assertEqual((found.uint32(), found.has_more()), (42, False))
        with self.assertRaisesRegex(Refused, "it refuses"):
            control_socket.ask(self.ours, Mux.PROXY, Mux.S_PROXY)


class FrontFramesTest(unittest.TestCase):
    def setUp(self) -> None:
        ours, self.theirs = socket.socketpair()
        self.loop, self.came, self.ends = Loop(), list[bytes](), list[bool]()
        self.wire = Wire(self.loop, ours, self.came.append, lambda: self.ends.append(True))
        for close in (ours.close, self.theirs.close, self.loop.selector.close):
            self.addCleanup(close)

    def test_frames_in_pieces(self) -> None:
        data = uint32(3) + b"one" + uint32(0) + uint32(1) + b"2"
        for byte in data:
            self.theirs.sendall(bytes([byte]))
            self.loop.turn()
        self.assertEqual((self.came, self.ends), ([b"one", b"", b"2"], []))

    def test_a_length_past_the_bound_ends_it(self) -> None:
        self.theirs.sendall(uint32(LONGEST_FRAME + 1))
        self.loop.turn()
        self.assertEqual((self.came, self.ends), ([], [True]))

    def test_the_end_of_the_other_side(self) -> None:
        self.theirs.sendall(uint32(3) + b"on")
        self.theirs.close()
        self.loop.turn()
        self.loop.turn()
        self.assertEqual((self.came, self.ends), ([], [True]))

    def test_what_is_written(self) -> None:
        self.wire.send(b"o", b"ne")
        self.wire.send()
        self.assertEqual(self.theirs.recv(99), uint32(3) + b"one" + uint32(0))

    def test_fields(self) -> None:
        fields = Fields(b"\7" + uint32(5) + string(b"text") + b"rest")
        found = fields.byte(), fields.uint32(), fields.text(), fields.has_more(), fields.rest()
        self.assertEqual(found, (7, 5, "text", True, b"rest"))
        self.assertFalse(fields.has_more())
        for data in (b"", uint32(1), uint32(5) + b"four"):
            self.assertRaises(Unreadable, Fields(data).string)

    def test_a_forwarding_is_read_back(self) -> None:
        wanted = Forwarding(1, b"", 8080, b"db", 5432)
        body = Fields(wanted.body(Mux.OPEN_FWD, 7))
        self.assertEqual((body.uint32(), body.uint32()), (Mux.OPEN_FWD, 7))
        self.assertEqual((Forwarding.read(body), body.has_more()), (wanted, False))

    def test_names_of_forwardings(self) -> None:
        for kind, listen, connect, name, is_the_front_s in (
            (1, (b"", 8080), (b"db", 5432), "-L 8080:db:5432", False),
            (1, (b"::1", 1), (b"::2", 2), "-L [::1]:1:[::2]:2", False),
            (1, (b"/here", PORT_OF_PATH), (b"db", 1), "-L /here:db:1", True),
            (1, (b"", 1), (b"/there", PORT_OF_PATH), "-L 1:/there", True),
            (2, (b"", 0), (b"db", 1), "-R 0:db:1", False),
            (2, (b"*", 1080), (b"", 0), "-R *:1080", True),
            (3, (b"", 1080), (b"", 0), "-D 1080", False),
            (9, (b"", 1), (b"a\nb", 2), "kind 9 1:a\\nb:2", False),
        ):  # fmt: skip
            with self.subTest(name):
                found = Forwarding(kind, *listen, *connect)
                self.assertEqual((found.name, found.is_for_the_front), (name, is_the_front_s))

    def test_a_session_s_request(self) -> None:
        flags = uint32(1, 0, 1, 1, ord("~"))
        text = string(b"") + flags + string(b"vt100") + string(b"sftp") + string(b"LANG=C")
        found = SessionRequest.read(Fields(text))
        self.assertEqual((found.terminal, found.x11, found.agent), (True, False, True))
        self.assertEqual((found.name, found.environment), ("session subsystem sftp", [b"LANG=C"]))
        self.assertRaises(Unreadable, SessionRequest.read, Fields(text[:-1]))


def opened(far: int) -> bytes:
    return bytes([90]) + string(b"forwarded-tcpip") + uint32(far, 1, 1)


class ProxyChannelsTest(unittest.TestCase):
    """What is said in the place of a client that is gone."""

    def setUp(self) -> None:
        self.channels = ProxyChannels()

    def confirmed(self, near: int, far: int) -> None:
        self.channels.down(bytes([91]) + uint32(near, far, 1, 1))

    def test_its_channels_are_closed_once(self) -> None:
        self.confirmed(0, 10)
        self.confirmed(1, 11)
        self.channels.up(bytes([97]) + uint32(10))
        self.assertEqual(self.channels.take_leave(), close_of(11))
        self.assertEqual(self.channels.take_leave(), b"")

    def test_the_server_s_opens_are_refused(self) -> None:
        for far in (7, 5, 6):
            self.channels.down(opened(far))
        self.channels.up(bytes([92]) + uint32(6))
        self.channels.up(bytes([91]) + uint32(5, 0, 1, 1))
        self.assertEqual(self.channels.take_leave(), close_of(5) + refusal_of(7))

    def test_numbers_that_are_free_again(self) -> None:
        self.confirmed(0, 10)
        self.channels.down(bytes([97]) + uint32(0))
        self.channels.up(bytes([97]) + uint32(10))
        self.assertEqual((self.channels.far, self.channels.take_leave()), ({}, b""))
        self.confirmed(0, 10)
        self.assertEqual(self.channels.take_leave(), close_of(10))

    def test_what_comes_later_is_answered(self) -> None:
        self.assertEqual(self.channels.answer(bytes([91]) + uint32(3, 9, 1, 1)), close_of(9))
        self.assertEqual(self.channels.answer(opened(8)), refusal_of(8))
        self.assertEqual(self.channels.answer(bytes([97]) + uint32(3)), b"")

    def test_what_cannot_be_read_is_no_matter_of_it(self) -> None:
        for kind in (90, 91, 92, 97):
            self.channels.up(bytes([kind]))
            self.channels.down(bytes([kind, 0, 0]))
        self.assertEqual(self.channels.take_leave(), b"")


if __name__ == "__main__":
    unittest.main()
