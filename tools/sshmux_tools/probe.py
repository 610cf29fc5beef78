"""Whether the server of a master answers."""

import socket
import time

from sshmux_tools.control_socket import Refused, ask, connect, read_exactly, say_hello
from sshmux_tools.protocol import LONGEST_FRAME, Message, Mux, frame, string, uint32

# The channel of the question, its window and its longest message: nothing is said in it.
OURS, WINDOW, LONGEST = 0, 1 << 16, 1 << 15


class Question:
    """A client in proxy mode that has until a moment for all that it does."""

    def __init__(self, stream: socket.socket, end: float) -> None:
        self.stream, self.end = stream, end

    def hurry(self) -> None:
        left = self.end - time.monotonic()
        if left <= 0:
            raise TimeoutError
        self.stream.settimeout(left)

    def read(self) -> bytes:
        self.hurry()
        length = int.from_bytes(read_exactly(self.stream, 4), "big")
        if not 2 <= length <= LONGEST_FRAME:
            raise Refused("it doesn't speak as proxy mode does")
        self.hurry()
        return read_exactly(self.stream, length)[1:]

    def hear(self, *wanted: Message) -> bytes:
        """The first message of one of these kinds."""
        while (payload := self.read())[0] not in wanted:
            pass
        return payload

    def ask(self) -> None:
        """Opens a session, in which nothing is run, and closes it. A server that has no room for
        it has answered, too."""
        self.hurry()
        kind = string(b"session") + uint32(OURS, WINDOW, LONGEST)
        self.stream.sendall(frame(bytes([Message.CHANNEL_OPEN]) + kind))
        answer = self.hear(Message.CHANNEL_OPEN_CONFIRMATION, Message.CHANNEL_OPEN_FAILURE)
        if answer[0] == Message.CHANNEL_OPEN_CONFIRMATION:
            self.stream.sendall(frame(bytes([Message.CHANNEL_CLOSE]) + answer[5:9]))
            # Its place at the server is free by then.
            self.hear(Message.CHANNEL_CLOSE)


def answers(control: str, seconds: float) -> bool:
    """Whether the server says something through this master within so many seconds.

    A master that ends the connection has answered, too: it has as many clients as it can. Raises
    FileNotFoundError or ConnectionRefusedError where nobody listens at the path.
    """
    end = time.monotonic() + seconds
    try:
        with connect(control, seconds) as stream:
            say_hello(stream)
            ask(stream, Mux.PROXY, Mux.S_PROXY)
            Question(stream, end).ask()
    except TimeoutError:
        return False
    except (Refused, ConnectionResetError, BrokenPipeError):
        return True
    return True
