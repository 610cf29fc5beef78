"""The control phase of PROTOCOL.mux, version 4, as a client of a master: hello, and one request."""

import socket
import time

from sshmux_tools.protocol import HELLO, LONGEST_FRAME, Fields, Mux, Unreadable, control_frame
from sshmux_tools.protocol import is_hello, string

# How long a master may take for an answer that it gives by itself.
ANSWER_SECONDS = 10
PAUSE_SECONDS = 0.02

FOREIGN = "it doesn't speak as a control socket does"


class Refused(Exception):
    """The master says no, or speaks otherwise than the protocol wants it."""


def read_exactly(stream: socket.socket, count: int) -> bytes:
    data = b""
    while len(data) < count:
        more = stream.recv(count - len(data))
        if not more:
            raise Refused("it ended the connection")
        data += more
    return data


def read_control_frame(stream: socket.socket) -> bytes:
    length = int.from_bytes(read_exactly(stream, 4), "big")
    if not 4 <= length <= LONGEST_FRAME:
        raise Refused(FOREIGN)
    return read_exactly(stream, length)


def connect(path: str, seconds: float | None = None) -> socket.socket:
    """A connection, on which each call may take so many seconds. Raises OSError where nobody
    listens, and TimeoutError where so many wait to be let in that there is no place."""
    end = None if seconds is None else time.monotonic() + seconds
    stream = socket.socket(socket.AF_UNIX)
    try:
        stream.settimeout(seconds)
        while True:
            try:
                stream.connect(path)
                return stream
            except BlockingIOError:
                if end is not None and time.monotonic() > end:
                    raise TimeoutError(f"{path}: no place to wait") from None
                time.sleep(PAUSE_SECONDS)
    except BaseException:
        stream.close()
        raise


def is_served(path: str) -> bool:
    """Whether somebody listens there, even one that lets nobody in."""
    try:
        connect(path, 0.5).close()
    except TimeoutError:
        return True
    except OSError:
        return False
    return True


def say_hello(stream: socket.socket) -> None:
    stream.sendall(string(HELLO))
    if not is_hello(read_control_frame(stream)):
        raise Refused("it speaks another version")


def ask(stream: socket.socket, request: Mux, granted: Mux) -> Fields:
    """Makes a request that has no fields but its id; the fields of the answer behind its id."""
    stream.sendall(control_frame(request, 0))
    answer = Fields(read_control_frame(stream))
    try:
        kind, _request = answer.uint32(), answer.uint32()
    except Unreadable:
        raise Refused(FOREIGN) from None
    if kind != granted:
        raise Refused("it refuses")
    return answer


def ask_at(path: str, request: Mux, granted: Mux, seconds: float) -> Fields:
    with connect(path, seconds) as stream:
        say_hello(stream)
        return ask(stream, request, granted)


def terminate(path: str) -> None:
    """Asks a master to end, as `ssh -O exit` does. Raises OSError or Refused where it can't."""
    ask_at(path, Mux.TERMINATE, Mux.S_OK, ANSWER_SECONDS)


def stop_listening(path: str) -> None:
    """Asks a master to let nobody in any more, as `ssh -O stop` does. Raises as terminate."""
    ask_at(path, Mux.STOP_LISTENING, Mux.S_OK, ANSWER_SECONDS)


def pid_of(path: str, seconds: float = ANSWER_SECONDS) -> int:
    """The process that a master says it is, as `ssh -O check` asks. Raises as terminate."""
    try:
        return ask_at(path, Mux.ALIVE_CHECK, Mux.S_ALIVE, seconds).uint32()
    except Unreadable:
        raise Refused(FOREIGN) from None
