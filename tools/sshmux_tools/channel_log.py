"""One line for each channel that passes a transport: when it was opened, which kind it is, where
to, how it ended and after how many seconds.

Only a transport sees the channels of all clients; the master itself logs nothing.
"""

import dataclasses
import sys
import time
from collections.abc import Callable

from sshmux_tools.protocol import Fields, Message, Unreadable
from sshmux_tools.texts import place, printable

LOOKED_AT = frozenset(
    {
        Message.CHANNEL_OPEN,
        Message.CHANNEL_OPEN_CONFIRMATION,
        Message.CHANNEL_OPEN_FAILURE,
        Message.CHANNEL_CLOSE,
        Message.CHANNEL_REQUEST,
    }
)

# The requests that say what a session is for, and whether a command or a name stands in them.
PURPOSES = {b"shell": False, b"exec": True, b"subsystem": True}


@dataclasses.dataclass
class Channel:
    kind: str
    target: str
    opened: float = dataclasses.field(default_factory=time.time)
    # The number at the master's side, and the one at the server's.
    near: int | None = None
    far: int | None = None
    end: str | None = None
    closed_by: str | None = None


def target_of(kind: bytes, fields: Fields) -> str:
    """Where an open wants to: a host and port, or a path. A session tells it by a later request."""
    if kind in (b"direct-tcpip", b"forwarded-tcpip"):
        return place(fields.string(), fields.uint32())
    if kind in (b"direct-streamlocal@openssh.com", b"forwarded-streamlocal@openssh.com"):
        return printable(fields.string())
    return ""


class ChannelLog:
    """The open channels of one connection.

    The master's messages are to be shown before they are sent, and the server's once they are here,
    so that a number which is used again is never taken for the channel that had it before.
    """

    def __init__(self, write: Callable[[str], None]) -> None:
        self.write = write
        # Channels by the number at the master's side and by that at the server's.
        self.near: dict[int, Channel] = {}
        self.far: dict[int, Channel] = {}

    def up(self, payload: bytes | bytearray) -> None:
        """A message of the master's: what it opens is near, what it speaks to is far."""
        self.look(payload, self.near, self.far, "the client")

    def down(self, payload: bytes | bytearray) -> None:
        """A message of the server's."""
        self.look(payload, self.far, self.near, "the server")

    def connection_ended(self) -> None:
        channels = {id(c): c for c in [*self.near.values(), *self.far.values()]}
        for channel in channels.values():
            self.over(channel, channel.end or "cut off, since the connection ended")

    def look(
        self,
        payload: bytes | bytearray,
        own: dict[int, Channel],
        others: dict[int, Channel],
        side: str,
    ) -> None:
        if payload[0] not in LOOKED_AT:
            return
        try:
            if payload[0] == Message.CHANNEL_OPEN:
                self.opened(Fields(payload, 1), own)
            else:
                self.told(Message(payload[0]), Fields(payload, 1), own, others, side)
        except Unreadable:
            # The master or the server answers for it, and the log says no more than it can read.
            return

    def opened(self, fields: Fields, own: dict[int, Channel]) -> None:
        kind = fields.string()
        number = fields.uint32()
        fields.take(8)
        channel = Channel(printable(kind), target_of(kind, fields))
        self.number(channel, own, number)

    def number(self, channel: Channel, own: dict[int, Channel], number: int) -> None:
        own[number] = channel
        if own is self.near:
            channel.near = number
        else:
            channel.far = number

    def told(
        self,
        message: Message,
        fields: Fields,
        own: dict[int, Channel],
        others: dict[int, Channel],
        side: str,
    ) -> None:
        channel = others.get(fields.uint32())
        if channel is None:
            return
        match message:
            case Message.CHANNEL_OPEN_CONFIRMATION:
                self.number(channel, own, fields.uint32())
            case Message.CHANNEL_OPEN_FAILURE:
                reason = fields.uint32()
                text = printable(fields.string())
                self.over(channel, f"refused by {side} ({reason}): {text}")
            case Message.CHANNEL_REQUEST:
                self.requested(channel, fields)
            case Message.CHANNEL_CLOSE:
                if channel.closed_by in (None, side):
                    channel.closed_by = side
                else:
                    self.over(channel, channel.end or f"closed by {channel.closed_by}")

    def requested(self, channel: Channel, fields: Fields) -> None:
        name = fields.string()
        fields.take(1)
        if name in PURPOSES and not channel.target:
            channel.target = name.decode()
            if PURPOSES[name]:
                channel.target += " " + printable(fields.string())
        elif name == b"exit-status":
            channel.end = f"exit status {fields.uint32()}"
        elif name == b"exit-signal":
            channel.end = f"signal {printable(fields.string())}"

    def over(self, channel: Channel, end: str) -> None:
        for table, number in ((self.near, channel.near), (self.far, channel.far)):
            if number is not None and table.get(number) is channel:
                del table[number]
        when = time.strftime("%Y-%m-%d %H:%M:%S", time.localtime(channel.opened))
        named = f"{channel.kind} {channel.target}".rstrip()
        self.write(f"{when} {named}: {end}, {time.time() - channel.opened:.1f} s")


def log_of(tool: str, is_verbose: bool) -> ChannelLog | None:
    """A log on standard error, if one is wanted."""
    if not is_verbose:
        return None
    return ChannelLog(lambda line: print(f"{tool}: {line}", file=sys.stderr, flush=True))
