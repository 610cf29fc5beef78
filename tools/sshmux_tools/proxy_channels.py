"""The channels of one client of OpenSSH's master in proxy mode, as a transport sees them pass, and
what is sent in the client's place once it is gone: so the client can be kept without it."""

from sshmux_tools.protocol import Fields, Message, Unreadable, frame, string, uint32

PROHIBITED = 1


def close_of(far: int) -> bytes:
    return frame(bytes([Message.CHANNEL_CLOSE]) + uint32(far))


def refusal_of(far: int) -> bytes:
    why = uint32(PROHIBITED) + string(b"client is gone") + string(b"")
    return frame(bytes([Message.CHANNEL_OPEN_FAILURE]) + uint32(far) + why)


class ProxyChannels:
    """Those that are open, and the server's opens that have no answer."""

    def __init__(self) -> None:
        # The number at the server's side, by that at the client's.
        self.far: dict[int, int] = {}
        # By the number at the server's side: those that the client has closed, those that the
        # server has closed, and opens of the server's.
        self.closed_up: set[int] = set()
        self.closed_down: set[int] = set()
        self.asked: set[int] = set()

    def up(self, payload: bytes | bytearray) -> None:
        """A message of the client's."""
        fields = Fields(payload, 1)
        try:
            match payload[0]:
                case Message.CHANNEL_OPEN_CONFIRMATION:
                    far, near = fields.uint32(), fields.uint32()
                    self.asked.discard(far)
                    self.far[near] = far
                case Message.CHANNEL_OPEN_FAILURE:
                    self.asked.discard(fields.uint32())
                case Message.CHANNEL_CLOSE:
                    far = fields.uint32()
                    self.closed_up.add(far)
                    self.forget_if_closed(far)
        except Unreadable:
            # OpenSSH's master answers for it.
            return

    def down(self, payload: bytes | bytearray) -> None:
        """A message of the server's."""
        fields = Fields(payload, 1)
        try:
            match payload[0]:
                case Message.CHANNEL_OPEN:
                    fields.string()
                    self.asked.add(fields.uint32())
                case Message.CHANNEL_OPEN_CONFIRMATION:
                    near = fields.uint32()
                    self.far[near] = fields.uint32()
                case Message.CHANNEL_CLOSE:
                    far = self.far.get(fields.uint32())
                    if far is not None:
                        self.closed_down.add(far)
                        self.forget_if_closed(far)
        except Unreadable:
            return

    def forget_if_closed(self, far: int) -> None:
        if far in self.closed_up and far in self.closed_down:
            self.closed_up.discard(far)
            self.closed_down.discard(far)
            self.far = {near: other for near, other in self.far.items() if other != far}

    def take_leave(self) -> bytes:
        """What the client, which is gone, still has to send now: it closes each channel that it
        hasn't closed, and refuses what the server asks for."""
        left = [far for far in self.far.values() if far not in self.closed_up]
        said = b"".join(map(close_of, left)) + b"".join(map(refusal_of, sorted(self.asked)))
        for far in left:
            self.closed_up.add(far)
            self.forget_if_closed(far)
        self.asked.clear()
        return said

    def answer(self, payload: bytes | bytearray) -> bytes:
        """What is sent upon a message of the server's for a client that is gone."""
        self.down(payload)
        return self.take_leave()
