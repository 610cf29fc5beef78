"""Messages at random: what clients and the server may send next, by what the model knows."""

from __future__ import annotations

import random
from collections.abc import Callable
from typing import TypeVar

from play import (
    ADJUST, ALIVE_CHECK, ASK_PATH, ASK_PORT, CANCEL_PORT, CLOSE, CLOSE_FWD, CONFIRMATION, DATA,
    DEBUG, DIRECT_PATH, DIRECT_PORT, DISCONNECT, EOF, EXTENDED_DATA, FAILURE, FORWARDED_PATH,
    FORWARDED_PORT, GLOBAL_REQUEST, HELLO, IGNORE, KEEPALIVE, NEW_SESSION, NEW_STDIO_FWD, OPEN,
    OPEN_FAILURE, OPEN_FWD, PROXY, REQUEST, REQUEST_FAILURE, REQUEST_SUCCESS, SESSION,
    STOP_LISTENING, SUCCESS, TERMINATE, UNIMPLEMENTED, VERSION, control_frame, proxy_frame, text,
    u32,
)
from random_play.messages import ASKS, CANCEL_OF, Key, LONGEST_FRAME, LONGEST_NAME
from random_play.model import (
    ClientRules, DYNAMIC, EVERYWHERE, LAST_PORT, LOCAL, MOST_CHANNELS, MOST_FORWARDINGS,
    MOST_UNANSWERED, Model, REMOTE, Side, permits,
)

WINDOWS = [0, 1, 10, 100, 1000, 5000, 32768, 100_000, 0xFFFFFFFF]
LONGEST = [0, 1, 50, 1000, 32768, 0xFFFFFFFF]
ADDRESSES = [b"", b"db", b"db", b"::1", b"*", b"DB", b"\xff\xfe", b"a" * 255, b"a" * 256]
PORTS = [0, 0, 22, 80, 443, 8080, 70_000]
# Where the master listens for its own, and where it connects to: nobody listens there.
HERE = [b"", b"localhost", b"127.0.0.1", b"127.0.0.2"]
# Where it may be asked to listen for the world; it is where the list doesn't permit that.
WORLD = [b"*", EVERYWHERE]
NOBODY = [(b"127.0.0.1", 1), (b"127.0.0.1", 2)]
# The port of an end that is a path.
PATH_PORT = 0xFFFFFFFE
PATHS = [b"/run/s", b"/run/s", b"/run/t", b"/", b"", b"/" + b"p" * 254, b"/" + b"p" * 255]
PERMISSIONS: list[list[str]] = [
    [], [], [], ["any"], ["none"], ["db:80", "*:443", "[::1]:*", "8080", "/run/s"], ["db:*"],
    ["*:*"], ["0", "/run/t", "[*]:22"], ["/run/s", "/"], ["DB:0080", "db:0"],
]
# What the words say of where the master listens: two of the ports are free.
PERMISSIONS_HERE: list[list[str]] = [
    [], [], [], ["any"], ["none"], ["127.0.0.1:*"], ["127.0.0.1:*", "127.0.0.2:{0}"], ["{0}"],
    ["127.0.0.1:{0}", "127.0.0.2:{1}"], ["*:{1}"], ["localhost:*", "[::1]:*", "/run/s"],
]
# What the words say of sessions.
SESSION_WORDS: list[list[str]] = [[], [], [], [], ["any"], ["none"], ["any", "none"], ["none", "any"]]
REQUESTS = [b"shell", b"exec", b"env", b"exit-status", b"window-change", b"", b"eow@openssh.com"]
PLAIN_TYPES = [b"x11", b"auth-agent@openssh.com", b"", b"session ", b"SESSION"]
OTHER_REQUESTS = [b"no-more-sessions@openssh.com", b"hostkeys@openssh.com", b"", b"tcpip-forward "]


Made = TypeVar("Made")
# What may be said next, each with its weight.
Choices = list[tuple[float, Callable[[], bytes]]]


class Sayings:
    """Makes up what clients and the server say, from what the model knows."""

    def __init__(self, rng: random.Random, model: Model) -> None:
        self.rng, self.model = rng, model

    def some(self, *choices: tuple[float, Callable[[], Made]]) -> Made:
        """Calls one of the methods, each with its weight."""
        return self.rng.choices([it[1] for it in choices], [it[0] for it in choices])[0]()

    def true(self) -> int:
        return self.rng.choice([1, 1, 1, 2, 7, 255])

    def boolean(self) -> bytes:
        return bytes([self.rng.choice([0, self.true()])])

    def rare(self, part: float = 0.03) -> bool:
        return self.rng.random() < part

    def noise(self, most: int = 40) -> bytes:
        return self.rng.randbytes(self.rng.randrange(most))

    def port_key(self) -> bytes:
        return text(self.rng.choice(ADDRESSES)) + u32(self.rng.choice(PORTS))

    def spelled(self, key: Key) -> bytes:
        return text(key[1]) + (u32(key[2]) if key[0] == "port" else b"")

    # Of control.

    def control(self, client: ClientRules) -> bytes:
        number = self.rng.choice([0, 1, 7, 0xFFFFFFFF])
        if not client.greeted:
            if self.rare():
                others = [u32(HELLO) + u32(3), u32(HELLO), u32(PROXY) + u32(1), b"1234"]
                return self.rng.choice([*others, u32(HELLO) + u32(VERSION) + text(b"name")])
            more = text(b"name") + text(b"value") if self.rare(0.1) else b""
            return u32(HELLO) + u32(VERSION) + more
        return self.some(
            (20, lambda: u32(PROXY) + u32(number)),
            (6, lambda: u32(ALIVE_CHECK) + u32(number)),
            (9, lambda: u32(OPEN_FWD) + u32(number) + self.asked_of_the_house()),
            (6, lambda: u32(CLOSE_FWD) + u32(number) + self.asked_of_the_house()),
            (1, lambda: u32(0x10000003) + u32(number)),
            (1, lambda: u32(0x20000000) + u32(number) + self.noise()),
            (0.7, lambda: u32(NEW_SESSION) + u32(number) + self.noise()),
            (0.7, lambda: u32(NEW_STDIO_FWD) + u32(number) + self.noise()),
            (0.2, lambda: u32(STOP_LISTENING) + u32(number)),
            (0.1, lambda: u32(TERMINATE) + u32(number)),
            (0.3, lambda: u32(HELLO) + u32(VERSION)),
            (0.3, lambda: u32(0x20000000)),
            (0.3, lambda: u32(ALIVE_CHECK) + u32(number) + b"\0"),
            (0.3, lambda: u32(OPEN_FWD) + u32(number) + self.asked_of_the_house()[:-1]),
        )

    def asked_of_the_house(self) -> bytes:
        """A forwarding of the master's own: mostly one that may be, or that is there."""
        own = self.model.own
        if own and not self.rare(0.5):
            kind, host, port = self.rng.choice(own).place
            # What the server is told as the empty address is asked for as a star.
            host = b"*" if kind == REMOTE and not host else host
        elif self.rare(0.5):
            kind, host, port = REMOTE, self.rng.choice(ADDRESSES), self.rng.choice(PORTS)
        else:
            kind, host = self.rng.choice([LOCAL, DYNAMIC]), self.rng.choice([*HERE, *WORLD])
            port = self.rng.choice([*self.model.free, *self.model.free, self.model.taken])
            if host in WORLD and self.model.permits_here(kind, EVERYWHERE, port):
                host = b""
        ends = [(b"", 0), (b"socks", 0)] if kind == DYNAMIC else NOBODY
        end = ends[self.rare(0.2)]
        if self.rare(0.1):
            kind, port, end = self.some(
                (1, lambda: (self.rng.choice([0, 4, 0xFFFFFFFF]), port, end)),
                (1, lambda: (kind, self.rng.choice([0, LAST_PORT + 1, PATH_PORT]), end)),
                (1, lambda: (kind, port, (b"h", self.rng.choice([0, LAST_PORT + 1, PATH_PORT])))),
                (1, lambda: (kind, port, (b"h" * (LONGEST_NAME + 1), 1))),
            )
        return u32(kind) + text(host) + u32(port) + text(end[0]) + u32(end[1])

    # Of both sides.

    def transport(self) -> bytes:
        return self.some(
            (3, lambda: bytes([IGNORE]) + text(self.noise())),
            (1, lambda: bytes([IGNORE]) + self.noise()),
            (1, lambda: bytes([UNIMPLEMENTED]) + u32(7)),
            (1, lambda: bytes([DEBUG]) + self.boolean() + text(self.noise()) + text(b"")),
        )

    def unreadable(self) -> bytes:
        """A number that isn't known, or a message that is cut or too long."""
        unknown = [0, 5, 20, 21, 30, 50, 79, 83, 89, 101, 127, 192, 255]
        whole = [
            bytes([OPEN]) + text(SESSION) + u32(1) + u32(2) + u32(3),
            bytes([DATA]) + u32(0) + text(b"data"),
            bytes([EOF]) + u32(0),
            bytes([ADJUST]) + u32(0) + u32(1),
            bytes([OPEN_FAILURE]) + u32(0) + u32(1) + text(b"") + text(b""),
            bytes([GLOBAL_REQUEST]) + text(ASK_PORT) + b"\1" + text(b"a") + u32(1),
            bytes([REQUEST]) + u32(0) + text(b"shell") + b"\1",
            bytes([CONFIRMATION]) + u32(0) + u32(1) + u32(2) + u32(3),
        ]
        return self.some(
            (1, lambda: bytes([self.rng.choice(unknown)]) + self.noise()),
            (1, lambda: self.rng.choice(whole)[: self.rng.randrange(1, 5)]),
            (1, lambda: self.rng.choice(whole)[:-1]),
            (1, lambda: self.rng.choice(whole[1:6]) + b"\0"),
        )

    def bad_frame(self) -> bytes:
        """Bytes that are no frame."""
        lengths = [u32(0), u32(1), u32(LONGEST_FRAME + 1), b"\xff" * 9]
        return self.rng.choice([*lengths, u32(7) + b"\1"])

    def data(self, recipient: int, side: Side, wild: bool) -> bytes:
        fits = min(side.room, side.longest)
        size = self.rng.choice([0, 1, fits, fits, self.rng.randrange(fits + 1)])
        size = min(size, fits, 150_000) if not wild else min(fits + 1, 150_000)
        body = self.rng.randbytes(size)
        if self.rare(0.2):
            return bytes([EXTENDED_DATA]) + u32(recipient) + u32(1) + text(body)
        return bytes([DATA]) + u32(recipient) + text(body)

    def request(self, recipient: int) -> bytes:
        name = text(self.rng.choice(REQUESTS))
        return bytes([REQUEST]) + u32(recipient) + name + self.boolean() + self.noise()

    def adjust(self, recipient: int, other: Side, wild: bool) -> bytes:
        left = 0xFFFFFFFF - other.room
        count = min(left, self.rng.choice([0, 1, 100, 5000, 40_000, left]))
        return bytes([ADJUST]) + u32(recipient) + u32(min(0xFFFFFFFF, left + 1) if wild else count)

    def to_channel(self, recipient: int, side: Side, other: Side, wild: bool) -> bytes:
        """A message to a channel that its account allows, but for wild ones."""
        if side.closed:
            return bytes([self.rng.choice([EOF, CLOSE])]) + u32(recipient)
        choices: Choices = [
            (4, lambda: self.adjust(recipient, other, wild)),
            (4, lambda: self.request(recipient)),
            (1.5, lambda: bytes([CLOSE]) + u32(recipient)),
        ]
        if not side.eof or wild:
            choices += [
                (10, lambda: self.data(recipient, side, wild)),
                (1, lambda: bytes([EOF]) + u32(recipient)),
            ]
        if other.wanted or wild:
            answers = [SUCCESS, FAILURE]
            choices.append((6, lambda: bytes([self.rng.choice(answers)]) + u32(recipient)))
        return self.some(*choices)

    def confirmation(self, recipient: int, sender: int) -> bytes:
        sizes = u32(self.rng.choice(WINDOWS)) + u32(self.rng.choice(LONGEST))
        return bytes([CONFIRMATION]) + u32(recipient) + u32(sender) + sizes

    def failure(self, recipient: int) -> bytes:
        reason = self.rng.choice([1, 2, 3, 4, 99])
        said = text(self.noise()) + text(b"en")
        return bytes([OPEN_FAILURE]) + u32(recipient) + u32(reason) + said

    def opening(self, name: bytes, sender: int, rest: bytes = b"") -> bytes:
        sizes = u32(self.rng.choice(WINDOWS)) + u32(self.rng.choice(LONGEST))
        return bytes([OPEN]) + text(name) + u32(sender) + sizes + rest

    # Of a client in proxy mode.

    def own(self, client: ClientRules) -> int:
        """A number for a channel of the client's, seldom one that it has."""
        own = [it.own for it in self.model.channels_of(client)]
        if self.rare(0.02) and own and own[0] is not None:
            return own[0]
        free = [it for it in [*range(12), 0xFFFFFFFF] if it not in own]
        chosen: int = self.rng.choice(free or [it for it in range(300, 700) if it not in own])
        return chosen

    def client_opens(self, client: ClientRules) -> bytes:
        own, path = self.own(client), text(self.rng.choice(PATHS))
        origin = text(self.noise(8)) + u32(self.rng.choice(PORTS))
        return self.some(
            (8, lambda: self.opening(SESSION, own)),
            (5, lambda: self.opening(DIRECT_PORT, own, self.port_key() + origin)),
            (3, lambda: self.opening(DIRECT_PATH, own, path + text(b"") + u32(0))),
            (0.5, lambda: self.opening(FORWARDED_PORT, own, self.port_key() + origin)),
            (0.5, lambda: self.opening(FORWARDED_PATH, own, path + text(b""))),
            (0.5, lambda: self.opening(self.rng.choice(PLAIN_TYPES), own, self.noise())),
        )

    def client_asks(self, client: ClientRules) -> bytes:
        def asking(name: bytes, rest: bytes) -> bytes:
            return bytes([GLOBAL_REQUEST]) + text(name) + self.boolean() + rest

        def ask(name: bytes, rest: bytes) -> bytes:
            wants = bytes([self.true() if not self.rare(0.1) else 0])
            return bytes([GLOBAL_REQUEST]) + text(name) + wants + rest

        mine = [it for it in self.model.forwardings_of(client) if it.live or self.rare(0.2)]
        keys = [it.key for it in (mine if mine and not self.rare(0.15) else self.model.forwardings)]
        choices: Choices = [
            (6, lambda: ask(ASK_PORT, self.port_key())),
            (4, lambda: ask(ASK_PATH, text(self.rng.choice(PATHS)))),
            (3, lambda: asking(KEEPALIVE, self.noise())),
            (2, lambda: asking(self.rng.choice(OTHER_REQUESTS), self.noise())),
            (0.5, lambda: asking(CANCEL_PORT, self.port_key())),
        ]
        if keys:
            key = self.rng.choice(keys)
            choices.append((9, lambda: asking(CANCEL_OF[key[0]], self.spelled(key))))
        return self.some(*choices)

    def client_breaks(self, client: ClientRules) -> bytes:
        """What drops the client, mostly."""
        everyone = self.model.channels
        others = [it.remote for it in everyone if it.client is not client and it.remote is not None]
        remote = self.rng.choice([*others, 12345])
        return self.some(
            (1, lambda: bytes([DISCONNECT]) + u32(11) + text(b"bye") + text(b"")),
            (1, lambda: bytes([self.rng.choice([REQUEST_SUCCESS, REQUEST_FAILURE])])),
            (3, lambda: bytes([self.rng.choice([EOF, CLOSE, SUCCESS])]) + u32(remote)),
            (1, lambda: bytes([DATA]) + u32(remote) + text(b"data")),
            (1, lambda: self.confirmation(remote, 1)),
            (1, lambda: self.failure(remote)),
            (2, self.unreadable),
        )

    def client_says(self, client: ClientRules) -> bytes:
        """A frame of a client."""
        if not client.proxy:
            return self.bad_frame() if self.rare(0.01) else control_frame(self.control(client))
        if self.rare(0.004):
            return self.bad_frame()
        mine = self.model.channels_of(client)
        waiting = [it for it in mine if it.waits_for_client()]
        usable = [it for it in mine if it.confirmed and (not it.up.closed or self.rare(0.005))]
        choices: Choices = [
            (5, lambda: self.client_opens(client)),
            (5, lambda: self.client_asks(client)),
            (0.7, self.transport),
            (0.25, lambda: self.client_breaks(client)),
        ]
        if usable:
            one, wild = self.rng.choice(usable), self.rare(0.02)
            choices.append((16, lambda: self.to_channel(one.far, one.up, one.down, wild)))
        if waiting:
            new = self.rng.choice(waiting)
            choices += [
                (8, lambda: self.confirmation(new.far, self.own(client))),
                (2, lambda: self.failure(new.far)),
                (0.1, lambda: bytes([EOF]) + u32(new.far)),
            ]
        return proxy_frame(self.some(*choices))

    def flood(self, client: ClientRules) -> list[bytes]:
        """Frames that reach a limit, and pass it at times."""
        own = [it.own for it in self.model.channels_of(client)]
        usable = [it for it in self.model.channels_of(client) if it.confirmed and not it.up.closed]
        more = self.rng.randrange(-1, 3)
        kind = self.rng.choice(["channels", "asks", "forwardings", *(["requests"] * bool(usable))])
        if any(it.live for it in self.model.forwardings_of(client)):
            kind = "channels"
        if kind == "channels":
            free = [it for it in range(1000, 1000 + MOST_CHANNELS + 3) if it not in own]
            count = MOST_CHANNELS - len(own) + more
            return [proxy_frame(self.opening(SESSION, it)) for it in free[: max(count, 0)]]
        if kind == "asks":
            count = MOST_UNANSWERED - len(client.answers) + more
            one = bytes([GLOBAL_REQUEST]) + text(KEEPALIVE) + b"\1"
        elif kind == "forwardings":
            count = MOST_FORWARDINGS - len(self.model.forwardings_of(client)) + more
            asks = [("path", b"/run/s"), ("port", b"db", 80), ("path", b"/run/t"), ("port", b"", 0)]
            keys = [it for it in asks if permits(self.model.permit_listen, it)] or asks
            name = next(name for name, kind in ASKS.items() if kind == keys[0][0])
            one = bytes([GLOBAL_REQUEST]) + text(name) + b"\1" + self.spelled(keys[0])
        else:
            it = self.rng.choice(usable)
            count = MOST_UNANSWERED - it.up.wanted + more
            one = bytes([REQUEST]) + u32(it.far) + text(b"env") + b"\1"
        return [proxy_frame(one)] * max(count, 0)

    # Of the server.

    def remote(self) -> int:
        """A number for a channel of the server's that isn't live."""
        live = [it.remote for it in self.model.channels]
        small = [it for it in [*range(12), 16_384, 0xFFFFFFFF] if it not in live]
        chosen: int = self.rng.choice(small or [it for it in range(300, 3000) if it not in live])
        return chosen

    def server_opens(self) -> bytes:
        live = [it.key for it in self.model.forwardings if it.live]
        origin, sender = text(b"10.0.0.9") + u32(4000), self.remote()

        def of_key(key: Key) -> bytes:
            if key[0] == "port":
                return self.opening(FORWARDED_PORT, sender, self.spelled(key) + origin)
            return self.opening(FORWARDED_PATH, sender, self.spelled(key) + text(b""))

        choices: Choices = [
            (1, lambda: self.opening(FORWARDED_PORT, sender, self.port_key() + origin)),
            (1, lambda: of_key(("path", self.rng.choice(PATHS)))),
            (0.4, lambda: self.opening(self.rng.choice([SESSION, b"x11", b""]), sender)),
        ]
        if live:
            choices.append((12, lambda: of_key(self.rng.choice(live))))
        return self.some(*choices)

    def server_replies(self) -> bytes:
        asks = self.model.asked[0].asks
        if self.rare(0.3):
            return bytes([REQUEST_FAILURE])
        if asks and asks.key[0] == "port" and asks.key[2] == 0:
            return bytes([REQUEST_SUCCESS]) + u32(self.rng.choice([80, 4001, 4002, 0, 70_000]))
        return bytes([REQUEST_SUCCESS]) + (self.noise(8) if self.rare(0.2) else b"")

    def server_breaks(self) -> bytes:
        """What ends the run, mostly."""
        numbers = [it.held.value for it in self.model.channels if it.number]
        remotes = [it.remote for it in self.model.channels if it.remote is not None]
        number = self.rng.choice([*numbers, 16_000, 16_384])
        remote = self.rng.choice([*remotes, 77])
        waiting = [it.held.value for it in self.model.channels if not it.confirmed and it.number]
        pending = self.rng.choice([*waiting, *waiting, number])
        nothing = text(b"") + u32(0) + text(b"") + u32(0)
        return self.some(
            (1, lambda: bytes([DISCONNECT]) + u32(11) + text(b"bye") + text(b"")),
            (1, lambda: bytes([self.rng.choice([REQUEST_SUCCESS, REQUEST_FAILURE])])),
            (3, lambda: bytes([self.rng.choice([EOF, CLOSE, SUCCESS, FAILURE])]) + u32(number)),
            (1, lambda: bytes([DATA]) + u32(number) + text(b"d" * 5000)),
            (1, lambda: bytes([ADJUST]) + u32(number) + u32(0xFFFFFFFF)),
            (2, lambda: self.confirmation(pending, remote)),
            (1, lambda: self.failure(number)),
            (4, lambda: self.opening(FORWARDED_PORT, remote, nothing)),
            (2, self.unreadable),
        )

    def server_says(self) -> bytes:
        """A frame of the server."""
        if self.rare(0.001):
            return self.bad_frame()
        held = [it for it in self.model.channels if it.number]
        waiting = [it for it in held if not it.confirmed]
        usable = [it for it in held if it.confirmed and not it.down.closed]
        name = text(b"hostkeys-00@openssh.com")
        live = any(it.live for it in self.model.forwardings)
        choices: Choices = [
            (3 if live else 0.5, self.server_opens),
            (0.5, lambda: bytes([GLOBAL_REQUEST]) + name + self.boolean() + self.noise()),
            (0.5, self.transport),
            (0.03, self.server_breaks),
        ]
        if waiting:
            new = self.rng.choice(waiting)
            choices += [
                (10, lambda: self.confirmation(new.held.value, self.remote())),
                (2, lambda: self.failure(new.held.value)),
            ]
        if usable:
            one, wild = self.rng.choice(usable), self.rare(0.003)
            number = one.held.value
            choices.append((16, lambda: self.to_channel(number, one.down, one.up, wild)))
        if self.model.asked:
            choices.append((8, self.server_replies))
        return proxy_frame(self.some(*choices))
