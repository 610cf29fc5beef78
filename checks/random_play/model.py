"""The rules of docs/SHARING.md, written apart from the code: what each stream gets for what is sent."""

from __future__ import annotations

import collections
import dataclasses
import struct
from typing import NamedTuple

import play
from play import (
    ADJUST, ALIVE_CHECK, ASK_PORT, CANCEL_PORT, CLOSE, CLOSE_FWD, CONFIRMATION, CONNECT_FAILED,
    DATA, DEBUG, DIRECT_PATH, DIRECT_PORT, DISCONNECT, EOF, EXTENDED_DATA, FAILURE, FORWARDED_PATH,
    FORWARDED_PORT, GLOBAL_REQUEST, HELLO, IGNORE, KEEPALIVE, NEW_SESSION, NEW_STDIO_FWD, OPEN,
    OPEN_FAILURE, OPEN_FWD, PID, PROHIBITED, PROXY, REQUEST, REQUEST_FAILURE, REQUEST_SUCCESS,
    SESSION, SHORTAGE, STOP_LISTENING, SUCCESS, S_ALIVE, S_FAILURE, S_OK, S_PROXY, S_REMOTE_PORT,
    TERMINATE, UNIMPLEMENTED, UNKNOWN_TYPE, VERSION, alive, control_frame, known, proxy_frame, text,
    u32,
)
from random_play.messages import (
    ASKS, CANCELS, Fields, Framer, Key, LONGEST_NAME, Message, Number, Parts, PLAIN, Unreadable,
    cancel, open_failure, read_payload, sender_at, with_number,
)

MOST_CHANNELS = 256
MOST_FORWARDINGS = 64
MOST_UNANSWERED = 1_024
TO_CHANNELS = {
    ADJUST: "adjustment", DATA: "data", EXTENDED_DATA: "extended data", EOF: "eof", CLOSE: "close",
    REQUEST: "request", SUCCESS: "success", FAILURE: "failure",
}
CONTROLS = {
    NEW_SESSION: "new session", ALIVE_CHECK: "alive check", TERMINATE: "terminate",
    OPEN_FWD: "open fwd", CLOSE_FWD: "close fwd", NEW_STDIO_FWD: "new stdio fwd",
    STOP_LISTENING: "stop listening", PROXY: "proxy",
}
SERVER = 0

# Whose a stream is: the server, a client by its number, or one beside the play. The house has none.
Name = int | str
# The stream that makes something happen, and how many of its bytes were read then.
Cause = tuple[Name | None, int]
HOUSE = "the house"

# The master's own forwardings, by their kinds.
LOCAL, REMOTE, DYNAMIC = 1, 2, 3
KINDS = {LOCAL: "local", REMOTE: "remote", DYNAMIC: "dynamic"}
LAST_PORT = 65_535

# What the host that is listened on stands for, here and at the server; others stand for themselves.
EVERYWHERE = b"0.0.0.0"
HOSTS_HERE = {b"": b"127.0.0.1", b"localhost": b"127.0.0.1", b"*": EVERYWHERE}
HOSTS_THERE = {b"": b"localhost", b"*": b""}


@dataclasses.dataclass
class Side:
    """What one side of a channel may still say."""

    room: int = 0
    longest: int = 0
    eof: bool = False
    closed: bool = False
    wanted: int = 0


class Channel:
    def __init__(
        self,
        client: ClientRules,
        own: int | None = None,
        number: Number | None = None,
        remote: int | None = None,
    ) -> None:
        self.client, self.own, self.number, self.remote = client, own, number, remote
        self.confirmed = False
        self.up, self.down = Side(), Side()

    # Its numbers, where they are there.

    @property
    def near(self) -> int:
        return known(self.own, "the client's number of a channel")

    @property
    def held(self) -> Number:
        return known(self.number, "the program's number of a channel")

    @property
    def far(self) -> int:
        return known(self.remote, "the server's number of a channel")

    def waits_for_client(self) -> bool:
        return not self.confirmed and self.own is None

    def over(self) -> bool:
        return self.up.closed and self.down.closed

    def breaks(self, message: Message, side: Side, other: Side) -> str | None:
        """How a message of a side breaks the account, if it does."""
        kind, is_data = message.kind, message.kind in (DATA, EXTENDED_DATA)
        rules = {
            "not open": not self.confirmed,
            "after close": side.closed,
            "after eof": side.eof and (is_data or kind == EOF),
            "past packet": is_data and message.length > side.longest,
            "past window": is_data and message.length > side.room,
            "overflow": kind == ADJUST and other.room + message.length > 0xFFFFFFFF,
            "unasked": kind in (SUCCESS, FAILURE) and not other.wanted,
            "too many asks": kind == REQUEST and message.wants and side.wanted >= MOST_UNANSWERED,
        }
        return next((name for name, holds in rules.items() if holds), None)

    def keep(self, message: Message, side: Side, other: Side) -> None:
        """The account with a message that doesn't break it."""
        kind = message.kind
        if kind in (DATA, EXTENDED_DATA):
            side.room -= message.length
        elif kind == EOF:
            side.eof = True
        elif kind == CLOSE:
            side.closed = True
        elif kind == ADJUST:
            other.room += message.length
        elif kind in (SUCCESS, FAILURE):
            other.wanted -= 1
        elif kind == REQUEST and message.wants:
            side.wanted += 1


# Two forwardings of the same key are two all the same.
@dataclasses.dataclass(eq=False)
class Forwarding:
    client: ClientRules
    key: Key
    live: bool = False
    cancelled: bool = False


class Asked(NamedTuple):
    """A request that was sent and wants a reply; what it asks or cancels."""

    client: ClientRules
    asks: Forwarding | None
    cancels: Forwarding | None


class Ask(NamedTuple):
    """What a client asks of the master's own forwardings, as it says it."""

    kind: int
    listen_host: bytes
    listen_port: int
    connect_host: bytes
    connect_port: int

    def place(self) -> Place:
        hosts = HOSTS_THERE if self.kind == REMOTE else HOSTS_HERE
        return self.kind, hosts.get(self.listen_host, self.listen_host), self.listen_port

    def ends_at(self) -> tuple[bytes, int] | None:
        return None if self.kind == DYNAMIC else (self.connect_host, self.connect_port)

    def is_refused(self) -> bool:
        """Whether it is refused, whatever stands already."""
        if self.kind not in KINDS:
            return True
        ports = (self.listen_port, self.connect_port)
        no_end = self.connect_port == 0 and self.kind != DYNAMIC
        no_place = self.listen_port == 0 and self.kind != REMOTE
        longest = max(len(self.listen_host), len(self.connect_host))
        return max(ports) > LAST_PORT or no_end or no_place or longest > LONGEST_NAME


# A kind, a host and a port to listen on.
Place = tuple[int, bytes, int]


class Own:
    """A forwarding of the master's own, and the asks that have no reply yet."""

    def __init__(self, ask: Ask) -> None:
        self.place, self.ends_at = ask.place(), ask.ends_at()
        self.live = self.closing = False
        # Where it is listened on.
        self.port = ask.listen_port
        self.asks: list[tuple[ClientRules, int, bool]] = []

    def take(self, opening: bool | None = None) -> list[tuple[ClientRules, int]]:
        """Takes the asks that open, or those that close, or all, in their order."""
        taken = [it for it in self.asks if opening in (None, it[2])]
        self.asks = [it for it in self.asks if it not in taken]
        return [it[:2] for it in taken]

    def key(self) -> Key:
        return ("port", self.place[1], self.port)


class ClientRules:
    """What the model knows of one client."""

    def __init__(self, name: Name) -> None:
        self.name, self.framer = name, Framer()
        self.greeted = self.proxy = self.deaf = self.lost = False
        # Of its wanted requests without an answer: True for each that was sent.
        self.answers: collections.deque[bool] = collections.deque()


def permits_port(entry: str, address: bytes, port: int) -> bool:
    if entry.startswith("/"):
        return False
    host, colon, number = entry.rpartition(":")
    host = "*" if not colon else host[1:-1] if host.startswith("[") else host
    return host in ("*", address.decode("latin-1")) and (number == "*" or int(number) == port)


def permits(entries: list[str], key: Key) -> bool:
    """Whether a list of permissions permits a key."""
    if not entries or entries == ["any"]:
        return True
    if entries == ["none"]:
        return False
    if key[0] == "path":
        return key[1].decode("latin-1") in (it for it in entries if it.startswith("/"))
    return any(permits_port(entry, key[1], key[2]) for entry in entries)


class Model:
    """The rules of docs/SHARING.md: what each stream gets for what is said."""

    def __init__(
        self,
        permit_open: list[str],
        permit_listen: list[str],
        permit_session: list[str],
        permit_here: list[str],
        taken: int,
        free: list[int],
    ) -> None:
        self.permit_open, self.permit_listen = permit_open, permit_listen
        self.sessions, self.permit_here = permit_session[-1:] != ["none"], permit_here
        # Ports of this machine: one on which another listens, and some on which nobody does.
        self.taken, self.free = taken, free
        self.house = ClientRules(HOUSE)
        self.house.greeted = self.house.proxy = True
        # The master's own forwardings, and its unanswered requests, each with whether it cancels.
        self.own: list[Own] = []
        self.house_asked: collections.deque[tuple[Own, bool]] = collections.deque()
        # Whether it acted for them, since this was last set back.
        self.house_acted = False
        self.clients: dict[Name, ClientRules] = {}
        self.framer, self.index, self.listening = Framer(), 0, True
        self.channels: list[Channel] = []
        self.forwardings: list[Forwarding] = []
        self.asked: collections.deque[Asked] = collections.deque()
        # The status and the line with which the run ends, and by what.
        self.ended: tuple[int, bytes] | None = None
        self.ended_by: Cause | None = None
        # What each stream is to get: the stream that made it and how many of its bytes that took,
        # to whom it goes, and its parts, bytes and numbers, or None for the stream's end.
        self.out: list[tuple[Name | None, int, Name, Parts | None]] = []
        self.cause: Cause = (None, 0)
        # How often each case of the rules was met.
        self.met: collections.Counter[str] = collections.Counter()

    # What goes out.

    def give(self, name: Name, *parts: bytes | Number) -> None:
        self.out.append((*self.cause, name, parts))

    def up(self, payload: bytes) -> None:
        self.give(SERVER, proxy_frame(payload))

    def up_with_number(self, payload: bytes, at: int, number: Number) -> None:
        frame = proxy_frame(payload)
        self.give(SERVER, frame[: at + 5], number, frame[at + 9 :])

    def down(self, client: ClientRules, payload: bytes) -> None:
        if client is self.house:
            self.house_hears(read_payload(payload))
        else:
            self.give(client.name, proxy_frame(payload))

    def tell(self, client: ClientRules, *numbers: int, reason: bytes | None = None) -> None:
        body = b"".join(u32(number) for number in numbers)
        self.give(client.name, control_frame(body + (b"" if reason is None else text(reason))))

    # Clients that come and go.

    def comes(self, name: Name) -> None:
        self.cause = (name, 0)
        client = self.clients[name] = ClientRules(name)
        self.tell(client, HELLO, VERSION)

    def gone(self, client: ClientRules) -> None:
        self.cause = (client.name, 0)
        self.lose(client)

    def drop(self, client: ClientRules, cause: str) -> None:
        self.met[f"dropped: {cause}"] += 1
        self.out.append((*self.cause, client.name, None))
        self.lose(client)

    def lose(self, client: ClientRules) -> None:
        client.lost = True
        for channel in self.channels_of(client):
            if channel.confirmed and not channel.up.closed:
                channel.up.closed = True
                self.met["farewell: a close"] += 1
                self.up(bytes([CLOSE]) + u32(channel.far))
            elif channel.waits_for_client():
                self.met["farewell: a failed open"] += 1
                self.up(open_failure(channel.far, CONNECT_FAILED))
                self.channels.remove(channel)
        self.sweep()
        for it in [it for it in self.forwardings if it.client is client]:
            if it.live and not it.cancelled:
                self.met["farewell: a cancel"] += 1
                self.up(cancel(it.key))
            self.forwardings.remove(it)

    def ends(self, status: int, line: bytes = b"", cause: str = "the server's end") -> None:
        self.met[f"ended: {cause}"] += 1
        self.ended, self.ended_by = (status, line), self.cause

    # Look-ups.

    def channels_of(self, client: ClientRules) -> list[Channel]:
        return [it for it in self.channels if it.client is client]

    def forwardings_of(self, client: ClientRules) -> list[Forwarding]:
        return [it for it in self.forwardings if it.client is client]

    def with_remote(self, remote: int) -> Channel | None:
        return next((it for it in self.channels if it.remote == remote), None)

    def with_number(self, number: int) -> Channel | None:
        numbered = (it for it in self.channels if it.number is not None)
        return next((it for it in numbered if it.held.value == number), None)

    def fresh(self) -> Number:
        return Number([it.number for it in self.channels if it.number is not None])

    def sweep(self) -> None:
        self.channels = [it for it in self.channels if not it.over()]

    # What a client says.

    def feed_client(self, client: ClientRules, data: bytes) -> None:
        client.framer.bytes += data
        while not client.lost and not client.deaf and self.ended is None:
            frame = client.framer.next(client.proxy)
            if frame is None:
                return
            self.cause = (client.name, client.framer.taken)
            try:
                if isinstance(frame, str):
                    self.drop(client, "bad frame")
                elif client.proxy:
                    self.say(client, read_payload(frame), frame)
                else:
                    self.say_control(client, frame)
            except Unreadable:
                self.drop(client, "unreadable")

    def say_control(self, client: ClientRules, body: bytes) -> None:
        fields, ask = Fields(body), None
        kind, first = fields.number(), fields.number()
        if kind == HELLO:
            while fields.at < len(body):
                fields.text()
                fields.text()
        elif kind in (OPEN_FWD, CLOSE_FWD):
            way = fields.number()
            ask = Ask(way, fields.text(), fields.number(), fields.text(), fields.number())
            fields.end()
        elif kind in (ALIVE_CHECK, TERMINATE, STOP_LISTENING, PROXY):
            fields.end()
        if not client.greeted:
            client.greeted = True
            if (kind, first) != (HELLO, VERSION):
                self.drop(client, "no hello, or another version")
            return
        self.met[f"control: {CONTROLS.get(kind, 'another')}"] += 1
        if kind == HELLO:
            self.drop(client, "second hello")
        elif kind == ALIVE_CHECK:
            self.tell(client, S_ALIVE, first, PID)
        elif kind == TERMINATE:
            self.tell(client, S_OK, first)
            self.ends(0, cause="terminate")
        elif kind == STOP_LISTENING:
            self.tell(client, S_OK, first)
            self.listening = False
        elif kind == PROXY:
            self.tell(client, S_PROXY, first)
            client.proxy = True
        elif ask is not None:
            self.ask_house(client, first, kind == OPEN_FWD, ask)
        elif kind in (NEW_SESSION, NEW_STDIO_FWD):
            self.tell(client, S_FAILURE, first, reason=b"descriptors are not supported")
            client.deaf = True
        else:
            self.tell(client, S_FAILURE, first, reason=b"unsupported request")

    # The master's own forwardings.

    def ask_house(self, client: ClientRules, number: int, opens: bool, ask: Ask) -> None:
        asked = (client, number, opens)
        waits = any(it[:2] == asked[:2] for own in self.own for it in own.asks)
        own = next((it for it in self.own if it.place == ask.place()), None)
        what = f"own, {'opened' if opens else 'closed'}"
        if not self.permits_here(*ask.place()):
            self.met[f"{what}: refused by --permit-here"] += 1
            self.refuse(client, number)
        elif waits or ask.is_refused():
            self.met[f"{what}: refused alone, or by its number"] += 1
            self.refuse(client, number)
        elif own is None and opens:
            self.opens_own(asked, ask)
        elif own is not None and opens and own.ends_at == ask.ends_at():
            self.met[f"{what}: the same again"] += 1
            own.asks.append(asked)
            if own.live:
                self.is_live(own)
        elif own is None or opens or own.closing:
            self.met[f"{what}: refused by what stands"] += 1
            self.refuse(client, number)
        else:
            self.met[f"{what}: {KINDS[ask.kind]}"] += 1
            own.closing = True
            own.asks.append(asked)
            self.closes_own(own)

    def permits_here(self, kind: int, host: bytes, port: int) -> bool:
        """Whether the master may listen at a place. Those that the server listens at are no matter
        of this list."""
        return kind == REMOTE or permits(self.permit_here, ("port", host, port))

    def refuse(self, client: ClientRules, number: int) -> None:
        if not client.lost and not client.proxy:
            self.tell(client, S_FAILURE, number, reason=b"forwardings are not served")

    def opens_own(self, asked: tuple[ClientRules, int, bool], ask: Ask) -> None:
        own = Own(ask)
        own.asks.append(asked)
        self.own.append(own)
        self.met[f"own, opened: {KINDS[ask.kind]}"] += 1
        self.house_acted = True
        if ask.kind == REMOTE:
            self.house_asks(own, ASK_PORT)
        elif self.is_taken(own):
            self.met["own, opened: the port is taken"] += 1
            self.is_gone(own, done=False)
        else:
            self.is_live(own)

    def is_taken(self, own: Own) -> bool:
        """Whether another listens there already: one at every address is in the way of each."""
        host, port = own.place[1], own.port
        others = [it.place for it in self.own if it is not own and it.place[0] != REMOTE]
        taken = [(b"127.0.0.1", self.taken), *((it[1], it[2]) for it in others)]
        return any(it[1] == port and (it[0] == host or EVERYWHERE in (it[0], host)) for it in taken)

    def closes_own(self, own: Own) -> None:
        self.house_acted = True
        if own.place[0] != REMOTE:
            self.is_gone(own, done=True)
        elif own.live:
            self.house_asks(own, CANCEL_PORT)

    def house_asks(self, own: Own, name: bytes) -> None:
        """It is a client like the others: its request may be refused by the list."""
        self.house_asked.append((own, name == CANCEL_PORT))
        _, address, port = own.key()
        payload = bytes([GLOBAL_REQUEST]) + text(name) + b"\1" + text(address) + u32(port)
        self.say(self.house, read_payload(payload), payload)

    def is_live(self, own: Own) -> None:
        """Those that asked for it are told, with the port where it was chosen."""
        own.live, self.house_acted = True, True
        for client, number in own.take(opening=True):
            if client.lost or client.proxy:
                self.met["own: a reply to nobody"] += 1
            elif own.place[0] == REMOTE and own.place[2] == 0:
                self.tell(client, S_REMOTE_PORT, number, own.port)
            else:
                self.tell(client, S_OK, number)

    def is_gone(self, own: Own, done: bool) -> None:
        """It is closed as was asked, or couldn't be opened."""
        self.own.remove(own)
        for client, number in own.take():
            if done and not client.lost and not client.proxy:
                self.tell(client, S_OK, number)
            else:
                self.refuse(client, number)

    def house_hears(self, message: Message) -> None:
        self.house_acted = True
        if message.kind == OPEN:
            self.met["own: an open of the server fails"] += 1
            failed = open_failure(message.sender, CONNECT_FAILED, b"connect failed")
            self.say(self.house, read_payload(failed), failed)
            return
        own, cancels = self.house_asked.popleft()
        done = message.kind == REQUEST_SUCCESS
        if cancels and not done:
            self.met["own: a cancel fails"] += 1
            own.closing = False
            for client, number in own.take(opening=False):
                self.refuse(client, number)
        elif cancels or not done:
            self.met["own: a cancel is done" if cancels else "own: a request fails"] += 1
            self.is_gone(own, done)
        else:
            self.met["own: a request is done"] += 1
            if own.place[2] == 0:
                own.port = message.port
            self.is_live(own)
            if own.closing:
                self.met["own: a cancel waited for the request"] += 1
                self.house_asks(own, CANCEL_PORT)

    def listeners(self) -> int:
        """On how many ports of this machine the master listens for its own forwardings."""
        return sum(it.place[0] != REMOTE for it in self.own)

    def say(self, client: ClientRules, message: Message, payload: bytes) -> None:
        kind = message.kind
        if kind in (IGNORE, UNIMPLEMENTED, DEBUG):
            return
        if kind == DISCONNECT:
            self.drop(client, "disconnected")
        elif kind in (REQUEST_SUCCESS, REQUEST_FAILURE):
            self.drop(client, "unasked")
        elif kind == GLOBAL_REQUEST:
            self.say_request(client, message, payload)
        elif kind == OPEN:
            self.say_open(client, message, payload)
        elif kind in (CONFIRMATION, OPEN_FAILURE):
            self.say_answer(client, message, payload)
        else:
            self.say_to_channel(client, message, payload)

    def say_request(self, client: ClientRules, message: Message, payload: bytes) -> None:
        if message.wants and len(client.answers) >= MOST_UNANSWERED:
            self.drop(client, "too many asks")
            return
        asks = cancels = None
        if message.name in ASKS:
            if not message.wants:
                return
            key = known(message.key, "the key of a request")
            if self.may_ask(client, key):
                asks = Forwarding(client, key)
                self.forwardings.append(asks)
        elif message.name in CANCELS:
            cancels = self.meant_by(client, known(message.key, "the key of a cancel"))
        if asks or cancels or message.name == KEEPALIVE:
            self.met[f"sent: {message.name.decode()}"] += 1
            self.up(payload)
            if message.wants:
                client.answers.append(True)
                self.asked.append(Asked(client, asks, cancels))
                if cancels:
                    cancels.cancelled = True
            elif cancels:
                self.forwardings.remove(cancels)
        elif message.wants:
            self.met["a request is refused" + " later" * bool(client.answers)] += 1
            client.answers.append(False)
            self.tell_refusals(client)

    def may_ask(self, client: ClientRules, key: Key) -> bool:
        fits = len(key[1]) <= LONGEST_NAME and (key[0] == "port" or key[1])
        if not fits or not permits(self.permit_listen, key):
            return False
        if len(self.forwardings_of(client)) < MOST_FORWARDINGS:
            return True
        self.met["one forwarding too many"] += 1
        return False

    def meant_by(self, client: ClientRules, key: Key) -> Forwarding | None:
        """The forwarding that a cancel of a key means."""
        for it in self.forwardings_of(client):
            if it.live and not it.cancelled and it.key == key:
                return it
        return None

    def tell_refusals(self, client: ClientRules) -> None:
        while client.answers and not client.answers[0]:
            client.answers.popleft()
            self.down(client, bytes([REQUEST_FAILURE]))

    def say_open(self, client: ClientRules, message: Message, payload: bytes) -> None:
        held = self.channels_of(client)
        if message.sender in (it.own for it in held):
            self.drop(client, "own in use")
        elif message.name not in (SESSION, DIRECT_PORT, DIRECT_PATH):
            self.fail_open(client, message, UNKNOWN_TYPE)
        elif message.name == SESSION and not self.sessions:
            self.met["a session isn't permitted"] += 1
            self.fail_open(client, message, PROHIBITED)
        elif message.key and not permits(self.permit_open, message.key):
            self.fail_open(client, message, PROHIBITED)
        elif len(held) >= MOST_CHANNELS:
            self.fail_open(client, message, SHORTAGE)
        else:
            channel = Channel(client, own=message.sender, number=self.fresh())
            channel.down = Side(message.window, message.longest)
            self.channels.append(channel)
            self.up_with_number(payload, sender_at(message), channel.held)

    def fail_open(self, client: ClientRules, message: Message, reason: int) -> None:
        self.met[f"an open of a client is failed with {reason}"] += 1
        self.down(client, open_failure(message.sender, reason))

    def say_answer(self, client: ClientRules, message: Message, payload: bytes) -> None:
        channel = self.with_remote(message.recipient)
        if channel is None or channel.client is not client or not channel.waits_for_client():
            self.drop(client, "not yours, in an answer")
        elif message.kind == OPEN_FAILURE:
            self.met["a client fails an open"] += 1
            self.channels.remove(channel)
            self.up(payload)
        elif message.sender in (it.own for it in self.channels_of(client)):
            self.drop(client, "own in use, in a confirmation")
        else:
            number = self.fresh()
            channel.own, channel.number, channel.confirmed = message.sender, number, True
            channel.down = Side(message.window, message.longest)
            self.up_with_number(payload, 5, number)

    def say_to_channel(self, client: ClientRules, message: Message, payload: bytes) -> None:
        channel = self.with_remote(message.recipient)
        if channel is None or channel.client is not client or not channel.confirmed:
            self.drop(client, "not yours")
        elif why := channel.breaks(message, channel.up, channel.down):
            self.drop(client, why)
        else:
            self.met[f"up: {TO_CHANNELS[message.kind]}"] += 1
            channel.keep(message, channel.up, channel.down)
            self.up(payload)
            self.sweep()

    # What the server says.

    def broke(self, why: bytes, cause: str | None = None) -> None:
        line = b"ssh-mux: server message %d: %s\n" % (self.index, why)
        self.ends(7, line, cause or why.decode().translate({ord(it): None for it in "0123456789"}))

    def feed_server(self, data: bytes) -> None:
        self.framer.bytes += data
        while self.ended is None:
            frame = self.framer.next(True)
            if frame is None:
                return
            self.index += 1
            self.cause = (SERVER, self.framer.taken)
            try:
                if isinstance(frame, str):
                    self.broke(b"bad frame")
                else:
                    self.hear(read_payload(frame), frame)
            except Unreadable:
                self.broke(b"unreadable")

    def server_ends(self) -> None:
        if self.framer.bytes:
            self.index += 1
            self.broke(b"cut inside a frame")
        else:
            self.ends(0)

    def hear(self, message: Message, payload: bytes) -> None:
        kind = message.kind
        if kind == DISCONNECT:
            self.ends(0, cause="disconnect")
        elif kind == GLOBAL_REQUEST:
            if message.wants:
                self.up(bytes([REQUEST_FAILURE]))
        elif kind in (REQUEST_SUCCESS, REQUEST_FAILURE):
            self.hear_reply(message, payload)
        elif kind == OPEN:
            self.hear_open(message, payload)
        elif kind in (CONFIRMATION, OPEN_FAILURE):
            self.hear_answer(message, payload)
        elif kind not in PLAIN:
            self.hear_to_channel(message, payload)

    def hear_reply(self, message: Message, payload: bytes) -> None:
        if not self.asked:
            self.broke(b"a reply to nothing")
            return
        done, asked = message.kind == REQUEST_SUCCESS, self.asked[0]
        client, key = asked.client, asked.asks.key if asked.asks else None
        if done and key and key[0] == "port" and key[2] == 0:
            if message.length != 4:
                self.broke(b"bad reply")
                return
            key = (*key[:2], struct.unpack(">I", payload[1:])[0])
        self.asked.popleft()
        if client.lost:
            self.met["a late reply"] += 1
            if done and key:
                self.met["a late success is cancelled"] += 1
                self.up(cancel(key))
            elif not done and asked.cancels:
                self.met["a late cancel that failed"] += 1
                self.up(cancel(asked.cancels.key))
            return
        if asked.asks and key:
            asked.asks.live, asked.asks.key = done, key
        if asked.cancels:
            asked.cancels.cancelled = False
        ended = asked.cancels if done else asked.asks
        if ended:
            self.forwardings.remove(ended)
        client.answers.popleft()
        self.down(client, payload)
        self.tell_refusals(client)

    def hear_open(self, message: Message, payload: bytes) -> None:
        if self.with_remote(message.sender):
            self.broke(b"number %d in use" % message.sender)
            return
        live, forwarded = None, message.name in (FORWARDED_PORT, FORWARDED_PATH)
        if forwarded:
            live = next((it for it in self.forwardings if it.live and it.key == message.key), None)
        if live is None:
            self.met["an open of the server is failed with 1"] += 1
            self.up(open_failure(message.sender, PROHIBITED))
        elif len(self.channels_of(live.client)) >= MOST_CHANNELS:
            self.met["an open of the server is failed with 4"] += 1
            self.up(open_failure(message.sender, SHORTAGE))
        else:
            self.met["an open of the server goes to a client"] += 1
            channel = Channel(live.client, remote=message.sender)
            channel.up = Side(message.window, message.longest)
            self.channels.append(channel)
            self.down(live.client, payload)

    def hear_answer(self, message: Message, payload: bytes) -> None:
        channel = self.with_number(message.recipient)
        if channel is None or channel.confirmed:
            self.broke(b"number %d is not being opened" % message.recipient)
            return
        if message.kind == OPEN_FAILURE:
            self.channels.remove(channel)
        elif self.with_remote(message.sender):
            self.broke(b"number %d in use" % message.sender)
            return
        else:
            channel.remote, channel.confirmed = message.sender, True
            channel.up = Side(message.window, message.longest)
        if not channel.client.lost:
            self.down(channel.client, with_number(payload, 1, channel.near))
        elif message.kind == CONFIRMATION:
            self.met["a late confirmation"] += 1
            channel.up.closed = True
            self.up(bytes([CLOSE]) + u32(channel.far))

    def hear_to_channel(self, message: Message, payload: bytes) -> None:
        channel = self.with_number(message.recipient)
        if channel is None:
            self.broke(b"no channel %d" % message.recipient)
        elif why := channel.breaks(message, channel.down, channel.up):
            self.broke(b"channel %d breaks its rules" % message.recipient, why)
        else:
            name = TO_CHANNELS[message.kind]
            self.met[f"down: {name}" + " to nobody" * channel.client.lost] += 1
            channel.keep(message, channel.down, channel.up)
            if not channel.client.lost:
                self.down(channel.client, with_number(payload, 1, channel.near))
            self.sweep()
