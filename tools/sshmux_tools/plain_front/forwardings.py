"""The forwardings that callers asked for here, and why one is refused."""

from __future__ import annotations

import collections
import dataclasses
import time
from collections.abc import Callable
from typing import TYPE_CHECKING, Any

from sshmux_tools.plain_front.errand import Reply, ask
from sshmux_tools.plain_front.journal import Process
from sshmux_tools.plain_front.own_forwardings import OwnForwardings
from sshmux_tools.plain_front.refusals import LOCAL_HOSTS, MOST_FORWARDINGS, fault_of, why_refused
from sshmux_tools.plain_front.requests import Forwarding, Kind
from sshmux_tools.protocol import PORT_OF_PATH, Mux, uint32

if TYPE_CHECKING:
    from sshmux_tools.plain_front.caller import Caller
    from sshmux_tools.plain_front.front import Front

Place = tuple[int, bytes, int]
OnReply = Callable[[Reply], None]


def place_of(forwarding: Forwarding) -> Place:
    """Kind, host and port to listen on, where what means the same is the same."""
    host = forwarding.listen_host
    if forwarding.listen_port != PORT_OF_PATH:
        if forwarding.kind == Kind.REMOTE:
            host = {b"": b"localhost", b"*": b""}.get(host, host)
        else:
            host = LOCAL_HOSTS.get(host, host)
    return forwarding.kind, host, forwarding.listen_port


@dataclasses.dataclass
class Opened:
    """A forwarding that was granted here."""

    forwarding: Forwarding
    opener: Process
    began: float
    port: int | None
    # The callers that are here still and asked for it, and whether one asked for nothing else: a
    # forwarding of `ssh -O forward` outlives its client.
    holders: set[Caller] = dataclasses.field(default_factory=set)
    stays: bool = False

    @property
    def name(self) -> str:
        chosen = "" if self.port is None else f" (port {self.port})"
        return self.forwarding.name + chosen


class Forwardings:
    """What was opened and is not cancelled, by the place where it listens."""

    def __init__(self, front: Front) -> None:
        self.front = front
        self.opened: dict[Place, Opened] = {}
        self.own = OwnForwardings(front)
        # What is asked for each place and has no reply yet; the first of them has begun.
        self.turns: dict[Place, collections.deque[Callable[[], None]]] = {}

    def open(self, caller: Caller, request: int, forwarding: Forwarding) -> None:
        name, place = f"forward {forwarding.name}", place_of(forwarding)
        why = fault_of(forwarding) or self.front.lists.forbids_forwarding(forwarding, place[1])
        if why is not None:
            caller.refuse(request, name, why)
            return

        def on_reply(reply: Reply) -> None:
            if not reply.is_granted:
                why = self.why_refused(forwarding) if reply.is_refused else reply.why
                caller.refuse(request, name, why)
                return
            self.add(caller, forwarding, reply)
            chosen = "" if reply.port is None else f", port {reply.port}"
            caller.note(name, f"granted{chosen}")
            if reply.port is None:
                caller.reply(Mux.S_OK, request)
            else:
                caller.reply(Mux.S_REMOTE_PORT, request, uint32(reply.port))

        self.in_turn(place, lambda then: self.open_now(forwarding, request, then), on_reply)

    def cancel(self, caller: Caller, request: int, forwarding: Forwarding) -> None:
        name, place = f"cancel {forwarding.name}", place_of(forwarding)

        def on_reply(reply: Reply) -> None:
            if not reply.is_granted:
                why = f"{forwarding.name} isn't open" if reply.is_refused else reply.why
                caller.refuse(request, name, why)
                return
            self.opened.pop(place, None)
            caller.note(name, "granted")
            caller.reply(Mux.S_OK, request)

        self.in_turn(place, lambda then: self.close_now(forwarding, request, then), on_reply)

    # Requests for one place are answered one after another, so that none is granted by what the one
    # before it is about to close.

    def in_turn(self, place: Place, begin: Callable[[OnReply], None], on_reply: OnReply) -> None:
        """Begins a request once those before it for the same place have their replies."""

        def take_turn() -> None:
            begin(end_turn)

        def end_turn(reply: Reply) -> None:
            on_reply(reply)
            turns = self.turns[place]
            turns.popleft()
            if turns:
                turns[0]()
            else:
                del self.turns[place]

        turns = self.turns.setdefault(place, collections.deque())
        turns.append(take_turn)
        if len(turns) == 1:
            take_turn()

    def open_now(self, forwarding: Forwarding, request: int, on_reply: OnReply) -> None:
        """Asks for it, or has the front serve it, where the same again gets the same reply."""
        place = place_of(forwarding)
        opened = self.opened.get(place)
        if not forwarding.is_for_the_front:
            ask(self.front, forwarding.body(Mux.OPEN_FWD, request), on_reply)
        elif opened is not None:
            is_same = opened.forwarding.goes_where(forwarding)
            on_reply(Reply(True, port=opened.port) if is_same else Reply(False, is_refused=True))
        elif len(self.opened) >= MOST_FORWARDINGS:
            on_reply(Reply(False, why=f"{MOST_FORWARDINGS} forwardings are open"))
        else:
            self.own.open(forwarding, place[1], on_reply)

    def close_now(self, forwarding: Forwarding, request: int, on_reply: OnReply) -> None:
        """Closes the one at the place of this one, whoever serves it."""
        opened = self.opened.get(place_of(forwarding))
        meant = forwarding if opened is None else opened.forwarding
        if not meant.is_for_the_front:
            ask(self.front, meant.body(Mux.CLOSE_FWD, request), on_reply)
        elif opened is None:
            on_reply(Reply(False, is_refused=True))
        else:
            self.own.close(meant, on_reply)

    def add(self, caller: Caller, forwarding: Forwarding, reply: Reply) -> None:
        found = Opened(forwarding, caller.process, time.time(), reply.port)
        opened = self.opened.setdefault(place_of(forwarding), found)
        opened.holders.add(caller)
        if caller not in self.front.callers:
            self.on_caller_end(caller)

    def forget(self, forwardings: list[Forwarding], why: str) -> None:
        """They came to their end without anybody's asking."""
        for opened in list(self.opened.values()):
            if opened.forwarding in forwardings:
                del self.opened[place_of(opened.forwarding)]
                self.front.journal.note(opened.opener, f"forward {opened.forwarding.name}", why)

    def state(self) -> list[dict[str, Any]]:
        """What ssh-mux-status shows of them."""
        return [
            {"name": it.name, "opener": it.opener.name, "began": it.began}
            for it in self.opened.values()
        ]

    def why_refused(self, forwarding: Forwarding) -> str:
        other = self.opened.get(place_of(forwarding))
        return why_refused(forwarding, other.forwarding if other else None, len(self.opened))

    def on_caller_end(self, caller: Caller) -> None:
        """With --tidy, closes what nobody holds any more who came with a session."""
        for opened in list(self.opened.values()):
            if caller not in opened.holders:
                continue
            opened.holders.discard(caller)
            opened.stays = opened.stays or caller.channel is None
            if self.front.options.tidy and not opened.holders and not opened.stays:
                self.tidy(opened)

    def tidy(self, opened: Opened) -> None:
        """Closes it, unless a client asks for it before that."""
        name, place = f"cancel {opened.forwarding.name}", place_of(opened.forwarding)

        def begin(then: OnReply) -> None:
            if self.opened.get(place) is opened and not opened.holders and not opened.stays:
                self.close_now(opened.forwarding, 0, then)
            else:
                then(Reply(False))

        def on_reply(reply: Reply) -> None:
            if reply.is_granted:
                self.opened.pop(place, None)
                self.front.journal.note(opened.opener, name, "its clients have ended")
            elif reply.why:
                self.front.journal.note(opened.opener, name, f"failed: {reply.why}")

        self.in_turn(place, begin, on_reply)
