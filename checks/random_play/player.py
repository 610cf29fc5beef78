"""A round of the play: the program, with the clients and the server that this script plays."""

from __future__ import annotations

import collections
import contextlib
import os
import random
import select
import socket
import struct

import play
from play import (
    ANSWER_SECONDS, HELLO_FRAME, Failed, alive, alive_check, known, proxy_frame, wait_until,
)
from random_play.messages import Number, Parts, cancel
from random_play.model import ClientRules, Model, Name, SERVER
from random_play.speech import PERMISSIONS, PERMISSIONS_HERE, SESSION_WORDS, Sayings

EVENTS = 120
MOST_AT_ONCE = 6

# How many seconds a whole round may take.
ROUND_SECONDS = 180

# So many bytes, said at once, are read at once. What a client that is gone said in more than one
# read is lost where the program writes to it in between.
ONE_READ = 30_000
NUMBERS_BELOW = 16_384


class Stream:
    """The end of a stream that the script has."""

    def __init__(self, name: Name, end: socket.socket) -> None:
        self.name, self.socket = name, end
        self.bytes, self.sent = bytearray(), 0
        # What is left of a frame whose front was said.
        self.rest = b""
        end.setblocking(False)

    def say(self, data: bytes) -> bool:
        """Says all of it, and returns whether the other side took it."""
        view = memoryview(data)
        while view:
            if not select.select([], [self.socket], [], ANSWER_SECONDS)[1]:
                raise Failed(f"{self.name_in_words()} isn't read")
            try:
                view = view[self.socket.send(view) :]
            except (BrokenPipeError, ConnectionResetError):
                return False
        return True

    def more(self) -> bytes:
        """Reads what comes next; an end is nothing."""
        if not select.select([self.socket], [], [], ANSWER_SECONDS)[0]:
            raise Failed(f"nothing more came at {self.name_in_words()} after {self.bytes.hex()}")
        try:
            return self.socket.recv(1 << 20)
        except ConnectionResetError:
            return b""

    def take(self, count: int) -> bytes:
        while len(self.bytes) < count:
            data = self.more()
            if not data:
                raise Failed(f"{self.name_in_words()} ended after {self.bytes.hex()}")
            self.bytes += data
        data = bytes(self.bytes[:count])
        del self.bytes[:count]
        return data

    def hold_end(self) -> None:
        data = bytes(self.bytes) or self.more()
        if data:
            raise Failed(f"{self.name_in_words()} got {data[:80].hex()}, where it was to end")

    def hold_quiet(self) -> None:
        if self.bytes or select.select([self.socket], [], [], 0)[0]:
            found = (bytes(self.bytes) or self.more())[:80].hex() or "its end"
            raise Failed(f"{self.name_in_words()} got {found}, and nothing was to come")

    def name_in_words(self) -> str:
        return "the server" if self.name == SERVER else f"client {self.name}"


class Play:
    """One round: the program, its streams, and the model beside them."""

    # These are there once the round has started.
    master: play.Master
    watcher: Stream
    other_descriptors: int

    def __init__(self, room: play.Room, seed: int) -> None:
        self.room, self.rng = room, random.Random(seed)
        self.log: list[str] = []
        self.streams: dict[Name, Stream] = {}
        self.count = 0
        self.counts: collections.Counter[str] = collections.Counter()
        words = [self.rng.choice(it) for it in (PERMISSIONS, PERMISSIONS, SESSION_WORDS)]
        taken = self.room.keep(socket.create_server(("127.0.0.1", 0)))
        free = [play.free_port() for _ in range(2)]
        here = [entry.format(*free) for entry in self.rng.choice(PERMISSIONS_HERE)]
        self.model = Model(words[0], words[1], words[2], here, taken.getsockname()[1], free)
        self.sayings = Sayings(self.rng, self.model)
        self.lists, self.started = [*words, here], False

    def start(self) -> None:
        permissions: list[str] = []
        flags = ("--permit-open", "--permit-listen", "--permit-session", "--permit-here")
        for flag, entries in zip(flags, self.lists):
            permissions += [word for entry in entries for word in (flag, entry)]
        self.master, listener = self.room.start_master(*permissions)
        self.started = True
        self.note(" ".join(["ssh-mux", *permissions]))
        self.streams[SERVER] = Stream(SERVER, self.room.accept(self.master, listener))
        self.watcher = Stream("beside the play", self.connect())
        self.watcher.say(HELLO_FRAME)
        self.watcher.take(len(HELLO_FRAME))
        self.quiet()
        self.other_descriptors = self.descriptors()

    def note(self, line: str) -> None:
        self.log.append(line if len(line) < 400 else f"{line[:400]}..")

    def connect(self) -> socket.socket:
        return self.room.keep(self.master.connect())

    def descriptors(self) -> int:
        return self.master.descriptors()

    def known_descriptors(self) -> int:
        """How many there have to be: one for each client, and for each port of the master's own."""
        return self.other_descriptors + len(self.clients()) + self.model.listeners()

    def clients(self) -> list[ClientRules]:
        return [it for it in self.model.clients.values() if not it.lost]

    # Comparing.

    def meet(self, stream: Stream, parts: Parts | None) -> None:
        """Reads what a stream must get now."""
        if parts is None:
            stream.hold_end()
            return
        for part in parts:
            if isinstance(part, Number):
                self.meet_number(stream, part)
                continue
            found = stream.take(len(part))
            if found != part:
                at = next(n for n in range(len(part)) if found[n] != part[n])
                near = slice(max(0, at - 16), at + 48)
                what = f"{found[near].hex()}, and not {part[near].hex()}"
                where = f"at byte {at} of {len(part)}"
                raise Failed(f"{stream.name_in_words()} got {where}: {what}")

    def meet_number(self, stream: Stream, number: Number) -> None:
        (number.value,) = struct.unpack(">I", stream.take(4))
        held = [it.value for it in number.held or ()]
        if number.value >= NUMBERS_BELOW or number.value in held:
            raise Failed(f"the number {number.value} isn't fresh")
        self.counts["numbers"] += 1
        number.held = None

    def meet_all(self, name: Name | None = None, sent: int = 0) -> None:
        """Reads what is due: where a stream is named, what its bytes so far make."""
        due = [it for it in self.model.out if it[0] != name or it[1] <= sent]
        self.model.out = [it for it in self.model.out if it[0] == name and it[1] > sent]
        for _, _, target, parts in due:
            stream = self.streams[target]
            self.meet(stream, parts)
            if parts is None:
                self.forget(stream)
            else:
                self.counts["bytes"] += sum(len(it) for it in parts if isinstance(it, bytes))

    def forget(self, stream: Stream) -> None:
        stream.socket.close()
        del self.streams[stream.name]

    def quiet(self) -> None:
        """All that was said is answered, and nothing else waits anywhere."""
        for number in range(2):
            self.watcher.say(alive_check(number))
            self.meet(self.watcher, (alive(number),))
        for stream in self.streams.values():
            stream.hold_quiet()

    # Events.

    def feed(self, stream: Stream, data: bytes) -> None:
        if stream.name == SERVER:
            self.model.feed_server(data)
        else:
            self.model.feed_client(self.model.clients[stream.name], data)

    def says(self, stream: Stream, data: bytes) -> None:
        """Says bytes that the model was fed, in pieces, and compares what comes after each."""
        self.note(f"{stream.name_in_words()} says {data.hex()}")
        cuts = [0, len(data)]
        if self.rng.random() < 0.3 and len(data) > 1:
            few = self.rng.randrange(1, 4)
            cuts = sorted({*cuts, *(self.rng.randrange(1, len(data)) for _ in range(few))})
        began = stream.sent
        for start, end in zip(cuts, cuts[1:]):
            if not stream.say(data[start:end]):
                break
            stream.sent = began + end
            self.meet_all(stream.name, stream.sent)
            if stream.name not in self.streams or self.has_ended(stream):
                break
            if end < len(data):
                self.quiet()
        self.meet_all()

    def has_ended(self, stream: Stream) -> bool:
        """Whether what a stream said so far ended the run."""
        by = self.model.ended_by
        return by is not None and by[1] <= stream.sent

    def is_done(self, stream: Stream) -> bool:
        """Whether nothing that a stream says is read any more."""
        if self.model.ended:
            return True
        client = self.model.clients.get(stream.name)
        return client is not None and (client.lost or client.deaf)

    def frames(self, stream: Stream) -> bytes:
        """Some frames, which the model is fed, so that each fits what the last one left."""
        data, stream.rest = stream.rest, b""
        if self.makes_the_house_act(stream, data):
            return data
        client = self.model.clients.get(stream.name)
        if client is not None and client.proxy and self.rng.random() < 0.015:
            for frame in self.sayings.flood(client):
                if not self.is_done(stream):
                    self.feed(stream, frame)
                    data += frame
            return data
        for _ in range(self.rng.choice([1, 1, 1, 2, 3, 6])):
            if self.is_done(stream):
                break
            if client is None:
                frame = self.sayings.server_says()
            else:
                frame = self.sayings.client_says(client)
            data += frame
            if self.makes_the_house_act(stream, frame):
                return data
        if self.is_done(stream) and self.rng.random() < 0.5:
            data += self.rng.randbytes(self.rng.randrange(50))
        return data

    def makes_the_house_act(self, stream: Stream, data: bytes) -> bool:
        """The model is fed. What comes of the master's own forwardings, comes behind the piece."""
        self.model.house_acted = False
        self.feed(stream, data)
        return self.model.house_acted

    def part_of_a_frame(self, stream: Stream) -> bytes:
        """The front of a frame; its rest is said when the stream has its turn again."""
        if stream.name == SERVER:
            frame = proxy_frame(self.sayings.transport())
        else:
            frame = self.sayings.client_says(self.model.clients[stream.name])
        cut = self.rng.randrange(1, len(frame))
        stream.rest = frame[cut:]
        self.feed(stream, frame[:cut])
        return frame[:cut]

    def comes(self) -> None:
        self.count += 1
        self.note(f"client {self.count} comes")
        self.streams[self.count] = Stream(self.count, self.connect())
        self.model.comes(self.count)
        self.meet_all()

    def leaves(self, stream: Stream) -> None:
        """A client leaves: at once, with a last word, or by its sending side alone."""
        client = self.model.clients[stream.name]
        how = self.rng.choice(["leaves", "leaves", "leaves with a last word", "half-closes"])
        self.note(f"{stream.name_in_words()} {how}")
        if how == "leaves with a last word" and not client.deaf:
            data = self.frames(stream)
            if len(data) > ONE_READ:
                self.says(stream, data)
                return
            self.note(f"its last word is {data.hex()}")
            stream.say(data)
            self.drop_output(stream.name)
        if self.model.ended or client.lost:
            stream.socket.close()
            del self.streams[stream.name]
            self.meet_all()
            return
        self.model.gone(client)
        if how == "half-closes":
            stream.socket.shutdown(socket.SHUT_WR)
            stream.hold_end()
        self.forget(stream)
        self.meet_all()

    def drop_output(self, name: Name) -> None:
        """Takes away what a client that left at once would have got."""
        self.model.out = [it for it in self.model.out if it[2] != name]

    def event(self) -> str:
        clients = self.clients()
        may_come = self.model.listening and len(clients) < MOST_AT_ONCE
        if may_come and self.rng.random() < 0.3 / (1 + len(clients)):
            self.comes()
            return "a client comes"
        # A client that waits for the reply to its cancel leaves more often.
        house = self.model.house
        waits = [it.client for it in self.model.forwardings if it.cancelled]
        waits = [it for it in waits if it is not house]
        if clients and self.rng.random() < (0.06 if waits else 0.015):
            listened = self.model.listening
            self.leaves(self.streams[self.rng.choice(waits or clients).name])
            self.sees_the_listening_end(listened)
            return "a client leaves"
        names = [SERVER] * max(2, len(clients)) + [it.name for it in clients]
        stream = self.streams[self.rng.choice(names)]
        if self.rng.random() < 0.05 and not stream.rest and not self.is_done(stream):
            self.says(stream, self.part_of_a_frame(stream))
            return "the front of a frame"
        listened = self.model.listening
        self.says(stream, self.frames(stream))
        self.sees_the_listening_end(listened)
        return "the server says" if stream.name == SERVER else "a client says"

    def sees_the_listening_end(self, listened: bool) -> None:
        """Where clients were accepted before and are no more, the control path and its listener go."""
        if listened and not self.model.listening and not self.model.ended:
            wait_until(lambda: not os.path.lexists(self.master.control), "the control path goes")
            self.quiet()
            self.other_descriptors += self.descriptors() - self.known_descriptors()

    def play(self) -> None:
        self.start()
        for _ in range(EVENTS):
            self.counts[f"event: {self.event()}"] += 1
            if self.model.ended:
                break
            count = self.known_descriptors()
            wait_until(lambda: self.descriptors() == count, f"{count} descriptors are open")
            self.quiet()
        else:
            self.note("the server ends")
            self.model.server_ends()
            self.streams[SERVER].socket.shutdown(socket.SHUT_WR)
        self.end()

    def end(self) -> None:
        """The run ends as the model says: each stream, the status, the line."""
        for stream in [*self.streams.values(), self.watcher]:
            stream.hold_end()
        self.master.ends(*known(self.model.ended, "the end of the run in the model"))
        self.counts[f"status {self.master.process.returncode}"] += 1

    def program_s_end(self) -> str:
        """What the program said, where it has ended."""
        if not self.started or self.master.process.poll() is None:
            return ""
        with contextlib.suppress(ValueError, OSError):
            _, _, said = self.master.outcome()
            return f"\n  it ended with {self.master.process.returncode}: {(said or b'')[:2000]!r}"
        return ""


def play_round(program: str, seed: int, counts: collections.Counter[str]) -> str | None:
    """Plays a round: why it failed, with its last events, or nothing."""
    with play.Room(program) as room:
        a_round = Play(room, seed)
        try:
            with play.at_most(ROUND_SECONDS, "the round"):
                a_round.play()
            return None
        except play.FAULTS as why:
            log = a_round.log
            last = "\n".join(f"  {line}" for line in [*log[:1], *log[1:][-12:]])
            return f"{type(why).__name__}: {why}{a_round.program_s_end()}\n{last}"
        finally:
            counts.update(a_round.counts)
            counts.update(a_round.model.met)
