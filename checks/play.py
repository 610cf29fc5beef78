"""What the checks of this folder share: bytes in, bytes out, processes, and the report of cases.

This is plumbing alone: the numbers of RFC 4254 and of PROTOCOL.mux, how a number, a string and a
frame are written and taken, how something is waited for, how what was started is ended, and how
options are read and cases reported.

What the program should answer is no part of it. random-play, one-secret and soak each have a model
of their own, written apart from the program and from one another, so that a mistake in one of them
isn't a mistake in all. So nothing here knows which frame is a fault, what a limit is, or what may
follow what, and a rule that two models share is written twice.
"""

import argparse
import collections
import contextlib
import dataclasses
import itertools
import os
import random
import resource
import shutil
import signal
import socket
import struct
import subprocess
import sys
import tempfile
import threading
import time
import traceback
from collections.abc import Callable, Iterator, Sequence
from typing import Any, Protocol, Self, TypeVar

TOP = os.path.dirname(os.path.dirname(os.path.realpath(__file__)))
PROGRAM = f"{TOP}/crates/ssh_mux_cli/out/ssh_mux_cli"
TRANSPORT = f"{TOP}/tools/openssh-transport"

# How many seconds an answer may take, and a whole case; and with OpenSSH's programs, how many
# something may take to come up, and one run of a client.
ANSWER_SECONDS = 30
CASE_SECONDS = 240
START_SECONDS = 60
RUN_SECONDS = 240

# The process id that the program is told to show.
PID = 42

# PROTOCOL.mux: what a client says, and what a master says.
HELLO, VERSION = 0x00000001, 4
NEW_SESSION, ALIVE_CHECK, TERMINATE = 0x10000002, 0x10000004, 0x10000005
OPEN_FWD, CLOSE_FWD, NEW_STDIO_FWD = 0x10000006, 0x10000007, 0x10000008
STOP_LISTENING, PROXY = 0x10000009, 0x1000000F
S_OK, S_PERMISSION_DENIED, S_FAILURE = 0x80000001, 0x80000002, 0x80000003
S_EXIT_MESSAGE, S_ALIVE, S_SESSION_OPENED = 0x80000004, 0x80000005, 0x80000006
S_REMOTE_PORT, S_PROXY = 0x80000007, 0x8000000F

# RFC 4253, section 12, and RFC 4254, section 9. There each name has SSH_MSG_ in front, and from 90
# on SSH_MSG_CHANNEL_; those of 91 and 93 are OPEN_CONFIRMATION and WINDOW_ADJUST.
DISCONNECT, IGNORE, UNIMPLEMENTED, DEBUG = 1, 2, 3, 4
GLOBAL_REQUEST, REQUEST_SUCCESS, REQUEST_FAILURE = 80, 81, 82
OPEN, CONFIRMATION, OPEN_FAILURE = 90, 91, 92
ADJUST, DATA, EXTENDED_DATA, EOF, CLOSE = 93, 94, 95, 96, 97
REQUEST, SUCCESS, FAILURE = 98, 99, 100

# Why an open fails (RFC 4254, section 5.1).
PROHIBITED, CONNECT_FAILED, UNKNOWN_TYPE, SHORTAGE = 1, 2, 3, 4

# Names of channel types and global requests, of RFC 4254 and of OpenSSH's PROTOCOL.
SESSION, DIRECT_PORT, FORWARDED_PORT = b"session", b"direct-tcpip", b"forwarded-tcpip"
DIRECT_PATH = b"direct-streamlocal@openssh.com"
FORWARDED_PATH = b"forwarded-streamlocal@openssh.com"
ASK_PORT, CANCEL_PORT = b"tcpip-forward", b"cancel-tcpip-forward"
ASK_PATH = b"streamlocal-forward@openssh.com"
CANCEL_PATH = b"cancel-streamlocal-forward@openssh.com"
KEEPALIVE, NO_MORE_SESSIONS = b"keepalive@openssh.com", b"no-more-sessions@openssh.com"


# Bytes out: numbers, strings and frames.


def u32(*numbers: int) -> bytes:
    return struct.pack(f">{len(numbers)}I", *numbers)


def text(data: bytes) -> bytes:
    """A string as RFC 4251 has it, behind its length."""
    return u32(len(data)) + data


def control_frame(body: bytes) -> bytes:
    """A frame of PROTOCOL.mux outside of proxy mode."""
    return text(body)


def proxy_frame(payload: bytes) -> bytes:
    """A frame of proxy mode, and of the transport: the padding's length is always 0."""
    return u32(len(payload) + 1) + b"\0" + payload


HELLO_FRAME = control_frame(u32(HELLO, VERSION))


def alive_check(number: int) -> bytes:
    return control_frame(u32(ALIVE_CHECK, number))


def alive(number: int, pid: int = PID) -> bytes:
    return control_frame(u32(S_ALIVE, number, pid))


def proxy_request(number: int) -> bytes:
    return control_frame(u32(PROXY, number))


# Bytes out: payloads.


def message(kind: int, recipient: int, rest: bytes = b"") -> bytes:
    """A message to a channel."""
    return bytes([kind]) + u32(recipient) + rest


def opening(name: bytes, sender: int, window: int, longest: int, rest: bytes = b"") -> bytes:
    return bytes([OPEN]) + text(name) + u32(sender, window, longest) + rest


def global_request(name: bytes, wants: int, rest: bytes = b"") -> bytes:
    return bytes([GLOBAL_REQUEST]) + text(name) + bytes([wants]) + rest


# Bytes in.


def number_at(payload: bytes | bytearray, at: int) -> int:
    number: int = struct.unpack_from(">I", payload, at)[0]
    return number


def text_at(payload: bytes, at: int) -> bytes:
    return payload[at + 4 : at + 4 + number_at(payload, at)]


def take_frame(came: bytearray, proxy: bool) -> bytes | None:
    """Takes a frame's payload or body, where one stands, from the front of what came."""
    if len(came) < 4 or len(came) < 4 + number_at(came, 0):
        return None
    length = number_at(came, 0)
    data = bytes(came[4 + proxy : 4 + length])
    del came[: 4 + length]
    return data


# Faults, and waiting.


class Failed(Exception):
    """Something came out otherwise than it has to."""


class Skipped(Exception):
    """The machine lacks what a case needs."""


# What may go wrong in a case, beside a mistake of the check's own.
FAULTS = (Failed, OSError, subprocess.SubprocessError)


Known = TypeVar("Known")


def in_short(value: object, most: int = 2000) -> str:
    said = repr(value)
    return said if len(said) <= most else f"{said[:most]}.. ({len(said)} characters)"


def hold(found: object, wanted: object, what: str) -> None:
    if found != wanted:
        raise Failed(f"{what}: {in_short(found)}, and not {in_short(wanted)}")


def known(value: Known | None, what: str) -> Known:
    """What has to be there by now."""
    if value is None:
        raise Failed(f"{what}: it isn't there")
    return value


def wait_until(
    holds: Callable[[], object], what: str, seconds: float = ANSWER_SECONDS, pause: float = 0.001
) -> None:
    end = time.monotonic() + seconds
    while not holds():
        if time.monotonic() > end:
            raise Failed(f"{what}: not within {seconds} seconds")
        time.sleep(pause)


def wait_patiently(holds: Callable[[], object], what: str) -> None:
    """Waits as long as programs that aren't ours may take."""
    wait_until(holds, what, START_SECONDS, pause=0.02)


@contextlib.contextmanager
def at_most(seconds: int, what: str) -> Iterator[None]:
    """Fails where the block takes longer. It needs the main thread, and one at a time."""

    def on_alarm(_number: int, _frame: object) -> None:
        raise Failed(f"{what} takes more than {seconds} seconds")

    signal.signal(signal.SIGALRM, on_alarm)
    signal.alarm(seconds)
    try:
        yield
    finally:
        signal.alarm(0)


# Sockets and processes.

# A run's status, and what it wrote to its two outputs, where that was read.
Result = tuple[int, bytes | None, bytes | None]


def connect(path: str, seconds: float | None = None) -> socket.socket:
    """A client's end at a Unix socket; later calls on it may take so many seconds."""
    end = socket.socket(socket.AF_UNIX)
    try:
        # Where many wait to be accepted this waits, too.
        end.connect(path)
    except OSError:
        end.close()
        raise
    end.settimeout(seconds)
    return end


def listen(family: int, address: Any) -> socket.socket:
    """Listens for one connection, which has to come in time."""
    listener = socket.socket(family)
    try:
        listener.bind(address)
    except OSError:
        listener.close()
        raise
    listener.settimeout(ANSWER_SECONDS)
    listener.listen(1)
    return listener


def text_of(path: str) -> str:
    """What a file holds; of one that isn't there, nothing."""
    with contextlib.suppress(FileNotFoundError):
        with open(path, encoding="utf-8", errors="replace") as file:
            return file.read()
    return ""


def lowest_lent_port() -> int:
    """The lowest of the ports that the system gives to sockets which ask for none."""
    lent = text_of("/proc/sys/net/ipv4/ip_local_port_range").split()
    return int(lent[0]) if lent else 32768


def free_port() -> int:
    """A port of the loopback on which nobody listens. Where enough lie below those that the system
    gives to sockets which ask for none, it is one of them: another may be taken by the time that
    somebody listens there."""
    lowest = lowest_lent_port()
    while True:
        port = random.SystemRandom().randrange(10_000, lowest) if lowest > 11_000 else 0
        with socket.socket() as tried, contextlib.suppress(OSError):
            tried.bind(("127.0.0.1", port))
            found: int = tried.getsockname()[1]
            return found


def answers(port: int) -> bool:
    """Whether somebody listens at a port of the loopback."""
    try:
        socket.create_connection(("127.0.0.1", port), timeout=1).close()
        return True
    except OSError:
        return False


class Echo:
    """A server that gives back what it gets, until the other side's end."""

    def __init__(self, listener: socket.socket | None = None) -> None:
        self.listener = listener or socket.create_server(("127.0.0.1", 0))
        threading.Thread(target=self.serve, daemon=True).start()

    @property
    def port(self) -> int:
        port: int = self.listener.getsockname()[1]
        return port

    def serve(self) -> None:
        with contextlib.suppress(OSError):
            while True:
                stream, _ = self.listener.accept()
                threading.Thread(target=self.give_back, args=(stream,), daemon=True).start()

    @staticmethod
    def give_back(stream: socket.socket) -> None:
        with contextlib.suppress(OSError), stream:
            while data := stream.recv(65536):
                stream.sendall(data)


def talk(stream: socket.socket, data: bytes) -> bytes:
    """Says all of it and reads the same number of bytes."""
    stream.settimeout(RUN_SECONDS)
    threading.Thread(target=stream.sendall, args=(data,), daemon=True).start()
    heard = bytearray()
    while len(heard) < len(data):
        more = stream.recv(65536)
        if not more:
            raise Failed(f"the stream ended after {len(heard)} of {len(data)} bytes")
        heard += more
    return bytes(heard)


def processor_nanoseconds(pid: int) -> int:
    """How much of the processor's time a process has had."""
    with open(f"/proc/{pid}/schedstat", encoding="ascii") as stat:
        return int(stat.read().split()[0])


def descriptors(pid: int) -> int:
    """How many descriptors a process has open."""
    return len(os.listdir(f"/proc/{pid}/fd"))


def end_process(process: subprocess.Popen[bytes], grace: float = 0) -> None:
    """Ends a process, if it runs: at once, or where so many seconds of grace didn't do it."""
    if grace and process.poll() is None:
        process.terminate()
        with contextlib.suppress(subprocess.TimeoutExpired):
            process.wait(grace)
    if process.poll() is None:
        process.kill()
    process.wait()


def end_openssh(process: subprocess.Popen[bytes]) -> None:
    """Asks a program of OpenSSH to end until it has: it can lose a signal while it looks about."""

    def has_ended() -> bool:
        if process.poll() is None:
            process.terminate()
        return process.poll() is not None

    wait_until(has_ended, "it ends when it is asked to", START_SECONDS, pause=0.5)


@contextlib.contextmanager
def child(
    words: Sequence[str | bytes], grace: float = 0, **how: Any
) -> Iterator[subprocess.Popen[bytes]]:
    """A process that lives no longer than the block. Its output goes into pipes by default."""
    pipes = {"stdin": subprocess.DEVNULL, "stdout": subprocess.PIPE, "stderr": subprocess.PIPE}
    given: dict[str, Any] = {**pipes, **how}
    with subprocess.Popen(words, **given) as process:
        try:
            yield process
        finally:
            end_process(process, grace)
            # What was to be said to it is lost with it.
            if process.stdin is not None:
                with contextlib.suppress(OSError):
                    process.stdin.close()


def master_words(control: Any, transport: str, *permissions: str) -> list[Any]:
    """What `ssh-mux` is told for it to be a master."""
    words = ["-M", "-F", "none", "-S", control, "--transport", transport]
    return [*words, *permissions, "host"]


@dataclasses.dataclass
class Master:
    """A running `ssh-mux -M`."""

    process: subprocess.Popen[bytes]
    control: str

    def connect(self, seconds: float | None = None) -> socket.socket:
        return connect(self.control, seconds)

    def descriptors(self) -> int:
        return descriptors(self.process.pid)

    def wait_for_path(self) -> None:
        """The path appears when everything else stands."""
        wait_until(lambda: os.path.lexists(self.control), "the control path stands")

    def outcome(self) -> Result:
        """Waits for its end: its status, and what it wrote."""
        out, err = self.process.communicate(timeout=ANSWER_SECONDS)
        return self.process.returncode, out, err

    def ends(self, status: int, line: bytes = b"") -> None:
        """It ends so, has written nothing but the line, and has taken its path away."""
        hold(self.outcome(), (status, b"", line), "status and output of the run")
        hold(os.path.lexists(self.control), False, "whether the control path is left behind")


def remove_folder(folder: str) -> None:
    """Removes a folder. What is missing at second sight was removed by who ended meanwhile."""

    def on_error(_call: object, _path: object, fault: tuple[Any, BaseException, Any]) -> None:
        if not isinstance(fault[1], FileNotFoundError):
            raise fault[1]

    # A name in it need not be text.
    shutil.rmtree(os.fsencode(folder), onerror=on_error)


class Closing(Protocol):
    def close(self) -> object: ...


Kept = TypeVar("Kept", bound=Closing)


class Room:
    """A folder of a case's own, with all that is started in it: both go with the block."""

    def __init__(self, program: str) -> None:
        self.program = program
        # The path of a socket is short, so the folder's is too.
        self.folder = tempfile.mkdtemp(prefix="ssh-mux-", dir="/tmp")
        self.ending = contextlib.ExitStack()
        self.ending.callback(remove_folder, self.folder)

    def __enter__(self) -> Self:
        return self

    def __exit__(self, *_: object) -> None:
        self.ending.close()

    def path(self, name: str) -> str:
        return f"{self.folder}/{name}"

    def names(self) -> list[str]:
        return sorted(os.listdir(self.folder))

    def file(self, name: str, data: bytes = b"") -> str:
        with open(self.path(name), "wb") as file:
            file.write(data)
        return self.path(name)

    def keep(self, thing: Kept) -> Kept:
        """Closes something at the end."""
        return self.ending.enter_context(contextlib.closing(thing))

    def start(
        self, words: Sequence[str | bytes], grace: float = 0, **how: Any
    ) -> subprocess.Popen[bytes]:
        return self.ending.enter_context(child(words, grace, **{"cwd": self.folder, **how}))

    def start_master(self, *permissions: str, **environment: str) -> tuple[Master, socket.socket]:
        """A master, and the socket at which its server waits for it."""
        transport, control = self.path("transport"), self.path("control")
        listener = self.keep(listen(socket.AF_UNIX, transport))
        told = {**os.environ, "SSHMUX_PID": str(PID), **environment}
        words = [self.program, *master_words(control, transport, *permissions)]
        return Master(self.start(words, env=told), control), listener

    def accept(self, master: Master, listener: socket.socket) -> socket.socket:
        """The server's end of the transport, once clients may come."""
        stream = self.keep(listener.accept()[0])
        master.wait_for_path()
        return stream


# Options, and the report.


def parser_for(about: str) -> argparse.ArgumentParser:
    """A parser whose help is a check's own text: a title, its usage, and what it does."""
    title, usage, *rest = about.strip().split("\n\n")
    parser = argparse.ArgumentParser(
        usage=usage.removeprefix("usage: "),
        description="\n\n".join([title, *rest]),
        formatter_class=argparse.RawDescriptionHelpFormatter,
    )
    said = "the program to try; by default the one that `rt ci` leaves"
    parser.add_argument("--program", metavar="FILE", help=said)
    return parser


def parser_with_words(about: str) -> argparse.ArgumentParser:
    parser = parser_for(about)
    parser.add_argument("words", metavar="WORD", nargs="*", help="a part of the names of cases")
    return parser


def parser_with_seed(about: str) -> argparse.ArgumentParser:
    parser = parser_for(about)
    seed = random.SystemRandom().randrange(1 << 32)
    parser.add_argument("--seed", metavar="N", type=int, default=seed, help="the first seed")
    return parser


@dataclasses.dataclass(frozen=True)
class Rounds:
    """The rounds of a check, so named, each with the seed behind the last one's."""

    name: str
    seed: int
    # How many there are, and after how many seconds none begins any more, where that is said.
    count: int | None
    seconds: float | None

    @property
    def extent(self) -> str:
        told = [] if self.count is None else [f"{self.count} {self.name}s"]
        told += [] if self.seconds is None else [f"{self.seconds:g} seconds"]
        return f"{' or '.join(told)}, seed {self.seed}"

    def seeds(self) -> Iterator[int]:
        began = time.monotonic()
        for number in itertools.count() if self.count is None else range(self.count):
            if self.seconds is not None and time.monotonic() - began >= self.seconds:
                return
            yield self.seed + number

    def play(self, play: Callable[[int], str | None]) -> tuple[int, int]:
        """Plays once with each seed, which may tell why that failed: how many passed and failed."""
        counts = collections.Counter[bool]()
        for seed in self.seeds():
            why = play(seed)
            counts[why is None] += 1
            if why is not None:
                say(f"FAILED: the {self.name} of --seed {seed} --{self.name}s 1: {why}")
        return counts[True], counts[False]


def begin_rounds(about: str, title: str, name: str, count: int) -> tuple[str, Rounds]:
    """Reads the options of a check of many rounds, so named: the program, and the rounds."""
    parser = parser_with_seed(about)
    said = f"how many {name}s, each with the seed behind the last one's; by default {count}"
    parser.add_argument(f"--{name}s", metavar="N", type=int, help=f"{said} without --seconds")
    said = f"begin no {name} once so many seconds are over"
    parser.add_argument("--seconds", metavar="S", type=float, help=said)
    options, program = begin(parser)
    wanted = getattr(options, f"{name}s")
    if wanted is None and options.seconds is None:
        wanted = count
    rounds = Rounds(name, options.seed, wanted, options.seconds)
    say(f"{title}: over {os.path.relpath(program)}, {rounds.extent}")
    return program, rounds


def begin(parser: argparse.ArgumentParser) -> tuple[argparse.Namespace, str]:
    """Reads the options: these, and the program that is tried. Without one the check ends here."""
    options = parser.parse_args()
    program = options.program or PROGRAM
    if not os.access(program, os.X_OK):
        parser.exit(2, f"{parser.prog}: there is no program {program}: rt ci makes it\n")
    # Its own end takes what it started along.
    signal.signal(signal.SIGTERM, lambda number, _frame: sys.exit(128 + number))
    start_with_default_signals()
    # What ends by a signal here leaves no core.
    resource.setrlimit(resource.RLIMIT_CORE, (0, 0))
    return options, os.path.realpath(program)


def start_with_default_signals() -> None:
    """A hangup or an interrupt that the starter of this check ignores, as nohup and a shell's job
    in the background do, isn't ignored by what the check starts: a handler ends with an exec."""
    for number in (signal.SIGHUP, signal.SIGINT):
        if signal.getsignal(number) == signal.SIG_IGN:
            signal.signal(number, lambda _number, _frame: None)


def say(line: str) -> None:
    """Says a line at once: what reads it may see how far a check has come."""
    print(line, flush=True)


def say_skipped(what: str, why: object) -> None:
    """Says what is skipped, in the form that the gate looks for."""
    say(f"skipped: {what}: {why}")


def has_paramiko() -> bool:
    """Whether the system's Python has it: tools that need it run by that one."""
    words = ["/usr/bin/python3", "-c", "import paramiko"]
    try:
        return subprocess.run(words, capture_output=True, timeout=START_SECONDS).returncode == 0
    except OSError:
        return False


# What a case may need beside programs: whether it is here, and what is said where it isn't.
NEEDS: dict[str, tuple[Callable[[], bool], str]] = {
    "paramiko": (has_paramiko, "this machine has no paramiko for /usr/bin/python3"),
    "sshd": (lambda: SSHD is not None, "this machine has no sshd"),
    "terminal": (lambda: os.getuid() == 0, "sshd gives terminals only where root starts it"),
}


def hold_need(name: str) -> None:
    """A case that needs this, or a program of this name, is skipped where it isn't here."""
    is_here, why = NEEDS.get(
        name, (lambda: shutil.which(name) is not None, f"this machine has no {name}")
    )
    if not is_here():
        raise Skipped(why)


@dataclasses.dataclass(frozen=True)
class Case:
    """A case: what it does in its room, what it needs, how its way is to be, and how many tries it
    has where the report names no other number. One that is a row of a table has a title. Where the
    permissions are None, the case starts the program itself."""

    play: Callable[[Any], None]
    needs: Sequence[str] = ()
    permissions: Sequence[str] | None = ()
    sshd_settings: str = ""
    tries: int = 1
    title: str = ""

    @property
    def name(self) -> str:
        return self.title or self.play.__name__.replace("_", " ")


RoomFor = Callable[[Case], contextlib.AbstractContextManager[Any]]
Play = TypeVar("Play", bound=Callable[[Any], None])


class Cases:
    """The cases of a check, in the order in which they stand; `case` marks each of them."""

    def __init__(self, title: str, seconds: int = CASE_SECONDS) -> None:
        self.title, self.seconds = title, seconds
        self.cases: list[Case] = []

    def case(self, play: Play) -> Play:
        self.cases.append(Case(play))
        return play

    def case_with(self, **more: Any) -> Callable[[Play], Play]:
        """Marks a case that needs something, or a way of its own."""

        def mark(play: Play) -> Play:
            self.cases.append(Case(play, **more))
            return play

        return mark

    def row(self, title: str, play: Callable[[Any], None], **more: Any) -> None:
        """Adds a case that is a row of a table."""
        self.cases.append(Case(play, title=title, **more))

    def named(self, words: Sequence[str]) -> list[Case]:
        """The cases whose names have one of the words, or all."""
        parts = [word.replace("_", " ") for word in words] or [""]
        return [case for case in self.cases if any(part in case.name for part in parts)]

    def outcome(self, case: Case, room_for: RoomFor) -> tuple[str, str]:
        """Plays a case in a room of its own: what is said of it, and why it failed, if it did."""
        try:
            for need in case.needs:
                hold_need(need)
            with room_for(case) as room, at_most(self.seconds, "it"):
                case.play(room)
            return "ok", ""
        except Skipped as why:
            return "skipped", str(why)
        except FAULTS as why:
            return "FAILED", f"{type(why).__name__}: {why}"
        except Exception as why:
            # A mistake of the check's own must not keep the other cases from being played.
            place = traceback.extract_tb(why.__traceback__)[-1]
            at = f"{os.path.basename(place.filename)} line {place.lineno}"
            return "FAILED", f"{type(why).__name__} at {at}: {why}"

    def report(
        self, words: Sequence[str], room_for: RoomFor, tries: int | None = None,
        seconds: float | None = None,
    ) -> bool:
        """Plays the cases that are named, and returns whether there were any and none failed.

        One that failed is played again while it has tries left; each failure is told. None is begun
        once so many seconds are over; how many were left out is told.
        """
        began, counts = time.monotonic(), {"ok": 0, "skipped": 0, "FAILED": 0}
        cases = self.named(words)
        for number, case in enumerate(cases):
            start = time.monotonic()
            if seconds is not None and start - began >= seconds:
                counts["skipped"] += len(cases) - number
                say_skipped(f"the last {len(cases) - number} cases", f"{seconds:g} s were over")
                break
            said, why = self.outcome(case, room_for)
            for _ in range((tries or case.tries) - 1):
                if said == "FAILED":
                    say(f"again: {case.name}: {why}")
                    said, why = self.outcome(case, room_for)
            counts[said] += 1
            if said == "skipped":
                say_skipped(case.name, why)
            else:
                took = f"({time.monotonic() - start:.2f} s)"
                say(f"{said}: {case.name} {took}{': ' + why if why else ''}")
        tried = f"{counts['ok']} passed, {counts['FAILED']} failed, {counts['skipped']} skipped"
        say(f"{self.title}: {tried}, in {time.monotonic() - began:.1f} s")
        return any(counts.values()) and not counts["FAILED"]


# The way to OpenSSH's server.

SSHD: str | None = shutil.which("sshd", path=os.environ.get("PATH", "") + ":/usr/sbin:/usr/local/sbin")

SSHD_SETTINGS = """\
Port {port}
ListenAddress 127.0.0.1
HostKey {folder}/host
AuthorizedKeysFile {folder}/allowed
PidFile none
StrictModes no
UsePAM no
PasswordAuthentication no
PermitRootLogin yes
MaxSessions 200
AllowTcpForwarding yes
AllowStreamLocalForwarding yes
"""


def make_key(path: str, passphrase: str = "") -> None:
    words = ["ssh-keygen", "-q", "-t", "ed25519", "-N", passphrase, "-f", path]
    subprocess.run(words, check=True, timeout=START_SECONDS)


class Way(Room):
    """The way from a client to an sshd on the loopback, in a room; each part is started by itself.

    What a part writes goes into a file, named for it.
    """

    # How a client names the server.
    destination = "127.0.0.1"

    port: int
    sshd: subprocess.Popen[bytes]
    openssh: subprocess.Popen[bytes]
    master: subprocess.Popen[bytes]

    def __init__(self, program: str) -> None:
        super().__init__(program)
        self.control = self.path("shared")

    @classmethod
    @contextlib.contextmanager
    def opened(cls, program: str, case: Case) -> Iterator[Self]:
        """A way as a case wants it, up and running."""
        with cls(program) as way:
            way.start_all(case)
            yield way

    def start_all(self, case: Case) -> None:
        """Starts the whole way as a case wants it."""
        self.start_sshd(case.sshd_settings)
        self.start_openssh_master()
        self.start_transport()
        self.start_program(*(case.permissions or ()))

    def start(
        self, words: Sequence[str | bytes], grace: float = START_SECONDS, **how: Any
    ) -> subprocess.Popen[bytes]:
        """Starts what is asked to end at the end, and has time for it."""
        return super().start(words, grace, **{"start_new_session": True, **how})

    def start_part(self, name: str, words: Sequence[str], **how: Any) -> subprocess.Popen[bytes]:
        with open(self.path(f"{name}.log"), "ab") as log:
            given: dict[str, Any] = {"stdout": log, "stderr": log, **how}
            return self.start(words, **given)

    def log(self, name: str) -> str:
        """What a part said."""
        return text_of(self.path(f"{name}.log"))

    def wait_for_path(self, path: str, process: subprocess.Popen[bytes], name: str) -> None:
        """Waits until a part made its socket; where it ended before, it failed."""
        what = f"the socket of {name} is there"
        wait_patiently(lambda: os.path.exists(path) or process.poll() is not None, what)
        if not os.path.exists(path):
            raise Failed(f"{name} ended with {process.returncode}: {self.log(name)[-300:]}")

    def wait_for_port(self, port: int) -> None:
        wait_patiently(lambda: answers(port), f"port {port} is listened on")

    def start_sshd(self, more: str = "") -> None:
        """Starts the server with new keys `host` and `user`.

        What `more` says stands before the other settings, so that it counts.
        """
        if SSHD is None:
            raise Skipped("this machine has no sshd")
        for name in ("host", "user"):
            make_key(self.path(name))
        shutil.copy(self.path("user.pub"), self.path("allowed"))
        if os.getuid() == 0:
            os.makedirs("/run/sshd", mode=0o755, exist_ok=True)
        # Another process may have taken the port meanwhile.
        if not any(self.sshd_stays(SSHD, more) for _ in range(3)):
            said = self.log("sshd").strip().rpartition("\n")[2]
            raise Skipped(f"sshd can't be started here: {said}")

    def sshd_stays(self, sshd: str, more: str) -> bool:
        """Starts the server at a new port, and returns whether it could stay."""
        self.port = free_port()
        settings = more + SSHD_SETTINGS.format(port=self.port, folder=self.folder)
        config = self.file("sshd_config", settings.encode())
        self.sshd = self.start_part("sshd", [sshd, "-D", "-e", "-f", config])
        wait_patiently(lambda: self.sshd.poll() is not None or answers(self.port), "sshd answers")
        return self.sshd.poll() is None

    def login_words(self) -> list[str]:
        """What ssh is told to log in with the user's key, without asking."""
        return [
            "-F", "none", "-i", self.path("user"), "-p", str(self.port), "-o", "BatchMode=yes",
            "-o", "StrictHostKeyChecking=no", "-o", "UserKnownHostsFile=/dev/null",
        ]  # fmt: skip

    def start_openssh_master(self) -> None:
        control = self.path("openssh-control")
        words = ["ssh", *self.login_words(), "-M", "-N", "-S", control, self.destination]
        self.openssh = self.start_part("openssh", words)
        self.wait_for_path(control, self.openssh, "openssh")

    def start_transport(self) -> None:
        transport = self.path("transport")
        words = [TRANSPORT, self.path("openssh-control"), transport]
        process = self.start_part("transport", words)
        self.wait_for_path(transport, process, "transport")

    def start_program(self, *permissions: str, **how: Any) -> None:
        words = [self.program, *master_words(self.control, self.path("transport"), *permissions)]
        self.master = self.start_part("ssh-mux", words, **how)
        self.wait_for_path(self.control, self.master, "ssh-mux")


class ProxyWay(Way):
    """A way with clients in proxy mode."""

    def client_words(self, *words: str) -> list[str]:
        return ["ssh", "-F", "none", "-S", self.control, "-O", "proxy", *words]

    def run(self, *words: str, data: bytes = b"") -> tuple[bytes, int]:
        """Runs a client in proxy mode: its standard output and status."""
        how: dict[str, Any] = {"input": data, "capture_output": True, "timeout": RUN_SECONDS}
        done = subprocess.run(self.client_words(*words), **how)
        return done.stdout, done.returncode

    def open_client(self, *words: str, **how: Any) -> subprocess.Popen[bytes]:
        return self.start_part("client", self.client_words(*words), **how)


def report_ways(about: str, cases: Cases, way: type[Way]) -> int:
    """What a check does whose cases each have a way of their own: its status.

    A case hangs on the time that OpenSSH's programs take, so that it has two tries.
    """
    options, program = begin(parser_with_words(about))
    if SSHD is None or shutil.which("ssh") is None:
        say_skipped(cases.title, "this machine has no sshd or no ssh")
        return 0
    passed = cases.report(options.words, lambda case: way.opened(program, case), tries=2)
    return 0 if passed else 1
