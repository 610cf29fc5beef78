"""The words of share-host, which ssh-mux-ensure takes, too."""

from __future__ import annotations

import argparse
import dataclasses
import os
import re
from typing import Any

from sshmux_tools.permissions import LISTS, LOOPBACK, Lists, flag_of, without_match
from sshmux_tools.ssh_words import host_of

# How many connections a share may have.
MOST_CONNECTIONS = 16

# What finds that the link is dead, where the configuration says nothing of it.
ALIVE_SECONDS = 15

# A door's name is that of files, too.
DOOR_NAME = re.compile(r"[A-Za-z][A-Za-z0-9_-]{0,31}")


@dataclasses.dataclass(kw_only=True)
class Master(Lists):
    """What a master of a share is told: the one of the share itself, or a door's."""

    forwardings: list[list[str]] = dataclasses.field(default_factory=list)
    # What its front is told.
    tidy: bool = False
    log: str | None = None

    def given(self) -> list[str]:
        """The words by which it was told."""
        words = [*self.words(), *self.front_options()]
        return words + [word for forwarding in self.forwardings for word in forwarding]

    def lists(self) -> Lists:
        """Those that hold: its own forwardings listen at the loopback, unless it is told where."""
        return self.effective({"permit_here": LOOPBACK})

    def front_options(self) -> list[str]:
        """The words of plain-front that are its own."""
        return (["--tidy"] if self.tidy else []) + (["--log", self.log] if self.log else [])


@dataclasses.dataclass(kw_only=True)
class Door(Master):
    """A further master over the same login, for others than the share's owner."""

    name: str
    # The folder of its front, and the group that may come in there.
    at: str | None = None
    group: str | None = None

    def lists(self) -> Lists:
        """What it isn't told to permit it doesn't."""
        return self.effective({name: ["none"] for name in LISTS})

    def given(self) -> list[str]:
        words = ["--door", self.name] + (["--at", self.at] if self.at else [])
        return words + (["--group", self.group] if self.group else []) + super().given()


@dataclasses.dataclass(kw_only=True)
class Options(Master):
    host: str
    # None where none is named.
    folder: str | None
    openssh: str | None
    own: bool
    front: bool
    background: bool
    idle: float | None
    verbose: bool
    file: str | None
    lines: list[str]
    connections: int = 1
    doors: list[Door] = dataclasses.field(default_factory=list)

    @property
    def name(self) -> str:
        """The host without a user, as `Match originalhost` sees it."""
        return host_of(self.host)

    def ssh_words(self) -> list[str]:
        """What the configuration is read with."""
        file = ["-F", self.file] if self.file else []
        return file + [word for line in self.lines for word in ("-o", line)]

    def masters(self) -> list[tuple[str, Master]]:
        """The share's own, and that of each door, with what stands before a line about it."""
        return [("", self), *((f"door {door.name}: ", door) for door in self.doors)]

    def again(self) -> list[str]:
        """The words that start such a share once more, but for how it is run."""
        words = [self.host] + ([self.openssh] if self.openssh else [])
        words += [self.folder] if self.folder else []
        words += (["--own"] if self.own else []) + (["-v"] if self.verbose else [])
        words += ["--idle", f"{self.idle:g}"] if self.idle else []
        words += ["--connections", str(self.connections)] if self.connections > 1 else []
        words += [*self.ssh_words(), *self.given()]
        return words + [word for door in self.doors for word in door.given()]


# What is said of one master: of the door before it, or else of the share itself.


class BeginDoor(argparse.Action):
    def __call__(self, parser: Any, options: Any, values: Any, flag: str | None = None) -> None:
        if not DOOR_NAME.fullmatch(values):
            parser.error(f"--door {values}: no name of at most 32 letters, digits, - and _")
        if any(door.name == values for door in options.doors):
            parser.error(f"--door {values}: there are two of this name")
        options.doors = [*options.doors, Door(name=values)]


class Entry(argparse.Action):
    """Adds to a list. -L, -R and -D are in one list, in their order."""

    def __call__(self, parser: Any, options: Any, values: Any, flag: str | None = None) -> None:
        master = options.doors[-1] if options.doors else options
        value = [flag, values] if self.dest == "forwardings" else values
        setattr(master, self.dest, [*getattr(master, self.dest), value])


class Setting(argparse.Action):
    def __call__(self, parser: Any, options: Any, values: Any, flag: str | None = None) -> None:
        master = options.doors[-1] if options.doors else options
        if not hasattr(master, self.dest):
            parser.error(f"{flag} stands behind no --door")
        setattr(master, self.dest, True if self.nargs == 0 else values)


def make_parser(program: str, about: str) -> argparse.ArgumentParser:
    parser = argparse.ArgumentParser(
        prog=program, description=about, formatter_class=argparse.RawDescriptionHelpFormatter,
        usage=f"{program} [option ..] HOST [[OPENSSH] FOLDER] [option ..] [--door NAME ..]",
        allow_abbrev=False,
    )
    parser.add_argument("host", metavar="HOST", help="as ssh takes it")
    parser.add_argument("places", metavar="[OPENSSH] FOLDER", nargs="*")
    parser.add_argument("--own", action="store_true", help="over a connection of its own")
    parser.add_argument("--front", action="store_true", help="serve plain clients, too")
    parser.add_argument(
        "--background", action="store_true",
        help="ask on the terminal where the login wants it, and go on without it",
    )
    parser.add_argument(
        "--idle", metavar="SECONDS", type=float, default=None,
        help="end when nobody has been in for so long (IDLE of the environment)",
    )
    parser.add_argument(
        "-v", dest="verbose", action="store_true", help="one line for each channel"
    )
    parser.add_argument("-F", dest="file", metavar="FILE", help="ssh's configuration file")
    parser.add_argument(
        "-o", dest="lines", metavar="LINE", action="append", default=[],
        help="a line of ssh's configuration",
    )
    parser.add_argument(
        "--connections", metavar="N", type=int, default=1,
        help="connections that the front may use, where the server has no room for a session",
    )
    add_options_of_masters(parser)
    add_options_of_doors(parser)
    return parser


def add_options_of_masters(parser: argparse.ArgumentParser) -> None:
    for name, metavar, what in (
        ("permit_open", "PERMISSION", "where clients may have the server connect to"),
        ("permit_listen", "PERMISSION", "where they may have the server listen"),
        ("permit_session", "any|none", "whether they may start sessions"),
        ("permit_here", "PERMISSION", "where its own forwardings may listen here (the loopback)"),
    ):
        parser.add_argument(
            flag_of(name), metavar=metavar, action=Entry, default=[],
            help=f"{what}, as ssh-mux -M takes it",
        )
    for flag in ("-L", "-R", "-D"):
        parser.add_argument(
            flag, dest="forwardings", metavar="FORWARDING", action=Entry, default=[],
            help="a forwarding of the master, as ssh -O forward takes it",
        )
    parser.add_argument(
        "--tidy", action=Setting, nargs=0, default=False,
        help="close a forwarding that came with a session once its clients have ended",
    )
    parser.add_argument("--log", metavar="FILE", action=Setting, help="where the front's log goes")


def add_options_of_doors(parser: argparse.ArgumentParser) -> None:
    parser.add_argument(
        "--door", dest="doors", metavar="NAME", action=BeginDoor, default=[],
        help="a further master over the same login, with a front, for which the lists, forwardings,"
        " --tidy and --log behind this word are; a list that isn't given permits nothing",
    )
    parser.add_argument(
        "--at", metavar="FOLDER", action=Setting, default=argparse.SUPPRESS,
        help="the folder of the door's front, instead of FOLDER/doors/NAME",
    )
    parser.add_argument(
        "--group", metavar="GROUP", action=Setting, default=argparse.SUPPRESS,
        help="a group that may come in at the door's front, beside its owner",
    )


def want_front(parser: argparse.ArgumentParser, options: Options) -> None:
    """Refuses what is for a front, where there is none. ssh-mux-ensure always has one."""
    if not options.front and (options.connections > 1 or options.tidy or options.log):
        parser.error("--connections, --tidy and --log are for the front: add --front")


def idle_of(parser: argparse.ArgumentParser, given: float | None) -> float | None:
    idle = given
    if idle is None and os.environ.get("IDLE"):
        try:
            idle = float(os.environ["IDLE"])
        except ValueError:
            parser.error(f"IDLE is no number: {os.environ['IDLE']}")
    if idle is not None and not 0 < idle < float("inf"):
        parser.error("the seconds of --idle aren't above 0")
    return idle


def set_paths(master: Master) -> None:
    """Others read these paths elsewhere."""
    master.log = os.path.abspath(master.log) if master.log else None
    if isinstance(master, Door) and master.at:
        master.at = os.path.abspath(master.at)


def read_options(parser: argparse.ArgumentParser, words: list[str] | None = None) -> Options:
    read = parser.parse_intermixed_args(words)
    if read.host.startswith("-"):
        parser.error("HOST begins with a dash")
    most = 1 if read.own else 2
    if len(read.places) > most:
        parser.error("too many words" + (": with --own there is no OPENSSH" if read.own else ""))
    if read.own and read.doors:
        parser.error("--door needs OpenSSH's master, which serves many: --own serves one")
    # Others read these paths elsewhere.
    places = [os.path.abspath(place) for place in read.places]
    options = Options(
        host=read.host, folder=places[-1] if places else None,
        openssh=places[0] if len(places) == 2 else None, own=read.own, front=read.front,
        background=read.background, idle=idle_of(parser, read.idle), verbose=read.verbose,
        file=os.path.abspath(read.file) if read.file and read.file != "none" else read.file,
        lines=read.lines, forwardings=read.forwardings, connections=read.connections,
        tidy=read.tidy, log=read.log, doors=read.doors,
        **{name: getattr(read, name) for name in LISTS},
    )  # fmt: skip
    for _, master in options.masters():
        set_paths(master)
    return options


def useless_entries(options: Options) -> list[str]:
    """A line for each entry of a list that permits nothing."""
    return [
        f"{whose}{flag} {entry}: matches nothing: {why}"
        for whose, master in options.masters()
        for flag, entry in master.pairs()
        if (why := without_match(entry, is_open=flag == "--permit-open"))
    ]
