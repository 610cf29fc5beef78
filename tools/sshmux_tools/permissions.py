"""The lists of permissions, whose entries `ssh-mux -M` itself reads."""

from __future__ import annotations

import dataclasses
import re
import subprocess

# The lists, by the names of their options.
LISTS = ("permit_open", "permit_listen", "permit_here", "permit_session")
# Where the master's own forwardings may listen on this side unless somebody says otherwise.
LOOPBACK = ["127.0.0.1:*", "[::1]:*"]

# A word of its own that can't be taken is told by its place, from 1.
NOT_TAKEN = re.compile(r"word (\d+): (not a permission|unknown option)")
# What is a pattern elsewhere is a letter like others here.
PATTERN = "*?!"


def flag_of(name: str) -> str:
    return "--" + name.replace("_", "-")


@dataclasses.dataclass(kw_only=True)
class Lists:
    """The entries of each list. One without entries permits what `ssh-mux -M` does without it."""

    permit_open: list[str] = dataclasses.field(default_factory=list)
    permit_listen: list[str] = dataclasses.field(default_factory=list)
    permit_here: list[str] = dataclasses.field(default_factory=list)
    permit_session: list[str] = dataclasses.field(default_factory=list)

    def entries(self, name: str) -> list[str]:
        found: list[str] = getattr(self, name)
        return found

    def pairs(self) -> list[tuple[str, str]]:
        """Each entry behind its option."""
        return [(flag_of(name), entry) for name in LISTS for entry in self.entries(name)]

    def words(self) -> list[str]:
        """The words of `ssh-mux -M`."""
        return [word for pair in self.pairs() for word in pair]

    def front_words(self) -> list[str]:
        """Those that plain-front takes, too."""
        return [word for pair in self.pairs() if pair[0] != "--permit-session" for word in pair]

    def effective(self, otherwise: dict[str, list[str]]) -> Lists:
        """The lists, where those without entries have others."""
        return Lists(**{name: self.entries(name) or otherwise.get(name, []) for name in LISTS})

    def shown(self) -> str:
        """As ssh-mux-status prints them. Of several --permit-session the last one counts."""
        last = {"permit_session": self.permit_session[-1:]}
        return ", ".join(
            f"{flag_of(name)[2:]} {' '.join(last.get(name, self.entries(name))) or 'any'}"
            for name in LISTS
        )


def fault_in(program: str, words: list[str]) -> str | None:
    """Which word of the lists the program doesn't take; it opens nothing."""
    nowhere = "/dev/null/none"
    before = ["-M", "-F", "none", "-S", nowhere, "--transport", nowhere]
    done = subprocess.run(
        [program, *before, *words, "--", "host"], stdin=subprocess.DEVNULL,
        capture_output=True, text=True, errors="replace",
    )  # fmt: skip
    found = NOT_TAKEN.search(done.stderr)
    at = int(found[1]) - len(before) - 1 if found else -1
    if found is None or not 0 <= at < len(words):
        return None
    return f"{' '.join(words[at - at % 2 : at + 1])}: {found[2]}"


def without_match(entry: str, is_open: bool) -> str | None:
    """Why an entry that can be taken permits nothing that anybody would ask for."""
    if entry.startswith("/") or entry in ("any", "none"):
        return None
    host, _, port = entry.rpartition(":")
    if host.strip("[]") != "*" and set(host) & set(PATTERN):
        return "a host is compared letter by letter"
    if is_open and port and not port.strip("0"):
        return "nobody connects to port 0"
    return None
