"""Groups of users that are let in somewhere."""

import contextlib
import grp

# What the kernel shows for each group that has no number on this side.
OVERFLOW = "/proc/sys/kernel/overflowgid"


class NoGroup(Exception):
    """There is no such group, or it is nobody's in particular."""


def overflow() -> int:
    with contextlib.suppress(OSError, ValueError), open(OVERFLOW, encoding="ascii") as file:
        return int(file.read())
    return 65534


def number_of(name: str) -> int:
    try:
        found = grp.getgrnam(name).gr_gid
    except KeyError:
        if not name.isdigit():
            raise NoGroup(f"group {name}: there is none") from None
        found = int(name)
    if found == overflow():
        raise NoGroup(f"group {name}: the kernel shows this one for all that it can't name")
    return found
