"""The doors of a share: each is a master of its own over the share's login, with a front for others
than the share's owner.

Where they lie, beside what registry.py tells of a FOLDER:

    FOLDER/N/door.NAME/control   the door's control socket, its owner's alone
    FOLDER/doors/NAME.control    a symbolic link to it
    FRONT/N.front                the socket of its front, in a folder FRONT that has nothing else:
                                 FOLDER/doors/NAME, unless its owner names one
    FRONT/front                  a symbolic link to that in the same folder, so that a container that
                                 has the folder finds the front of a newer share, too
"""

from __future__ import annotations

import contextlib
import os
import stat

from sshmux_tools import registry
from sshmux_tools.folders import Unsafe, make_folder, remove_link
from sshmux_tools.groups import NoGroup, number_of
from sshmux_tools.share_options import Door, Options

# A path of a Unix socket has at most 107 bytes; each is made by a name that has a process id more.
LONGEST_PATH, LONGEST_NUMBERS = 107, ("99", ".4194304")


class DoorPlace:
    """Where the sockets of a door are, in the share of this number."""

    def __init__(self, door: Door, folder: str, number: str) -> None:
        self.folder = f"{folder}/{number}/door.{door.name}"
        self.control = f"{self.folder}/control"
        self.front_folder = door.at or f"{folder}/doors/{door.name}"
        self.front = f"{self.front_folder}/{number}.front"
        self.name_of_front = f"{self.front_folder}/front"
        self.name_of_control = f"{folder}/doors/{door.name}.control"
        self.links = {
            self.name_of_control: f"../{number}/door.{door.name}/control",
            self.name_of_front: f"{number}.front",
        }


def check_lengths(door: Door, folder: str) -> None:
    number, pid = LONGEST_NUMBERS
    place = DoorPlace(door, folder, number)
    for path in (f"{place.folder}/transport", place.front):
        if len(os.fsencode(path + pid)) > LONGEST_PATH:
            raise Unsafe(f"door {door.name}: {path}: too long for a socket")


def give_to_group(path: str, door: Door, is_ours: bool) -> None:
    """The group may come into the folder, and nobody else. One that its owner named, and that was
    there, is as he made it."""
    group = None if door.group is None else number_of(door.group)
    if is_ours:
        if group is not None:
            os.chown(path, -1, group)
        os.chmod(path, 0o700 if group is None else 0o750)
    status = os.stat(path)
    if group is not None and (status.st_gid != group or not status.st_mode & stat.S_IXGRP):
        way = f"chgrp {door.group} {path}; chmod 750 {path}"
        raise Unsafe(f"{path}: group {door.group} can't come in there ({way})")


def make_folders(options: Options, folder: str) -> None:
    """Makes the folders of all doors' fronts. Raises Unsafe."""
    for door in options.doors:
        check_lengths(door, folder)
        path = DoorPlace(door, folder, "1").front_folder
        is_ours = door.at is None or not os.path.exists(path)
        make_folder(f"{folder}/doors")
        make_folder(path)
        try:
            give_to_group(path, door, is_ours)
        except NoGroup as fault:
            raise Unsafe(f"door {door.name}: {fault}") from None
        except OSError as error:
            raise Unsafe(f"{path}: group {door.group}: {error.strerror}") from None


def remove_traces(door: registry.DoorState, share: registry.Share) -> None:
    """Takes away what a share that has ended left of a door."""
    remove_link(
        f"{share.folder}/doors/{door.name}.control",
        f"../{share.number}/door.{door.name}/control",
    )
    folder, name = os.path.split(door.front)
    remove_link(f"{folder}/front", name)
    with contextlib.suppress(OSError):
        os.unlink(door.front)
