"""Folders that are this user's alone, locks in them, and paths of sockets there."""

import contextlib
import fcntl
import os
import stat


class Unsafe(Exception):
    """A folder isn't there, or isn't this user's alone."""


def check_folder(folder: str) -> None:
    """Raises Unsafe where another user could put a socket of his own there."""
    try:
        status = os.stat(folder)
    except OSError as error:
        raise Unsafe(f"{folder}: {error.strerror}") from None
    if not stat.S_ISDIR(status.st_mode):
        raise Unsafe(f"{folder} isn't a folder")
    if status.st_uid != os.geteuid():
        raise Unsafe(f"{folder} isn't a folder of yours")
    if status.st_mode & (stat.S_IWGRP | stat.S_IWOTH):
        raise Unsafe(f"{folder}: others may write there (chmod go-w {folder})")


def make_folder(folder: str) -> None:
    """Makes a folder, or finds it. Raises Unsafe as check_folder does."""
    try:
        os.makedirs(folder, mode=0o700, exist_ok=True)
    except OSError as error:
        raise Unsafe(f"{folder}: {error.strerror}") from None
    check_folder(folder)


def open_lock(path: str) -> int:
    return os.open(path, os.O_RDWR | os.O_CREAT | os.O_CLOEXEC, 0o600)


def take_alone(lock: int) -> bool:
    """Whether nobody else holds the lock; it is ours then."""
    with contextlib.suppress(BlockingIOError):
        fcntl.flock(lock, fcntl.LOCK_EX | fcntl.LOCK_NB)
        return True
    return False


def is_socket(path: str) -> bool:
    with contextlib.suppress(OSError):
        return stat.S_ISSOCK(os.lstat(path).st_mode)
    return False


def target_of(link: str) -> str | None:
    """What a symbolic link says; None where the path is none."""
    with contextlib.suppress(OSError):
        return os.readlink(link)
    return None


def set_link(target: str, path: str) -> None:
    """Puts a symbolic link at a path in one step, in place of a link or socket that is there."""
    beside = f"{path}.{os.getpid()}"
    with contextlib.suppress(FileNotFoundError):
        os.unlink(beside)
    os.symlink(target, beside)
    os.rename(beside, path)


def remove_link(path: str, target: str) -> None:
    """Takes a link away, if it still says that."""
    if target_of(path) == target:
        with contextlib.suppress(FileNotFoundError):
            os.unlink(path)
