"""Writes a file whole, or not at all: what had its name is replaced when all of the new text stands beside it, and keeps its mode and its links.

A file of several names is written over in place, since a new file would have one of them alone. What isn't a regular file, a device or a pipe, is written
through. A pipe that nobody reads is waited for, but not for ever.
"""
import errno
import os
import select
import stat
import tempfile
import time
from typing import Optional

PATIENCE = 2.0  # seconds in which nobody reads a pipe
NEW_MODE = 0o666  # of a file, without what the mask of the process takes away
WRITE_BITS = 0o222
SUPERUSER = 0


def write_whole(name: str, data: bytes) -> None:
    """Makes these bytes the content of a file. OSError, with the name that was given, where it can't: then a regular file is as it was."""
    try:
        found = os.stat(name)
    except FileNotFoundError:
        found = None
    try:
        if found and not stat.S_ISREG(found.st_mode):
            write_through(name, data)
        elif found and not may_be_replaced(name, found):
            refuse_read_only(found)
            write_in_place(name, data)
        else:
            write_beside(os.path.realpath(name), data, found)
    except OSError as why:
        raise OSError(why.errno, why.strerror, name) from None


def may_be_replaced(name: str, found: os.stat_result) -> bool:
    """Whether a file has one name alone, in a folder that takes others, and an owner that can be kept."""
    folder = os.path.dirname(os.path.realpath(name))
    return found.st_nlink == 1 and os.access(folder, os.W_OK) and os.geteuid() in (SUPERUSER, found.st_uid)


def refuse_read_only(found: os.stat_result) -> None:
    """Refuses what nobody may write, as a rename wouldn't, nor an open by who may do all."""
    if not found.st_mode & WRITE_BITS:
        raise PermissionError(errno.EACCES, "it is read-only")


def write_beside(target: str, data: bytes, found: Optional[os.stat_result]) -> None:
    """Writes a file beside another, or where none is, and gives it its name."""
    if found:
        refuse_read_only(found)
        if not os.access(target, os.W_OK):
            raise PermissionError(errno.EACCES, os.strerror(errno.EACCES))
    descriptor, beside = tempfile.mkstemp(dir=os.path.dirname(target), prefix=".cell-")
    try:
        with open(descriptor, "wb") as file:
            file.write(data)
            os.fchmod(file.fileno(), stat.S_IMODE(found.st_mode) if found else NEW_MODE & ~mask())
            keep_owner(file.fileno(), found)
        os.replace(beside, target)
    except BaseException:
        os.unlink(beside)
        raise


def keep_owner(descriptor: int, found: Optional[os.stat_result]) -> None:
    """Gives a file the owner and the group of another, as far as that is allowed."""
    if found and (found.st_uid, found.st_gid) != (os.geteuid(), os.getegid()):
        try:
            os.fchown(descriptor, found.st_uid, found.st_gid)
        except PermissionError:
            pass  # who may write the file becomes its owner, as with every rename


def mask() -> int:
    """What the mask of the process takes away from a mode. It can be read only as it is set."""
    taken = os.umask(0o077)
    os.umask(taken)
    return taken


def write_in_place(name: str, data: bytes) -> None:
    """Writes over a file, or leaves it as it was."""
    descriptor = os.open(name, os.O_RDWR)
    try:
        with open(descriptor, "rb", closefd=False) as file:
            before = file.read()
        try:
            put(descriptor, data)
        except OSError:
            put(descriptor, before)  # it has the room that it had
            raise
    finally:
        os.close(descriptor)


def put(descriptor: int, data: bytes) -> None:
    """Makes bytes the content of an open file."""
    at = 0
    while at < len(data):
        at += os.pwrite(descriptor, data[at:], at)
    os.ftruncate(descriptor, len(data))


def write_through(name: str, data: bytes) -> None:
    """Writes to a device or a pipe."""
    descriptor = opened(name)
    try:
        while data:
            if not select.select([], [descriptor], [], PATIENCE)[1]:
                raise OSError(errno.ETIMEDOUT, "nobody reads it")
            data = data[os.write(descriptor, data[:select.PIPE_BUF]):]
    finally:
        os.close(descriptor)


def opened(name: str) -> int:
    """A device or a pipe that is open for writing; a pipe is waited for until somebody reads it."""
    end = time.monotonic() + PATIENCE
    while True:
        try:
            return os.open(name, os.O_WRONLY | os.O_NONBLOCK | os.O_NOCTTY)
        except OSError as why:
            if why.errno != errno.ENXIO:
                raise
        if time.monotonic() > end:
            raise OSError(errno.ENXIO, "nobody reads it")
        time.sleep(0.05)
