"""The files of a hunt that makes a part, as they were when it began: the machine file, its sources, and those of --expect and --pass.

Each is read once, into a folder in which the program finds it by the same name. So what the program prints, and what is printed of lines and checksums, is of the
same texts, with the names that the user typed. Relative names are below `here`, a link to a folder deep enough for their `..`, and absolute ones below `root`.
A source with an absolute name is read by the program itself, where it is; so it is compared with its copy afterwards.
"""
import contextlib
import os
import pathlib
import select
import stat
import time
from typing import Iterator, List

from celltools.common.texts import MOST_BYTES
from celltools.run.plans import sources_in
from celltools.run.runs import Refused

PATIENCE = 5.0  # seconds for which a pipe is waited for that nobody writes
PAUSE = 0.02
BLOCK = 1 << 20  # bytes that are read at once


# ---- reading

def content(name: str, most: int = MOST_BYTES) -> bytes:
    """The bytes of a file; of one that is longer than `most`, one byte more. OSError if it can't be read, Refused if it is a pipe that nobody writes."""
    descriptor = os.open(name, os.O_RDONLY | os.O_NONBLOCK | os.O_NOCTTY)
    try:
        first = first_of_pipe(descriptor, name) if stat.S_ISFIFO(os.fstat(descriptor).st_mode) else b""
        os.set_blocking(descriptor, True)
        return first + rest_of(descriptor, most + 1 - len(first))
    finally:
        os.close(descriptor)


def rest_of(descriptor: int, most: int) -> bytes:
    """What is still to be read, up to `most` bytes."""
    parts: List[bytes] = []
    while most > 0:
        parts.append(os.read(descriptor, min(most, BLOCK)))
        if not parts[-1]:
            break
        most -= len(parts[-1])
    return b"".join(parts)


def first_of_pipe(descriptor: int, name: str) -> bytes:
    """The first byte of a pipe; nothing if somebody has it open to write, or had."""
    poll = select.poll()
    poll.register(descriptor, select.POLLIN)
    until = time.monotonic() + PATIENCE
    while time.monotonic() < until:
        try:
            found = os.read(descriptor, 1)
        except BlockingIOError:  # it is open to write
            return b""
        if found or poll.poll(0):
            return found
        time.sleep(PAUSE)
    raise Refused(f"{name}: it is a pipe without a writer: name a file, or start the writer first")


# ---- copying

def is_absolute(name: str) -> bool:
    return name.startswith("/")


def height_of(name: str) -> int:
    """How many folders above its own a name goes to at most."""
    level = least = 0
    for part in name.split("/"):
        level += {"": 0, ".": 0, "..": -1}.get(part, 1)
        least = min(least, level)
    return -least


class Copies:
    """The copies of a hunt's files in a folder."""

    def __init__(self, folder: str) -> None:
        self.here, self.root = os.path.join(folder, "here"), os.path.join(folder, "root")

    def path_of(self, name: str) -> str:
        """The path of a copy, as the program finds it from `here`; of a file that wasn't copied, its name."""
        copy = self.root + name
        return copy if is_absolute(name) and os.path.exists(copy) else name

    def take(self, machine: str, others: List[str]) -> None:
        """Copies all files. What can't be read has no copy, so that the program says so by its name."""
        taken = {name: content(name) for name in dict.fromkeys((machine, *others)) if is_readable(name)}
        for name in sources_named(taken.get(machine, b"")):
            if name not in taken and is_readable(name):
                refuse_pipe(name)
                taken[name] = content(name)
        self.make_here(max(map(height_of, taken), default=0))
        for name, data in taken.items():
            if is_absolute(name) and height_of(name):
                continue  # it goes above the root, which the folder hasn't
            self.put(name, data)

    def make_here(self, height: int) -> None:
        deep = os.path.join("work", *("up" for _ in range(height)))
        os.makedirs(os.path.join(os.path.dirname(self.here), deep))
        os.makedirs(self.root)
        os.symlink(deep, self.here)

    def put(self, name: str, data: bytes) -> None:
        """Puts a copy, in folders that are made as the name has them. Refused if another file has its place."""
        *folders, last = name.split("/")
        path = self.root if is_absolute(name) else self.here
        for folder in folders:
            path = os.path.join(path, folder)
            if folder not in ("", ".", ".."):
                os.makedirs(path, exist_ok=True)
        path = os.path.join(path, last)
        if os.path.exists(path) and pathlib.Path(path).read_bytes() != data:
            raise Refused(f"{name}: it clashes with another file of this hunt once `..` is left out: name both without `..`")
        pathlib.Path(path).write_bytes(data)

    @contextlib.contextmanager
    def inside(self) -> Iterator[None]:
        """Has relative names lead to the copies."""
        before = os.open(".", os.O_RDONLY | os.O_DIRECTORY)
        os.chdir(self.here)
        try:
            yield
        finally:
            os.fchdir(before)
            os.close(before)

    def refuse_edited(self, sources: List[str]) -> None:
        """Refuses a source with an absolute name that isn't as it was."""
        for name in filter(is_absolute, sources):
            if self.path_of(name) != name and (not is_readable(name) or content(name) != pathlib.Path(self.path_of(name)).read_bytes()):
                raise Refused(f"{name}: it was edited while ./hunt ran, so its line numbers may be wrong: run ./hunt again")


def is_readable(name: str) -> bool:
    """Whether a file can be read; a folder can't."""
    return os.access(name, os.R_OK) and not os.path.isdir(name)


def refuse_pipe(name: str) -> None:
    """Refuses a source with an absolute name that is a pipe: the program couldn't read it once more."""
    if is_absolute(name) and stat.S_ISFIFO(os.stat(name).st_mode):
        raise Refused(f"{name}: this source is a pipe, but sources with absolute names are read twice: put its text into a file")


def sources_named(machine: bytes) -> List[str]:
    """The sources of a machine file; none of a faulty one, which the program refuses."""
    try:
        return sources_in(machine)
    except Refused:
        return []
