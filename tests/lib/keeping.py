"""Keeps that nothing was wrong, as long as nothing has changed on which that depends.

What was asked has a name, the checksum of all that its answer depends on: the test with the modules of tests/lib, the files that it reads, the Python that runs
it, the other programs of the machine that it asks, and what packages are installed. Where nothing was wrong, a file of that name is left in ~/.cache/cell, for
all clones of this machine, with what there is to tell of it; a fault is never kept. What depends on chance or on time, as threads and interrupts do, is asked
each time. With CELL_ANEW=1 all is asked again.
"""
import contextlib
import functools
import hashlib
import os
import pathlib
import shutil
import subprocess
import sys
import time
from typing import Callable, Iterable, Iterator, List, Optional

from celltools.common.repository import PROGRAMS, ROOT, built
from celltools.common.writing import write_whole
from celltools.source.language import TABLE

NOWHERE = pathlib.Path(os.devnull)  # in which nothing can be kept
LEFT = {"__pycache__", "out"}  # folders in which nothing is read
PACKAGES = "/var/lib/dpkg/status"  # what is installed, with its versions, where that is told
FONTS = ("/etc/fonts", "/usr/share/fonts", "/usr/local/share/fonts")  # browsers have a home of their own (browser_room.py)
DAYS = 30  # in which what nobody asks for is forgotten
SECONDS_A_DAY = 86400
SETTINGS = ("LANG", "LANGUAGE", "LC_ALL", "LC_CTYPE", "TZ")  # by which texts are read, and by which a browser writes numbers


def cache() -> pathlib.Path:
    """The folder of the user for what can be made again; NOWHERE if the user has no home."""
    try:
        return pathlib.Path(os.environ.get("XDG_CACHE_HOME") or pathlib.Path.home() / ".cache")
    except RuntimeError:
        return NOWHERE


CACHE = cache() / "cell" / "passed"


def unless_kept(mark: pathlib.Path, ask: Callable[[], Iterable[str]]) -> List[str]:
    """What is wrong, which isn't asked where nothing was. Nothing is kept if `ask` raises, as it does for what it can't look at."""
    if is_kept(mark):
        return []
    said = list(ask())
    if not said:
        keep(mark)
    return said


def mark_of(name: str, *hangs_on: bytes) -> pathlib.Path:
    """The file that says that nothing was wrong: of what, and with what."""
    settings = ",".join(f"{setting}={os.environ.get(setting)}" for setting in SETTINGS)
    sums = (hashlib.sha256(part).digest() for part in (sys.version.encode(), settings.encode(), packages(), *hangs_on))
    return CACHE / f"{name}-{hashlib.sha256(b''.join(sums)).hexdigest()}"


def is_kept(mark: pathlib.Path) -> bool:
    """Whether nothing was wrong before."""
    return kept_text(mark) is not None


def kept_text(mark: pathlib.Path) -> Optional[str]:
    """What was told where nothing was wrong before, None where that isn't known; it is kept from then on as if it were new."""
    if os.environ.get("CELL_ANEW"):
        return None
    try:
        os.utime(mark)
        return mark.read_text(encoding="utf-8")
    except OSError:
        return None


def keep(mark: pathlib.Path, text: str = "") -> None:
    """Keeps that nothing was wrong, and what was told, where that can be written."""
    with contextlib.suppress(OSError):
        CACHE.mkdir(parents=True, exist_ok=True)
        write_whole(str(mark), text.encode())
        forget()


@functools.cache
def forget() -> None:
    """Takes away what nobody has asked for in a long time."""
    for entry in os.scandir(CACHE):
        with contextlib.suppress(FileNotFoundError):  # which another test has taken away
            if entry.stat().st_mtime < time.time() - DAYS * SECONDS_A_DAY:
                os.unlink(entry)


# ---- on what answers hang

def of_files(*paths: pathlib.Path) -> bytes:
    """The checksums of files, and of all that folders have, by their names in this repository."""
    found = sorted({file for path in paths for file in files_in(path)})
    return "".join(f"{hashlib.sha256(file.read_bytes()).hexdigest()} {os.path.relpath(file, ROOT)}\n" for file in found).encode()


def files_in(path: pathlib.Path) -> Iterator[pathlib.Path]:
    """A file, or those of a folder and of the folders in it."""
    if path.is_file():
        yield path
    for folder, folders, names in os.walk(path):
        folders[:] = [name for name in folders if name not in LEFT]
        yield from (file for file in (pathlib.Path(folder, name) for name in names) if file.is_file())


def of_test(name: str) -> bytes:
    """A program of tests/ with its modules."""
    return of_files(ROOT / "tests" / name, ROOT / "tests" / "lib")


def of_tools() -> bytes:
    """The tools, with the table that they read, and the proved programs that they ask."""
    return of_files(ROOT / "tools", TABLE, ROOT / "cell", ROOT / "hunt", *map(built, PROGRAMS))


def of_program(name: str) -> bytes:
    """A program of this machine: where it is, and which version it says that it is."""
    path = os.path.realpath(shutil.which(name) or name)
    found = os.stat(path)
    version = subprocess.run([name, "--version"], stdin=subprocess.DEVNULL, capture_output=True)
    return f"{path} {found.st_size} {found.st_mtime_ns}\n".encode() + version.stdout


def of_browser(name: str) -> bytes:
    """A browser, with the fonts that it writes with."""
    files = sorted(file for folder in FONTS for file in files_in(pathlib.Path(folder)))
    fonts = (f"{file} {file.stat().st_size} {file.stat().st_mtime_ns}\n" for file in files)
    return of_program(name) + "".join(fonts).encode()


@functools.cache
def packages() -> bytes:
    """The checksum of what is installed; nothing where that isn't told."""
    try:
        return hashlib.sha256(pathlib.Path(PACKAGES).read_bytes()).digest()
    except OSError:
        return b""
