"""The folder in which a browser runs, so that it starts in a sandbox too: with a home, settings, a cache and a folder for sockets of its own, whatever HOME, TMPDIR
and /dev/shm are outside. What it prints on standard error is kept there."""
import contextlib
import os
import pathlib
import re
import shutil
import tempfile
from typing import Dict, Iterator

# The folders that a browser is told of, by the variables of its environment.
FOLDERS = {"HOME": "home", "XDG_CONFIG_HOME": "config", "XDG_CACHE_HOME": "cache", "XDG_DATA_HOME": "data", "XDG_STATE_HOME": "state", "XDG_RUNTIME_DIR": "run",
           "TMPDIR": "t"}  # fmt: skip
OTHERS = {"DBUS_SESSION_BUS_ADDRESS": "disabled:", "MOZ_CRASHREPORTER_DISABLE": "1", "MOZ_DISABLE_CONTENT_SANDBOX": "1"}  # further variables
PRIVATE = 0o700  # without which XDG_RUNTIME_DIR isn't taken
# The path of a socket has 107 bytes at most, and Chromium ends at a longer one. It adds some 45 to TMPDIR, and this module and its callers 29 to the folder for
# temporary files. In tests/all that is a folder of the test in a folder of tests/all, which alone has up to 80.
MOST_LETTERS = 33  # of that folder
SHORT = ("/dev/shm", "/tmp", "/var/tmp")  # taken if its path is longer: the one that it is in, or else one on a disk
FIRST_TITLE = "first"  # of the page that is opened to see whether the browser works
SHOWN = 300  # letters of a line
NOISE = re.compile(r"/crashpad/|:ERROR:dbus/|^/usr/bin/chromium: |^#\d+ 0x|\[end of stack trace\]")  # lines of Chromium that don't say why it ended


def temporary() -> str:
    """The folder for temporary files, or one with a short path in its place if its own is too long for the sockets of a browser."""
    usual = tempfile.gettempdir()
    if len(os.fsencode(usual)) <= MOST_LETTERS:
        return usual
    near = sorted(SHORT[1:] + SHORT[:1], key=lambda folder: not usual.startswith(f"{folder}/"))
    return next((folder for folder in near if os.access(folder, os.W_OK | os.X_OK)), usual)


@contextlib.contextmanager
def folder_of(prefix: str) -> Iterator[pathlib.Path]:
    """A folder in which browsers run, which may write there while it is removed."""
    folder = tempfile.mkdtemp(prefix=prefix, dir=temporary())
    try:
        yield pathlib.Path(folder)
    finally:
        shutil.rmtree(folder, ignore_errors=True)


class Room:
    """The folder of one browser: its profile, its log, and the folders that its environment names."""

    def __init__(self, folder: pathlib.Path) -> None:
        self.folder, self.profile, self.log = folder, folder / "profile", folder / "log"
        self.folders = {name: folder / short for name, short in FOLDERS.items()}
        for made in (self.profile, *self.folders.values()):
            made.mkdir(mode=PRIVATE, parents=True)

    def environment(self) -> Dict[str, str]:
        """The variables with which the browser is started."""
        return {**os.environ, **OTHERS, **{name: str(path) for name, path in self.folders.items()}}

    def first_page(self) -> str:
        """The address of a page with the title FIRST_TITLE, which is written."""
        path = self.folder / "first.html"
        path.write_text(f"<!DOCTYPE html><title>{FIRST_TITLE}</title>")
        return path.as_uri()

    def printed(self) -> str:
        """The line on standard error that says best why the browser ended: the last one that it calls fatal, or the last one; '' if there is none."""
        try:
            text = self.log.read_bytes().decode(errors="backslashreplace")
        except OSError:
            return ""
        lines = [" ".join(line.split()) for line in text.splitlines() if line.strip() and not NOISE.search(line)]
        fatal = [line for line in lines if ":FATAL:" in line]
        return (fatal or lines or [""])[-1][:SHOWN]
