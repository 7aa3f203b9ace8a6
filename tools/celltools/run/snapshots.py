"""A machine file and a record as they were when a tool began, which asks about them more than once: neither changes under an answer, and a pipe can be one."""
import contextlib
import os
import tempfile
from typing import Iterator, List, Optional, Tuple

from celltools.common.texts import MOST_BYTES, MOST_RECORD_BYTES, bytes_of, lines_of, number_of
from celltools.run.runs import Path, Refused


class Snapshot(os.PathLike[str]):
    """A file: as a path it is its copy, as a text what the user calls it."""

    def __init__(self, path: str, name: str) -> None:
        self.path, self.name = path, name

    def __fspath__(self) -> str:
        return self.path

    def __str__(self) -> str:
        return self.name


def snapshot(folder: str, kind: str, name: str, most: int) -> Snapshot:
    """A copy in a folder; of a file that isn't there none, so that `cell` says so when it comes to it. Refused where it can't be read."""
    taken = Snapshot(os.path.join(folder, kind.replace(" ", "-")), name)
    try:
        data = bytes_of(name, most)
    except (FileNotFoundError, NotADirectoryError):
        return taken
    except IsADirectoryError:
        raise Refused(f"{name}: it is a folder: name a {kind}") from None
    except OSError as why:
        raise Refused(f"{name}: {why.strerror}: name a {kind} that can be read") from None
    with open(taken, "wb") as file:
        file.write(data)
    return taken


@contextlib.contextmanager
def snapshots(machine: str, record: Optional[str] = None) -> Iterator[Tuple[Snapshot, Optional[Snapshot]]]:
    """A machine file and a record, where one is named."""
    with tempfile.TemporaryDirectory(prefix="cell-files-") as folder:
        taken = snapshot(folder, "machine file", machine, MOST_BYTES)
        yield taken, None if record is None else snapshot(folder, "record", record, MOST_RECORD_BYTES)


def record_lines(record: Path) -> List[str]:
    """The lines of a record file; Refused where there is none."""
    try:
        return lines_of(record, MOST_RECORD_BYTES)
    except OSError as why:
        raise Refused(f"{record}: {why.strerror}") from None


def steps_of(record: Path) -> int:
    """How many steps a record says that it has; Refused where it doesn't."""
    found: List[str] = next((line.split() for line in record_lines(record) if line.startswith("steps ")), [])
    count = number_of(found[1]) if len(found) == 2 else None
    if count is None:
        raise Refused(f"{record}: it has no line `steps N`, so it is no record, or only a part of one: ./cell run MACHINE >FILE makes a record")
    return count
