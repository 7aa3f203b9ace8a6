"""Says why a record is no run of a machine file any more: which step it was and how the machine stands there now, and which files are newer than the record."""
import os
import stat
import tempfile
from typing import Iterator, List, Optional

from celltools.common.texts import MOST_RECORD_BYTES, bytes_of, decoded, quoted
from celltools.run.plans import sources_of
from celltools.run.records import steps_in
from celltools.run.runs import Path, Refused
from celltools.telling.not_allowed import reason

STEPS = {
    "x": "an instruction of SPU {0}", "p": "piece {3} of command {1} of SPU {0}", "e": "the fetch of a list element of command {1} of SPU {0}",
    "r": "the completion of command {1} of SPU {0}", "a": "the atomic command of SPU {0}", "h": "a host action",
}  # fmt: skip
NO_NAMES = ("/dev/", "/proc/")  # what is there stands for an open file


def told(machine: Path, record: Path, place: Optional[int]) -> List[str]:
    """What there is to say of a record that `check` refuses: of its step at a place, where that isn't allowed, and of the files that are newer."""
    newer = list(newer_files(machine, record))
    lines = [] if place is None else told_step(machine, record, place)
    if newer:
        lines.append(f"the record is older than {' and '.join(newer)}: make it again with ./cell run {quoted(machine)} >{quoted(record)}")
    return lines


def told_step(machine: Path, record: Path, place: int) -> List[str]:
    """What the step at a place is in the record, and how the machine stands there now."""
    heads = steps_in(decoded(bytes_of(record, MOST_RECORD_BYTES)))
    letter, *numbers = heads[place].split()
    was = f"step {place} of the record is `{heads[place]}`, {STEPS[letter].format(*numbers)}"
    try:
        with tempfile.TemporaryDirectory(prefix="cell-stale-") as folder:
            return [f"{was}; with the present files, the state before it is:", *(f"    {line}" for line in reason(machine, folder, heads, place))]
    except Refused:
        return [f"{was}; with the present files, it cannot come there"]


def newer_files(machine: Path, record: Path) -> Iterator[str]:
    """The machine file and its sources, as far as they are newer than a record, by their times; none where the record is no file that has one."""
    made = changed_at(str(record))
    if made is None:
        return
    for name in dict.fromkeys([str(machine), *sources_of(machine)]):
        changed = changed_at(name)
        if changed is not None and changed > made:
            yield name


def changed_at(name: str) -> Optional[int]:
    """When a file was changed last, in nanoseconds; None where that can't be told, as of a pipe, or where it isn't called by a name of its own."""
    if name.startswith(NO_NAMES):
        return None
    try:
        found = os.stat(name)
    except (OSError, ValueError):
        return None
    return found.st_mtime_ns if stat.S_ISREG(found.st_mode) else None
