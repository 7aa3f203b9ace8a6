"""Rows of tests/hostile: each calls a program of this repository with hostile input, in a fresh folder, and says what has to come of it."""
import dataclasses
import os
import pathlib
import re
import shutil
import signal
import subprocess
import tempfile
from typing import Callable, Iterator, List, Mapping, Optional, Sequence, Tuple, Union

from celltools.common.repository import ROOT
from lib import forking

SHOWN = 2000  # bytes of what a failing row wrote
TRACEBACK = b"Traceback (most recent call last)"
# sets the limit of memory in a process of its own: a hook between fork and exec may hang where there are threads
LIMITED = 'ulimit -v "$1"; shift; exec "$@"'


@dataclasses.dataclass(frozen=True)
class Row:
    """One call of a program in a fresh folder, and what has to come of it. In all that it writes there may be no traceback."""
    name: str  # what is shown, in a few words
    words: Sequence[str]  # the command; its first word is a path from the root of the repository ("tools/race", "cell")
    status: Union[int, Tuple[int, ...]]
    said: str = ""  # a regular expression that is found in standard error; "": standard error is empty
    printed: Optional[str] = None  # one that is found in standard output; None: not looked at
    files: Mapping[str, bytes] = dataclasses.field(default_factory=dict)  # files that the folder has
    examples: Sequence[str] = ()  # files of examples/ that are copied there, by their paths below examples/
    standard_input: bytes = b""
    environment: Mapping[str, str] = dataclasses.field(default_factory=dict)  # what is set beside the present one
    seconds: float = 60  # a bound for what never ends, also on a busy machine
    megabytes: int = 2048  # address space, by RLIMIT_AS
    before: Optional[Callable[[pathlib.Path], None]] = None  # makes what files can't say (a FIFO, a link), in the folder
    after: Optional[Callable[[pathlib.Path], Optional[str]]] = None  # what is wrong in the folder afterwards, or None


@dataclasses.dataclass(frozen=True)
class Ended:
    """A call that has ended."""
    status: int
    output: bytes
    error: bytes


def asked(row: Row, folder: pathlib.Path) -> Optional[Ended]:
    """What comes of a row in its folder. A tool is forked, where the row isn't about its start."""
    program = ROOT / row.words[0]
    command = [str(program), *row.words[1:]]
    if row.environment or not forking.is_tool(program):
        return ended(command, folder, row.seconds, row.megabytes, row.standard_input, row.environment)
    found = forking.ended(command, folder, row.seconds, row.megabytes, row.standard_input)
    return Ended(*found) if found else None


def ended(words: Sequence[str], folder: pathlib.Path, seconds: float, megabytes: int, standard_input: bytes = b"",
          environment: Optional[Mapping[str, str]] = None) -> Optional[Ended]:
    """A command that has ended, in a folder; None where it doesn't end in time, which ends it with whatever it started."""
    command = ["sh", "-c", LIMITED, "sh", str(1024 * megabytes), *words]
    with subprocess.Popen(command, cwd=folder, env={**os.environ, **(environment or {})}, start_new_session=True, stdin=subprocess.PIPE,
                          stdout=subprocess.PIPE, stderr=subprocess.PIPE) as process:
        try:
            output, error = process.communicate(standard_input, timeout=seconds)
        except subprocess.TimeoutExpired:
            os.killpg(process.pid, signal.SIGKILL)
            return None
    return Ended(process.returncode, output, error)


def prepare(row: Row, folder: pathlib.Path) -> None:
    """Makes the files of a row's folder."""
    for name, content in row.files.items():
        (folder / name).parent.mkdir(parents=True, exist_ok=True)
        (folder / name).write_bytes(content)
    for name in row.examples:
        shutil.copy(ROOT / "examples" / name, folder)
    if row.before:
        row.before(folder)


def faults_of(row: Row) -> List[str]:
    """What is wrong with what comes of a row, and then what it wrote; nothing where all is as it has to be."""
    with tempfile.TemporaryDirectory(prefix="cell-hostile-") as room:
        folder = pathlib.Path(room).resolve()
        prepare(row, folder)
        found = asked(row, folder)
        if found is None:
            return [f"no end within {row.seconds} seconds"]
        faults = list(faults_in(row, found))
        left = row.after(folder) if row.after else None
        faults += [left] if left else []
        return faults + shown(found) if faults else []


def faults_in(row: Row, found: Ended) -> Iterator[str]:
    """What is wrong with the status and the texts of a row's call."""
    wanted = row.status if isinstance(row.status, tuple) else (row.status,)
    if found.status not in wanted:
        yield f"the status is {found.status}, not {' or '.join(map(str, wanted))}"
    if TRACEBACK in found.error + found.output:
        yield "it ends with a traceback"
    if not is_as_said(row.said, found.error):
        yield f"standard error isn't as {row.said!r} says"
    if row.printed is not None and not is_as_said(row.printed, found.output):
        yield f"standard output isn't as {row.printed!r} says"


def is_as_said(pattern: str, text: bytes) -> bool:
    """Whether a text has what a pattern says; the empty pattern is the empty text's."""
    return bool(re.search(pattern.encode(), text, re.MULTILINE)) if pattern else not text


def shown(found: Ended) -> List[str]:
    """What a call wrote and how it ended, for a reader."""
    texts = ((name, text[:SHOWN].decode(errors="backslashreplace").rstrip()) for name, text in (("output", found.output), ("error", found.error)))
    return [f"    status: {found.status}", *(f"    {name}: {text}" for name, text in texts if text)]
