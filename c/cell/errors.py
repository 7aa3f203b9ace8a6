"""What the library refuses, as exceptions."""
import re
from typing import Any, Mapping, Optional, Sequence, Tuple

LINE = re.compile(r"(machine file|record file|script file|expectation file|pass file|source \d+), line (\d+)(?:: (\w+))?")
MISUSED, NOT_READ, NO_ROOM, FAULTY, NO_RUN, NO_MEMORY = range(2, 8)


class LibraryMissing(Exception):
    """The shared library isn't there, or isn't one for this machine."""


class CellError(Exception):
    """A refusal: `status` is the exit status of the program, and `said` its line."""

    PARAMETERS: Tuple[str, ...] = ("status", "said")  # of which it is made again when it was pickled

    def __init__(self, status: int, said: str) -> None:
        super().__init__(said)
        self.status, self.said = status, said

    def __reduce__(self) -> Tuple[Any, ...]:
        return type(self), tuple(getattr(self, name) for name in self.PARAMETERS)


class Misused(CellError, ValueError):
    """The words are no form of the program, an argument is out of its range, or a word or the name of a file has a line feed, which the library can't take."""


class NotRead(CellError):
    """A file isn't among those that were given: `file` is its name, if the program prints it."""

    PARAMETERS = ("status", "said", "file")

    def __init__(self, status: int, said: str, file: Optional[str]) -> None:
        super().__init__(status, said if file is None else f"{said}: {file} isn't among the files")
        self.said, self.file = said, file


class Faulty(CellError):
    """A file is too long or has a faulty line: `file` is its name, `line` is counted from 1, and `kind` is the assembler's name of the fault."""

    PARAMETERS = ("status", "said", "file", "line", "kind")

    def __init__(self, status: int, said: str, file: Optional[str], line: Optional[int], kind: Optional[str]) -> None:
        place = f"{file}:{line}" if line else file
        super().__init__(status, f"{place}: {kind or said}" if place else said)
        self.said, self.file, self.line, self.kind = said, file, line, kind


class NoRun(CellError):
    """A record isn't one of the machine file, or its run isn't settled."""


class Racy(CellError):
    """Two steps of the record race, so `permute` has no other order of it. `said` is the verdict: the numbers of the two steps, and what they are."""


class NoMemory(CellError, MemoryError):
    """Memory ran out."""


def name_in(said: str, names: Mapping[str, str], sources: Sequence[str]) -> Optional[str]:
    """The name of the file of which the program says something, by what it calls it."""
    found = re.search(r"source (\d+)", said)
    if found:
        return sources[int(found[1])] if int(found[1]) < len(sources) else None
    return next((name for called, name in names.items() if called in said), None)


def error_of(status: int, text: bytes, names: Mapping[str, str], sources: Sequence[str]) -> CellError:
    """The exception for a status above 1. `names` has what the program calls the files that the words name, and `sources` are those of the machine file."""
    said = text.decode(errors="backslashreplace").strip()
    said = said.split(": ", 1)[-1] if said.startswith(("cell: ", "hunt: ", "run_trace: ")) else said
    if status == NO_MEMORY:
        return NoMemory(status, said)
    if status == NO_RUN:
        return NoRun(status, said)
    file = name_in(said, names, sources)
    if status == NOT_READ:
        return NotRead(status, said, file)
    if status == FAULTY:
        place = LINE.search(said)
        return Faulty(status, said, file, int(place[2]) if place else None, place[3] if place else None)
    return Misused(status, said) if status == MISUSED else CellError(status, said)
