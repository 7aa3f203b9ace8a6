"""Asks the programs of this repository about the run of a record: `cell check`, and run_trace. tools/launch builds them first where they aren't built."""
import bisect
import functools
import os
import re
import subprocess
import sys
from typing import TYPE_CHECKING, Iterable, List, Sequence, Tuple, Union

from celltools.common.repository import LAUNCH, built, shipped
from celltools.common.texts import MOST_RECORD_BYTES, bytes_of, decoded, lines_in, quoted

Path = Union[str, "os.PathLike[str]"]
if TYPE_CHECKING:
    Done = subprocess.CompletedProcess[str]
BUILT, UNPROVED, IN_PLACE = 0, 3, 4  # statuses of tools/launch --build: built, to be run unproved, to be run from bin/

# What to do next, by what `cell` says of a run.
ADVICE = [
    (r"its name is not UTF-8", "give it another name, or a link: ln -s FILE NAME"),
    (r"cannot read machine file", "{machine}: it isn't there, or can't be read: names are relative to the current folder"),
    (r"cannot read source (\d+)", "{machine}:{at}: source {source}\n    {source}: it isn't there, or can't be read: names are relative to the current folder"),
    (r"source (\d+), line (\d+)", "{source}:{line}: {text}\n    tools/explain {machine} explains it"),
    (r"source (\d+)", "{source}: tools/explain {machine} explains it"),
    (r"machine file, line (\d+)", "{machine}:{number}: {text}\n    tools/explain {machine} explains it"),
    (r"machine file|source|is not in the table", "{machine}: tools/explain {machine} explains it"),
    (r"cannot read record file", "{record}: it isn't there, or can't be read: ./cell run {machine} >FILE makes a record"),
    (r"record file, line (\d+)", "{record}:{number}: {text}\n    tools/explain {record} explains it"),
    (r"record file", "{record}: tools/explain {record} explains it"),
    (r"step (\d+) is not allowed", "the record isn't a run of this machine file as it is now: make it again, or print the states before that step: "
                                   "tools/states {machine} {record} {number}"),
    (r"states differ at byte (\d+)", "{record}:{at}: {text}\n    the record was made with another machine file, or was edited: make it again: ./cell run {machine} >FILE"),
]
NO_RUN = re.compile(r"step (\d+) is not allowed|states differ")
# And where a file stands in the place of another, by what it is and what `cell` says of it.
MACHINE, RECORD, SOURCE = "cell-machine", "cell-record", "source"
MISPLACED = {
    (MACHINE, RECORD): "{machine} is a record: name its machine file first, and then the record",
    (MACHINE, SOURCE): "{machine} is a source: name a machine file that has the line `source {machine}`",
    (RECORD, MACHINE): "{record} is a machine file: name a record of its run after it; `./cell run {record} >FILE` makes one",
    (RECORD, SOURCE): "{record} is a source: name a record; `./cell run {machine} >FILE` makes one",
}
COMMENTS = re.compile(r"\A(?:[ \t]*(?:#[^\n]*)?\n)*")  # before the first line with words
MOST_OF_LINE = 120  # characters of a faulty line
MOST_COMMENTS = 4096  # bytes of a file that are looked at for its first line
FAULTY = {MACHINE: "machine file, line", RECORD: "record file, line"}


class Refused(Exception):
    """What a tool tells where it can't answer."""


def ended(command: Sequence[Path]) -> "Done":
    """A command that has ended, with what it wrote."""
    try:
        return subprocess.run(command, capture_output=True, encoding="utf-8", errors="backslashreplace")
    except OSError as why:
        raise Refused(f"{command[0]}: {why.strerror}") from None


def said_of(done: "Done") -> str:
    """What a program says of a fault, in one line."""
    lines = [line for line in done.stderr.splitlines() if line.strip() and not line.startswith("cell: running UNPROVED")]
    return lines[0].strip() if lines else f"it ended with status {done.returncode}, and said nothing"


def what_is(path: Path) -> str:
    """What a file is, by its name or how it begins; nothing where that can't be told."""
    if str(path).endswith((".s", ".S")):
        return SOURCE
    try:
        data = bytes_of(path, MOST_COMMENTS)
    except OSError:
        return ""
    text = COMMENTS.sub("", decoded(data), 1)
    return next((head for head in (MACHINE, RECORD) if text.startswith(head)), "")


def misplaced(said: str, machine: Path, record: Path) -> str:
    """What to do where one of the two files is of another kind than it has to be; nothing where both are right."""
    wanted, path = (MACHINE, machine) if FAULTY[MACHINE] in said else (RECORD, record)
    return MISPLACED.get((wanted, what_is(path)), "") if FAULTY[wanted] in said else ""


def source_named(machine: Path, number: str) -> Tuple[int, str]:
    """Returns the line of a machine file that names a source, by its number from 0, and the source's name; no name if the file is refused, which has no plan."""
    from celltools.run import plans  # asks by this module
    try:
        named = [(line.number, line.words[1]) for line in plans.plan_of(bytes_of(machine)) if line.words[0] == "source"] if number.isdecimal() else []
    except (OSError, Refused):
        named = []
    return named[int(number)] if int(number or 0) < len(named) else (1, "a source")


def text_in(path: Path, number: int) -> str:
    """Returns the text of a line of a file, by its number from 1; of a long one its beginning."""
    try:
        lines = lines_in(bytes_of(path, MOST_RECORD_BYTES))
    except OSError:
        return "(the file can't be read again)"
    return lines[number - 1].strip()[:MOST_OF_LINE] if number <= len(lines) else "(the end of the file)"


def line_of_byte(path: Path, place: int) -> int:
    """Returns the number of the line, from 1, that has a byte of a file, by its place from 0."""
    try:
        return len(bytes_of(path, MOST_RECORD_BYTES)[:place].split(b"\n"))
    except OSError:
        return 1


def next_step(said: str, machine: Path, record: Path) -> str:
    """What to do where `cell` says that, as an ending of the sentence."""
    advice = misplaced(said, machine, record)
    if advice:
        return "\n    " + advice.format(machine=quoted(machine), record=quoted(record))
    for pattern, advice in ADVICE:
        found = re.search(pattern, said)
        if found:
            number, line = (*found.groups(), "", "")[:2]
            at, source = source_named(machine, number) if "source" in said else (0, "")
            if "states differ" in said:
                at = line_of_byte(record, int(number))
                text = text_in(record, at)
            elif ", line" in said:
                text = text_in(source if source else record if FAULTY[RECORD] in said else machine, int(line or number))
            else:
                text = ""
            names = {"machine": quoted(machine), "record": quoted(record), "source": source}
            return "\n    " + advice.format(number=number, line=line, at=at, text=text, **names)
    return ""


def verdict(machine: Path, record: Path) -> List[str]:
    """What `check` says of a record, line by line. Refused where it finds that the record is no run of the machine file."""
    done = asked("cell_cli", "check", machine, record)
    if done.returncode not in (0, 1) or not done.stdout:
        said = said_of(done)
        raise Refused(said + why_no_run(said, machine, record) + next_step(said, machine, record))
    return done.stdout.splitlines()


def why_no_run(said: str, machine: Path, record: Path) -> str:
    """What is known of a record that `cell` says to be no run of a machine file, as an ending of the sentence."""
    found = NO_RUN.search(said)
    if not found:
        return ""
    from celltools.telling import stale  # asks about the record's first steps, by this module
    return "".join(f"\n    {line}" for line in stale.told(machine, record, int(found[1]) if found[1] else None))


@functools.cache  # the sources are looked at once, however often a program is asked
def prepare() -> int:
    """Builds the programs unless they are built, with its progress on standard error. Returns BUILT, UNPROVED or IN_PLACE."""
    status = subprocess.run([LAUNCH, "--build"], stdin=subprocess.DEVNULL).returncode
    if status not in (BUILT, UNPROVED, IN_PLACE):
        raise Refused("the proved programs aren't built; the lines above say why")
    if status == UNPROVED:
        print("running UNPROVED code, since CELL_TRY is set", file=sys.stderr)
    return status


def command_of(program: str) -> List[Path]:
    """The first words of a program's call. A proved program is called by its path: the sources have been looked at."""
    status = prepare()
    if status == UNPROVED:
        return [LAUNCH, program]
    return [shipped(program) if status == IN_PLACE else built(program)]


def asked(program: str, *words: Path) -> "Done":
    """What a program answers."""
    return ended([*command_of(program), *words])


def ask_tracer(form: str, machine: Path, record: Path, *more: str) -> List[str]:
    """The lines that a form of run_trace prints of a record."""
    done = asked("run_trace", form, os.fspath(machine), os.fspath(record), *more)
    if done.returncode:
        verdict(machine, record)  # says it in the words of `cell`, where the fault is in the files
        raise Refused(said_of(done))
    return done.stdout.splitlines()


class Places:
    """A set of places in a record, from ranges: lines of the first and the last."""

    def __init__(self, lines: Iterable[str]) -> None:
        self.ranges = [(int(first), int(last)) for first, last in map(str.split, lines)]
        self.firsts = [first for first, _ in self.ranges]

    def __contains__(self, place: int) -> bool:
        at = bisect.bisect_right(self.firsts, place) - 1
        return at >= 0 and place <= self.ranges[at][1]


def places_before(machine: Path, record: Path, place: int) -> Places:
    """The places that are ordered before a place."""
    return Places(ask_tracer("before", machine, record, str(place)))
