"""What the library answers, as objects."""
import array
import dataclasses
import json
import re
from typing import Any, Dict, Iterator, List, NamedTuple, Optional, Sequence, Tuple, Union, overload

PROCESSOR = re.compile(r"spe (\d+) (.+) pc 0x([0-9a-f]+) queued (\d+)")


# ---- images

Json = Dict[str, Any]  # an object as JSON has it, whose members are of any kind


@dataclasses.dataclass(frozen=True)
class Segment:
    """Contiguous bytes of an image: `kind` is `code` or `bytes`."""
    kind: str
    address: int
    data: bytes


@dataclasses.dataclass(frozen=True)
class Image:
    """The image of a source. `text` has the lines of a machine file for it, as the form `asm` prints them; `entry` is the address of the first instruction."""
    text: str
    segments: Tuple[Segment, ...]
    entry: int


def image_of(text: str) -> Image:
    segments: List[Segment] = []
    entry = 0
    for kind, *words in map(str.split, text.splitlines()):
        address = int(words[0], 16)
        if kind == "entry":
            entry = address
            continue
        data = bytes.fromhex(words[1])
        last = segments[-1] if segments else None
        if last and last.kind == kind and last.address + len(last.data) == address:
            segments[-1] = Segment(kind, last.address, last.data + data)
        else:
            segments.append(Segment(kind, address, data))
    return Image(text, tuple(segments), entry)


# ---- runs

@dataclasses.dataclass(frozen=True)
class Processor:
    """An SPU after the last step: `queued` is the number of its outstanding commands, and `registers` has the registers that aren't zero, by their numbers."""
    number: int
    status: str
    pc: int
    queued: int
    registers: Dict[int, int]


@dataclasses.dataclass(frozen=True)
class Shown:
    """Bytes that the machine file shows: of the local store of an SPU, or of main memory if `processor` is None."""
    processor: Optional[int]
    address: int
    data: bytes


@dataclasses.dataclass(frozen=True)
class States:
    """The states after the last step. `end` is the end word; `actions_done` counts the actions of the host that were made; `took` has the values that the host
    took, by the numbers of its actions."""
    end: str
    processors: Tuple[Processor, ...]
    actions_done: int
    actions: int
    took: Dict[int, int]
    shown: Tuple[Shown, ...]


@dataclasses.dataclass(frozen=True)
class Run:
    """A run. `text` is its record and the states, as the form `run` prints them; `check`, `permute` and `trace` take it."""
    text: str
    steps: int
    states: States

    @property
    def end(self) -> str:
        """The end word, such as `AllStopped` or `Stuck` (a deadlock)."""
        return self.states.end


def processors_in(lines: List[str]) -> Iterator[Processor]:
    for line in lines:
        found = PROCESSOR.fullmatch(line)
        if found:
            processor = Processor(int(found[1]), found[2], int(found[3], 16), int(found[4]), {})
            yield processor
        elif re.match(r"r\d", line):
            name, value = line.split()
            processor.registers[int(name[1:])] = int(value, 16)


def shown_in(lines: List[str]) -> Iterator[Shown]:
    for first, *rest in map(str.split, lines):
        if first == "mem":
            yield Shown(None, int(rest[0], 16), bytes.fromhex(rest[1]))
        elif first == "ls":
            yield Shown(int(rest[0]), int(rest[1], 16), bytes.fromhex(rest[2]))


def states_of(lines: List[str]) -> States:
    host = next(line.split() for line in lines if line.startswith("host "))
    took = {int(words[1]): int(words[2], 16) for words in map(str.split, lines) if words[0] == "took"}
    return States(lines[0].split()[1], tuple(processors_in(lines)), int(host[1]), int(host[3]), took, tuple(shown_in(lines)))


def run_of(text: str) -> Run:
    count, *states = text[text.index("\nsteps ") + 1:].splitlines()
    return Run(text, int(count.split()[1]), states_of(states))


# ---- verdicts

@dataclasses.dataclass(frozen=True)
class Verdict:
    """The verdict on a record. If two of its steps race, `places` has their numbers, counted from 0, and `lines` their texts; else both are empty."""
    text: str
    is_accepted: bool
    places: Tuple[int, ...] = ()
    lines: Tuple[str, ...] = ()


def verdict_of(text: str) -> Verdict:
    head, *lines = text.splitlines()
    word, *numbers = head.split()
    if word == "accepted":
        return Verdict(text, True)
    return Verdict(text, False, tuple(map(int, numbers)), tuple(line.split(" ", 1)[1] for line in lines))


# ---- hunts

@dataclasses.dataclass(frozen=True)
class Site:
    """The instruction or host action that a step of a race comes from. `letter` begins the line of the step; an instruction has `processor` and `address`, and
    an action of the host its number, `action`."""
    letter: str
    processor: Optional[int] = None
    address: Optional[int] = None
    action: Optional[int] = None

    def __str__(self) -> str:
        return f"the host's action {self.action}" if self.processor is None else f"{self.letter} {self.processor} at 0x{self.address:05x}"


class Count(NamedTuple):
    """The number of runs that have something, and the number of the first of them: None if no run has it."""
    runs: int
    first: Optional[int]


@dataclasses.dataclass(frozen=True)
class Race:
    """A data race of two sites, in the order of their steps in the first run that has it."""
    first: Site
    second: Site
    count: Count


@dataclasses.dataclass(frozen=True)
class Finding:
    """A failure or a warning, the number of runs that have it, and the number of the first of them. The `kind` of a failure is race, halt, fault, deadlock,
    livelock, missed or budget, that of a warning lost-signal, unread-putllc, unread-tags or unwritten-bytes. `lines` are the lines of the report: source lines for
    most kinds, and for a race the suppression too."""
    kind: str
    runs: int
    first: int
    lines: Tuple[str, ...]


class Lines(NamedTuple):
    """The numbers of the lines of a source that have an instruction: those that a run executed, and those that no run executed."""
    executed: Tuple[int, ...]
    unexecuted: Tuple[int, ...]


@dataclasses.dataclass(frozen=True)
class Hunt:
    """The report on many runs. `flaws` counts the runs with a `race`, `stuck` (a deadlock), `livelock`, `budget` (spent while still progressing), `fault`, `halt` or
    `missed` line; `findings` has each failure, and `warnings` each warning. `endings` counts the runs by their end word, and `results` by end word and result.
    `coverage` has the lines of each source by its name; a line counts as executed if one SPU executed it. `text` is the report as JSON, one object a line."""
    text: str
    runs: int
    seed: int
    flaws: Dict[str, Count]
    races: Tuple[Race, ...]
    findings: Tuple[Finding, ...]
    endings: Dict[str, Count]
    results: Dict[Tuple[str, str], Count]
    coverage: Dict[str, Lines]
    warnings: Tuple[Finding, ...]

    @property
    def is_clean(self) -> bool:
        """Whether no run has a failure. A warning is none."""
        return not any(count.runs for count in self.flaws.values())


def site_of(text: str) -> Site:
    letter, number, *rest = text.split()
    return Site(letter, action=int(number)) if letter == "h" else Site(letter, int(number), int(rest[1], 16))


def count_of(members: Json) -> Count:
    return Count(members["runs"], members["first"])


def race_of(line: Json) -> Race:
    first, second = map(site_of, line["race"].split(" | ")[1:])
    return Race(first, second, count_of(line))


def finding_of(line: Json, name: str) -> Finding:
    """The failure or the warning of a line, which has its kind under this name."""
    return Finding(line[name], line["runs"], line["first"], tuple(text[2:] for text in decoded(line["shown"]).split("\n")[:-1]))


def decoded(text: str) -> str:
    """A text that has a character a byte."""
    return text.encode("latin-1").decode("utf-8", "surrogateescape")


def coverage_of(sources: List[Json]) -> Dict[str, Lines]:
    """The lines of each source, by its name."""
    return {decoded(source["source"]): Lines(*(tuple(number for number, executed in source["lines"] if executed == wanted) for wanted in (1, 0)))
            for source in sources}


def hunt_of(text: str) -> Hunt:
    head, *told = map(json.loads, text.splitlines())
    flaws = {name: count_of(members) for name, members in head.items() if isinstance(members, dict) and "runs" in members}
    races = tuple(race_of(line) for line in told if "race" in line)
    endings = {line["end"]: count_of(line) for line in told if "end" in line and "result" not in line}
    results = {(line["end"], line["result"]): count_of(line) for line in told if "result" in line}
    findings, warnings = (tuple(finding_of(line, name) for line in told if name in line) for name in ("finding", "warning"))
    coverage = coverage_of([line for line in told if "source" in line])
    return Hunt(text, head["runs"], head["seed"], flaws, races, findings, endings, results, coverage, warnings)


# ---- traces

@dataclasses.dataclass(frozen=True)
class Step:
    """A step and its effects. `line` is the step as a record of format 1 has it. `fields` has its effects by their names, each with its words: `fetch`, `read`
    and `write` have the place (an SPU, or `mem`), the first byte, and the number of bytes."""
    line: str
    fields: Dict[str, Tuple[str, ...]]


def step_of(text: str) -> Step:
    line, *fields = text.split(" | ")
    return Step(line, {name: tuple(words) for name, *words in map(str.split, fields)})


class Trace(Sequence[Step]):
    """The steps of a record, a sequence. It keeps their text, `text`, and makes a `Step` on each access: a million steps take about 100 MB."""

    def __init__(self, text: bytes) -> None:
        self.text = text
        self._starts = array.array("Q")  # of the lines
        start = 0
        while start < len(text):
            self._starts.append(start)
            start = text.index(b"\n", start) + 1

    def __len__(self) -> int:
        return len(self._starts)

    @overload
    def __getitem__(self, place: int) -> Step: ...

    @overload
    def __getitem__(self, place: slice) -> List[Step]: ...

    def __getitem__(self, place: Union[int, slice]) -> Union[Step, List[Step]]:
        if isinstance(place, slice):
            return [self._step(start) for start in self._starts[place]]
        return self._step(self._starts[place])

    def __iter__(self) -> Iterator[Step]:
        return map(self._step, self._starts)

    def __eq__(self, other: object) -> bool:
        return isinstance(other, Trace) and self.text == other.text

    __hash__ = None  # type: ignore[assignment]

    def _step(self, start: int) -> Step:
        return step_of(self.text[start:self.text.index(b"\n", start)].decode())
