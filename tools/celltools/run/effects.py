"""A run's steps with their effects, as `run_trace effects` prints them, and what they tell of its commands."""
import re
from typing import Dict, List, NamedTuple, Optional, Sequence, Set, Tuple, Union, overload

Key = Tuple[int, int]  # of a command: its processor, and its number
Shared = Tuple[str, str, "Span"]  # what one step does with bytes, what another does, and which bytes


class Span(NamedTuple):
    """Bytes that a step touches: the processor whose store they are in or None for main memory, the first, and how many."""
    spe: Optional[int]
    at: int
    size: int


class Command(NamedTuple):
    """What a queued command asks for: of a list `ea` is the list's address in the store, and `size` its bytes."""
    spe: int
    number: int
    kind: str
    mark: str
    tag: int
    ls: int
    high: int
    ea: int
    size: int

    @property
    def key(self) -> Key:
        return self.spe, self.number


class Element(NamedTuple):
    """An element of a list."""
    number: int
    parts: int
    flagged: bool
    ea: int
    size: int


KINDS = {"x": "instruction", "p": "piece", "e": "element", "r": "retirement", "a": "atomic", "h": "host"}
OF_COMMANDS = ("piece", "element", "retirement")
MEMORY_LINE = 128
NO_COMMAND = -1, -1
NO_NUMBERS: Tuple[Optional[int], ...] = (None,) * 4  # of a step whose line has fewer


class Step:
    """A step with its effect: what it is, the bytes that it fetches, reads and writes, and `told`, its other fields by their names."""

    def __init__(self, line: str) -> None:
        first, *fields = line.split(" | ")
        letter, *numbers = first.split()
        self.line, self.kind = first, KINDS[letter]
        self.spe, self.command, self.element, self.part = [*map(int, numbers), *NO_NUMBERS][:4]
        told = {name: words for name, *words in map(str.split, fields)}
        self.fetch, self.reads, self.writes = (span_of(told.pop(name, None)) for name in ("fetch", "read", "write"))
        self.told = told

    def number(self, name: str, place: int = 0) -> Optional[int]:
        """A number of a field; None where the step has no such field."""
        return int(self.told[name][place]) if name in self.told else None

    def spans(self) -> List[Tuple[str, Span]]:
        """What the step does to which bytes."""
        ways = (("fetches", self.fetch), ("reads", self.reads), ("writes", self.writes))
        return [(way, span) for way, span in ways if span]

    @property
    def processor(self) -> int:
        """The processor whose step it is, or of whose flow controller."""
        if self.spe is None:
            raise ValueError(f"`{self.line}` is no step of a processor")
        return self.spe

    @property
    def fetched(self) -> Span:
        """The bytes of an instruction."""
        if self.fetch is None:
            raise ValueError(f"`{self.line}` is no instruction")
        return self.fetch

    def is_instruction_of(self, spe: Optional[int], field: Optional[str] = None) -> bool:
        return self.kind == "instruction" and self.spe == spe and (field is None or field in self.told)

    def command_key(self) -> Optional[Key]:
        """The processor and number of the command of which this is a step, if it is of one."""
        return None if self.spe is None or self.command is None or self.kind not in OF_COMMANDS else (self.spe, self.command)

    def issued(self) -> Optional[Command]:
        """The command that this step issues, if it issues one."""
        if "issue" not in self.told or self.kind != "instruction" or self.spe is None:
            return None
        number, kind, mark, *rest = self.told["issue"]
        return Command(self.spe, int(number), kind, mark, *map(int, rest))

    def element_read(self) -> Optional[Element]:
        """The element of a list that this step reads; None where it reads none, or a faulty one."""
        if "element" not in self.told:
            return None
        number, parts, flagged, ea, size = map(int, self.told["element"])
        return Element(number, parts, bool(flagged), ea, size)


def span_of(words: Optional[Sequence[str]]) -> Optional[Span]:
    if words is None:
        return None
    place, at, size = words
    return Span(None if place == "mem" else int(place), int(at), int(size))


class Steps(Sequence[Step]):
    """The steps of the lines of `run_trace effects`, each made when it is first asked for."""

    def __init__(self, lines: List[str]) -> None:
        self.lines = lines
        self.made: Dict[int, Step] = {}

    def __len__(self) -> int:
        return len(self.lines)

    @overload
    def __getitem__(self, place: int) -> Step: ...

    @overload
    def __getitem__(self, place: slice) -> List[Step]: ...

    def __getitem__(self, place: Union[int, slice]) -> Union[Step, List[Step]]:
        if isinstance(place, slice):
            return [self[k] for k in range(*place.indices(len(self)))]
        if place < 0:
            place += len(self)
        if place not in self.made:
            self.made[place] = Step(self.lines[place])
        return self.made[place]


class Trace:
    """The steps of a run, and what they tell of its queued commands."""

    def __init__(self, lines: Sequence[str]) -> None:
        self.lines: List[str] = []
        self.made = Steps(self.lines)
        self.steps: Sequence[Step] = self.made
        self.issues: Dict[Key, int] = {}  # the place of the issue
        self.commands: Dict[Key, Command] = {}  # what the command asks for
        self.elements: Dict[Key, List[int]] = {}  # the places at which its elements are read
        self.cuts = 0  # how often steps were forgotten
        self.extend(lines)

    def extend(self, lines: Sequence[str]) -> None:
        """Goes on by more steps."""
        start = len(self.lines)
        self.lines += lines
        for place in self.with_field("issue", start):
            command = self.steps[place].issued()
            if command:
                self.issues[command.key], self.commands[command.key] = place, command
        for place in range(start, len(self.lines)):
            key = self.steps[place].command_key() if self.lines[place].startswith("e ") else None
            if key:
                self.elements.setdefault(key, []).append(place)

    def cut(self, end: int) -> None:
        """Forgets the steps from a place on."""
        self.cuts += 1
        del self.lines[end:]
        self.made.made = {place: step for place, step in self.made.made.items() if place < end}
        for key in [key for key, place in self.issues.items() if place >= end]:
            del self.issues[key], self.commands[key]
        self.elements = {key: [place for place in places if place < end] for key, places in self.elements.items()}

    def with_field(self, name: str, start: int = 0, end: Optional[int] = None) -> List[int]:
        """The places from `start` and below `end` of the steps that have a field of that name."""
        wanted = re.compile(rf" \| {name}\b")
        end = len(self.lines) if end is None else min(end, len(self.lines))
        return [place for place in range(start, end) if wanted.search(self.lines[place])]

    def command_of(self, step: Step) -> Command:
        """The command of which a step is one."""
        return self.commands[step.command_key() or NO_COMMAND]

    def whole_lines(self, place: int) -> Set[int]:
        """The addresses of the lines of main memory that the step at the place moves whole: that of an atomic command, or the piece of a PUTQLLUC."""
        step = self.steps[place]
        command = self.commands.get(step.command_key() or NO_COMMAND)
        if step.kind != "atomic" and not (step.kind == "piece" and command and command.kind == "putqlluc"):
            return set()
        return {span.at for span in (step.reads, step.writes) if span and span.spe is None and span.size == MEMORY_LINE}

    def element_of(self, place: int) -> Optional[Tuple[int, int, int]]:
        """The processor, command and number of the element of which the step at the place is one."""
        step = self.steps[place]
        key = step.command_key()
        if key and step.kind == "element":
            return *key, self.elements[key].index(place)
        if key and step.kind == "piece" and key in self.elements and step.element is not None:
            return *key, step.element
        return None


def mailbox(step: Step) -> Tuple[int, str]:
    """The processor and the name of the mailbox that a step puts a value into or takes one out of."""
    spe, box, _ = step.told.get("put") or step.told["take"]
    return int(spe), box


def has_group(groups: int, tag: int) -> bool:
    return bool(groups >> tag & 1)


def shared_bytes(first: Step, second: Step) -> List[Shared]:
    """The bytes that two steps have in common, where one of them writes: what the first does, what the second does, and which bytes."""
    if not (first.writes or second.writes):
        return []
    found = []
    for way, a in first.spans():
        for other, b in second.spans():
            low, high = max(a.at, b.at), min(a.at + a.size, b.at + b.size)
            if "writes" in (way, other) and a.spe == b.spe and low < high:
                found.append((way, other, Span(a.spe, low, high - low)))
    return found
