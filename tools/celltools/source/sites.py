"""Where the instructions of a machine come from: of each processor's addresses the file, the line and the text that was placed there."""
import functools
import re
from typing import Dict, Iterable, Iterator, List, Optional, Sequence, Set, Tuple

from celltools.common.texts import bytes_of, lines_in, quoted
from celltools.run.effects import Trace
from celltools.run.plans import PlanLine, plan_of
from celltools.run.runs import Path, Refused
from celltools.source.language import without_comments
from celltools.source.names import Named, Names, named_by_labels, named_range
from celltools.source.placed import LABELS, Line, Place, placed_lines

ORIGIN = re.compile(r"\s*(\S+:\d+)(?:\s|$)")  # what from_gas puts at the front of a line's comment
LINE_OF = re.compile(r"(\S+?:\d+)(?::\d+)?")  # of an origin, which may have a column behind it
# The opcodes of branches that set a link, and of the bits of a word that they are.
CALLS = {(23, 0x66), (23, 0x62), (21, 0x1A9)}
FAULTY_LINE = re.compile(r"machine file, line (\d+)$")
MOST_CALLS = 64  # nested calls that are kept in mind


def sets_link(word: int) -> bool:
    """Whether an instruction is a branch that sets a link."""
    return any(word >> shift == opcode for shift, opcode in CALLS)


class Site:
    """A line that placed an instruction."""

    def __init__(self, file: object, number: int, text: str, word: int, origin: Optional[str] = None, is_source: bool = True) -> None:
        self.file, self.number, self.text, self.word, self.origin, self.is_source = file, number, text, word, origin, is_source

    @property
    def place(self) -> str:
        return f"{self.origin} ({self.file}:{self.number})" if self.origin else f"{self.file}:{self.number}"

    @property
    def origin_line(self) -> Optional[str]:
        """The origin without its column."""
        found = LINE_OF.fullmatch(self.origin or "")
        return found[1] if found else None

    def __str__(self) -> str:
        return f"{self.place}: {self.text}" if self.number else self.text

    def is_call(self) -> bool:
        return sets_link(self.word)


def statement_of(text: str) -> Tuple[str, Optional[str]]:
    """A line's statement without its labels, and where it came from by its comment."""
    bare = LABELS.fullmatch(without_comments(text))
    found = ORIGIN.match(text.partition("#")[2])
    return " ".join((bare[2] + bare[3]).split()) if bare else "", found[1] if found else None


def source_lines(name: str) -> List[Line]:
    """The lines of a source, as they are placed."""
    try:
        return list(placed_lines(name))
    except OSError as why:
        raise Refused(f"{name}: {why.strerror}") from None
    except ValueError as why:
        raise Refused(f"{name}: {why}") from None


def groups_of(lines: Iterable[Line]) -> Iterator[List[Line]]:
    """The lines behind each line that has labels or an `.org`, with it, up to the next such line."""
    group: List[Line] = []
    for line in lines:
        if line.labels or line.word == ".org":
            yield group
            group = []
        group.append(line)
    yield group


def source_labels(lines: Iterable[Line]) -> Dict[str, Place]:
    """The labels of a source: of each its address, and how many bytes stand behind it up to the next label or the next `.org`."""
    sizes = ((group[0], sum(len(line.data) for line in group)) for group in groups_of(lines) if group)
    return {label: (line.address, size) for line, size in sizes for label in line.labels}


def source_sites(name: str, lines: Iterable[Line]) -> Dict[int, Site]:
    """The sites of a source's text and data, by their addresses."""
    sites: Dict[int, Site] = {}
    for line in lines:
        statement, origin = statement_of(line.text)
        for at in range(0, len(line.data), 4):
            word = int.from_bytes(line.data[at : at + 4].ljust(4, b"\0"), "big")
            sites[line.address + at] = Site(name, line.number, statement, word, origin)
    return sites


def code_sites(name: object, number: int, address: int, digits: str) -> Dict[int, Site]:
    """The sites of a `code` or `bytes` line of a machine file."""
    words = {at: digits[2 * at : 2 * at + 8].ljust(8, "0") for at in range(0, len(digits) // 2, 4)}
    return {address + at: Site(name, number, f"the word 0x{word}", int(word, 16), is_source=False) for at, word in words.items()}


def machine_text(machine: Path, name: object) -> bytes:
    """The text of a machine file, which has a name."""
    try:
        return bytes_of(machine)
    except OSError as why:
        raise Refused(f"{name}: {why.strerror}") from None


def plan_lines(text: bytes, name: object) -> Sequence[PlanLine]:
    """The lines of a machine file that have words, by the name of the file."""
    try:
        return plan_of(text)
    except Refused as why:
        found = FAULTY_LINE.search(str(why))
        said = f"{name}:{found[1]}: not a line of a machine file\n    tools/explain {quoted(name)} says it in words" if found else f"{name}: {why}"
        raise Refused(said) from None


class Sites:
    """The sites and the labels of each processor of a machine file, the modes of its signal registers, the names of ranges of main memory, and the lines of the
    host's script.

    `name` is what the user calls the machine file, where another one is read in its place.
    """

    def __init__(self, machine: Path, name: Optional[str] = None) -> None:
        self.machine = name or machine
        self.of_processor: List[Dict[int, Site]] = []
        self.labels: List[Dict[str, Place]] = []
        self.script: List[Tuple[int, str]] = []
        self.or_modes: Set[Tuple[int, int]] = set()  # the processors and numbers of the signal registers in OR mode
        self.stores: List[List[Named]] = []  # the ranges that have names, of each processor's store
        self.memory: List[Named] = []  # and of main memory
        self.sources: Dict[str, Tuple[Dict[int, Site], Dict[str, Place]]] = {}  # by their names the sites and the labels of each
        text = machine_text(machine, self.machine)
        self.memory += filter(None, map(named_range, lines_in(text)))  # comments, which the plan hasn't
        for line in plan_lines(text, self.machine):
            if line.spe is None:
                self.read_shared(line)
            else:
                self.read_placed(line, line.spe)

    def read_placed(self, line: PlanLine, spe: int) -> None:
        """Takes in a line of the machine file that is of a processor."""
        word, *words = line.words
        if word == "spe":
            self.of_processor.append({})
            self.labels.append({})
            self.stores.append([])
        elif word == "source":
            sites, labels = self.of_source(words[0])
            self.of_processor[spe].update(sites)
            self.labels[spe].update(labels)
            self.stores[spe] += named_by_labels(labels)
        elif word in ("code", "bytes"):
            self.of_processor[spe].update(code_sites(self.machine, line.number, int(words[0], 0), words[1]))

    def read_shared(self, line: PlanLine) -> None:
        """Takes in a line that is of no processor."""
        word, *words = line.words
        if word == "host":
            self.script.append((line.number, " ".join(line.words)))
        elif word == "ormode":
            self.or_modes.add((int(words[0], 0), int(words[1], 0)))

    def of_source(self, name: str) -> Tuple[Dict[int, Site], Dict[str, Place]]:
        """The sites and the labels of a source, which is read once."""
        if name not in self.sources:
            lines = source_lines(name)
            self.sources[name] = source_sites(name, lines), source_labels(lines)
        return self.sources[name]

    @functools.cached_property
    def names(self) -> Names:
        """The names of the places of the machine."""
        return Names(self.stores, self.memory)

    def at(self, spe: int, address: int) -> Site:
        """The site of an instruction."""
        found = self.of_processor[spe].get(address)
        return found or Site(self.machine, 0, f"0x{address:05x} of the local store, which has no source line", 0)

    def action(self, number: int) -> str:
        """The host's action of a number."""
        line, text = self.script[number]
        return f"{self.machine}:{line}: {text}"


class Calls:
    """The calls that are open, as instructions come one after the other: of branches that set a link, until what stands behind one is executed."""

    def __init__(self, sites: Sites) -> None:
        self.calls = [{at for at, site in found.items() if site.is_call()} for found in sites.of_processor]
        self.open: List[List[Place]] = [[] for _ in self.calls]  # of each processor the (place, address behind) of its calls
        self.led: Dict[int, Place] = {}  # and of the branch that it made last

    def take(self, place: int, line: str) -> Optional[int]:
        """Takes in an instruction, and answers the place of the branch that called its routine; None where none did."""
        words = line.split(" ", 6)
        spe, at = int(words[1]), int(words[5])
        self.come(spe, at)
        if at in self.calls[spe]:
            self.led[spe] = place, at + 4
        return self.open[spe][-1][0] if self.open[spe] else None

    def come(self, spe: int, at: int) -> None:
        """A processor comes to an address."""
        stack = self.open[spe]
        if spe in self.led:
            branch, behind = self.led.pop(spe)
            if at != behind:
                stack.append((branch, behind))
                del stack[:-MOST_CALLS]
        if stack:
            leave(stack, at)

    def innermost(self, spe: int, at: int) -> Optional[int]:
        """The address of the branch that called the routine in which a processor is that stands at an address; None where none did."""
        self.come(spe, at)
        return self.open[spe][-1][1] - 4 if self.open[spe] else None


def callers(trace: Trace, sites: Sites) -> Dict[int, int]:
    """Of each instruction of a routine, the place of the branch that called it."""
    calls = Calls(sites)
    called: Dict[int, int] = {}
    for place, line in enumerate(trace.lines):
        if line[0] == "x":
            caller = calls.take(place, line)
            if caller is not None:
                called[place] = caller
    return called


def leave(stack: List[Place], at: int) -> None:
    """Takes off the calls behind which an address stands, with those that were made within."""
    for depth in range(len(stack) - 1, -1, -1):
        if stack[depth][1] == at:
            del stack[depth:]
            return
