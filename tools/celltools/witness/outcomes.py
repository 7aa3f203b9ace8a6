"""What comes out of the two orders of a race: the bytes that it is about, how the machine stands behind its two steps, and how both runs end."""
import dataclasses
import os
import pathlib
from typing import List, Optional, Sequence, Tuple

from celltools.common.texts import lines_of, number_of
from celltools.run.effects import Span, Step, shared_bytes
from celltools.run.machine_state import State
from celltools.run.runs import Path
from celltools.run.stepping import Run
from celltools.source.disassembly import Disassembler
from celltools.source.names import Names
from celltools.source.sites import Sites
from celltools.telling.flows import in_words
from celltools.telling.states import quad
from celltools.telling.words import counted
from celltools.witness.search import Pair, Witness

ROW = 16  # bytes of a line
REGISTERS = 128
TURNS = (1_000, 100_000)  # of a run that goes on to its end: the second where it doesn't come there by the first
OPEN = "Open"  # the end word of a run that may go on


@dataclasses.dataclass(frozen=True)
class Part:
    """A part of what comes out, by its name, in lines."""
    name: str
    lines: Tuple[str, ...]


@dataclasses.dataclass(frozen=True)
class Difference:
    """What a part is in the one order and in the other."""
    name: str
    first: Tuple[str, ...]
    second: Tuple[str, ...]

    @property
    def is_one(self) -> bool:
        return self.first != self.second


@dataclasses.dataclass(frozen=True)
class Ends:
    """How the two runs end when they go on, by the same choices: their end words, the parts that differ, and how many ranges of bytes were looked at."""
    words: Tuple[str, str]
    differences: Sequence[Difference]
    shown: int


@dataclasses.dataclass(frozen=True)
class Outcome:
    """What comes out of the two orders: the racing bytes, whatever else differs behind the two steps, and the ends, where anything does."""
    racing: Sequence[Difference]
    behind: Sequence[Difference]
    ends: Optional[Ends]


def compared(first: Sequence[Part], second: Sequence[Part]) -> List[Difference]:
    """The parts that differ, of two lists that have the same names."""
    found = [Difference(one.name, one.lines, other.lines) for one, other in zip(first, second)]
    return [difference for difference in found if difference.is_one]


# ---- bytes

def rows(data: bytes) -> List[str]:
    """Bytes as rows of words."""
    return [" ".join(data[at:at + ROW][k:k + 4].hex() for k in range(0, len(data[at:at + ROW]), 4)) for at in range(0, len(data), ROW)]


def of_bytes(names: Names, span: Span, first: bytes, second: bytes, name: str = "{}") -> Difference:
    """The first row of a range that differs, or its first row; and how many others do."""
    both = list(zip(rows(first), rows(second)))
    differing = [at for at, (one, other) in enumerate(both) if one != other] or [0]
    start = differing[0] * ROW
    row = Span(span.spe, span.at + start, min(ROW, span.size - start))
    more = f" (and {counted(len(differing) - 1, 'row')} of {ROW} bytes more)" if len(differing) > 1 else ""
    one, other = both[differing[0]]
    return Difference(name.format(names.range(row)) + more, (one,), (other,))


# ---- the parts of a state

def statuses(state: State) -> List[Part]:
    return [Part(f"SPU {spe.number}", (f"{spe.status} at 0x{spe.pc:05x}",)) for spe in state.spes]


def host_parts(state: State) -> List[Part]:
    done, actions = state.host
    return [Part("the host", (f"{done} of {actions} actions done", *state.took))]


def registers(state: State) -> List[Part]:
    return [Part(f"${number} of SPU {spe.number}", (quad(spe.register(number)),)) for spe in state.spes for number in range(REGISTERS)]


def controllers(state: State, sites: Sites) -> List[Part]:
    """The MFCs with their commands, a part for each."""
    return [Part(f"MFC {spe.number}",
                 tuple(said for number, line in state.flows if number == spe.number for said in in_words(line, sites.or_modes, sites.names)))
            for spe in state.spes]


def differing_lines(difference: Difference) -> Difference:
    """A difference without the lines that both orders have; of a line that each has another one of, its beginning and what is another."""
    first, second = ([line.strip() for line in lines if line not in others]
                     for lines, others in ((difference.first, difference.second), (difference.second, difference.first)))
    if first and len(first) == len(second):
        pairs = list(map(differing_words, first, second))
        first, second = [one for one, _ in pairs], [other for _, other in pairs]
    return Difference(difference.name, tuple(first) or ("nothing",), tuple(second) or ("nothing",))


def differing_words(*lines: str) -> Tuple[str, ...]:
    """Two lines without what both have between commas, but for what they begin with."""
    both = [line.split(", ") for line in lines]
    return tuple(", ".join([words[0], *(word for word in words[1:] if word not in others)]) for words, others in (both, both[::-1]))


# ---- the two runs

@dataclasses.dataclass(frozen=True)
class Reader:
    """One of the two steps, which reads or fetches bytes that the other writes."""
    is_first: bool  # of the two, in the record
    way: str
    span: Span

    def places(self, count: int) -> Tuple[int, int]:
        """Behind how many steps it is made, in each order."""
        return (count - 2, count - 1) if self.is_first else (count - 1, count - 2)


class Both:
    """The runs of the two records, each behind its last step."""

    def __init__(self, machine: Path, folder: str, pair: Pair) -> None:
        self.machine, self.count, self.sites = machine, len(pair.first.heads), Sites(machine)
        self.names = self.sites.names
        self.runs = [self.run_of(witness, os.path.join(folder, name)) for name, witness in pair.named]

    def run_of(self, witness: Witness, folder: str) -> Run:
        os.mkdir(folder)
        record = os.path.join(folder, "witness")
        pathlib.Path(record).write_text(witness.text)
        run = Run(self.machine, folder)
        run.follow(record)
        run.place = self.count
        return run

    def steps(self, number: int) -> Sequence[Step]:
        """The two racing steps of a run, as they are made there."""
        return self.runs[number].trace.steps[self.count - 2:]

    def bytes_of(self, span: Span, places: Optional[Tuple[int, int]] = None) -> Tuple[bytes, bytes]:
        """Bytes behind so many steps of each run."""
        first, second = (run.bytes_of(span, place) for run, place in zip(self.runs, places or (self.count, self.count)))
        return first, second

    # ---- the racing bytes

    def racing(self) -> List[Difference]:
        """The bytes that the two steps share, as the one of them that doesn't write finds them; where both write, as they are left."""
        one, two = self.steps(0)
        found = []
        for way, other, span in shared_bytes(one, two):
            if way == other:
                found.append(of_bytes(self.names, span, *self.bytes_of(span), "{}, which both write"))
            elif other == "writes":
                found.append(self.found_by(one, Reader(True, way, span)))
            else:
                found.append(self.found_by(two, Reader(False, other, span)))
        return found

    def found_by(self, step: Step, reader: Reader) -> Difference:
        """What a step finds in each order."""
        name = f"{{}}, as step `{step.line}` {reader.way} them"
        if reader.way != "fetches":
            return of_bytes(self.names, reader.span, *self.bytes_of(reader.span, reader.places(self.count)), name)
        words = self.bytes_of(step.fetched, reader.places(self.count))
        first, second = ((f"{word.hex()}  {Disassembler().text(step.fetched.at, int.from_bytes(word, 'big'))}",) for word in words)
        return Difference(name.format(self.names.range(step.fetched)), first, second)

    # ---- how the machine stands behind the two steps

    def behind(self) -> List[Difference]:
        """What differs behind the two steps. The steps before them are the same, so of bytes only those can that one of the two has written."""
        written = dict.fromkeys(step.writes for number in (0, 1) for step in self.steps(number) if step.writes)
        found = [of_bytes(self.names, span, *self.bytes_of(span)) for span in written]
        first, second = (run.state() for run in self.runs)
        found += compared([*statuses(first), *host_parts(first), *registers(first)], [*statuses(second), *host_parts(second), *registers(second)])
        flows = compared(*(controllers(state, self.sites) for state in (first, second)))
        return [difference for difference in found if difference.is_one] + list(map(differing_lines, flows))

    # ---- how they end

    def shows(self) -> List[str]:
        """The `show` lines of the machine file."""
        lines = (line.partition("#")[0].split() for line in lines_of(self.machine))
        return [" ".join(words) for words in lines if words[:1] == ["show"]]

    def end(self, run: Run, shows: Sequence[str]) -> State:
        """How a run ends where the actors take turns, or stands after the last turn."""
        for turns in TURNS:
            state = run.ask(self.count, range(turns), shows)[1]
            if state.end != OPEN:
                break
        return state

    def ends(self) -> Ends:
        shows = self.shows()
        first, second = (self.end(run, shows) for run in self.runs)
        bytes_shown = [of_bytes(self.names, span_shown(show), *both) for show, both in zip(shows, zip(first.shown, second.shown))]
        found = [difference for difference in bytes_shown if difference.is_one]
        found += compared([*host_parts(first), *statuses(first), *registers(first)], [*host_parts(second), *statuses(second), *registers(second)])
        return Ends((first.end, second.end), found, len(shows))


def span_shown(show: str) -> Span:
    """The range of a `show` line."""
    _, place, *numbers = show.split()
    at, size = (number_of(word) or 0 for word in numbers[-2:])
    return Span(None if place == "mem" else number_of(numbers[0]), at, size)


def outcome_of(machine: Path, folder: str, pair: Pair) -> Outcome:
    """What comes out of two records that `check` takes."""
    both = Both(machine, folder, pair)
    racing, behind = both.racing(), both.behind()
    return Outcome(racing, behind, both.ends() if behind else None)
