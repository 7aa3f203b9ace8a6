"""A run as a debugger has it: the steps made so far, those that lie ahead, and how the machine stands behind them.

The list of the steps is all that is kept. The machine is made anew from it at each question, by run_trace.
"""
import pathlib
import re
from typing import Dict, List, Optional, Sequence, Tuple

from celltools.run.effects import MEMORY_LINE, Span, Trace
from celltools.run.machine_state import State
from celltools.run.records import plain_record, record_text
from celltools.run.runs import Path, Refused, ask_tracer, asked, next_step, said_of

SHOW_LINE = re.compile(rb"^[ \t]*show[ \t].*$", re.M)
SIZE_LINE = re.compile(rb"^[ \t]*lines[ \t]+(\w+)", re.M)
MOST_SHOWN = 4096  # bytes of a `show` line
KEPT_STATES = 8
EMPTY_RECORD = "cell: record file, line 1"  # what `cell` says of an empty record, behind a machine file that is right


def refuse_machine(machine: Path) -> None:
    """Refused where `cell` refuses the machine file: it is asked about an empty record."""
    said = said_of(asked("cell_cli", "check", machine, "/dev/null"))
    if said != EMPTY_RECORD:
        raise Refused(said + next_step(said, machine, ""))


def size_in(text: bytes) -> int:
    """How many lines main memory has, by a machine file that `cell` takes."""
    found = SIZE_LINE.search(text)
    return int(found[1], 0) if found else 0


class Way:
    """A way of going on that was left for another: its steps from `base` on, up to which it is one with the run, and `place`, where it was left."""

    def __init__(self, place: int, lines: List[str]) -> None:
        self.place = self.base = place
        self.lines = lines

    @property
    def ahead(self) -> int:
        """How many of its steps lie behind the place where it was left."""
        return self.base + len(self.lines) - self.place

    @property
    def next_head(self) -> str:
        """The first step that lay ahead where it was left."""
        return self.lines[self.place - self.base].partition(" | ")[0]


class Run:
    """The steps of a run, up to `place` made and from there on ahead."""

    def __init__(self, machine: Path, folder: Path) -> None:
        self.origin: Optional[Path] = None  # the record that it is from
        refuse_machine(machine)
        self.machine, self.folder = machine, pathlib.Path(folder)
        self.text = SHOW_LINE.sub(b"", pathlib.Path(machine).read_bytes())
        self.memory = MEMORY_LINE * size_in(self.text)
        self.trace, self.place = Trace([]), 0
        self.heads: List[str] = []
        self.left: List[Way] = []  # the ways that were left, the latest last
        self.kept: Dict[str, List[str]] = {"": []}  # the steps that files have, by the names of these
        self.states: Dict[int, State] = {}
        self.is_written = False
        self.spes = len(self.state().spes)

    def follow(self, record: Path) -> None:
        """Takes all steps of a record as those ahead."""
        self.extend(ask_tracer("effects", self.machine, record))
        self.origin = record
        self.kept[str(record)] = [*self.heads]

    # ---- the steps

    def extend(self, lines: Sequence[str]) -> None:
        self.trace.extend(lines)
        self.heads += [line.partition(" | ")[0] for line in lines]
        self.is_written = False

    def cut(self) -> None:
        """Leaves the steps that lie ahead, and keeps them in mind."""
        for way in self.left:
            if way.base > self.place:
                way.lines = self.trace.lines[self.place:way.base] + way.lines
                way.base = self.place
        self.left.append(Way(self.place, self.lines()))
        self.drop(self.place)

    def drop(self, place: int) -> None:
        """Forgets the steps from a place on, which were just made, and goes there."""
        self.place = place
        self.trace.cut(place)
        del self.heads[place:]
        self.states = {known: state for known, state in self.states.items() if known <= place}
        self.is_written = False

    def take_way(self, number: int) -> None:
        """Goes back to where a way was left, the first of which has the number 0, and lays its steps ahead again."""
        way = self.left.pop(number)
        self.place = way.base
        if self.ahead:
            self.cut()
        self.extend(way.lines)
        self.place = way.place

    @property
    def ahead(self) -> int:
        """How many steps lie ahead."""
        return len(self.heads) - self.place

    @property
    def next_head(self) -> Optional[str]:
        """The next step that lies ahead; None where none does."""
        return self.heads[self.place] if self.ahead else None

    def lines(self, most: Optional[int] = None) -> List[str]:
        """The steps that lie ahead, with their effects."""
        end = None if most is None else self.place + most
        return self.trace.lines[self.place:end]

    def take(self, lines: Sequence[str], state: Optional[State] = None) -> None:
        """Makes these steps, behind which the machine stands so. What lies ahead is left where it isn't as they are."""
        end = self.place + len(lines)
        known = self.trace.lines[self.place:end]
        same = next((k for k, line in enumerate(known) if line != lines[k]), len(known))
        if same < len(known):
            self.place += same
            self.cut()
        if same < len(lines):
            self.extend(lines[same:])
        self.place = end
        if state:
            self.keep(end, state)

    def record(self) -> str:
        """The record of the steps made so far."""
        return record_text(self.heads[:self.place])

    def keep_steps(self, name: str) -> None:
        """Notes that a file has the steps made so far."""
        self.kept[name] = self.heads[:self.place]

    @property
    def is_unkept(self) -> bool:
        """Whether there are steps that no file has: made, ahead or left for others."""
        ways = [self.heads, *(self.heads[:way.base] + [line.partition(" | ")[0] for line in way.lines] for way in self.left)]
        return not all(any(way == kept[:len(way)] for kept in self.kept.values()) for way in ways)

    # ---- the machine

    def keep(self, place: int, state: State) -> None:
        self.states[place] = state
        while len(self.states) > KEPT_STATES:
            del self.states[next(iter(self.states))]

    def state(self, place: Optional[int] = None) -> State:
        """How the machine stands behind so many steps, now where no number is given."""
        place = self.place if place is None else place
        if place not in self.states:
            self.keep(place, self.ask(place)[1])
        return self.states[place]

    def bytes_of(self, span: Span, place: Optional[int] = None) -> bytes:
        """Bytes as they stand behind so many steps."""
        where = "mem" if span.spe is None else f"ls {span.spe}"
        parts = [(span.at + k, min(MOST_SHOWN, span.size - k)) for k in range(0, span.size, MOST_SHOWN)]
        place = self.place if place is None else place
        state = self.ask(place, shows=[f"show {where} 0x{at:x} {size}" for at, size in parts])[1]
        self.keep(place, state)
        return b"".join(state.shown)

    def make(self, numbers: Sequence[int]) -> Tuple[List[str], State]:
        """The steps that numbers choose from here, with their effects, and how the machine stands behind them. They aren't taken yet."""
        return self.ask(self.place, numbers)

    def ask(self, place: int, numbers: Sequence[int] = (), shows: Sequence[str] = ()) -> Tuple[List[str], State]:
        """What run_trace tells behind so many steps, if then the steps are made that numbers choose: their effects, and the state."""
        machine, record, choices = (self.folder / name for name in ("machine", "record", "choices"))
        machine.write_bytes(self.text + "\n".join(["", *shows, ""]).encode())
        choices.write_text("\n".join(map(str, numbers)))
        if not self.is_written:
            record.write_text(plain_record(self.heads))
            self.is_written = True
        done = asked("run_trace", "go", str(machine), str(record), str(place), str(choices))
        effects, mark, state = ("\n" + done.stdout).partition("\nend ")
        if done.returncode or not mark:
            raise Refused(said_of(done))
        return effects.splitlines()[1:], State(("end " + state).splitlines())
