"""Where a debugger stops a run: at places of programs, at instructions of channels, behind steps that do something to a thing that is watched, and behind an
instruction with all that it calls."""
import dataclasses
import re
from typing import Dict, Iterable, Iterator, List, NamedTuple, Optional, Sequence, Tuple

from celltools.debugger.grammar import Condition
from celltools.debugger.things import Thing, steps_that_do
from celltools.run.stepping import Run
from celltools.source.channels import channel_name, channel_of

EXEC = re.compile(r"x (\d+) \| fetch \d+ (\d+)")
CHANNEL = re.compile(r" \| (?:rdch|rchcnt|wrch) (\d+) ")

Found = Tuple[int, Optional[int]]  # behind how many steps, and which processor


def arrivals(run: Run, start: int, end: int) -> Iterator[Tuple[int, int, int]]:
    """Behind how many steps, of those from `start` and before `end`, which processor comes to which address. It says so at its next instruction, or as it
    stands at the end."""
    last: Dict[int, int] = {}
    for place in range(start, end):
        found = EXEC.match(run.trace.lines[place])
        if found:
            spe, at = int(found[1]), int(found[2])
            if spe in last:
                yield last[spe] + 1, spe, at
            last[spe] = place
    for spe, place in last.items():
        stands = run.state(end).spes[spe]
        if stands.runs:
            yield place + 1, spe, stands.pc


class What:
    """What stops a run: where it is found, if its condition holds there."""
    condition: Optional[Condition] = None
    is_once = False  # whether it is deleted where it stops a run

    def find(self, run: Run, start: int, end: int) -> Iterable[Found]:
        raise NotImplementedError

    def holds(self, run: Run, behind: int, spe: int) -> bool:
        return self.condition is None or self.condition.holds(run, behind, spe)

    @property
    def suffix(self) -> str:
        return f" if {self.condition.text}" if self.condition else ""

    @property
    def name(self) -> str:
        return "tbreak" if self.is_once else "break"


@dataclasses.dataclass(eq=False)
class Break(What):
    """A place of programs: an address for each processor that has it."""
    text: str
    places: Dict[int, int]
    condition: Optional[Condition] = None
    is_once: bool = False

    def __str__(self) -> str:
        at = ", ".join(f"x{spe} 0x{address:05x}" for spe, address in self.places.items())
        return f"{self.name} {self.text}: {at}{self.suffix}"

    def find(self, run: Run, start: int, end: int) -> Iterable[Found]:
        return ((behind, spe) for behind, spe, at in arrivals(run, start, end) if self.places.get(spe) == at)


@dataclasses.dataclass(eq=False)
class ChannelBreak(What):
    """A channel: a run stops where one of these processors comes to an instruction that reads, counts or writes it."""
    text: str
    channel: int
    spes: Sequence[int]
    condition: Optional[Condition] = None
    is_once: bool = False

    def __str__(self) -> str:
        return f"{self.name} {self.text}: {channel_name(self.channel)}, by {', '.join(f'x{spe}' for spe in self.spes)}{self.suffix}"

    def find(self, run: Run, start: int, end: int) -> Iterable[Found]:
        return ((behind, spe) for behind, spe, channel in self.arrivals(run, start, end) if channel == self.channel and spe in self.spes)

    def arrivals(self, run: Run, start: int, end: int) -> Iterator[Tuple[int, int, Optional[int]]]:
        """Behind how many of these steps which processor comes to an instruction, and to which channel: as it did it then, or as it stands at the end."""
        last: Dict[int, int] = {}
        for place in range(start, end):
            line = run.trace.lines[place]
            if line.startswith("x "):
                spe, channel = int(line.split(" ", 2)[1]), CHANNEL.search(line)
                if channel and spe in last:
                    yield last[spe] + 1, spe, int(channel[1])
                last[spe] = place
        for spe, place in last.items():
            stands = run.state(end).spes[spe]
            if stands.runs and stands.word is not None:
                yield place + 1, spe, channel_of(stands.word)


@dataclasses.dataclass(eq=False)
class Watch(What):
    """A thing: a run stops behind a step that does something to it."""
    thing: Thing
    condition: Optional[Condition] = None

    def __str__(self) -> str:
        return f"watch {self.thing}{self.suffix}"

    def find(self, run: Run, start: int, end: int) -> Iterable[Found]:
        return ((place + 1, run.trace.steps[place].spe) for place in steps_that_do(self.thing, start, end))


@dataclasses.dataclass(eq=False)
class Behind(What):
    """What stands behind an instruction: of a branch that sets a link, where the processor is back from it."""
    spe: int
    at: int
    is_call: bool
    open: int = 1  # how many calls from here haven't come back

    def find(self, run: Run, start: int, end: int) -> Iterable[Found]:
        """Where the processor is behind it, or has ended."""
        own = [place for place in range(start, end) if run.trace.lines[place].startswith(f"x {self.spe} ")]
        if not self.is_call:
            return [(own[0] + 1, self.spe)] if own else []
        ended = [(place + 1, self.spe) for place in own[-1:] if " | ended" in run.trace.lines[place]]
        return self.find_back(run, start, end) or ended

    def find_back(self, run: Run, start: int, end: int) -> List[Found]:
        """Where the processor is back: a routine may call itself from the same place."""
        for behind, spe, at in arrivals(run, start, end):
            if spe == self.spe:
                self.open += (at == self.at) - (at == self.at + 4)
                if not self.open:
                    return [(behind, spe)]
        return []


class Stop(NamedTuple):
    """Where a run stops: behind how many steps, at what, and which processor came there or made the step, None where it was the host."""
    behind: int
    what: What
    spe: Optional[int]


def found_stops(whats: Iterable[What], run: Run, start: int, end: int) -> List[Stop]:
    """Where these steps may be stopped, the first ones first, whatever the conditions say."""
    found = [(behind, number, Stop(behind, what, spe)) for number, what in enumerate(whats) for behind, spe in what.find(run, start, end)]
    return [stop for _, _, stop in sorted(found, key=lambda it: it[:2])]


def stop_among(stops: Iterable[Stop], run: Run, looked_at: int) -> Optional[Stop]:
    """The first of these whose condition holds; it is asked of the processor that is looked at where the host made the step."""
    return next((stop for stop in stops if stop.what.holds(run, stop.behind, looked_at if stop.spe is None else stop.spe)), None)
