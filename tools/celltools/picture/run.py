"""A run to be drawn: its machine file and record, what `check` says, its steps, their order, and how it ended."""
import dataclasses
import functools
import re
from typing import TYPE_CHECKING, Iterable, List, Optional, Set, Tuple

from celltools.order.graph import Order
from celltools.order.others import race_of
from celltools.order.reasons import Race
from celltools.picture.ending import Ending, ending_of
from celltools.picture.rows import own_rows
from celltools.run.effects import Key, Trace
from celltools.run.runs import Path, ask_tracer, verdict
from celltools.source.sites import Sites
from celltools.telling.words import Teller

if TYPE_CHECKING:
    from celltools.picture.short import Whole

RACE = re.compile(r"race (\d+) (\d+)$")
FAULTS = ("dmafault", "badword", "badchannel")  # how the statuses of faults begin


class Status:
    """How a processor stood at the end."""

    def __init__(self, words: List[str]) -> None:
        at = words.index("pc")
        self.text, self.pc = " ".join(words[2:at]), int(words[at + 1], 16)
        self.is_running = self.text == "running"
        self.is_halted = self.text == "halted"
        self.is_fault = self.text.startswith(FAULTS)
        self.has_failed = self.is_fault or self.is_halted


class End:
    """How a run stood at its end: its end word, the processors, how far the host came, and the commands that aren't done with what is told of them."""

    def __init__(self, lines: Iterable[str]) -> None:
        self.word, self.host = "", (0, 0)
        self.spes: List[Status] = []
        self.outstanding: Set[Key] = set()
        self.stalled: Set[Key] = set()
        for line in lines:
            words = line.split()
            if words[0] == "end":
                self.word = words[1]
            elif words[0] == "spe":
                self.spes.append(Status(words))
            elif words[0] == "host":
                self.host = int(words[1]), int(words[3])
            elif words[0] == "command":
                self.add((int(words[1]), int(words[2])), line)

    def add(self, key: Key, line: str) -> None:
        self.outstanding.add(key)
        if " | stalled" in line:
            self.stalled.add(key)


class Run:
    """A run, and what is asked of it more than once; of a short record also the whole one that it is made of."""

    def __init__(self, machine: Path, record: Path, pair: Optional[Tuple[int, int]] = None, whole: Optional["Whole"] = None) -> None:
        self.machine, self.record, self.whole = machine, record, whole
        self.verdict = verdict(machine, record)[0]
        found = RACE.match(self.verdict)
        self.pair = pair or ((int(found[1]), int(found[2])) if found else None)
        self.trace = Trace(ask_tracer("effects", machine, record))
        self.count = len(self.trace.lines)
        self.end = End(ask_tracer("states", machine, record, str(self.count)))
        self.sites = Sites(machine, str(machine))
        self.order = Order(self.trace)
        self.spes = len(self.sites.of_processor)

    @functools.cached_property
    def text(self) -> str:
        """The lines of all steps."""
        return "\n".join(self.trace.lines)

    @functools.cached_property
    def teller(self) -> Teller:
        return Teller(self.trace, self.sites)

    @functools.cached_property
    def race(self) -> Optional[Race]:
        """The race that is drawn; None where there is none. Refused where the two steps that were asked for are none."""
        return None if self.pair is None else race_of(self.teller, self.order, *self.pair)

    @functools.cached_property
    def ending(self) -> Ending:
        """How the run ended; of a short record, how the whole run did."""
        return dataclasses.replace(self.whole.run.ending, said=[]) if self.whole else ending_of(self)

    @functools.cached_property
    def rows(self) -> List[int]:
        """The places of the steps that have a row."""
        return own_rows(self)

    def steps_of(self, key: Key) -> List[int]:
        """The places of the steps of a command."""
        return self.order.sets[-self.order.commands[key].steps - 1]
