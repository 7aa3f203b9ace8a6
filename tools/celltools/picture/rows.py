"""Which steps have a row of their own in a picture: what isn't a plain instruction, the ends of each command, what touches the bytes of a race,
and the last steps of what waits or has a fault at the end."""
import bisect
import re
from typing import TYPE_CHECKING, Dict, Iterable, List, Optional, Sequence, Set, Tuple

from celltools.order.reasons import Race
from celltools.run.effects import MEMORY_LINE, Span, shared_bytes

if TYPE_CHECKING:
    from celltools.picture.run import Run

# The fields of an instruction that make it a row; the channels whose count is one.
TOLD = re.compile(r" \| (?:issue|tags|stalls|ack|atomic|atomicread|put|take|signal|ended|request|rdch 0|wrch [12]|rchcnt (?:0|3|4|24|25|27|29))(?: |$)", re.M)
COUNTED = re.compile(r"x (\d+) \| fetch \d+ (\d+) .* \| rchcnt ")
ATOMIC = re.compile(r"a (\d+) .*\| atomic (\w+) \d+ (\d+)")
STORED = re.compile(r" \| write mem (\d+) (\d+)")
NEAR = 2  # of each instruction that touches the bytes of a race, the steps on each side of the two


def own_rows(run: "Run") -> List[int]:
    """The places of the steps that have a row, in their order."""
    keys = {place for place, line in enumerate(run.trace.lines) if line[0] != "p" and (line[0] != "x" or TOLD.search(line))}
    keys -= polls(run) | counts(run.trace.lines)
    for key in run.order.commands:
        steps = run.steps_of(key)
        keys.update(steps[:1] + steps[-1:])
    keys.update(place for member in run.order.commands.values() for place in member.stalls)
    keys.update(place for _, place in run.ending.said if place is not None)
    if run.race:
        keys.update((run.race.first, run.race.second))
        keys.update(touching(run, run.race))
    return sorted(keys)


def polls(run: "Run") -> Set[int]:
    """The steps of each GETLLAR that finds its line as the processor had it: its issue, itself, and the reading of its status."""
    seen = Polls()
    for place, line in enumerate(run.trace.lines):
        written = STORED.search(line)
        if written:
            first, size = map(int, written.groups())
            seen.stored.update(dict.fromkeys(range(first // MEMORY_LINE, (first + size - 1) // MEMORY_LINE + 1), place))
        atomic = ATOMIC.match(line)
        if atomic:
            seen.note_atomic(atomic[1], atomic[2], atomic[3], place)
        elif line[0] == "x" and " | atomic" in line:
            spe = line.split(" ", 2)[1]
            if " | atomic " in line:
                seen.issued[spe] = place
            elif spe in seen.quiet:
                seen.found.add(place)
    return seen.found


class Polls:
    """What a search for polls has seen so far; processors and lines are named as the steps name them."""

    def __init__(self) -> None:
        self.stored: Dict[int, int] = {}  # of each line of main memory the last step that stored there
        self.had: Dict[str, Tuple[str, int]] = {}  # of each processor the line of its last GETLLAR, and that step
        self.issued: Dict[str, int] = {}  # and the issue of its last atomic command
        self.quiet: Set[str] = set()  # the processors whose last atomic command is a poll
        self.found: Set[int] = set()

    def note_atomic(self, spe: str, kind: str, number: str, place: int) -> None:
        """Keeps what an atomic command on a line does."""
        self.quiet.discard(spe)
        if kind != "getllar":
            self.had.pop(spe, None)
            return
        before = self.had.get(spe)
        if before and before[0] == number and self.stored.get(int(number), -1) < before[1]:
            self.found.update((place, self.issued[spe]))
            self.quiet.add(spe)
        self.had[spe] = number, place


def counts(lines: Iterable[str]) -> Set[int]:
    """The counts of a channel that are read again by the same instruction, with nothing told in between."""
    found: Set[int] = set()
    last: Dict[str, Optional[str]] = {}
    for place, line in enumerate(lines):
        if line[0] != "x" or not TOLD.search(line):
            continue
        counted = COUNTED.match(line)
        spe = line.split(" ", 2)[1]
        if counted and last.get(spe) == counted[2]:
            found.add(place)
        last[spe] = counted[2] if counted else None
    return found


def touching(run: "Run", race: Race) -> Set[int]:
    """Of each instruction that touches the bytes of the race, the steps next to the two, the first and the last."""
    shared = [span for _, _, span in shared_bytes(race.one, race.two)]
    name = "mem" if shared[0].spe is None else str(shared[0].spe)
    wanted = re.compile(rf" \| (?:read|write) {name} ")
    by_place: Dict[str, List[int]] = {}
    for place, line in enumerate(run.trace.lines):
        if line[0] == "x" and wanted.search(line) and any(meets(span, other) for _, span in run.trace.steps[place].spans()[1:] for other in shared):
            by_place.setdefault(line.split(" ", 6)[5], []).append(place)
    return {place for found in by_place.values() for place in next_to(found, (race.first, race.second))}


def meets(one: Span, other: Span) -> bool:
    return one.spe == other.spe and one.at < other.at + other.size and other.at < one.at + one.size


def next_to(places: Sequence[int], pair: Tuple[int, int]) -> Set[int]:
    """Of places, the first, the last, and those next to two steps."""
    kept = {places[0], places[-1]}
    for at in pair:
        n = bisect.bisect_left(places, at)
        kept.update(places[max(0, n - NEAR):n + NEAR])
    return kept
