"""Races besides the one that `check` names: that of two given steps, and, in records that aren't long, one for each two lines of sources, among all pairs of steps
that touch a line of bytes."""
from typing import Dict, Iterator, List, Optional, Set, Tuple, Union

from celltools.order.graph import Order, Past
from celltools.order.reasons import Race
from celltools.run.effects import MEMORY_LINE, Span, Trace, shared_bytes
from celltools.run.runs import Refused
from celltools.telling.words import Teller

MOST_STEPS = 3000  # of a record that is searched
MOST_RACES = 20    # that are told

Line = Tuple[Optional[int], int]  # of a store or of main memory, and its number
Source = Union[int, Line]  # of a step: its instruction's processor and address, or itself


def race_of(teller: Teller, order: Order, first: int, second: int) -> Race:
    """The race of two steps. Refused if they don't race."""
    count = len(teller.trace.lines)
    if not first < second < count:
        raise Refused(f"--race {first} {second}: give two steps in order, from 0 to {count - 1}")
    race = Race(teller, first, second, order.before(second), order)
    if first in race.before:
        raise Refused(f"steps {first} and {second} do not race: step {first} happens before step {second}")
    if not shared_bytes(race.one, race.two):
        raise Refused(f"steps {first} and {second} do not race: neither writes a byte that the other touches")
    return race


def other_races(race: Race) -> Optional[List[Tuple[int, int]]]:
    """The pairs of places that race, each the first of its two lines, without the given one; None if the record is too long to search."""
    trace, teller = race.trace, race.teller
    if len(trace.lines) > MOST_STEPS:
        return None
    found: List[Tuple[int, int]] = []
    seen = {sites_of(teller, race.first, race.second)}
    for second, earlier in meetings(trace):
        past: Optional[Past] = None
        for first in earlier:
            sites = sites_of(teller, first, second)
            if sites in seen or not shared_bytes(trace.steps[first], trace.steps[second]):
                continue
            past = past or race.order.before(second)
            if first not in past:
                seen.add(sites)
                found.append((first, second))
        if len(found) >= MOST_RACES:
            break
    return found


def sites_of(teller: Teller, first: int, second: int) -> Tuple[Source, ...]:
    """Where two steps come from: the instructions of their programs, or themselves."""
    places = (teller.program_step(place) for place in (first, second))
    return tuple((step.spe, step.fetch.at) if step.fetch else place for place, step in ((place, teller.trace.steps[place]) for place in places))


def meetings(trace: Trace) -> Iterator[Tuple[int, List[int]]]:
    """Of each step the earlier ones that touch a line of bytes with it, where one of the two writes it."""
    written = {line for step in trace.steps for line in lines_of(step.writes)}
    touched: Dict[Line, List[int]] = {}
    for place, step in enumerate(trace.steps):
        mine = {line for _, span in step.spans() for line in lines_of(span)} & written
        yield place, sorted({other for line in mine for other in touched.get(line, ())})
        for line in mine:
            touched.setdefault(line, []).append(place)


def lines_of(span: Optional[Span]) -> Set[Line]:
    """The lines of the bytes of a span, each with its place."""
    return {(span.spe, line) for line in range(span.at // MEMORY_LINE, (span.at + span.size - 1) // MEMORY_LINE + 1)} if span else set()
