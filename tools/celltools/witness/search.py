"""Looks for the two shortest records of a race: the steps that one of its two steps waits for, and behind them the two, in either order.

Nothing is believed of what is found: `cell check` takes each record, and has to find the race at its last two steps, or it refuses it.
"""
import dataclasses
import functools
import heapq
import os
import re
from typing import Callable, Dict, Iterator, List, Optional, Sequence, Tuple

from celltools.order.graph import NO_CHAIN, Order
from celltools.run.effects import Trace
from celltools.run.machine_state import Actor, actor_of
from celltools.run.records import record_text
from celltools.run.runs import Path, Refused, ask_tracer, asked, said_of, verdict

FIRST, SECOND = "first", "second"  # the order of the record, and the other one
NOT_ALLOWED = re.compile(r"step (\d+) is not allowed")
Node = int  # of an Order: a step, or a set of nodes


@dataclasses.dataclass(frozen=True)
class Witness:
    """A record whose last two steps are those of a race, and what `check` says of it."""
    places: Sequence[int]  # of each of its steps the place in the record that it is made of
    heads: Sequence[str]   # its steps as lines of a record
    said: str

    @property
    def is_taken(self) -> bool:
        """Whether it is a run that has the race at its last two steps."""
        count = len(self.heads)
        return self.said == f"race {count - 2} {count - 1}"

    @property
    def not_allowed(self) -> Optional[int]:
        """The first of its steps that isn't allowed, if that is why it is refused."""
        found = NOT_ALLOWED.search(self.said)
        return int(found[1]) if found else None

    @property
    def text(self) -> str:
        return record_text(self.heads)


@dataclasses.dataclass(frozen=True)
class Pair:
    """The two records of a race, and how their steps are put."""
    way: str
    first: Witness
    second: Witness

    @property
    def named(self) -> Tuple[Tuple[str, Witness], ...]:
        return (FIRST, self.first), (SECOND, self.second)

    @property
    def before(self) -> Sequence[int]:
        """The places of the steps before the race."""
        return self.first.places[:-2]

    @property
    def taken(self) -> int:
        """How many of the two are taken."""
        return self.first.is_taken + self.second.is_taken


class Race:
    """A race of a run, and the steps that come before one of its two steps."""

    def __init__(self, order: Order, first: int, second: int) -> None:
        self.order, self.first, self.second = order, first, second
        pasts = order.before(first), order.before(second)
        self.needed = [place for place in range(second) if any(place in past for past in pasts)]

    @functools.cached_property
    def heads(self) -> List[str]:
        """The steps of the run up to the race, as lines of a record."""
        return [line.partition(" | ")[0] for line in self.order.trace.lines[:self.second + 1]]


def race_of(machine: Path, record: Path) -> Race:
    """The race that `check` finds. Refused where it finds none."""
    said = verdict(machine, record)[0]
    if not said.startswith("race "):
        raise Refused(f"no race: `check` says {said}, so there is nothing to show")
    first, second = map(int, said.split()[1:3])
    return Race(Order(Trace(ask_tracer("effects", machine, record)[:second + 1])), first, second)


def changes(heads: Sequence[str]) -> int:
    """How often a step has another actor than the one before it: the context switches."""
    actors = list(map(actor_of, heads))
    return sum(one != other for one, other in zip(actors, actors[1:]))


# ---- the order of the steps before the two

def waiting(race: Race) -> Tuple[Dict[Node, List[Node]], Dict[Node, int]]:
    """Of each node those that wait for it directly, and for how many each waits, among the steps before the race and the sets that lead to them."""
    behind: Dict[Node, List[Node]] = {}
    counts: Dict[Node, int] = {}
    directly, left = before_in_chains(race), list(race.needed)
    while left:
        node = left.pop()
        if node not in counts:
            direct = [other for other, _ in race.order.edges.get(node, ())] + directly.get(node, []) if node >= 0 else race.order.sets[-node - 1]
            counts[node] = len(direct)
            for other in direct:
                behind.setdefault(other, []).append(node)
            left += [other for other in direct if other < 0]
    return behind, counts


def before_in_chains(race: Race) -> Dict[int, List[int]]:
    """Of each step of a program the one before it."""
    last: Dict[int, int] = {}
    found: Dict[int, List[int]] = {}
    for place in race.needed:
        chain = race.order.chains[place]
        if chain != NO_CHAIN:
            found[place] = [last[chain]] if chain in last else []
            last[chain] = place
    return found


class Free:
    """The steps that wait for no other any more, by their actors."""

    def __init__(self, heads: Sequence[str], behind: Dict[Node, List[Node]], counts: Dict[Node, int]) -> None:
        self.actors, self.behind, self.counts = list(map(actor_of, heads)), behind, counts
        self.places: Dict[Actor, List[int]] = {}
        for node in [node for node, count in counts.items() if not count]:
            self.let(node)

    def let(self, node: Node) -> None:
        """Takes in a step that is free; of a set that is, what waited for it."""
        left = [node]
        while left:
            node = left.pop()
            if node >= 0:
                heapq.heappush(self.places.setdefault(self.actors[node], []), node)
            else:
                left += self.released(node)

    def released(self, node: Node) -> Iterator[Node]:
        """The nodes that waited for a node last."""
        for other in self.behind.get(node, ()):
            self.counts[other] -= 1
            if not self.counts[other]:
                yield other

    def take(self, actor: Actor) -> int:
        """Takes an actor's first free step."""
        place = heapq.heappop(self.places[actor])
        if not self.places[actor]:
            del self.places[actor]
        for other in list(self.released(place)):
            self.let(other)
        return place


def by_actors(race: Race) -> List[int]:
    """The steps before the race so that an actor goes on as long as it may, and then the one whose step came first in the record."""
    free = Free(race.heads, *waiting(race))
    actor: Optional[Actor] = None
    places: List[int] = []
    while free.places:
        if actor is None or actor not in free.places:
            actor = min(free.places, key=lambda one: free.places[one][0])
        places.append(free.take(actor))
    return places


def as_recorded(race: Race) -> List[int]:
    return race.needed


def with_all(race: Race) -> List[int]:
    """All steps up to the race but those behind its first one, as a step may also wait for what nothing orders before it."""
    order, behind = race.order, {race.first}
    chains = {order.chains[race.first]} - {NO_CHAIN}  # of the programs of which a step is behind it
    for place in range(race.first + 1, race.second):
        if order.chains[place] in chains or any(step in behind for step, _ in order.direct(place)):
            behind.add(place)
            chains |= {order.chains[place]} - {NO_CHAIN}
    return [place for place in range(race.second) if place not in behind]


WAYS: Dict[str, Callable[[Race], List[int]]] = {
    "reordered for few context switches": by_actors,
    "in the order of the record": as_recorded,
    "in the order of the record, with all steps that need not follow the first of the two": with_all,
}


def puts(race: Race) -> Iterator[List[int]]:
    """The steps before the race, put in one way after the other."""
    return (put(race) for put in WAYS.values())


# ---- what `check` says

def judged(machine: Path, folder: str, race: Race, places: Sequence[int]) -> Witness:
    """A record of these places of the run, as `check` has it."""
    heads = race.heads
    witness = Witness(places, [heads[place] for place in places], "")
    record = os.path.join(folder, "witness")
    with open(record, "w") as file:
        file.write(witness.text)
    done = asked("cell_cli", "check", machine, record)
    said = done.stdout.partition("\n")[0] if done.returncode in (0, 1) and done.stdout else said_of(done)
    return dataclasses.replace(witness, said=said)


def pair_of(machine: Path, folder: str, race: Race, way: str, before: Sequence[int]) -> Pair:
    """The two records whose steps before the race are put in one way."""
    both = [judged(machine, folder, race, [*before, *last]) for last in ((race.first, race.second), (race.second, race.first))]
    return Pair(way, *both)


@dataclasses.dataclass(frozen=True)
class Search:
    """A race, and the pairs of records that were tried, the last of which is taken, if one is."""
    race: Race
    pairs: Sequence[Pair]

    @property
    def pair(self) -> Pair:
        """The pair of which most is taken."""
        return max(self.pairs, key=lambda pair: pair.taken)


def searched(machine: Path, folder: str, race: Race) -> Search:
    """The two records of a race, put in one way after the other up to one in which both are taken."""
    pairs: List[Pair] = []
    for way, put in WAYS.items():
        before = put(race)
        if not any(before == pair.before for pair in pairs):
            pairs.append(pair_of(machine, folder, race, way, before))
        if pairs[-1].taken == 2:
            break
    return Search(race, pairs)
