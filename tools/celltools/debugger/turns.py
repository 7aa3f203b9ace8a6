"""Who makes the steps of a debugger's run if not all actors take turns: those that are named, or those that aren't held."""
import re
from typing import Collection, Iterable, List, Set, Tuple

from celltools.run.machine_state import Actor, State, actor_of
from celltools.run.stepping import Run

LEAST_CHUNK, GREATEST_CHUNK = 16, 10_000  # steps that are made at a time
WAKES_OWN = re.compile(r" \| (?:issue|atomic|ack) ")  # an instruction after which its processor's MFC may have a step
WAKES_HOST = re.compile(r" \| (?:put|take|ended)\b")


def name_of(actor: Actor) -> str:
    kind, number = actor
    return kind if number is None else f"{kind}{number}"


def names_of(actors: Iterable[Actor]) -> str:
    return ", ".join(map(name_of, actors))


def may_step(state: State, actors: Collection[Actor]) -> List[Actor]:
    """Those of some actors that have a step now, in the order of turns."""
    ready = {actor_of(step) for step in state.may}
    return [actor for actor in state.actors() if actor in actors and actor in ready]


def wakes(line: str, idle: Set[Actor]) -> bool:
    """Whether one of some actors that had no step may have one after a step."""
    head = line.partition(" | ")[0]
    kind, number = actor_of(head)
    if kind == "x":
        return ("m", number) in idle and bool(WAKES_OWN.search(line)) or ("h", None) in idle and bool(WAKES_HOST.search(line))
    return bool(idle)


def made_by(run: Run, actors: Collection[Actor], size: int) -> Tuple[int, bool]:
    """Makes up to so many steps of some actors, which take turns: how many were made, and whether they were as many. Fewer were made if none of them has
    a step, or if one may have a step that had none, so that it takes part from there on."""
    state = run.state()
    ready, numbers = may_step(state, actors), state.actors()
    if not ready:
        return 0, False
    idle = set(actors) - set(ready)
    chosen = [numbers.index(ready[turn % len(ready)]) + len(numbers) * turn for turn in range(run.place, run.place + size)]
    lines, after = run.make(chosen)
    count = next((k for k, line in enumerate(lines) if actor_of(line.partition(" | ")[0]) not in actors), len(lines))
    count = next((k + 1 for k, line in enumerate(lines[:count]) if wakes(line, idle)), count)
    run.take(lines[:count], after if count == len(lines) else None)
    return count, count == size
