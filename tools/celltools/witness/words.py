"""Describes the two orders of a race: the steps, the differences after them, and why a record isn't a run."""
from typing import Iterable, Iterator, List, Sequence, Tuple

from celltools.run.runs import Path
from celltools.telling.not_allowed import reason
from celltools.telling.words import Teller, counted
from celltools.witness.outcomes import OPEN, TURNS, Difference, Ends, Outcome, outcome_of
from celltools.witness.search import FIRST, SECOND, Search, Witness, changes

MOST_TOLD = 6  # differences of one kind that are listed
BENIGN = "after both steps nothing differs, so the race is benign in this run"


def under(lines: Iterable[str]) -> Iterator[str]:
    return (f"    {line}" for line in lines)


# ---- the two records

def told_orders(search: Search, names: Tuple[str, str], teller: Teller) -> Iterator[str]:
    """The two records: how long they are, and their last steps."""
    race, pair = search.race, search.pair
    count, heads = len(pair.first.heads), pair.first.heads
    was, now = (race.second + 1, changes(race.heads)), (count, changes(heads))
    how = f"reduced from {was[0]} to {now[0]} steps and from {was[1]} to {counted(now[1], 'context switch', 'context switches')}" if was != now else f"all {count} steps are needed"
    yield f"race {race.first} {race.second}: {how}" + (f" ({pair.way})" if len(search.pairs) > 1 else "")
    yield f"{names[0]}, the order of the record{'' if pair.first.is_taken else ' (not written)'}:"
    for number, place in enumerate((race.first, race.second), count - 2):
        yield from under(told_step(teller, place, number))
    yield f"{names[1]}, the reverse order: the same steps with these two swapped{'' if pair.second.is_taken else ' (not written)'}"


def told_step(teller: Teller, place: int, number: int) -> Iterator[str]:
    """One of the two steps, by its place in the record that was made."""
    yield f"step {number}, {teller.trace.steps[place].line}: {teller.what(place)}"
    at = teller.program_step(place)
    was = " (overwritten by the run before this step)" if teller.trace.steps[at].kind == "instruction" and teller.is_replaced(at) else ""
    yield f"    {'at' if at == place else 'issued at'} {teller.site(at)}{was}"


# ---- what differs

def told_difference(difference: Difference) -> Iterator[str]:
    """A part, and what it is in each order."""
    if not difference.is_one:
        yield f"{difference.name}: the same in both orders, {'; '.join(difference.first)}"
        return
    yield f"{difference.name}:"
    for order, lines in ((FIRST, difference.first), (SECOND, difference.second)):
        for number, line in enumerate(lines):
            yield f"    {'' if number else order:6}  {line}"


def told_differences(differences: Sequence[Difference]) -> Iterator[str]:
    """The first of some differences, and the names of the others."""
    for difference in differences[:MOST_TOLD]:
        yield from told_difference(difference)
    left = differences[MOST_TOLD:]
    if left:
        yield f"and {len(left)} more: {names_of(left)}"


def names_of(differences: Sequence[Difference]) -> str:
    """The names of the first of some differences."""
    names = [difference.name for difference in differences]
    return ", ".join(names[:MOST_TOLD] + [".."] * (len(names) > MOST_TOLD))


def told_outcome(outcome: Outcome) -> Iterator[str]:
    """The results of the two orders."""
    for difference in outcome.racing:
        yield from told_difference(difference)
    if outcome.ends is None:
        yield BENIGN
        return
    yield "after both steps, these differ:"
    yield from under(told_differences(outcome.behind))
    yield from told_ends(outcome.ends, outcome.behind)


def told_ends(ends: Ends, behind: Sequence[Difference]) -> Iterator[str]:
    """How the two runs end. Differences that were there after the two steps aren't listed again."""
    first, second = ends.words
    how = f"both runs {end_words(first, '')}" if first == second else f"the first {end_words(first, 's')}, the second {end_words(second, 's')}"
    bytes_shown = f"and the bytes of {counted(ends.shown, '`show` line')}" if ends.shown else "(the machine file shows no bytes)"
    compared = f"statuses, registers, values that the host read {bytes_shown}"
    yield f"continued round-robin, {how}; {'these differ:' if ends.differences else f'no difference in {compared}'}"
    told_before = [difference for difference in ends.differences if difference in behind]
    if told_before:
        yield f"    as after the two steps: {names_of(told_before)}"
    yield from under(told_differences([difference for difference in ends.differences if difference not in behind]))


def end_words(end: str, ending: str) -> str:
    """How a run ends, or that it goes on; the verb with its ending."""
    return f"end{ending} {end}" if end != OPEN else f"{'does' if ending else 'do'} not end within {TURNS[-1]} more steps"


# ---- refusals

def told_refusals(machine: Path, folder: str, search: Search) -> Iterator[str]:
    """Which records were refused, and why."""
    for pair in search.pairs:
        for order, witness in pair.named:
            if not witness.is_taken:
                yield f"the {order} order is not a run ({pair.way}): {what_is_wrong(witness)}"
                yield from under(reason(machine, folder, witness.heads, witness.not_allowed) if witness.not_allowed is not None else ())
    if len(search.pairs) > 1 and search.pair.taken == 2:
        yield f"both orders are runs ({search.pair.way})"


def what_is_wrong(witness: Witness) -> str:
    """Why a record isn't taken, in a few words."""
    place = witness.not_allowed
    if place is not None:
        return f"its step {place}, `{witness.heads[place]}` (step {witness.places[place]} of the record), is not possible there"
    return f"it has no race at its last two steps: `check` says `{witness.said}`"


def told(machine: Path, folder: str, search: Search, names: Tuple[str, str], teller: Teller) -> List[str]:
    """All that is told of a race's two orders."""
    lines = [*told_orders(search, names, teller), *told_refusals(machine, folder, search)]
    return [*lines, *told_outcome(outcome_of(machine, folder, search.pair))] if search.pair.taken == 2 else lines
