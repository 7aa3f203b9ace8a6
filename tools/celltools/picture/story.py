"""What a picture says of a race next to its steps: why the two aren't ordered."""
from typing import Iterable, List, Optional, Tuple

from celltools.order.graph import Link, Past
from celltools.order.others import other_races
from celltools.order.reasons import BEFORE, REASONS, SHARED, Race, fix_title
from celltools.picture.run import Run
from celltools.run.effects import shared_bytes

BEHIND = "`check` reports the first race of the record. Later ones may follow from it: fix this one, run the program again, and check the new record."


def race_words(run: Run, race: Race) -> List[Tuple[str, List[str]]]:
    """The paragraphs of a race, each a title and its lines, as tools/race tells it."""
    teller = run.teller
    shared = [f"{span.size} bytes, {teller.names.range(span)}: the first {way}, the second {other}" for way, other, span in shared_bytes(race.one, race.two)]
    return [
        (f"first, step {race.first}", [teller.what(race.first), *teller.origin(race.first)]),
        (f"second, step {race.second}", [teller.what(race.second), *teller.origin(race.second)]),
        (SHARED, shared),
        (BEFORE, race.how_far()),
        (REASONS, race.reasons()),
        (fix_title(race.remedies()), race.remedies()),
    ]


def race_pairs(race: Race) -> List[Link]:
    """The pairs of rules that show how far the order comes: those of the path from the last step of the first's side, and the issues of both."""
    order = race.order
    past = race.before if isinstance(race.before, Past) else order.before(race.second)
    pairs = past.path(race.last) if race.last >= 0 else []
    for place in (race.first, race.second):
        pairs += [(node, place, rule) for node, rule in order.edges.get(place, ()) if rule in ("Issued", "AtomicIssued")]
    return list(dict.fromkeys(pairs))


def other_words(run: Run, race: Race) -> Optional[List[Tuple[int, int, str]]]:
    """The other races, each as its two steps and what draws it; None where the record is too long to look for them."""
    found = [] if run.whole else other_races(race)  # a short record is made for one race
    return None if found is None else [(first, second, f"{run.teller.what(first)}; {run.teller.what(second)}") for first, second in found]


def race_steps(race: Race, pairs: Iterable[Link]) -> List[int]:
    """The steps that are shown where a race is shown alone."""
    steps = {race.first, race.second, *(place for pair in pairs for place in pair[:2])}
    return sorted(place for place in steps if 0 <= place < race.order.count)
