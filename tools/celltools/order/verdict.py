"""What tools/race prints of a record: its race in words, or that there is none, the other races, and how the run ended."""
from typing import Dict, FrozenSet, Iterable, List, NamedTuple, Optional, Sequence

from celltools.order.graph import Order
from celltools.order.others import other_races, race_of
from celltools.order.reasons import BEFORE, REASONS, SHARED, Race, fix_title
from celltools.run.effects import Trace, shared_bytes
from celltools.run.runs import Path, ask_tracer, places_before, verdict
from celltools.run.snapshots import record_lines
from celltools.source.sites import Sites
from celltools.telling.ended import Ended, ended_of
from celltools.telling.waiting import waiting_of
from celltools.telling.words import Teller

END_WORDS = {
    "Stuck": "deadlock (Stuck): no further step is possible",
    "Budget": "the run spent its budget, so later steps are not checked: raise `budget` in the machine file, or look for an endless loop",
    "Open": "the record ends before the run does (Open), so later steps are not checked",
}
NONE_RUNS = "no SPU is running, but a DMA command is not complete: `queue` in tools/debug prints it"  # of a deadlock
LEFT = {"Stuck": "waiting SPUs", "Budget": "running SPUs"}  # by the end words of runs that leave some


class RunEnd(NamedTuple):
    """How a run ended: its end word, the SPUs that still run, a line each, and how those ended that failed or whose stop is reported."""
    word: str
    left: List[str]
    ended: List[Ended]

    @property
    def is_bad(self) -> bool:
        return self.word in LEFT or any(ended.has_failed for ended in self.ended)

    def lines(self) -> List[str]:
        """How the run ended, unless all SPUs stopped as their programs have it."""
        paragraphs = {
            LEFT.get(self.word, ""): self.left,
            "faults and halts": [ended.line for ended in self.ended if ended.has_failed],
            "stops": [ended.line for ended in self.ended if not ended.has_failed],
        }
        said = [END_WORDS[self.word]] if self.word in END_WORDS else []
        if self.word == "Stuck" and not self.left:
            said.append(NONE_RUNS)
        return [*said, *(line for title, lines in paragraphs.items() if lines for line in paragraph(title, lines))]


class Told(NamedTuple):
    """The lines on a race, or that there is none, and on the end of the run; whether there is a race; and how the run ended."""
    lines: List[str]
    has_race: bool
    end: RunEnd


def paragraph(title: str, lines: Iterable[str]) -> List[str]:
    return [f"{title}:", *(f"    {line}" for line in lines)]


def other_lines(race: Race) -> List[str]:
    """The races of a run that have other source lines, of each two lines the first; none if the run is too long to search."""
    pairs = [(race.first, race.second), *(other_races(race) or [])]
    found: Dict[FrozenSet[str], str] = {}
    for first, second in pairs:
        sites = [race.teller.site(race.teller.program_step(place)) for place in (first, second)]
        found.setdefault(frozenset(sites), f"steps {first} and {second}: {' and '.join(sites)}")
    lines = list(found.values())[1:]
    return paragraph("other data races of this run, which may follow from this one (--race I J explains one)", lines) if lines else []


def told_race(race: Race) -> List[str]:
    """The lines on a race, and on the other ones of its run."""
    first, second, teller = race.first, race.second, race.teller
    shared = [f"{teller.names.range(span)}: the first {way}, the second {other}" for way, other, span in shared_bytes(race.one, race.two)]
    return [
        f"race {first} {second}",
        *paragraph(f"first, step {first}", [teller.what(first), *teller.origin(first)]),
        *paragraph(f"second, step {second}", [teller.what(second), *teller.origin(second)]),
        *paragraph(SHARED, shared),
        *paragraph(BEFORE, race.how_far()),
        *paragraph(REASONS, race.reasons()),
        *paragraph(fix_title(race.remedies()), race.remedies()),
        *other_lines(race),
    ]


def end_of(lines: Sequence[str]) -> Optional[str]:
    """The end word of a record's run, from the lines of the record and its states."""
    return next((line.split()[1] for line in lines if line.startswith("end ")), None)


def run_end(machine: Path, record: Path) -> RunEnd:
    states = ask_tracer("states", machine, record)
    word = end_of([*record_lines(record), *states]) or ""
    return RunEnd(word, waiting_of(machine, record) if word in LEFT else [], ended_of(machine, record, states))


def race_in(machine: Path, record: Path, said: str, asked: Optional[Sequence[int]]) -> Optional[Race]:
    """The race that is asked for, or the first one, which `check` said; None if there is none. Refused if the two steps that are asked for don't race."""
    word, *places = said.split()
    if not asked and word != "race":
        return None
    trace = Trace(ask_tracer("effects", machine, record))
    teller = Teller(trace, Sites(machine, str(machine)))
    if asked:
        return race_of(teller, Order(trace), asked[0], asked[1])
    return Race(teller, int(places[0]), int(places[1]), places_before(machine, record, int(places[1])))


def told(machine: Path, record: Path, asked: Optional[Sequence[int]] = None) -> Told:
    """What there is to print on the race of the two steps that are asked for, or else on the first race of a record if it has one, and on the end of the run."""
    said = verdict(machine, record)[0]
    race = race_in(machine, record, said, asked)
    run_ended = run_end(machine, record)
    return Told([*(told_race(race) if race else [f"no race: {said}"]), *run_ended.lines()], race is not None, run_ended)
